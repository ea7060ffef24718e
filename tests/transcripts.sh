#!/usr/bin/env bash
# Plays the transcripts tests/transcripts/*.txt, those of README.md and docs/GUIDE.md, and the sessions examples/*.txt with
# the built program, and compares its replies. Each is played by one thread and by four workers, and a few by other numbers of
# workers too: the replies are the same bytes. In one_turn the turns run out, whatever the number of workers.
#
# In a transcript a line that begins with `> ` is typed, and the lines after it are the replies. A line that begins with `#`
# is a comment, but `# status N` says that the program must end with status N, not 0, `# arguments WORD..` gives the program's
# arguments, `# without the last line feed` says that the input ends right after the last line, and with `# bytes by number`
# `<255>` stands for the byte 255 and `<120 times 65536>` for 65,536 bytes 120 in what is typed. The blocks of a document
# between ```text and ``` belong to one transcript, up to the next puzzle line.
. "$(dirname "${BASH_SOURCE[0]}")/setup.bash"

# Plays the transcript in a file, with further arguments of the program. Failures are reported under `name`.
play_with() {
    local name=$1 transcript=$2 status
    shift 2
    read_transcript "$transcript"
    ./polybench "$@" "${arguments[@]}" <"$room/input" >"$room/output" 2>"$room/errors"
    status=$?
    if [ -s "$room/input" ] && [ "$status" -eq "$wanted_status" ] && cmp -s "$room/wanted" "$room/output" && [ ! -s "$room/errors" ]; then
        passed=$((passed + 1))
    else
        failed=$((failed + 1))
        echo "failed: $name $* (status $status)"
        diff "$room/wanted" "$room/output" | head -n 10
        head -n 5 "$room/errors"
    fi
}

play() {
    play_with "$1" "$2"
    play_with "$1" "$2" --workers 4
}

for transcript in tests/transcripts/*.txt; do
    play "$transcript" "$transcript"
done
for name in two_dominoes tetrominoes pentominoes_3_by_20 one_turn drop_undo_redo; do
    for workers in 1 2 3 5 8 16; do
        play_with "$name" "tests/transcripts/$name.txt" --workers "$workers"
    done
done
for session in examples/*.txt; do
    sed 's/^/> /' "$session" | cat - "${session%.txt}.out" >"$room/transcript"
    play "$session" "$room/transcript"
done
for document in README.md docs/GUIDE.md; do
    sed -n '/^```text$/,/^```$/p' "$document" | grep -v '^```' >"$room/transcript"
    awk -v session="$room/session" '/^> \{/ { number++ } { print > (session number) }' "$room/transcript"
    for transcript in "$room"/session*; do
        play "${transcript##*/} in $document" "$transcript"
        rm "$transcript"
    done
done
close
