#!/usr/bin/env bash
# What `--verbose` adds: standard error explains each refused line in the words of docs/GUIDE.md, and reports how far a long
# search is. Standard output and the status stay the same, also if standard error is closed or full.
. "$(dirname "${BASH_SOURCE[0]}")/setup.bash"

# The guide's table of refusals: a reply, a tab, and what it means.
sed -n 's/^| `\(no [0-9]* [A-Za-z]*\)` | \(.*\) |$/\1\t\2/p' docs/GUIDE.md >"$room/table"

# Counts a test as passed or failed: its name, and whether it is well (0) or not.
tell() {
    if [ "$2" -eq 0 ]; then
        passed=$((passed + 1))
    else
        failed=$((failed + 1))
        echo "failed: $1"
    fi
}

# Prints what standard error must explain for the replies in a file.
explanations() {
    awk -F '\t' 'NR == FNR { text[$1] = $2; next } /^no / { print "polybench: " text[$0] }' "$room/table" "$1"
}

# Prints the explanations in a file of standard error, without the reports of long searches.
explained() {
    grep -vE '^polybench: ([0-9]+\.[0-9] s: [0-9]+ turns, [0-9]+ tilings found, [0-9]+ tasks pending|took [0-9]+\.[0-9] s)$' "$1"
}

# Whether the last run has the wanted replies and the wanted status. Prints how they differ.
is_answered() {
    if [ "$status" -ne "$wanted_status" ] || ! cmp -s "$room/wanted" "$room/output"; then
        echo "status $status, wanted $wanted_status"
        diff "$room/wanted" "$room/output" | head -n 10
        return 1
    fi
}

# The program has the guide's text for each refusal that a session answers.
source=$(tr -s ' \n' ' ' <crates/poly_grid/src/refusal.rt)
while IFS=$'\t' read -r reply text; do
    text="\"${text//\"/\\\"}\""
    name="${reply##* }"
    [[ $source == *"#[error($text)] $name,"* || $source == *"#[error($text)] $name {"* ]]
    tell "the text of $reply in docs/GUIDE.md and in crates/poly_grid/src/refusal.rt" $?
done <"$room/table"
sed -n '/^const ANSWERED/,/^];/s/^    Refusal::\([A-Za-z]*\).*/\1/p' crates/poly_cli/src/explaining.rt >"$room/answered"
[ -s "$room/answered" ] && sed 's/\t.*//; s/.* //' "$room/table" | cmp -s - "$room/answered"
tell "the refusals of docs/GUIDE.md and those that are explained" $?

for transcript in tests/transcripts/*.txt; do
    read_transcript "$transcript"
    ./polybench -v "${arguments[@]}" <"$room/input" >"$room/output" 2>"$room/errors"
    status=$?
    is_answered && diff <(explanations "$room/wanted") <(explained "$room/errors")
    tell "$transcript" $?
    # Whether standard error takes what it gets makes no difference.
    if [ -s "$room/errors" ]; then
        ./polybench -v "${arguments[@]}" <"$room/input" >"$room/output" 2>&-
        status=$?
        is_answered
        tell "$transcript with a closed standard error" $?
        ./polybench -v "${arguments[@]}" <"$room/input" >"$room/output" 2>/dev/full
        status=$?
        is_answered
        tell "$transcript with a full standard error" $?
    fi
done

# A command that needs too much memory.
{
    printf '%s%s\n' '{"format":2,"grid":"square","board":["########","########","########","########","########","########","########","########"],' \
        '"pieces":[{"name":"A","cells":[[0,0],[1,0]],"least":0,"most":16},{"name":"B","cells":[[0,0],[1,0]],"least":0,"most":16}]}'
    printf 'count\n'
} >"$room/input"
POLYBENCH_MEMORY=300M ./polybench -v <"$room/input" >"$room/output" 2>"$room/errors"
printf 'ok 0\nno 22 Memory\n' | diff - "$room/output" && diff <(explanations "$room/output") <(explained "$room/errors")
tell "an explanation without memory" $?

# The twelve pentominoes on six by ten, with a further cell that they can't cover too: a search of some seconds.
pentominoes='"pieces":[{"name":"F","cells":[[1,0],[2,0],[0,1],[1,1],[1,2]]},{"name":"I","cells":[[0,0],[0,1],[0,2],[0,3],[0,4]]},{"name":"L","cells":[[0,0],[0,1],[0,2],[0,3],[1,3]]},{"name":"N","cells":[[1,0],[1,1],[0,2],[1,2],[0,3]]},{"name":"P","cells":[[0,0],[1,0],[0,1],[1,1],[0,2]]},{"name":"T","cells":[[0,0],[1,0],[2,0],[1,1],[1,2]]},{"name":"U","cells":[[0,0],[2,0],[0,1],[1,1],[2,1]]},{"name":"V","cells":[[0,0],[0,1],[0,2],[1,2],[2,2]]},{"name":"W","cells":[[0,0],[0,1],[1,1],[1,2],[2,2]]},{"name":"X","cells":[[1,0],[0,1],[1,1],[2,1],[1,2]]},{"name":"Y","cells":[[1,0],[0,1],[1,1],[1,2],[1,3]]},{"name":"Z","cells":[[0,0],[1,0],[1,1],[1,2],[2,2]]}]'
puzzle="{\"format\":1,\"grid\":\"square\",\"board\":[\"##########\",\"##########\",\"##########\",\"##########\",\"##########\",\"##########\",\"+\"],$pentominoes}"
printf '%s\ncount\ncount\n' "$puzzle" >"$room/input"
printf 'ok 0\ntilings 9356\ntilings 9356\n' >"$room/wanted"
wanted_status=0
for workers in '' '--workers=2'; do
    ./polybench --verbose ${workers:+"$workers"} <"$room/input" >"$room/output" 2>"$room/errors"
    status=$?
    # Reports with growing times, and then how long it took; nothing for the second question.
    is_answered && [ -z "$(explained "$room/errors")" ] && [ "$(grep -c ' took ' "$room/errors")" -eq 1 ] &&
        tail -n 1 "$room/errors" | grep -q ' took ' && [ "$(wc -l <"$room/errors")" -ge 2 ] &&
        sed 's/^polybench: \(took \)\?//; s/ s.*//' "$room/errors" | sort -n -c
    tell "a long search is reported $workers" $?
done

# A search in parts takes the same turns: after each question that uses up its turns, as much is found and as much is pending.
{
    printf '%s\n' "$puzzle"
    for _ in $(seq 9); do
        printf 'count\nstatus\n'
    done
} >"$room/input"
for turns in 1 15 16 17 100 1000; do
    ./polybench --turns "$turns" <"$room/input" >"$room/wanted" 2>/dev/null
    ./polybench -v --turns "$turns" <"$room/input" >"$room/output" 2>/dev/null
    status=$?
    is_answered && grep -q '^no 21 Unfinished$' "$room/output"
    tell "the same after $turns turns" $?
done

close
