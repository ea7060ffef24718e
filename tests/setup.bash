# The start of each script in this folder: makes the repository's top the current folder, makes a temporary folder `room`
# that is removed at the end, and sets the counts that the script closes with.
set -u
cd "$(dirname "${BASH_SOURCE[0]}")/.." || exit 2
room=$(mktemp -d)
trap 'rm -rf "$room"' EXIT
passed=0
failed=0
# Builds the program if the release isn't that of the present sources, so that no test takes the builder's output for the
# program's.
./polybench </dev/null >"$room/building" 2>&1
# The program that `./polybench` runs, for a test that has to run it alone.
program=release/polybench-x86_64-linux
sha256sum -c --status release/SOURCES 2>/dev/null || program=crates/polybench/out/polybench

# Writes the bytes that are given by number into the file.
write_bytes() {
    python3 -c '
import re, sys
with open(sys.argv[1], "r+b") as file:
    text = re.sub(rb"<(\d+)(?: times (\d+))?>", lambda found: bytes([int(found[1])]) * int(found[2] or 1), file.read())
    file.seek(0)
    file.write(text)
    file.truncate()' "$1"
}

# Reads the transcript in a file, whose form tests/transcripts.sh describes: writes what is typed and the wanted replies to the
# files input and wanted of the room, and sets `wanted_status` and `arguments`.
read_transcript() {
    sed -n 's/^> //p' "$1" >"$room/input"
    if grep -q '^# bytes by number$' "$1"; then
        write_bytes "$room/input"
    fi
    if grep -q '^# without the last line feed$' "$1"; then
        truncate -s -1 "$room/input"
    fi
    sed '/^> /d;/^#/d;/^$/d' "$1" >"$room/wanted"
    wanted_status=$(sed -n 's/^# status //p' "$1")
    wanted_status=${wanted_status:-0}
    read -r -a arguments <<<"$(sed -n 's/^# arguments //p' "$1")"
}

# Sets `player` to the player of docs/PLAYER.md, unless the environment has set it, and builds it if it isn't built yet.
find_player() {
    player=${player:-crates/poly_play/out/poly_play}
    if [ ! -x "$player" ]; then
        (cd crates/poly_play && rt run </dev/null) >"$room/building" 2>&1
    fi
    if [ ! -x "$player" ]; then
        echo "failed: the player could not be built"
        tail -n 5 "$room/building"
        echo "0 passed, 1 failed"
        exit 1
    fi
}

# Prints the counts. The status is 0 only if nothing failed.
close() {
    echo "$passed passed, $failed failed"
    [ "$failed" -eq 0 ]
}
