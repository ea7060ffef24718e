#!/usr/bin/env bash
# What `./polybench` does before it runs the program: which program it takes, and how much memory it gives it; and how the release
# is made and compared. It works on a copy of the files that the launcher reads, with only a shell and coreutils on the PATH.
. "$(dirname "${BASH_SOURCE[0]}")/setup.bash"
copy=$room/copy
tools=$room/tools
source=crates/poly_grid/src/lib.rt
dominoes='{"format":1,"grid":"square","board":["##","##"],"pieces":[{"name":"A","cells":[[0,0],[1,0]]},{"name":"B","cells":[[0,0],[1,0]]}]}'
printf '%s\ncount\n' "$dominoes" >"$room/input"
printf 'ok 0\ntilings 4\n' >"$room/answers"

mkdir "$copy" "$tools"
cp -r polybench scripts release "$copy"
sed -n 's/^[0-9a-f]*  //p' release/SOURCES | xargs cp --parents -t "$copy"
# The release stands for the program that the gate built.
mkdir -p "$copy/crates/polybench/out"
for tool in sh dirname readlink sha256sum uname; do
    ln -s "$(command -v "$tool")" "$tools/$tool"
done

# Counts a test as passed or failed: its name, and whether it is well (0) or not.
tell() {
    if [ "$2" -eq 0 ]; then
        passed=$((passed + 1))
    else
        failed=$((failed + 1))
        echo "failed: $1 (status $status)"
        head -n 3 "$room/output" "$room/errors"
    fi
}

# Plays the two dominoes in the copy, on a machine without the toolchain. Sets `status`, and `taken` to the milliseconds.
start() {
    local begin=${EPOCHREALTIME/[.,]/}
    PATH=$tools "$copy/polybench" <"$room/input" >"$room/output" 2>"$room/errors"
    status=$?
    taken=$(((${EPOCHREALTIME/[.,]/} - begin) / 1000))
}

# Whether the last start answered, and said nothing else.
is_answered() {
    [ "$status" -eq 0 ] && cmp -s "$room/answers" "$room/output" && [ ! -s "$room/errors" ]
}

# Whether the last start ended with status 4 and one line on standard error that has this text.
is_unbuilt() {
    [ "$status" -eq 4 ] && [ ! -s "$room/output" ] && [ "$(wc -l <"$room/errors")" -eq 1 ] && grep -qF "$1" "$room/errors"
}

start
is_answered && [ "$taken" -lt 1000 ]
tell "the release answers within a second" $?

ln -s "$copy/polybench" "$room/linked"
(cd / && PATH=$tools "$room/linked" <"$room/input" >"$room/output" 2>"$room/errors")
status=$?
is_answered
tell "the launcher through a link, from another folder" $?

mv "$copy/release/SOURCES" "$room/SOURCES"
start
is_unbuilt 'release/SOURCES is missing'
tell "no list of the release's sources" $?
mv "$room/SOURCES" "$copy/release/SOURCES"

chmod -x "$copy/release/polybench-x86_64-linux"
start
is_unbuilt 'release/polybench-x86_64-linux is missing'
tell "a release that can't be run" $?
chmod +x "$copy/release/polybench-x86_64-linux"

printf ' ' >>"$copy/$source"
start
is_unbuilt "$source is not the file that the release was built from"
tell "a source that was changed" $?

# A program that was built from the changed source; here the release stands for it.
cp release/polybench-x86_64-linux "$copy/crates/polybench/out/polybench"
"$copy/scripts/sources.py" >"$copy/crates/polybench/out/SOURCES"
start
is_answered
tell "a program built from the changed source" $?
printf ' ' >>"$copy/$source"
start
is_unbuilt "$source is not the file that the release was built from"
tell "a source that was changed after the program was built" $?
cp "$source" "$copy/$source"

# The release, made twice from the proved program.
cp release/SOURCES "$copy/crates/polybench/out/SOURCES"
rm -r "$copy/release"
"$copy/scripts/release.py" >"$room/output" 2>"$room/errors"
status=$?
[ "$status" -eq 0 ] && diff -r release "$copy/release" >/dev/null
tell "a release made anew" $?
"$copy/scripts/release.py" >"$room/output" 2>"$room/errors"
status=$?
[ "$status" -eq 0 ] && diff -r release "$copy/release" >/dev/null && [ -x "$copy/release/polybench-x86_64-linux" ]
tell "a release made twice" $?

# Compares the release with the proved program: the name of the test, the wanted status, and a text that it must print.
compare() {
    "$copy/scripts/release.py" --check >"$room/output" 2>"$room/errors"
    status=$?
    [ "$status" -eq "$2" ] && grep -qF "$3" "$room/output"
    tell "$1" $?
}

compare "a right release" 0 '1 passed, 0 failed'
printf 'x' | dd of="$copy/release/polybench-x86_64-linux" bs=1 seek=100000 conv=notrunc 2>/dev/null
compare "a release with a byte changed" 1 'release/polybench-x86_64-linux is not the proved program, byte for byte; scripts/release.py'
rm "$copy/release/polybench-x86_64-linux"
compare "a release without the program" 1 'release/polybench-x86_64-linux is missing'
"$copy/scripts/release.py"
printf ' ' >>"$copy/$source"
compare "a release of other sources" 1 'release/SOURCES does not list the present sources'
cp "$source" "$copy/$source"

# A search that needs more memory than it gets is refused, and the session goes on.
{
    printf '%s%s\n' '{"format":2,"grid":"square","board":["########","########","########","########","########","########","########","########"],' \
        '"pieces":[{"name":"A","cells":[[0,0],[1,0]],"least":0,"most":16},{"name":"B","cells":[[0,0],[1,0]],"least":0,"most":16}]}'
    printf 'count\nstatus\ncell 0,0 optional\n'
} >"$room/wide"
POLYBENCH_MEMORY=300M ./polybench <"$room/wide" >"$room/output" 2>"$room/errors"
status=$?
printf 'ok 0\nno 22 Memory\nstatus edition 0\nok 1\n' >"$room/wanted"
sed 's/^\(status edition [0-9]*\) .*/\1/' "$room/output" | cmp -s "$room/wanted" - && [ "$status" -eq 0 ]
tell "a design that needs more memory than 300 MB" $?

# Values of POLYBENCH_MEMORY that are limits, and values that are not.
for limit in 16M 2G 9T 314572800 unlimited ''; do
    POLYBENCH_MEMORY=$limit ./polybench <"$room/input" >"$room/output" 2>"$room/errors"
    status=$?
    is_answered
    tell "the limit '$limit'" $?
done
for limit in 0 15M 2g 1.5G -1 ' ' G 08M 99999999T 12345678901234567890; do
    POLYBENCH_MEMORY=$limit ./polybench <"$room/input" >"$room/output" 2>"$room/errors"
    status=$?
    [ "$status" -eq 2 ] && [ ! -s "$room/output" ] && [ "$(wc -l <"$room/errors")" -eq 1 ]
    tell "the limit '$limit'" $?
done

close
