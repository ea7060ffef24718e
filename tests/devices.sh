#!/usr/bin/env bash
# What only a running program shows: exit statuses, standard error, devices that fail, and long inputs.
. "$(dirname "${BASH_SOURCE[0]}")/setup.bash"
dominoes='{"format":1,"grid":"square","board":["##","##"],"pieces":[{"name":"A","cells":[[0,0],[1,0]]},{"name":"B","cells":[[0,0],[1,0]]}]}'

# Judges a run whose standard output and error are in the room: name, wanted status, status, wanted standard error.
judge() {
    local name=$1 wanted=$2 status=$3 errors=$4
    printf '%s' "$errors" >"$room/wanted_errors"
    if [ "$status" -eq "$wanted" ] && cmp -s "$room/wanted" "$room/output" && cmp -s "$room/wanted_errors" "$room/errors"; then
        passed=$((passed + 1))
    else
        failed=$((failed + 1))
        echo "failed: $name (status $status, wanted $wanted)"
        diff "$room/wanted" "$room/output" | head -n 5
        diff "$room/wanted_errors" "$room/errors" | head -n 5
    fi
}

# Runs the program with a file as its standard input: name, file, wanted output, wanted status.
on_file() {
    printf '%s' "$3" >"$room/wanted"
    ./polybench <"$2" >"$room/output" 2>"$room/errors"
    judge "$1" "$4" "$?" ""
}

# Help goes to standard output.
./polybench --help </dev/null >"$room/output" 2>"$room/errors"
status=$?
if [ "$status" -eq 0 ] && grep -qxF 'Usage: polybench [OPTIONS]' "$room/output" && [ ! -s "$room/errors" ]; then
    passed=$((passed + 1))
else
    failed=$((failed + 1))
    echo "failed: help (status $status)"
fi

# The version goes to standard output too. It is the newest one of CHANGELOG.md.
printf 'polybench %s\n' "$(sed -n 's/^## \([0-9.]*\)$/\1/p' CHANGELOG.md | head -n 1)" >"$room/wanted"
./polybench --version </dev/null >"$room/output" 2>"$room/errors"
status=$?
if [ "$status" -eq 0 ] && cmp -s "$room/wanted" "$room/output" && [ ! -s "$room/errors" ]; then
    passed=$((passed + 1))
else
    failed=$((failed + 1))
    echo "failed: the version (status $status)"
fi

# Help and the version that can't be written are write faults.
: >"$room/wanted"
: >"$room/output"
for argument in --help --version; do
    ./polybench "$argument" </dev/null >/dev/full 2>"$room/errors"
    judge "$argument on a full device" 3 "$?" $'polybench: write fault\n'
    ./polybench "$argument" </dev/null >&- 2>"$room/errors"
    judge "$argument on a closed standard output" 3 "$?" $'polybench: write fault\n'
done

# The example of the help, played as it is shown.
./polybench --help </dev/null | sed -n '/^Example/,/^$/s/^  //p' >"$room/example"
if [ -s "$room/example" ]; then
    on_file "the example of the help" "$room/example" $'ok 0\ntilings 4\n' 0
else
    failed=$((failed + 1))
    echo "failed: the help shows no example"
fi

# An argument that must be refused before any input is read, with a text on standard error.
refused_argument() {
    local status
    ./polybench "$1" </dev/null >"$room/output" 2>"$room/errors"
    status=$?
    if [ "$status" -eq 2 ] && [ -s "$room/errors" ] && [ ! -s "$room/output" ]; then
        passed=$((passed + 1))
    else
        failed=$((failed + 1))
        echo "failed: the argument $1 (status $status)"
    fi
}

refused_argument '--fly'
# The usage in an error has the same name as the one in the help.
if grep -qxF 'Usage: polybench [OPTIONS]' "$room/errors"; then
    passed=$((passed + 1))
else
    failed=$((failed + 1))
    echo "failed: the usage in an error"
fi
refused_argument 'fly'
refused_argument '--help=1'
refused_argument '--turns'
refused_argument '--turns=0'
refused_argument '--turns=1000000001'
refused_argument '--turns=x'
refused_argument '--workers=0'
refused_argument '--workers=17'
refused_argument "$(printf '\377')"

# An empty input is an empty puzzle line.
on_file "empty input" /dev/null $'no 1 BadJson\n' 1

# A directory can't be read.
: >"$room/wanted"
./polybench <"$room" >"$room/output" 2>"$room/errors"
judge "a directory as standard input" 3 "$?" $'polybench: read fault\n'

# A full device takes nothing.
: >"$room/wanted"
printf '%s\n' "$dominoes" >"$room/input"
./polybench <"$room/input" >/dev/full 2>"$room/errors"
status=$?
: >"$room/output"
judge "a full device as standard output" 3 "$status" $'polybench: write fault\n'

# Waits until the first reply was read and the reader has had time to end, for at most ten seconds.
until_read() {
    for _ in {1..100}; do
        [ -s "$room/output" ] && break
        sleep 0.1
    done
    sleep 0.5
}

# A pipe that nobody reads any more, whether the signal for it is ignored or has its default disposition, in which it would end
# the program.
closed_pipe() {
    : >"$room/output"
    { printf '%s\n' "$dominoes"; until_read; printf 'count\n'; } | {
        python3 -c 'import os, signal, sys; signal.signal(signal.SIGPIPE, getattr(signal, sys.argv[1])); os.execv(sys.argv[2], sys.argv[2:])' \
            "$1" ./polybench 2>"$room/errors"
        echo $? >"$room/status"
    } | head -c 3 >"$room/output"
    printf 'ok ' >"$room/wanted"
    judge "a closed pipe with $1" 3 "$(cat "$room/status")" $'polybench: write fault\n'
}
closed_pipe SIG_IGN
closed_pipe SIG_DFL

# The last line needs no line feed, and each reply is written before the next line is read.
printf '%s\ncount' "$dominoes" >"$room/input"
on_file "a last line without its end" "$room/input" $'ok 0\ntilings 4\n' 0
printf '%s\r\ncount\r\n   \n count  \n' "$dominoes" >"$room/input"
on_file "carriage returns and spaces" "$room/input" $'ok 0\ntilings 4\ntilings 4\n' 0
coproc PROGRAM { ./polybench 2>/dev/null; }
printf '%s\n' "$dominoes" >&"${PROGRAM[1]}"
if IFS= read -r -t 10 answer <&"${PROGRAM[0]}" && [ "$answer" = 'ok 0' ] && printf 'count\n' >&"${PROGRAM[1]}" &&
    IFS= read -r -t 10 answer <&"${PROGRAM[0]}" && [ "$answer" = 'tilings 4' ]; then
    passed=$((passed + 1))
else
    failed=$((failed + 1))
    echo "failed: a reply before the next line"
fi
exec {PROGRAM[1]}>&-
wait

# Lines of 65,536 bytes and of one more.
{
    printf '%s\n' "$dominoes"
    head -c 65536 /dev/zero | tr '\0' x
    printf '\n'
    head -c 65537 /dev/zero | tr '\0' ' '
    printf '\ncount\n'
} >"$room/input"
on_file "long lines" "$room/input" $'ok 0\nno 19 BadCommand\nno 20 LineTooLong\ntilings 4\n' 0

# A million lines are the limit.
{
    printf '%s\n' "$dominoes"
    yes '' | head -n 999999
} >"$room/input"
on_file "a million lines" "$room/input" $'ok 0\n' 0
printf '\n' >>"$room/input"
printf 'ok 0\n' >"$room/wanted"
./polybench <"$room/input" >"$room/output" 2>"$room/errors"
judge "a million lines and one more" 3 "$?" $'polybench: read fault\n'

# Of 257 changes the last 256 can be undone.
{
    printf '%s\n' "$dominoes"
    for change in $(seq 257); do
        if [ $((change % 2)) -eq 1 ]; then echo 'cell 0,0 optional'; else echo 'cell 0,0 required'; fi
    done
    yes undo | head -n 257
} >"$room/input"
on_file "257 undos" "$room/input" "$(seq 0 513 | sed 's/^/ok /')"$'\nno 16 NothingToUndo\n' 0

# The twelve pentominoes on three rows of twenty.
printf '%s\ncount\n' '{"format":1,"grid":"square","board":["####################","####################","####################"],"pieces":[{"name":"F","cells":[[1,0],[2,0],[0,1],[1,1],[1,2]]},{"name":"I","cells":[[0,0],[0,1],[0,2],[0,3],[0,4]]},{"name":"L","cells":[[0,0],[0,1],[0,2],[0,3],[1,3]]},{"name":"N","cells":[[1,0],[1,1],[0,2],[1,2],[0,3]]},{"name":"P","cells":[[0,0],[1,0],[0,1],[1,1],[0,2]]},{"name":"T","cells":[[0,0],[1,0],[2,0],[1,1],[1,2]]},{"name":"U","cells":[[0,0],[2,0],[0,1],[1,1],[2,1]]},{"name":"V","cells":[[0,0],[0,1],[0,2],[1,2],[2,2]]},{"name":"W","cells":[[0,0],[0,1],[1,1],[1,2],[2,2]]},{"name":"X","cells":[[1,0],[0,1],[1,1],[2,1],[1,2]]},{"name":"Y","cells":[[1,0],[0,1],[1,1],[1,2],[1,3]]},{"name":"Z","cells":[[0,0],[1,0],[1,1],[1,2],[2,2]]}]}' >"$room/input"
on_file "the twelve pentominoes on three by twenty" "$room/input" $'ok 0\ntilings 8\n' 0

close
