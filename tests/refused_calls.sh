#!/usr/bin/env bash
# Runs each test below again and again: first with its first allocation refused, then with its second, and so on, until a run
# ends without reaching the allocation that was to be refused.
#
# If a call runs out of memory, the tests assert that it changed nothing, and then make the call a second time. Only `settle`
# of a book may have changed something: it keeps the reports that it has applied. So a run with a refused allocation must pass
# like a run without one. The gate leaves the tests built; where it hasn't run, `rt test` proves and builds them.
. "$(dirname "${BASH_SOURCE[0]}")/setup.bash"

# A crate, and the full name of one of its tests.
tests='
poly_tests memory::runs_without_memory
poly_tests desk_memory::a_day_without_memory
poly_tests exchange::a_tiling_lost_and_back
poly_tests desk_crews::a_crew_without_memory
'

if ! cc -O1 -shared -fPIC -o "$room/refuse.so" tests/refuse_allocation.c -ldl; then
    echo "failed: the C compiler, which the linker of the toolchain needs too, could not build tests/refuse_allocation.c"
    echo "0 passed, 1 failed"
    exit 1
fi

# Runs the test once for each of its allocations, with that allocation refused.
play() {
    local program=crates/$1/out/$1_tests name=$2 at=0 before=$failed status
    if [ ! -x "$program" ]; then
        (cd "crates/$1" && rt test) >"$room/building" 2>&1
    fi
    if [ ! -x "$program" ]; then
        failed=$((failed + 1))
        echo "failed: the tests of $1 could not be built"
        tail -n 5 "$room/building"
        return
    fi
    while :; do
        at=$((at + 1))
        rm -f "$room/refused"
        REFUSE_AT=$at REFUSED="$room/refused" LD_PRELOAD="$room/refuse.so" timeout 60 "$program" "$name" >"$room/output" 2>&1
        status=$?
        if [ "$status" -ne 0 ]; then
            failed=$((failed + 1))
            echo "failed: $name with allocation $at refused (status $status)"
            head -n 3 "$room/output"
        fi
        if [ ! -e "$room/refused" ]; then
            break
        fi
    done
    if [ "$at" -eq 1 ]; then
        failed=$((failed + 1))
        echo "failed: $name met no allocation"
    elif [ "$failed" -eq "$before" ]; then
        passed=$((passed + 1))
    fi
    echo "refused memory: $name, $((at - 1)) allocations" >&2
}

while read -r crate name; do
    if [ -n "$crate" ]; then
        play "$crate" "$name" </dev/null
    fi
done <<<"$tests"
close
