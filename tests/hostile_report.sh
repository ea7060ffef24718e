#!/usr/bin/env bash
# Hands in reports that are made to be slow to check, and counts the steps of the checks (tests/hostile_report.py).
# The environment variable `player` names another player than that of crates/poly_play.
. "$(dirname "${BASH_SOURCE[0]}")/setup.bash"

if ! cc -O1 -shared -fPIC -o "$room/count.so" tests/count_steps.c -ldl; then
    echo "failed: the C compiler, which the linker of the toolchain needs too, could not build tests/count_steps.c"
    echo "0 passed, 1 failed"
    exit 1
fi
find_player
python3 tests/hostile_report.py "$player" "$room/count.so"
