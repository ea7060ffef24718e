#!/usr/bin/env bash
# Plays the cases tests/cases/*.txt, and the large ones that tests/large_cases.py writes, with the player of docs/PLAYER.md.
# The environment variable `player` names another player than that of crates/poly_play.
. "$(dirname "${BASH_SOURCE[0]}")/setup.bash"

if ! cc -O1 -shared -fPIC -o "$room/refuse.so" tests/refuse_allocation.c -ldl; then
    echo "failed: the C compiler, which the linker of the toolchain needs too, could not build tests/refuse_allocation.c"
    echo "0 passed, 1 failed"
    exit 1
fi
find_player
mkdir "$room/large"
python3 tests/large_cases.py "$room/large"
python3 tests/cases.py "$player" "$room/refuse.so" tests/cases/*.txt "$room"/large/*.txt
