#!/usr/bin/env bash
# Plays transcripts with each allocation refused in turn (tests/refused_memory.py).
. "$(dirname "${BASH_SOURCE[0]}")/setup.bash"

if ! cc -O1 -shared -fPIC -o "$room/refuse.so" tests/refuse_allocation.c -ldl; then
    echo "failed: the C compiler, which the linker of the toolchain needs too, could not build tests/refuse_allocation.c"
    echo "0 passed, 1 failed"
    exit 1
fi
python3 tests/refused_memory.py "$program" "$room/refuse.so"
