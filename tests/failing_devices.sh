#!/usr/bin/env bash
# Plays sessions with a reader and a writer that fail after each number of bytes (tests/failing_devices.py).
. "$(dirname "${BASH_SOURCE[0]}")/setup.bash"

if ! cc -O1 -shared -fPIC -o "$room/fail.so" tests/fail_devices.c -ldl; then
    echo "failed: the C compiler, which the linker of the toolchain needs too, could not build tests/fail_devices.c"
    echo "0 passed, 1 failed"
    exit 1
fi
python3 tests/failing_devices.py "$program" "$room/fail.so"
