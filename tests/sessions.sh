#!/usr/bin/env bash
# Plays random sessions with the program and with a reference that shares nothing with it (tests/sessions.py).
. "$(dirname "${BASH_SOURCE[0]}")/setup.bash"
python3 tests/sessions.py 500 1
