#!/usr/bin/env bash
# Plays sessions with thousands of pending tasks or changes, each within a limit of memory (tests/large_sessions.py).
. "$(dirname "${BASH_SOURCE[0]}")/setup.bash"
python3 tests/large_sessions.py
