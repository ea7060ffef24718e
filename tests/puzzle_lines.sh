#!/usr/bin/env bash
# Plays puzzle lines that are accepted or refused, each as a session of its own (tests/puzzle_lines.txt).
. "$(dirname "${BASH_SOURCE[0]}")/setup.bash"
python3 tests/puzzle_lines.py "$program"
