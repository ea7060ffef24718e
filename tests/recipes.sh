#!/usr/bin/env bash
# Runs the recipes of examples/recipes on designs, and the client that they use (tests/recipes.py).
. "$(dirname "${BASH_SOURCE[0]}")/setup.bash"
python3 tests/recipes.py
