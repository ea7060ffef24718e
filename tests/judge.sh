#!/usr/bin/env bash
# Has tests/judge.py judge the player of docs/PLAYER.md: on the cases that are scripts of events on small designs, and on
# random scripts. Before that, checks that the judge finds wrong answers.
# The environment variable `player` names another player than that of crates/poly_play.
. "$(dirname "${BASH_SOURCE[0]}")/setup.bash"
find_player
export player

# Runs a test, and adds the counts of its last line `N passed, M failed`. A run without such a line is one failure.
run() {
    "$@" >"$room/output" 2>&1
    sed '$d' "$room/output"
    if [[ $(tail -n 1 "$room/output") =~ ^([0-9]+)\ passed,\ ([0-9]+)\ failed$ ]]; then
        passed=$((passed + BASH_REMATCH[1]))
        failed=$((failed + BASH_REMATCH[2]))
    else
        failed=$((failed + 1))
        echo "failed: $1 closed with no count: $(tail -n 1 "$room/output")"
    fi
}

mkdir "$room/large"
python3 tests/large_cases.py "$room/large"
run tests/wrong_answers.py "$player"
run tests/judge.py "$player" tests/cases/*.txt "$room"/large/*.txt
run tests/scripts.py 300 1
close
