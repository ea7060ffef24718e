#!/usr/bin/env bash
# What a crew does whose turns run out. It answers `no 21 Unfinished`, keeps what it has found, and goes on with the next
# question. So with one worker, who needs so many turns in all whatever the questions are, the second question is answered if
# twice its turns suffice. How many turns a puzzle needs isn't fixed, so it is found out here first.
. "$(dirname "${BASH_SOURCE[0]}")/setup.bash"

# Six optional pieces of one cell on six cells. With k of them on the board there are C(6, k) times C(6, k) times k! tilings,
# in all 1 + 36 + 450 + 2,400 + 5,400 + 4,320 + 720.
pieces=
for name in A B C D E F; do
    pieces=$pieces,'{"name":"'$name'","cells":[[0,0]],"need":"optional"}'
done
puzzle='{"format":1,"grid":"square","board":["++++++"],"pieces":['${pieces#,}']}'
all='tilings 13327'

# Prints what the program answers to so many questions: questions, workers, turns.
answers() {
    { echo "$puzzle"; yes count | head -n "$1"; } | "$program" --workers "$2" --turns "$3" | tail -n +2
}

# Checks an answer: name, wanted answer, answer.
judge() {
    if [ "$2" = "$3" ]; then
        passed=$((passed + 1))
    else
        failed=$((failed + 1))
        echo "failed: $1: '$3' in place of '$2'"
    fi
}

# The least number of turns with which one worker answers at once.
few=0
needed=100000
while [ $((needed - few)) -gt 1 ]; do
    middle=$(((few + needed) / 2))
    if [ "$(answers 1 1 "$middle")" = "$all" ]; then needed=$middle; else few=$middle; fi
done
echo "turns: one worker needs $needed" >&2
judge "enough turns" "$all" "$(answers 1 1 "$needed")"
if [ "$needed" -lt 17 ]; then
    failed=$((failed + 1))
    echo "failed: a puzzle that needs $needed turns shows nothing here"
fi

for turns in $((needed - 1)) $(((needed + 1) / 2)); do
    judge "one worker with $turns of $needed turns" "no 21 Unfinished"$'\n'"$all" "$(answers 2 1 "$turns")"
done
turns=$(((needed - 1) / 2))
judge "one worker with twice $turns of $needed turns" "no 21 Unfinished"$'\n'"no 21 Unfinished" "$(answers 2 1 "$turns")"

# With one turn for each worker even the largest crew is unfinished. Each crew hands in at least one report, so that all is
# found after as many questions as one worker needs turns.
for workers in 1 2 3 5 8 16; do
    judge "$workers workers with one turn each" "no 21 Unfinished" "$(answers 1 "$workers" 1)"
    judge "$workers workers with one turn each, often" "$all" "$(answers $((needed + 1)) "$workers" 1 | tail -n 1)"
    judge "$workers workers with turns enough" "$all" "$(answers 1 "$workers" 1000000)"
done
close
