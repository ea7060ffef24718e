#!/usr/bin/env python3
"""Checks that tests/judge.py finds wrong answers: plays a script, makes one of its answers wrong, and has that judged.

usage: tests/wrong_answers.py PLAYER

Standard output ends with a line `N passed, M failed`, which counts wrong answers, and the right ones as one more.
"""
import os
import re
import sys

from judge import fault_in, observed, play

SCRIPT = """\
{"format":1,"grid":"square","board":["##","##"],"pieces":[{"name":"A","cells":[[0,0],[1,0]]},{"name":"B","cells":[[0,0],[1,0]]}]}
report cut 1 0 branch 0,0 A=0,0/1,0 rest A=0,0/0,1 rest B=0,0/1,0 rest B=0,0/0,1 rest end
hand_in cut
take j 2
explore j first 4
hand_in first
report early 3 0 found
hand_in early
take j 4
explore j late 4
cell 2,0 optional
hand_in late
hand_in late
undo
settle 1000 256
quiet q
list q"""

# What is printed, what is put in place of that, and what the judge says then.
WRONG = [
    ("a listed tiling is lost", r"tiling .*\n(edition 0 .* listed) 1", r"\1 0", "not listed and has no task"),
    ("a tiling is listed twice", r"(tiling .*\n)(edition 0 .* listed) 1", r"\1\1\2 2", "listed twice"),
    ("what is listed is no tiling", r"(tiling .*) B=.*\n(edition 0)", r"\1\n\2", "no tiling"),
    ("a pending task is lost", r"task 5 .*\n(edition 0 .* pending) 4", r"\1 3", "not listed and has no task"),
    ("two tasks have a tiling", r"(task 3 .*:) lacks .*(\ntask 4.*\ntask 5)", r"\1\2", "is listed or has another task"),
    ("a task has too few atoms", r"(task 3 edition 1:.*) lacks B=1,0/2,0", r"\1", "other atoms"),
    ("a wrong report is taken up", r"no 24 DoesNotHold", "applied 3 listed 0 opened 0 first 6", "no 24"),
    ("an honest report is refused", r"applied 3 .* late", "no 24 DoesNotHold", "an honest report"),
    ("a report is not late", r"(applied 3 .*) late", r"\1", "late"),
    ("a report is taken up twice", r"no 23 Gone", "applied 4 listed 1 opened 0 first 8 late", "no 23 Gone"),
    (
        "an edit doesn't keep what is listed",
        r"(shelved\n(?:.*\n){2}(?:task .*\n)*)tiling (\S+) (\S+)\n(edition 1 .*) listed 1 pending 5",
        r"\1task 8 edition 1: has \2 has \3\n\4 listed 0 pending 6",
        "that was listed, and still is one",
    ),
    ("an undo leads to another design", r"(done 2 undo .*\nplaces) 8 \S+", r"\1 7", "places 8"),
    ("a settle lists too little", r"(settled by .*\n)tiling .*\n((?:tiling .*\n)*edition .* listed) 4", r"\1\2 3", "not listed"),
    ("a list is not in order", r"(tiling .*\n)(tiling .*)$", r"\2\n\1", "not in order"),
]


def main():
    lines = observed(SCRIPT.split("\n"))
    text = "\n".join(play(os.path.abspath(sys.argv[1]), lines))
    fault = fault_in(lines, text.split("\n"))
    faults = [fault] if fault else []
    for name, pattern, wrong, said in WRONG:
        changed = re.sub(pattern, wrong, text, count=1)
        fault = fault_in(lines, changed.rstrip("\n").split("\n"))
        if changed == text or said not in (fault or ""):
            faults.append(f"{name}: the judge says {fault}")
    for fault in faults:
        print(f"failed: {fault}")
    print(f"{len(WRONG) + 1 - len(faults)} passed, {len(faults)} failed")
    return 1 if faults else 0


if __name__ == "__main__":
    sys.exit(main())
