#!/usr/bin/env python3
"""Plays random sessions on small puzzles with the program and with tests/reference.py, and compares the replies.

usage: tests/sessions.py [SESSIONS [SEED [ARGUMENT..]]]

Each session has a puzzle line of either format and 40 commands. Some puzzle lines are refused, and some lines end with
carriage returns. Each session is played by one thread and by two workers, or, if there are further arguments, by the program
with these. The exit status has to be that of the reference, and standard error empty. In the program's `status` line the
edition has to be right. The number of listed tilings may not exceed the number of all tilings, and has to equal it if no task
is pending. Between an answer about all tilings and the next change no task may be pending.

Standard output ends with a line `N passed, M failed`, which counts sessions.
"""
import json
import os
import random
import re
import subprocess
import sys

from reference import replies_to

HERE = os.path.dirname(os.path.abspath(__file__))
PROGRAM = os.path.join(HERE, "..", "polybench")
COMMANDS = 40

SHAPES = [
    [[0, 0]],
    [[0, 0], [1, 0]],
    [[0, 0], [1, 0], [2, 0]],
    [[0, 0], [1, 0], [0, 1]],
    [[0, 0], [1, 0], [0, 1], [0, 2]],
    [[1, 0], [0, 1], [1, 1], [0, 2]],
]

NAMES = ["A", "B", "C", "Zed_9"]

# What a puzzle line may have in place of a right value, at the top and in a piece. Some of these are right in one format.
WRONG = {
    "format": [0, 3, 12, -1, "1", 1.0],
    "grid": ["tri", "Square", "", 1],
    "board": [["#x"], ["#" * 65], ["#"] * 65, ["#" * 17] * 16, ["#" * 16] * 16, [], "##", [1]],
    "pieces": [[], [1], {}],
    "color": [1],
}
WRONG_IN_PIECE = {
    "name": ["", "A B", "a" * 17, "\u00e9", "A-1", 1],
    "cells": [[], [[0, 0], [2, 0]], [[0, 0], [0, 0]], [[x, 0] for x in range(17)]]
    + [[[0, 64]], [[-1, 0]], [[63, 63]], [[0, 0.5]]],
    "mirror": ["on"],
    "need": ["required", "never"],
    "least": [0, 2, 17],
    "most": [0, 3, -1],
}


def puzzle(dice):
    """Returns a puzzle with at most 12 cells and at most 3 pieces."""
    width, height = dice.choice([(2, 2), (3, 2), (4, 2), (3, 3), (5, 1), (4, 3)])
    board = ["".join(dice.choice("###++.") for _ in range(width)) for _ in range(height)]
    form, pieces = dice.choice([1, 2]), []
    for name in NAMES[: dice.randint(1, 3)]:
        piece = {"name": name, "cells": dice.choice(SHAPES)}
        if dice.random() < 0.8:
            piece["mirror"] = dice.random() < 0.6
        if form == 2:
            piece["least"] = dice.choice([0, 0, 1])
            piece["most"] = dice.randint(piece["least"], 3)
        elif dice.random() < 0.8:
            piece["need"] = dice.choice(["required", "optional", "optional"])
        pieces.append(piece)
    return {"format": form, "grid": dice.choice(["square", "hex"]), "board": board, "pieces": pieces}


def wrong_puzzle_line(dice):
    """Returns a puzzle line that is mostly refused."""
    wrong = puzzle(dice)
    for _ in range(dice.choice([1, 1, 2])):
        part, choices = dice.choice([(wrong, WRONG), (dice.choice(wrong["pieces"]), WRONG_IN_PIECE)])
        key, value = dice.choice([(key, value) for key, values in choices.items() for value in values])
        part[key] = value
        if part is wrong:
            break
    fault = dice.random()
    if fault < 0.1:
        del wrong[dice.choice(sorted(wrong))]
    elif fault < 0.2 and wrong["pieces"]:
        wrong["pieces"] = list(wrong["pieces"]) * dice.choice([2, 65])
    line = json.dumps(wrong)
    return line[: dice.randint(1, len(line))] if 0.2 < fault < 0.3 else line


def cells(dice):
    """Returns cell words: a shape, reflected or not and moved at random, so that the words are often a placement."""
    shape = dice.choice(SHAPES)
    swap, x, y = dice.random() < 0.5, dice.randint(0, 3), dice.randint(0, 2)
    return [f"{b + x},{a + y}" if swap else f"{a + x},{b + y}" for a, b in shape]


def query(dice):
    """Returns a word of `browse`."""
    mark = dice.choice("++--@@")
    if mark == "@":
        return mark + dice.choice([dice.choice(NAMES), f"{dice.randint(0, 4)},{dice.randint(0, 2)}"])
    return mark + dice.choice(NAMES) + "=" + "/".join(cells(dice))


def command(dice):
    name, switch = dice.choice(NAMES), dice.choice(["on", "off"])
    need = dice.choice(["required", "optional"])
    cell = f"{dice.randint(0, 4)},{dice.randint(0, 3)}"
    return dice.choice(
        ["count", "list", "classes", "status", "status", "undo", "undo", "redo"]
        + [f"cell {cell} {mode}" for mode in ("required", "optional", "optional", "blocked")]
        + [f"add {name} {need} {switch} " + " ".join(cells(dice)), f"drop {name}", f"need {name} {need}"]
        + [f"copies {name} {dice.randint(0, 2)} {dice.randint(0, 3)}", f"mirror {name} {switch}", f"unpin {name}"]
        + [f"{verb} {name} " + " ".join(cells(dice)) for verb in ("pin", "forbid", "forbid", "allow")]
        + [" ".join(["browse"] + [query(dice) for _ in range(dice.randint(0, 2))]) for _ in range(2)]
    )


def session(dice):
    """Returns the bytes of a session."""
    wrong = dice.random() < 0.3
    lines = [wrong_puzzle_line(dice) if wrong else json.dumps(puzzle(dice))] + [command(dice) for _ in range(COMMANDS)]
    ends = dice.choice([["\n"], ["\n"], ["\r\n"], ["\n", "\n", "\n", "\r\n", "\r\r\n", "\n\r\n"]])
    text = lines[0] + dice.choice(ends[:4]) + "".join(line + dice.choice(ends) for line in lines[1:])
    return text[: -1 if dice.random() < 0.1 else None].encode()


def agree(ours, theirs, settled):
    """Says whether a line of the program agrees with that of the reference."""
    wanted = re.fullmatch(r"status edition (\d+) tilings (\d+)", theirs)
    if wanted is None:
        return ours == theirs
    told = re.fullmatch(r"status edition (\d+) listed (\d+) pending (\d+)", ours)
    if told is None or told[1] != wanted[1]:
        return False
    listed, pending, tilings = int(told[2]), int(told[3]), int(wanted[2])
    return listed <= tilings and (pending > 0 or listed == tilings) and not (settled and pending)


def difference(data, arguments, theirs, status):
    """Returns the first pair of lines that don't agree, or what else is wrong with the program's run, or None."""
    ran = subprocess.run([PROGRAM, *arguments], input=data, capture_output=True, timeout=120, check=False)
    if ran.stderr or ran.returncode != status:
        return f"the program ended with status {ran.returncode}, the reference with {status}: {ran.stderr[:200]}"
    *ours, end = ran.stdout.decode("latin-1").split("\n")
    settled = False
    for one, other in zip(ours, theirs):
        if not agree(one, other, settled):
            return f"the program says {one!r}, the reference {other!r}"
        word = other.split(" ")[0]
        settled = word in ("tilings", "classes", "matches") or settled and word != "ok"
    if len(ours) != len(theirs) or end:
        return f"the program writes {len(ours)} lines, the reference {len(theirs)}"
    return None


def main():
    sessions = int(sys.argv[1]) if len(sys.argv) > 1 else 100
    dice = random.Random(int(sys.argv[2]) if len(sys.argv) > 2 else 1)
    runs = [sys.argv[3:]] if len(sys.argv) > 3 else [[], ["--workers", "2"]]
    failed = 0
    for number in range(sessions):
        data = session(dice)
        theirs, status = replies_to(data)
        found = [(run, difference(data, run, theirs, status)) for run in runs]
        found = [f"{' '.join(run) or 'one thread'}: {why}" for run, why in found if why]
        if found:
            failed += 1
            print(f"failed: session {number}: {found[0]}\n{data.decode()}")
    print(f"{sessions - failed} passed, {failed} failed")
    sys.exit(failed > 0)


if __name__ == "__main__":
    main()
