#!/usr/bin/env python3
"""Times sessions of the built program, some of them next to the yardstick `dlx`, and prints a table of them.

usage: benches/sessions.py

Each session is a puzzle line and commands on standard input. Some sessions come right after a search of the same board by
`dlx`. The table has the processor time of each session in user mode, that time divided by the time of `dlx`, the elapsed time,
and the most memory that was resident, which is never less than what this script itself needs. Run it with nothing else running.
It measures `./polybench` from its start on. If a source was changed, start it once before, so that it is built.
"""
import itertools
import json
import os
import subprocess
import sys
import tempfile
import time

HERE = os.path.dirname(os.path.abspath(__file__))
sys.path.append(os.path.join(HERE, "..", "tests"))
import large_sessions  # noqa: E402
PROGRAM = os.path.join(HERE, "..", "polybench")
ROUNDS = 25


def first_line(name):
    with open(f"{HERE}/{name}", encoding="utf-8") as file:
        return file.readline().strip()


def pentominoes(rows):
    """Returns the puzzle line of the board with all twelve pentominoes."""
    puzzle = json.loads(first_line("six_by_ten.txt"))
    puzzle["board"] = rows
    return json.dumps(puzzle)


def seven_singles():
    """Returns the puzzle line of a row of seven optional cells with seven optional single squares: 130,922 tilings."""
    single = {"cells": [[0, 0]], "least": 0, "most": 1}
    return json.dumps({"format": 2, "grid": "square", "board": ["+++++++"], "pieces": [{"name": it, **single} for it in "ABCDEFG"]})


def changes():
    """Returns commands that change the settled 6 by 10 rectangle a hundred times, with a `count` after each change."""
    edits = ["forbid I 0,0 1,0 2,0 3,0 4,0", "undo", "redo", "undo"]
    return ["count", *[line for change in edits * ROUNDS for line in (change, "count")]]


def sessions():
    """Returns for each session what it is, its lines, and the arguments of `dlx` for the same board, or None."""
    six, hole = pentominoes(["#" * 10] * 6), pentominoes(["#" * 8] * 3 + ["###..###"] * 2 + ["#" * 8] * 3)
    million = first_line("million.txt")
    for name, line, size in (
        ("6 by 10", six, ["10", "6"]),
        ("5 by 12", pentominoes(["#" * 12] * 5), ["12", "5"]),
        ("8 by 8 without its four middle cells", hole, ["8", "8", "2"]),
        ("3 by 20", pentominoes(["#" * 20] * 3), ["20", "3"]),
    ):
        yield f"{name}, `count`", [line, "count"], size
        yield f"{name}, `list`", [line, "list"], size
    yield f"6 by 10, `count`, and {4 * ROUNDS} changes with a `count` after each", [six, *changes()], None
    yield "seven optional cells and single squares, `count`", [seven_singles(), "count"], None
    yield "982,938 tilings, `count`", [million, "count"], None
    yield "982,938 tilings, `list`", [million, "list"], None
    yield "982,938 tilings, `count`, `browse`, `classes`", [million, "count", "browse", "classes"], None
    yield "25 edits of a wide board, without a question", large_sessions.wide_edits(16)[0], None
    yield "the same, and 20 times `undo` and `redo`", [*large_sessions.wide_edits(16)[0], *["undo", "redo"] * 20], None
    yield "a cell that 7,424 placements cover becomes optional, is undone and made again", large_sessions.cell_of_thousands(58)[0], None
    yield "pins, and undos and redos of them, with thousands of tasks pending that undos opened", large_sessions.pins_after_wide_changes(16, 2, 5)[0], None
    yield "`count` of a wide board, which is refused", large_sessions.too_many(16)[0], None
    yield "99,000 edits of four pentominoes on 4 by 5, `count`", large_sessions.many_edits(99_000)[0], None
    yield "a new cell beside 6 by 10, undone and redone 400 times", large_sessions.undos_and_redos(400)[0][:-1], None
    yield "the puzzle line of 6 by 10 alone", [six], None
    yield "999,999 times `status`", itertools.chain([six], itertools.repeat("status", 999_999)), None


def run(command, lines=()):
    """Runs the command. Returns its processor seconds in user mode, the elapsed seconds, and its most memory in MB."""
    with tempfile.TemporaryFile() as file:
        file.writelines(f"{line}\n".encode() for line in lines)
        file.seek(0)
        begin = time.monotonic()
        child = subprocess.Popen(command, stdin=file, stdout=subprocess.DEVNULL)
        _, status, used = os.wait4(child.pid, 0)
        elapsed = time.monotonic() - begin
    if status != 0:
        sys.exit(f"{command} ended with status {status}")
    return used.ru_utime, elapsed, used.ru_maxrss * 1024 / 1e6


def main():
    with tempfile.TemporaryDirectory() as room:
        dlx = f"{room}/dlx"
        subprocess.run(["cc", "-O2", "-o", dlx, f"{HERE}/dlx.c"], check=True)
        print("| Session | `dlx` | Processor time | In parts of `dlx` | Elapsed | Most memory |\n|---|---|---|---|---|---|")
        for name, lines, size in sessions():
            yardstick = run([dlx, *size])[0] if size else 0
            used, elapsed, memory = run([PROGRAM], lines)
            share = (f"{yardstick:.2f} s", f"{used:.2f} s", f"{used / yardstick:.2f}") if size else ("", f"{used:.2f} s", "")
            print(f"| {name} | {' | '.join(share)} | {elapsed:.2f} s | {memory:.0f} MB |", flush=True)


if __name__ == "__main__":
    main()
