#!/usr/bin/env python3
"""Plays sessions with thousands of pending tasks or changes, each within a limit of memory, and compares every reply.

usage: tests/large_sessions.py

The limits are far above what a session needs if tasks share their atoms, and far below what it needs if each task, shelf or
change keeps atoms of its own. The last sessions are about the limit of listed tilings. A session that reaches its limit of
memory answers `no 22 Memory`. The replies follow from the commands: an edit that is accepted answers with its number, and the
counts are known numbers. Standard output ends with a line `N passed, M failed`, which counts sessions.
"""
import json
import os
import subprocess
import sys

HERE = os.path.dirname(os.path.abspath(__file__))
PROGRAM = os.path.join(HERE, "..", "polybench")

PENTOMINOES = {
    "F": [[1, 0], [2, 0], [0, 1], [1, 1], [1, 2]],
    "I": [[0, 0], [0, 1], [0, 2], [0, 3], [0, 4]],
    "L": [[0, 0], [0, 1], [0, 2], [0, 3], [1, 3]],
    "N": [[1, 0], [1, 1], [0, 2], [1, 2], [0, 3]],
    "P": [[0, 0], [1, 0], [0, 1], [1, 1], [0, 2]],
    "T": [[0, 0], [1, 0], [2, 0], [1, 1], [1, 2]],
    "U": [[0, 0], [2, 0], [0, 1], [1, 1], [2, 1]],
    "V": [[0, 0], [0, 1], [0, 2], [1, 2], [2, 2]],
    "W": [[0, 0], [0, 1], [1, 1], [1, 2], [2, 2]],
    "X": [[1, 0], [0, 1], [1, 1], [2, 1], [1, 2]],
    "Y": [[1, 0], [0, 1], [1, 1], [1, 2], [1, 3]],
    "Z": [[0, 0], [1, 0], [1, 1], [1, 2], [2, 2]],
}


def puzzle(rows, names, need="required"):
    """Returns the puzzle line of a board and pentominoes. A name after the first character tells equal pieces apart."""
    pieces = [{"name": name, "cells": PENTOMINOES[name[0]], "need": need} for name in names]
    return json.dumps({"format": 1, "grid": "square", "board": rows, "pieces": pieces})


def words(cells):
    return " ".join(f"{x},{y}" for x, y in cells)


def accepted(changes):
    """Returns the replies to a puzzle line and so many changes that are accepted."""
    return [f"ok {number}" for number in range(changes + 1)]


def wide_edits(size):
    """Edits of a board of optional cells, without a question: each opens a task for hundreds of placements."""
    f, first = words(PENTOMINOES["F"]), words(sorted(map(tuple, PENTOMINOES["F"]), key=lambda cell: cell[::-1]))
    edits = [f"add F{number} optional off {f}" for number in range(10)]
    edits += [f"add P{number} optional off {words(PENTOMINOES['P'])}" for number in range(2)]
    edits += [f"mirror F{number} on" for number in range(8)]
    edits += [f"forbid F0 {first}", f"allow F0 {first}", "add I1 optional on 0,0", "cell 0,0 blocked", "cell 0,0 optional"]
    return [puzzle(["+" * size] * size, []), *edits], accepted(len(edits))


def wide_undos(size, rounds):
    """Undos and redos of a wide change, and of the change before, while hundreds of tasks are pending."""
    f = words(PENTOMINOES["F"])
    lines = [f"add F optional off {f}", f"add G optional off {f}", *["undo", "undo", "redo", "redo"] * rounds]
    return [puzzle(["+" * size] * size, []), *lines], accepted(len(lines))


def shelf_over_many_tasks(size, rounds):
    """An edit with one guard while thousands of tasks are pending, so that its undo has a shelf over all of them."""
    lines = wide_edits(size)[0]
    board, opening, forbid = lines[0], lines[1:6], next(line for line in lines if line.startswith("forbid"))
    changes = [*opening, forbid, *["undo", "redo"] * rounds]
    return [board, *changes], accepted(len(changes))


def undos_after_wide_changes(size, wide, rounds):
    """Undos of a change that narrows, while hundreds of tasks are pending that wide changes came after. Each undo opens tasks that stand
    on those before it. At the end one piece is left, with (size - 2) squared places in each of 4 orientations."""
    f = words(PENTOMINOES["F"])
    lines = [f"add F optional off {f}", f"add G optional off {f}"]
    lines += [line for _ in range(wide) for line in (f"add H optional off {f}", "drop H")]
    lines += ["cell 0,0 required", "undo"] * rounds
    lines += ["drop G", "count"]
    return [puzzle(["+" * size] * size, []), *lines], [*accepted(len(lines) - 1), f"tilings {4 * (size - 2) ** 2 + 1}"]


def pins_after_wide_changes(size, wide, rounds):
    """Pins, and undos that pin again, while thousands of tasks are pending, many of which undos opened. At the end F is left alone. It
    lies in (size - 2) squared places in each of 8 orientations, and one tiling is the empty board; if F is pinned, only that is left."""
    f = words(PENTOMINOES["F"])
    pins = [words([(x + at, y + at) for x, y in PENTOMINOES["F"]]) for at in (0, size - 3)]
    lines = [line for number in range(wide) for line in (f"add F{number} optional off {f}", f"mirror F{number} on")]
    lines += ["cell 0,0 required", "undo", "cell 1,0 required", "undo", "add G optional off 0,0", f"add F optional on {f}"]
    lines += [line for pin in pins for line in (f"pin F0 {pin}", f"pin F {pin}", "undo", "unpin F0", "undo", "undo", "redo", "undo")] * rounds
    lines += [*[f"drop F{number}" for number in range(wide)], "drop G", "count", f"pin F {pins[0]}", "count"]
    replies = accepted(len(lines) - 2)
    return [puzzle(["+" * size] * size, []), *lines], [*replies[:-1], f"tilings {8 * (size - 2) ** 2 + 1}", replies[-1], "tilings 1"]


def new_names(size, pairs):
    """A piece that is added and dropped under one new name after another, each with a number for every placement."""
    lines = [line for pair in range(pairs) for line in (f"add N{pair} optional on 0,0 1,0 2,0", f"drop N{pair}")]
    return [puzzle(["+" * size] * size, []), *lines], accepted(len(lines))


def cell_of_thousands(names):
    """A cell that is blocked and becomes optional again, among many equal pieces of sixteen cells without symmetry. Each of them can
    cover it with each of its cells in each of 8 orientations, so there is a task for each of these places besides the first one."""
    cells = [[x, y] for y in range(5) for x in range(4) if (x, y) not in {(0, 0), (1, 0), (3, 2), (0, 4)}]
    pieces = [{"name": f"A{number}", "cells": cells, "need": "optional"} for number in range(names)]
    board = json.dumps({"format": 1, "grid": "square", "board": ["+" * 10] * 10, "pieces": pieces})
    lines = ["cell 5,5 blocked", "cell 5,5 optional", "status", "undo", "status", "redo", "status"]
    tasks = 1 + names * len(cells) * 8
    replies = [f"status edition {edition} listed 0 pending {pending}" for edition, pending in ((2, tasks), (3, 1), (4, tasks))]
    return [board, *lines], ["ok 0", "ok 1", "ok 2", replies[0], "ok 3", replies[1], "ok 4", replies[2]]


def wide_edits_and_questions(size, pairs):
    """Changes of whether a piece may be turned over, with a question after each, so that no task is pending. A change has a guard
    for each placement that comes or goes. F lies in (size - 2) squared places in each of 8 orientations, or 4 if it isn't turned
    over, and one tiling is the empty board."""
    places = (size - 2) ** 2
    lines = [line for _ in range(pairs) for line in ("mirror F on", "count", "mirror F off", "count")]
    numbers = range(2, 2 * pairs + 2)
    replies = [reply for number in numbers for reply in (f"ok {number}", f"tilings {places * (8 if number % 2 == 0 else 4) + 1}")]
    opening = f"add F optional off {words(PENTOMINOES['F'])}"
    return [puzzle(["+" * size] * size, []), opening, *lines], ["ok 0", "ok 1", *replies]


def many_edits(edits):
    """Edits of four pentominoes on 4 by 5, with a question only at the end: this rectangle has 12 tilings by L, P, V and Y."""
    lines = ["cell 0,0 optional" if number % 2 == 0 else "cell 0,0 required" for number in range(edits)]
    return [puzzle(["#####"] * 4, "LPVY"), *lines, "count"], [*accepted(edits), "tilings 12"]


def undos_and_redos(rounds):
    """A new cell beside the 6 by 10 rectangle, undone and redone. The rectangle has 9,356 tilings."""
    lines = ["cell 10,0 optional", *["undo", "redo"] * rounds, "undo"]
    return [puzzle(["#" * 10] * 6, PENTOMINOES), *lines, "count"], [*accepted(len(lines)), "tilings 9356"]


def too_many(size):
    """A question about twelve equal optional pieces on a board of optional cells, which has over 1,000,000 tilings."""
    return [puzzle(["+" * size] * size, [f"F{number}" for number in range(12)], "optional"), "count"], ["ok 0", "no 18 CatalogueFull"]


def narrowed_after_too_many(size):
    """The same question, and then an edit while the thousands of tasks that the question left are pending."""
    lines, replies = too_many(size)
    return [*lines, "cell 0,0 blocked", "undo"], [*replies, "ok 1", "ok 2"]


def rows(lengths):
    """Returns the puzzle line of a board of rows that don't touch, and up to 12 straight pieces of six cells and one name. A row
    of L cells, from 6 to 11, has room for one of them in L - 5 places, or for none, so there are L - 4 choices."""
    board = [row for length in lengths for row in ("+" * length, "")]
    pieces = [{"name": "A", "cells": [[x, 0] for x in range(6)], "least": 0, "most": 12}]
    return json.dumps({"format": 2, "grid": "square", "board": board, "pieces": pieces})


def exactly_a_million():
    """Six rows with 5 choices and six with 2 have 1,000,000 tilings, which can all be listed, and listed again by an undo. With
    a cell of the first row blocked there are 4 choices in place of 5."""
    lines = ["count", "cell 0,0 blocked", "count", "undo", "status"]
    replies = ["tilings 1000000", "ok 1", "tilings 800000", "ok 2", "status edition 2 listed 1000000 pending 0"]
    return [rows([9] * 6 + [6] * 6), *lines], ["ok 0", *replies]


def hardly_over_a_million():
    """Two rows with 2 choices, six with 3 and three with 7 have 1,000,188 tilings. With the first row's only place blocked, half
    of them are left."""
    lines = ["count", "list", "cell 0,0 blocked", "count"]
    replies = ["no 18 CatalogueFull", "no 18 CatalogueFull", "ok 1", "tilings 500094"]
    return [rows([6] * 2 + [7] * 6 + [11] * 3), *lines], ["ok 0", *replies]


# Each session by its name: its lines and the wanted replies, and the limit of memory.
SESSIONS = {
    "wide edits without a question": (wide_edits(7), "100M"),
    "wide undos and redos": (wide_undos(10, 20), "100M"),
    "20,000 edits without a question": (many_edits(20_000), "60M"),
    "80 undos and redos of a new cell": (undos_and_redos(80), "40M"),
    "a shelf over thousands of tasks": (shelf_over_many_tasks(16, 10), "30M"),
    "undos after wide changes": (undos_after_wide_changes(10, 10, 20), "30M"),
    "pins after wide changes": (pins_after_wide_changes(16, 2, 5), "40M"),
    "300 new names": (new_names(16, 300), "80M"),
    "a cell that 7,424 places cover": (cell_of_thousands(58), "60M"),
    "2,000 wide changes with a question after each": (wide_edits_and_questions(10, 1000), "18M"),
    "over 1,000,000 tilings of a wide board": (too_many(7), "400M"),
    "an edit after such a question": (narrowed_after_too_many(10), "500M"),
    "1,000,000 tilings": (exactly_a_million(), "600M"),
    "1,000,188 tilings": (hardly_over_a_million(), "600M"),
}


def play(lines, memory):
    """Returns the program's replies, and what it wrote to standard error."""
    ran = subprocess.run(
        [PROGRAM],
        input="".join(f"{line}\n" for line in lines).encode(),
        capture_output=True,
        env={**os.environ, "POLYBENCH_MEMORY": memory},
        timeout=300,
    )
    return ran.stdout.decode("latin-1").splitlines(), ran.stderr.decode("latin-1"), ran.returncode


def main():
    failed = 0
    for name, ((lines, wanted), memory) in SESSIONS.items():
        replies, errors, status = play(lines, memory)
        if replies != wanted or errors or status:
            failed += 1
            at = next((at for at, pair in enumerate(zip(replies, wanted)) if pair[0] != pair[1]), min(len(replies), len(wanted)))
            print(f"failed: {name} (status {status}): reply {at} is {replies[at:at + 1]}, wanted {wanted[at:at + 1]} {errors}")
    print(f"{len(SESSIONS) - failed} passed, {failed} failed")
    return failed > 0


if __name__ == "__main__":
    sys.exit(main())
