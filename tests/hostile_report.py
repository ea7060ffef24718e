#!/usr/bin/env python3
"""Hands in reports that are made to be slow to check, and bounds the steps of the check by a count.

usage: tests/hostile_report.py PLAYER SHIM

The base of a task is 15 of the 16 copies of a piece. Its other atoms are the guards of changes, which leave placements out, and
there can be many thousands of them. The report's tree has up to 4,096 nodes, which are all Branches. While a report is checked,
its desk is locked. A check that reads all atoms for each member of the base at each node, or even for each item of each member,
takes 10^9 to 10^10 steps. There are three kinds of trees:

- open: each arm takes a free cell, which is open.
- members: arms take members of the base again. Each of them is left out for the arms that follow. After that, some members of
  the base are ruled out and others are not.
- in conflict: arms also take cells of a member. That member and what takes its cell are both ruled out then.

So what a `hand_in` takes for nodes and atoms together is counted. With tests/count_steps.c, the SHIM, the player tells how many
instructions it takes: say s(n, a) for n nodes and a atoms. In

    s(n + m, a + b) - s(n + m, a) - s(n, a + b) + s(n, a)

all steps that are taken once, or for each node, or for each atom cancel each other. A step that is taken for each node and each
atom is left m * b times. To read an atom takes two steps at least. So the difference is below m * b / 4 only if fewer than one
node in eight reads all atoms. By this measure, 4,096 nodes and 20,000 atoms together cost at most 2 * 10^7 steps. The count
doesn't depend on how busy the machine is. The C library takes up to some 5,000 steps more or fewer to find free memory, so m * b
has to be much more than that.

A tree of over 3,600 nodes is also handed in for over 19,000 atoms, without a count, to compare the answers.

That the trees hold is seen by hand. Once a cell of the last row is taken, no row is left for the 16th copy of A. So at most 15
placements of A are not ruled out, and a Branch on A without arms holds. With members as its arms it holds, too, since neither
taking a member again nor leaving it out makes room for another row. Once a cell of a member is taken, the placements of A that
are not ruled out are at most the other 14 members and the last row, so again a Branch on A without arms holds. A Branch on C or
D holds, since its arms take all free cells, and no other cell can be taken. If C has its one copy, a Branch on C doesn't hold
without arms.

Standard output ends with a line `N passed, M failed`, which counts comparisons.
"""
import fnmatch
import json
import os
import subprocess
import sys
import tempfile

# How many rows the board has. One copy of A fills a row.
ROWS = 16
# How wide the board is if steps are counted, and in how many rounds all dominoes are then left out.
WIDTH = 5
ROUNDS = (1, 7)
# A hand_in that takes more steps than this is cut off. Each should take less than half of them.
MOST = 6000000
# With these settings of the C library, a long copy takes the same steps on each processor.
PLAIN_COPIES = "glibc.cpu.x86_rep_movsb_threshold=1000000000:glibc.cpu.x86_rep_stosb_threshold=1000000000"
# What holds below a cell of the last row, what doesn't, and the answer to a report that holds.
LEAF = "branch A end"
WRONG_LEAF = "branch C end"
APPLIED = "applied * listed 0 opened 0 first *"


class Fault(Exception):
    """What is wrong."""


def puzzle(width):
    """A board of 16 rows. A fills a row, and C, D and E are single cells."""
    pieces = [{"name": "A", "cells": [[x, 0] for x in range(width)], "least": ROWS, "most": ROWS}]
    pieces += [{"name": name, "cells": [[0, 0]], "least": 1, "most": 1} for name in "CDE"]
    return json.dumps({"format": 2, "grid": "square", "board": ["+" * width] * ROWS, "pieces": pieces})


def row(y, width):
    return "A=" + "/".join(f"{x},{y}" for x in range(width))


def cells(y, width):
    return [f"{x},{y}" for x in range(width)]


def tree(names, places, leaf=LEAF):
    """A tree as deep as there are names: each Branch takes the places in turn for the next name, but none twice."""
    if not names:
        return leaf
    arms = [f"{names[0]}={cell} {tree(names[1:], [other for other in places if other != cell], leaf)}" for cell in places]
    return f"branch {names[0]} {' '.join(arms)} end"


def members_again(width):
    """A Branch on A whose arms take the members of the base again."""
    return f"branch A {' '.join(f'{row(y, width)} {LEAF}' for y in range(ROWS - 1))} end"


def kinds(width):
    """For each kind of tree, its name, a small tree and a tree with more nodes of that kind."""
    free = cells(ROWS - 1, width)
    taken = cells(0, width)
    yield "open", tree("C", free), tree("CDE", free)
    yield "members", tree("C", free), tree("C", free, members_again(width))
    yield "in conflict", tree("C", free + taken), tree("CD", free + taken)


def script(width, rounds, trees):
    """A task whose base is 15 copies of A, and whose other atoms leave out all dominoes, once for each round. Then reports with
    these trees on the task. Before them a report on another task is handed in, so that what serves all checks is there."""
    yield puzzle(width)
    yield f"report base 1 0 {' '.join(f'split {row(y, width)}' for y in range(ROWS - 1))}{' rest' * ROWS}"
    yield "hand_in base"
    for made in range(rounds):
        if made > 0:
            yield "drop F"
        yield "add F optional on 0,0 1,0"
    edition = 2 * rounds - 1
    yield f"report other 3 {edition} rest"
    yield "hand_in other"
    for text in trees:
        yield f"report hostile 2 {edition} {text}"
        yield "hand_in hostile"


def play(player, lines, environment):
    """Plays the lines, and returns the lines that are printed."""
    text = "".join(line + "\n" for line in lines)
    try:
        done = subprocess.run(
            [player], input=text.encode(), capture_output=True, timeout=300, check=False, env={**os.environ, **environment}
        )
    except subprocess.TimeoutExpired as late:
        raise Fault("took over five minutes") from late
    return done.stdout.decode("utf-8", "replace").split("\n")[:-1]


def expect(line, wanted):
    if not fnmatch.fnmatchcase(line, wanted):
        raise Fault(f"printed '{line[:200]}' in place of '{wanted}'")


def steps(player, shim, rounds, text):
    """How many steps the `hand_in` of this tree takes."""
    with tempfile.TemporaryDirectory() as room:
        log = os.path.join(room, "log")
        counting = {"LD_PRELOAD": shim, "FROM": "report on 2 ", "MOST": str(MOST), "LOG": log, "GLIBC_TUNABLES": PLAIN_COPIES}
        printed = play(player, script(WIDTH, rounds, [text]), counting)
        if not os.path.exists(log):
            raise Fault(f"no steps were counted, and the last line is {printed[-1:]}")
        with open(log, encoding="ascii") as file:
            logged = file.read().strip()
    if logged == "over":
        raise Fault(f"a hand_in takes over {MOST} steps")
    expect(printed[-1], APPLIED)
    if int(logged) < text.count("branch"):
        raise Fault(f"only {logged} steps were counted")
    return int(logged)


def growth(player, shim):
    """Compares what nodes and atoms take together with their numbers, for each kind of tree."""
    atoms = (ROUNDS[1] - ROUNDS[0]) * (ROWS * (WIDTH - 1) + (ROWS - 1) * WIDTH)
    for kind, *trees in kinds(WIDTH):
        nodes = trees[1].count("branch") - trees[0].count("branch")
        few, many = ([steps(player, shim, rounds, text) for rounds in ROUNDS] for text in trees)
        both = many[1] - many[0] - few[1] + few[0]
        print(f"{kind}: {few} and {many} steps, {both} for {nodes} nodes and {atoms} atoms together", file=sys.stderr)
        if 4 * both >= nodes * atoms:
            raise Fault(f"{kind}: a hand_in takes {both} steps for {nodes} nodes and {atoms} atoms together")


def answers(player, _):
    """Compares the answers to a large report: with a last leaf that doesn't hold, as it holds, and once more."""
    right = tree("CDE", cells(ROWS - 1, 16))
    before, _, after = right.rpartition(LEAF)
    printed = play(player, script(16, 40, [before + WRONG_LEAF + after, right, right]), {})
    for line, wanted in zip(printed[-5::2], ("no 24 DoesNotHold", APPLIED, "no 23 Gone")):
        expect(line, wanted)


def main():
    player, shim = (os.path.abspath(path) for path in sys.argv[1:3])
    passed = failed = 0
    for compare in (growth, answers):
        try:
            compare(player, shim)
            passed += 1
        except Fault as fault:
            failed += 1
            print(f"failed: {compare.__name__}: {fault}")
    print(f"{passed} passed, {failed} failed")
    return 1 if failed else 0


if __name__ == "__main__":
    sys.exit(main())
