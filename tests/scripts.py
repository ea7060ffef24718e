#!/usr/bin/env python3
"""Plays random scripts of events with the player of docs/PLAYER.md, and has tests/judge.py judge what it answers.

usage: tests/scripts.py [SCRIPTS [SEED]]

A script has a small puzzle, 60 events and a few questions. The events are edits, undos, redos, settles of a few turns, and
reports. Reports are explored, or built by hand, rightly or wrongly, and they are handed in at once, late, repeatedly, for
ended tasks or for unknown ones. The scripts grow in rounds: after each round the player says what is pending, so that the
next events can be about that.

A script that fails is printed; `tests/judge.py` judges it again from a file. All scripts together have to have an event of
each kind of KINDS, of which a few scripts may miss some. Standard output ends with a line `N passed, M failed`, which counts
scripts, and the kinds as one more. The environment variable `player` names another player than that of the crates.
"""
import collections
import copy
import json
import os
import random
import sys

import judge
from definitions import Family, View, items_of, text_of_placement
from reference import Refused, Session

HERE = os.path.dirname(os.path.abspath(__file__))
PLAYER = os.environ.get("player") or os.path.join(HERE, "..", "crates", "poly_play", "out", "poly_play")
# How many rounds a script grows, and how many events each of them adds.
ROUNDS, EVENTS = 10, 6
# How many tilings a design has at most.
MOST = 150
# How many scripts the player plays at once while they grow.
BATCH = 50

# The kinds of events, as the judge calls them.
KINDS = ["edit", "undo", "redo", "refused edit", "refused undo", "refused redo", "settle", "settle that is unfinished"]
KINDS += [f"{late}report that is {origin}" for late in ("", "late ") for origin in ("explored", "written")]
KINDS += ["report again", "report on an ended task", "report on no task"]
KINDS += ["report with too many nodes", "report that is too deep"]
KINDS += [f"report with an arm {fault}" for fault in ("missing", "twice", "beside the item")]
KINDS += ["report with Found where placements are open"]

BOARDS = [(2, 2), (3, 2), (2, 3), (4, 2), (3, 3), (5, 1)]
SHAPES = [
    [(0, 0)],
    [(0, 0), (1, 0)],
    [(0, 0), (1, 0)],
    [(0, 0), (1, 0), (2, 0)],
    [(0, 0), (1, 0), (0, 1)],
    [(1, 0), (0, 1), (1, 1), (0, 2)],
]
NAMES = ["A", "B", "C", "Zed_9"]
# Numbers that name no placement, or not yet.
NO_PLACEMENTS = ["4294967295", "1000000", "40", "25"]


def puzzle(dice):
    """Returns a puzzle line of either format."""
    width, height = dice.choice(BOARDS)
    board = ["".join(dice.choice("###+++.") for _ in range(width)) for _ in range(height)]
    form, pieces = dice.choice([1, 2]), []
    for name in NAMES[: dice.randint(1, 3)]:
        piece = {"name": name, "cells": dice.choice(SHAPES), "mirror": dice.random() < 0.7}
        if form == 1:
            piece["need"] = dice.choice(["required", "optional", "optional"])
        else:
            piece["least"] = dice.choice([0, 0, 1])
            piece["most"] = dice.randint(piece["least"], 3)
        pieces.append(piece)
    return json.dumps({"format": form, "grid": dice.choice(["square", "hex"]), "board": board, "pieces": pieces})


class Script:
    """A script that grows: its lines, its design, and what is known of its tasks."""

    def __init__(self, dice):
        self.dice = dice
        self.lines, self.session = [], None
        while self.session is None or not 2 <= len(self.session.design.tilings(MOST + 1)) <= MOST:
            self.lines = [puzzle(dice)]
            self.session = Session(self.lines[0].encode())
        self.tasks, self.seen = {}, {1}
        self.reports, self.waiting, self.dead = [], [], set()

    def grow(self, tasks):
        """Appends a round of events. `tasks` has the atoms of each task that is pending by now."""
        self.tasks = tasks
        self.seen |= set(tasks)
        for _ in range(EVENTS):
            kinds = [self.change, self.explore, self.repeat, self.build, self.settle]
            self.dice.choices(kinds, [26, 30, 6, 20, 2])[0]()
            if self.dice.random() < 0.1:
                self.ask()

    def ask(self):
        """Appends a question about atoms, which needn't be those of a task, and one about the guards of an edit."""
        items = [*self.session.design.pieces, *(f"{x},{y}" for x, y in self.session.design.cells), "9,9"]
        places = (texts(self.session.design) + sorted(self.dead)) or ["1000000"]
        atoms = []
        for _ in range(self.dice.randint(0, 4)):
            atoms.append(f"{self.dice.choice(['has', 'lacks'])} {self.dice.choice(places)}")
            atoms.append(f"least {self.dice.choice(items)} {self.dice.randint(1, 3)}")
            atoms.append(f"most {self.dice.choice(items)} {self.dice.randint(0, 2)}")
        report = self.dice.choice(self.reports[-4:] or ["none"])
        verb = self.dice.choice(["search", "hopeless", f"holds {report}", f"cut {report}", f"cut {report}"])
        self.lines.append(" ".join([verb, *self.dice.sample(atoms, len(atoms) // 2)]))
        self.lines.append(f"guards {edit(self.dice, self.session.design)}")

    def change(self):
        """Appends a change, which is mostly one that leaves a few tilings, and never one that leaves too many."""
        for _ in range(4):
            line = self.dice.choices(["undo", "redo", edit(self.dice, self.session.design)], [5, 2, 14])[0]
            later = after(self.session, line)
            count = len(later.design.tilings(MOST + 1)) if later else 0
            if 3 <= count <= MOST or count <= MOST and self.dice.random() < 0.2:
                break
        else:
            line, later = "undo", after(self.session, "undo")
        self.lines.append(line)
        if later:
            self.dead = (self.dead | set(texts(self.session.design))) - set(texts(later.design))
            self.session = later

    def next_report(self):
        self.reports.append(f"r{len(self.reports)}")
        return self.reports[-1]

    def hand_in(self, report, task, late):
        """Hands in the report, or, with the chance `late`, keeps it for later and hands in an earlier one."""
        if self.dice.random() < late:
            self.waiting.append((report, task))
            return self.repeat()
        self.lines.append(f"hand_in {report}")

    def repeat(self):
        """Hands in a report that waits for that, or again one that was handed in earlier."""
        if not self.reports:
            return self.change()
        if self.waiting and self.dice.random() < 0.7:
            report, _ = self.waiting.pop(self.dice.randrange(len(self.waiting)))
        else:
            report = self.dice.choice(self.reports[-8:])
        self.lines.append(f"hand_in {report}")

    def explore(self):
        """Explores a pending task, if possible one that no report waits for, so that waiting reports come late."""
        tasks = sorted(set(self.tasks) - {task for _, task in self.waiting}) or sorted(self.tasks)
        if not tasks:
            return self.change()
        task, report = self.dice.choice(tasks), self.next_report()
        self.lines += [f"take j {task}", f"explore j {report} {self.dice.choice([1, 1, 1, 2, 3])}"]
        del self.tasks[task]
        self.hand_in(report, task, 0.6)

    def settle(self):
        turns = self.dice.choice([0, 1, 1, 2, 3, 1000])
        self.lines.append(f"settle {turns} {self.dice.choice([1, 2, 16])}")

    def build(self):
        """Hands in a report that is built by hand."""
        if not self.tasks and self.dice.random() < 0.7:
            return self.change()
        pending, ended = sorted(self.tasks), sorted(self.seen - set(self.tasks))
        unknown = [0, max(self.seen) + self.dice.randint(1, 9), 4294967295]
        task = self.dice.choice(self.dice.choices([pending, ended, unknown], [8, 1, 1])[0] or [1])
        edition, report = self.dice.randint(0, self.session.edition + 1), self.next_report()
        tree = " ".join(Builder(self, self.tasks.get(task, ())).root())
        self.lines.append(f"report {report} {task} {edition} {tree}")
        self.hand_in(report, task, 0.2)


def after(session, line):
    """Returns the session after the change, or None if it is refused."""
    later = copy.copy(session)
    later.undos, later.redos = list(session.undos), list(session.redos)
    try:
        later.reply(line.encode().split())
    except Refused:
        return None
    return later


def texts(design):
    return [text_of_placement(placement) for placement in design.placements()]


def words_of(name, cells):
    return " ".join([name, *(f"{x},{y}" for x, y in cells)])


def edit(dice, design):
    """Returns an edit, which mostly isn't refused."""
    pieces = sorted(design.pieces.items())
    places = [words_of(*placement) for placement in design.placements()] or ["A 0,0"]
    pinned = [name for name, piece in pieces if piece[4]] or NAMES
    forbidden = [words_of(name, cells) for name, piece in pieces for cells in sorted(piece[5])] or places
    name, shape = dice.choice(NAMES), dice.choice(SHAPES)
    switch, need = dice.choice(["on", "off"]), dice.choice(["required", "optional"])
    cell = f"{dice.randint(0, 3)},{dice.randint(0, 2)}"
    return dice.choice(
        [f"cell {cell} {mode}" for mode in ("required", "optional", "blocked", "blocked")]
        + [words_of(f"add {name} {need} {switch}", shape), f"drop {name}", f"need {name} {need}", f"mirror {name} {switch}"]
        + [f"copies {name} {dice.randint(0, 1)} {dice.randint(0, 3)}", f"unpin {dice.choice(pinned)}"]
        + [f"pin {dice.choice(places)}", f"forbid {dice.choice(places)}", f"forbid {dice.choice(places)}"]
        + [f"allow {dice.choice(forbidden)}"]
    )


class Builder:
    """Builds the words of a tree that may hold for a task, or may be wrong in one of many ways."""

    def __init__(self, script, atoms):
        self.dice = script.dice
        self.places = texts(script.session.design) or NO_PLACEMENTS
        self.items = [f"{x},{y}" for x, y in script.session.design.cells] + list(script.session.design.pieces) + ["9,9"]
        self.strange = sorted(script.dead) + NO_PLACEMENTS
        self.family = Family(View(script.session.design), atoms)

    def root(self):
        kind = self.dice.random()
        if kind < 0.03:
            return self.deep()
        if kind < 0.05:
            return self.wide()
        return self.chain() if kind < 0.1 else self.tree(2)

    def tree(self, depth):
        if depth == 0:
            return [self.dice.choice(["rest", "rest", "rest", "found"])]
        kind = self.dice.random()
        if kind < 0.65:
            return self.branch(depth)
        if kind < 0.8:
            return self.split(depth)
        return [self.dice.choice(["rest", "found"])]

    def any_placement(self):
        return self.dice.choice(self.strange if self.dice.random() < 0.3 else self.places)

    def split(self, depth):
        return ["split", self.any_placement(), *self.tree(depth - 1), *self.tree(depth - 1)]

    def branch(self, depth):
        """A Branch with all the arms that it needs; or with an arm missing, doubled, dead, or on another item."""
        item = self.dice.choice(self.items)
        arms = [p for p in self.places if item in items_of(p)]
        if self.dice.random() < 0.5:
            arms = [p for p in arms if not self.family.is_ruled_out(p)]
        fault = self.dice.random()
        if fault < 0.15 and arms:
            arms.remove(self.dice.choice(arms))
        elif fault < 0.25 and arms:
            arms.append(self.dice.choice(arms))
        elif fault < 0.35:
            arms.append(self.any_placement())
        elif fault < 0.5:
            arms += [p for p in self.strange if item in items_of(p)][:2]
        if self.dice.random() < 0.3:
            self.dice.shuffle(arms)
        words = ["branch", item]
        for arm in arms:
            words += [arm, *self.tree(depth - 1 if self.dice.random() < 0.3 else 0)]
        return [*words, "end"]

    def chain(self):
        """A Split on each placement, from which so many tasks come that later changes may keep no shelf."""
        places = self.dice.sample(self.places, len(self.places))
        return [word for placement in places for word in ("split", placement, "rest")] + ["rest"]

    def deep(self):
        """A chain of Splits that is as deep as allowed, or a little deeper. Below the first Split its placement is dead."""
        return ["split", self.any_placement(), "rest"] * self.dice.choice([511, 512, 513]) + ["rest"]

    def wide(self):
        """A tree with about as many nodes as allowed; if the placement is dead, the Branch isn't looked at."""
        arms = ["0", "rest"] * self.dice.choice([4093, 4094])
        return ["split", self.dice.choice(self.strange), "branch", self.items[0], *arms, "end", "rest"]


def pending_in(scripts):
    """Returns for each script the atoms of its pending tasks, by their numbers."""
    lines = [line for script in scripts for line in (*script.lines, "pending", "numbers")]
    try:
        asked = [answer for line, answer in judge.answers(lines, judge.play(PLAYER, lines)) if line == "pending"]
    except judge.Fault:
        return [{} for _ in scripts]  # which script is to blame shows when they are judged one by one
    return [judge.tasks_of(answer) for answer in asked]


def grown(numbers, seed):
    """Returns the scripts with these numbers."""
    scripts = [Script(random.Random(f"{seed} {number}")) for number in numbers]
    for _ in range(ROUNDS):
        for script, tasks in zip(scripts, pending_in(scripts)):
            script.grow(tasks)
    return [[*script.lines, "settle 100000 64", "quiet q", "list q"] for script in scripts]


def main():
    count = int(sys.argv[1]) if len(sys.argv) > 1 else 300
    seed = int(sys.argv[2]) if len(sys.argv) > 2 else 1
    failed, kinds = 0, collections.Counter()
    for start in range(0, count, BATCH):
        numbers = range(start, min(start + BATCH, count))
        for number, script in zip(numbers, grown(numbers, seed)):
            try:
                fault = judge.fault_of(PLAYER, script, kinds)
            except judge.Skipped as why:
                fault = why
            if fault:
                failed += 1
                print(f"failed: script {number} of seed {seed}: {fault}", *script, sep="\n")
    missing = [kind for kind in KINDS if not kinds[kind]]
    if missing:
        failed += 1
        print(f"failed: no script has one of these events: {', '.join(missing)}")
    print(f"{count + 1 - failed} passed, {failed} failed")
    return 1 if failed else 0


if __name__ == "__main__":
    sys.exit(main())
