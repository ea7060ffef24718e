#!/usr/bin/env python3
"""Judges what the player of docs/PLAYER.md answers to events of a book, by the definitions alone.

usage: tests/judge.py PLAYER SCRIPT..

A SCRIPT has lines of the player, or is a case as in tests/cases. Its events are played, each followed by questions
about the book's state, and those of its questions that the judge knows. The answers have to be those of docs/DEFINITIONS.md
("Event", "Partition", "A tree that holds") for the design as tests/reference.py has it: each tiling is listed once, or meets
the atoms of exactly one pending task; a change keeps the listed tilings that are still tilings; a report is taken up exactly
if its task is pending and its tree fits and holds. A script that the judge can't judge is skipped.

Standard output says what was skipped and ends with a line `N passed, M failed`, which counts the scripts that were judged.
"""
import collections
import copy
import os
import re
import subprocess
import sys
import tempfile

from definitions import MAX_NODES, Family, TooLarge, View
from definitions import atoms_of, children, fits, guards, is_hopeless, items_of, leaves, size_of, stairs, tree_of
from reference import HISTORY, Refused, Session, refusal

MAX_SHELF = 4096
# A script with more lines is skipped.
MAX_LINES = 2000
EDITS = ("add", "drop", "need", "copies", "mirror", "cell", "pin", "unpin", "forbid", "allow")
CHANGES = (*EDITS, "undo", "redo")
EVENTS = (*CHANGES, "hand_in", "settle")
QUESTIONS = ("holds", "cut", "search", "hopeless", "guards", "bounds", "places", "pins")
PLAYED = (*EVENTS, "take", "explore", "report", "quiet", "list", *QUESTIONS)
# How each line of an answer begins that has any number of lines. The last two may be a refusal instead.
STARTS = {"pending": ("task ",), "listed": ("tiling ",), "list": ("tiling ",)}
STARTS.update({"cut": ("tiling ", "rest"), "guards": ("guards", "stair ", "back")})


class Fault(Exception):
    """Something that the player should not have answered; its argument says what."""


class Skipped(Exception):
    """A script that can't be judged; its argument says why."""


def demand(wanted, told):
    if wanted != told:
        raise Fault(f"answered '{str(told)[:300]}' in place of '{str(wanted)[:300]}'")


def is_same(wanted, told):
    """Says whether two lists of atoms are the same. A placement that had only a number may have a name by now."""
    return len(wanted) == len(told) and all(
        w == t or w[0] == t[0] and w[0] in ("has", "lacks") and w[1].isdigit() for w, t in zip(wanted, told)
    )


def tasks_of(answer):
    """Returns the atoms of each task that is told, by its number."""
    parts = [line.partition(":") for line in answer]
    return {int(head.split()[1]): atoms_of(atoms) for head, _, atoms in parts}


def wrong_in(view, atoms, tree):
    """Returns what is wrong in a tree that doesn't hold for the atoms, or None if it holds."""
    if tree[0] == "rest":
        return None
    family = Family(view, atoms)
    if tree[0] == "found":
        return "Found where placements are open" if family.count_open() else None
    if tree[0] == "branch":
        arms = [placement for placement, _ in tree[2]]
        if len(set(arms)) < len(arms):
            return "an arm twice"
        if not all(tree[1] in items_of(placement) for placement in arms):
            return "an arm beside the item"
        if not family.can_branch(tree[1], arms):
            return "an arm missing"
    for placement, more, child in children(tree):
        wrong = None if placement is not None and family.is_dead(placement) else wrong_in(view, atoms + more, child)
        if wrong:
            return wrong
    return None


class State:
    """The listed tilings, the atoms of each pending task by its number, and the number of endings."""

    def __init__(self, listed, tasks, endings):
        self.listed, self.tasks, self.endings = listed, tasks, endings


class Wanted:
    """What an event should lead to: the listed tilings, the tasks that stay, the atoms of new tasks, the number of endings,
    and whether nothing may be pending. What is None can be anything that makes a partition."""

    def __init__(self, listed, tasks, opened, endings, is_quiet=False):
        self.listed, self.tasks, self.opened, self.endings, self.is_quiet = listed, tasks, opened, endings, is_quiet


class Report:
    """A report's task, its edition, the words of its tree, the book in which it was explored, if it was, and whether it was
    taken up."""

    def __init__(self, task, edition, words=None, book=None):
        self.task, self.edition, self.words, self.book, self.is_used = task, edition, words, book, False


class Judge:
    """Hears the lines of a script with their answers, and raises a Fault at a wrong one. Counts the events of each kind."""

    def __init__(self, kinds):
        self.books, self.kinds = 0, kinds
        # What the script keeps, by its names: the reports, what was taken, and the views of lists of all tilings.
        self.reports, self.jobs, self.quiets = {}, {}, {}

    def hear(self, line, answer):
        """Judges the answer, a list of lines."""
        if line.startswith("{"):
            return self.begin(line, answer)
        verb, *words = line.split()
        if verb in CHANGES:
            return self.change(verb, line, answer[0])
        return getattr(self, "hear_" + verb)(words, answer)

    def begin(self, line, answer):
        self.session = opened(line)
        demand(["ok 0"], answer)
        self.books += 1
        self.views = {}
        self.undo_shelves, self.redo_shelves, self.are_shelves_kept = [], [], True
        # How many atoms of a task are its own, for each task that was ever pending.
        self.own = {}
        self.next = 1
        self.state, self.wanted = State([], {}, 0), Wanted([], {}, [[]], 0)

    def view(self):
        """Returns the view of the present design."""
        design = self.session.design
        if id(design) not in self.views:
            self.views[id(design)] = design, View(design)
        return self.views[id(design)][1]

    # Changes

    def change(self, verb, line, answer):
        old, kind = self.view(), "edit" if verb in EDITS else verb
        try:
            self.session.reply(line.encode().split())
        except Refused as refused:
            self.kinds[f"refused {kind}"] += 1
            return self.refuse(refused.args[0], answer)
        self.kinds[kind] += 1
        new = self.view()
        shelf = self.exchange_shelves(verb, self.shelf_of(old, new))
        is_kept = kind == "edit" or shelf is not None
        self.are_shelves_kept = self.are_shelves_kept and is_kept
        shelved = " shelved" if is_kept else ""
        demand(f"done {self.session.edition} {kind} pending {len(self.state.tasks)}{shelved}", answer)
        self.want_change(guards(old, new), new, shelf)

    def shelf_of(self, old, new):
        """Returns the shelf that a change stores: the tilings that it takes away, and the atoms of each pending task."""
        if len(self.state.tasks) * len(guards(new, old)) > MAX_SHELF:
            return None
        return [t for t in self.state.listed if t not in new.index], list(self.state.tasks.values())

    def exchange_shelves(self, verb, shelf):
        """Stores the shelf of a change, and returns the one that was stored for it."""
        if verb == "undo":
            self.redo_shelves.append(shelf)
            return self.undo_shelves.pop()
        stored = self.redo_shelves.pop() if verb == "redo" else None
        if verb != "redo":
            self.redo_shelves = []
        self.undo_shelves = (self.undo_shelves + [shelf])[-HISTORY:]
        return stored

    def want_change(self, atoms, new, shelf):
        taken, frozen = shelf or ([], [[]])
        kept = [tiling for tiling in self.state.listed if tiling in new.index]
        ended = {n for n, task in self.state.tasks.items() if is_hopeless(new, task[: self.own[n]])}
        tasks = {n: task + atoms for n, task in self.state.tasks.items() if n not in ended}
        opened = [task + stair for task in frozen for stair in stairs(atoms)]
        opened = [task for task in opened if not is_hopeless(new, task)]
        # Which placement a number of a frozen list names by now isn't known, so it isn't known either what is hopeless.
        if any(atom[1].isdigit() for task in frozen for atom in task if atom[0] == "lacks"):
            opened = None
        is_quiet = not frozen and self.are_shelves_kept
        self.wanted = Wanted(kept + taken, tasks, opened, self.state.endings + len(ended), is_quiet)

    def refuse(self, number, answer):
        """The event has to be refused with the number, and changes nothing."""
        demand(refusal(number), answer)
        self.wanted = Wanted(self.state.listed, self.state.tasks, [], self.state.endings)

    # Reports

    def hear_take(self, words, answer):
        tasks = self.state.tasks
        told = re.fullmatch(r"task (\d+) edition (\d+):(.*)", answer[0])
        number = int(words[1]) if len(words) > 1 else None
        if told is None:
            demand("task -", answer[0])
            if tasks and (number is None or number in tasks):
                raise Fault("no task was given, but one is pending")
            return
        demand((self.session.edition, True), (int(told[2]), number in (None, int(told[1]))))
        demand(tasks.get(int(told[1])), atoms_of(told[3]))
        self.jobs[words[0]] = int(told[1]), self.session.edition, self.view(), tasks[int(told[1])], self.books

    def hear_explore(self, words, answer):
        if words[0] not in self.jobs:
            return demand(["no 19 BadCommand"], answer)
        task, edition, view, atoms, book = self.jobs[words[0]]
        demand([f"report on {task} edition {edition}"], answer)
        self.reports[words[1]] = Report(task, edition, book=book)
        self.explored = view, atoms, int(words[2])

    def hear_report(self, words, answer):
        if answer == ["no 14 NotAPlacement"]:
            raise Skipped("a report has a placement without a number")
        demand([f"report on {words[1]} edition {words[2]}"], answer)
        self.reports[words[0]] = Report(int(words[1]), int(words[2]), words[3:])

    def hear_show(self, words, answer):
        """A tree is shown as it was written or first shown, except that a placement may have got a name."""
        if words[0] not in self.reports:
            return demand(["no 19 BadCommand"], answer)
        report, told = self.reports[words[0]], answer[0].split()[1:]
        self.tree = tree_of(iter(told))
        if report.words is None:
            self.judge_explored(*self.explored)
        elif len(report.words) != len(told) or any(w != t and not w.isdigit() for w, t in zip(report.words, told)):
            raise Fault("another tree is shown")
        report.words = told

    def judge_explored(self, view, atoms, nodes):
        """What `explore` made has to fit and hold, and each of its rests has fewer open placements than the atoms."""
        parts = leaves(view, atoms, self.tree) if fits(self.tree) else None
        if parts is None:
            raise Fault("a tree was explored that doesn't hold")
        if self.tree[0] == "rest" or size_of(self.tree)[1] > nodes:
            raise Fault("a tree was explored that is Rest, or has too many nodes")
        before = Family(view, atoms).count_open()
        if any(Family(view, rest).count_open() >= before for rest in parts[1]):
            raise Fault("a tree was explored whose rest has as many open placements as its task")

    def hear_hand_in(self, words, answer):
        if words[0] not in self.reports:
            return self.refuse(19, answer[0])
        report = self.reports[words[0]]
        self.kinds[self.kind_of(report)] += 1
        if report.task not in self.state.tasks:
            return self.refuse(23, answer[0])
        if not fits(self.tree):
            return self.refuse(25, answer[0])
        parts = leaves(self.view(), self.state.tasks[report.task], self.tree)
        if report.book == self.books and (parts is None or answer[0].startswith("no 24")):
            raise Fault("an honest report doesn't hold")
        if parts is None:
            return self.refuse(24, answer[0])
        self.want_report(report, *parts, answer[0])

    def kind_of(self, report):
        """Returns what kind of event it is to hand in the report."""
        if report.task not in self.state.tasks:
            if report.is_used:
                return "report again"
            return "report on an ended task" if report.task in self.own else "report on no task"
        if not fits(self.tree):
            return "report with too many nodes" if size_of(self.tree)[0] > MAX_NODES else "report that is too deep"
        wrong = wrong_in(self.view(), self.state.tasks[report.task], self.tree)
        if wrong:
            return f"report with {wrong}"
        late = "late " if report.edition < self.session.edition else ""
        return f"{late}report that is {'written' if report.book is None else 'explored'}"

    def want_report(self, report, tilings, rests, answer):
        opened = [rest for rest in rests if not is_hopeless(self.view(), rest)]
        told = re.fullmatch(r"applied (\d+) listed (\d+) opened (\d+) first (\d+)( late)?", answer)
        if told is None:
            raise Fault(f"a report that holds was answered '{answer}'")
        late = " late" if report.edition < self.session.edition else None
        wanted = (self.state.endings + 1, len(tilings), len(opened), late)
        demand(wanted, (int(told[1]), int(told[2]), int(told[3]), told[5]))
        report.is_used = True
        self.expect_next(int(told[4]))
        tasks = {n: atoms for n, atoms in self.state.tasks.items() if n != report.task}
        self.wanted = Wanted(self.state.listed + tilings, tasks, opened, self.state.endings + 1)

    def expect_next(self, number):
        """The number of the next task is known unless a settle has opened tasks; then it has to be a new one."""
        if self.next is None and number <= max(self.own, default=0) or self.next not in (None, number):
            raise Fault(f"the next task has the number {number}, not {self.next or 'a new one'}")
        self.next = number

    # Settling, and lists of all tilings

    def hear_settle(self, words, answer):
        self.next = None
        told = re.fullmatch(r"settled by (\d+)", answer[0])
        if told is None:
            demand("no 21 Unfinished", answer[0])
            self.kinds["settle that is unfinished"] += 1
            self.wanted = Wanted(None, None, None, self.state.endings + int(words[0]))
        else:
            self.kinds["settle"] += 1
            self.wanted = Wanted(self.view().tilings, {}, [], self.state.endings + int(told[1]), True)

    def hear_quiet(self, words, answer):
        if self.state.tasks:
            return demand([f"no 29 Busy pending {len(self.state.tasks)}"], answer)
        demand([f"quiet edition {self.session.edition} tilings {len(self.view().tilings)}"], answer)
        self.quiets[words[0]] = self.view()

    def hear_list(self, words, answer):
        """The tilings have to come in order; how the placements of each are ordered depends on their numbers."""
        if words[0] not in self.quiets:
            raise Skipped("it lists what it doesn't keep")
        if [frozenset(line.split()[1:]) - {"-"} for line in answer] != self.quiets[words[0]].tilings:
            raise Fault("the list has other tilings, or is not in order")

    # Questions

    def parts_of(self, words):
        """Returns the leaves of the report's tree for the atoms that the words say, or the number of a refusal."""
        if words[0] not in self.reports:
            return 19
        if not fits(self.tree):
            return 25
        return leaves(self.view(), atoms_of(" ".join(words[1:])), self.tree) or 24

    def hear_holds(self, words, answer):
        parts = self.parts_of(words)
        if parts in (19, 25):
            return demand(refusal(parts), answer[0])
        demand("holds no" if parts == 24 else "holds yes", answer[0])

    def hear_cut(self, words, answer):
        parts = self.parts_of(words)
        if isinstance(parts, int):
            return demand([refusal(parts)], answer)
        tilings = [frozenset(line.split()[1:]) - {"-"} for line in answer if line.startswith("tiling")]
        demand(parts, (tilings, [atoms_of(line[4:]) for line in answer if line.startswith("rest")]))

    def hear_search(self, words, answer):
        demand(f"found {bin(self.view().family(atoms_of(' '.join(words)))).count('1')}", answer[0])

    def hear_hopeless(self, words, answer):
        hopeless = is_hopeless(self.view(), atoms_of(" ".join(words)))
        demand(f"hopeless {'yes' if hopeless else 'no'}", answer[0])

    def hear_guards(self, words, answer):
        if words[0] not in EDITS:
            return demand(["no 19 BadCommand"], answer)
        later = copy.copy(self.session)
        try:
            later.reply(" ".join(words).encode().split())
        except Refused as refused:
            return demand([refusal(refused.args[0])], answer)
        old, new = self.view(), View(later.design)
        lists = [("guards", guards(old, new)), *(("stair", stair) for stair in stairs(guards(old, new)))]
        lists.append(("back", guards(new, old)))
        demand(lists, [(line.split()[0], atoms_of(line.partition(" ")[2])) for line in answer])

    def hear_places(self, words, answer):
        if words and "," not in words[0] and words[0] not in self.view().bounds:
            return demand(["no 9 NoSuchPiece"], answer)
        places = [p for p in self.view().places if not words or words[0] in items_of(p)]
        demand(" ".join([f"places {len(places)}", *(places or "-")]), answer[0])

    def hear_pins(self, words, answer):
        demand(" ".join(["pins", *(self.view().pins or "-")]), answer[0])

    def hear_bounds(self, words, answer):
        demand("bounds %d %d" % self.view().bounds_of(words[0]), answer[0])

    # The state after an event

    def hear_pending(self, words, answer):
        self.told = tasks_of(answer)
        demand([f"task {n} edition {self.session.edition}" for n in sorted(self.told)], [a.split(":")[0] for a in answer])

    def hear_listed(self, words, answer):
        self.listed = [frozenset(line.split()[1:]) - {"-"} for line in answer]

    def hear_numbers(self, words, answer):
        numbers = self.session.edition, self.wanted.endings, len(self.listed), len(self.told)
        demand(["edition %d endings %d listed %d pending %d" % numbers], answer)
        self.judge_partition()
        self.judge_listed()
        self.judge_tasks()
        self.state = State(self.listed, self.told, self.wanted.endings)

    def judge_partition(self):
        view, seen = self.view(), 0
        for tiling in self.listed:
            if tiling not in view.index:
                raise Fault(f"what is listed is no tiling: {' '.join(sorted(tiling))}")
            bit = 1 << view.index[tiling]
            if seen & bit:
                raise Fault(f"a tiling is listed twice: {' '.join(sorted(tiling))}")
            seen |= bit
        for number, atoms in self.told.items():
            family = view.family(atoms)
            if seen & family:
                raise Fault(f"task {number} has a tiling that is listed or has another task")
            seen |= family
        if seen != view.everything:
            missing = next(tiling for tiling, i in view.index.items() if not seen >> i & 1)
            raise Fault(f"a tiling is not listed and has no task: {' '.join(sorted(missing))}")

    def judge_listed(self):
        if any(tiling in self.view().index and tiling not in self.listed for tiling in self.state.listed):
            raise Fault("a tiling that was listed, and still is one, is not listed any more")
        if self.wanted.listed is not None and set(self.wanted.listed) != set(self.listed):
            raise Fault("other tilings are listed than the event lists")

    def judge_tasks(self):
        if self.wanted.is_quiet and self.told:
            raise Fault("tasks are pending where none may be")
        stay = self.state.tasks if self.wanted.tasks is None else self.wanted.tasks
        for number, atoms in stay.items():
            if number not in self.told and self.wanted.tasks is not None:
                raise Fault(f"task {number} is not pending any more")
            if not is_same(atoms, self.told.get(number, atoms)):
                raise Fault(f"task {number} has other atoms")
        fresh = {number: atoms for number, atoms in self.told.items() if number not in stay}
        self.judge_fresh(list(fresh), list(fresh.values()))
        self.own.update((number, len(atoms)) for number, atoms in fresh.items())

    def judge_fresh(self, numbers, lists):
        """Judges the numbers and the atoms of the tasks that the event opened."""
        if any(number in self.own for number in numbers):
            raise Fault("a new task has the number of an earlier one")
        if numbers and self.wanted.tasks is not None:
            self.expect_next(numbers[0])
            self.next += len(numbers)
            demand(list(range(numbers[0], self.next)), numbers)
        opened = self.wanted.opened
        if opened is not None and not (len(opened) == len(lists) and all(map(is_same, opened, lists))):
            raise Fault(f"the event opened {len(lists)} tasks, and should have opened {len(opened)}: {opened}")


def opened(line):
    """Returns the session that the puzzle line begins."""
    try:
        return Session(line.encode())
    except Refused:
        raise Skipped("a puzzle line is refused") from None


def items_in(script):
    """Returns the cells and the pieces that the designs of a script may have."""
    items = set()
    for line in script:
        if line.startswith("{"):
            design = opened(line).design
            items |= {f"{x},{y}" for x, y in design.cells} | set(design.pieces)
        else:
            items |= set(re.findall(r"^(?:cell|add) (\d,\d|[A-Za-z]\w{0,15}) ", line))
    return sorted(items)


def observed(script):
    """Returns the lines of a script, with questions about what each of them leads to."""
    lines, bounds = [], [f"bounds {item}" for item in items_in(script)]
    for line in script:
        verb, *words = line.split()
        if verb in ("hand_in", "holds", "cut"):
            lines.append(f"show {words[0]}")
        lines.append(line)
        if verb == "explore":
            lines.append(f"show {words[1]}")
        if verb in (*CHANGES, "cut", "guards"):  # what follows an answer of any number of lines may not look like one
            lines += ["places", "pins"]
        if verb in ("undo", "redo"):
            lines += bounds
        if verb in EVENTS or line.startswith("{"):
            lines += ["pending", "listed", "numbers"]
    return lines


def answers(lines, printed):
    """Yields each line with its answer, a list of lines. Only some questions are answered by any number of lines."""
    at = 0
    for line in lines:
        start = STARTS.get(line.split()[0])
        end = at
        while start and end < len(printed) and printed[end].startswith(start):
            end += 1
        if not start or line.split()[0] in QUESTIONS and end == at and printed[at : at + 1][0].startswith("no "):
            end += 1
        if end > len(printed):
            raise Fault(f"'{line[:200]}' has no answer")
        yield line, printed[at:end]
        at = end
    demand(len(printed), at)


def play(player, lines):
    """Returns the lines that the player prints."""
    with tempfile.TemporaryFile() as script, tempfile.TemporaryFile() as printed:
        script.write("".join(line + "\n" for line in lines).encode())
        script.seek(0)
        done = subprocess.run([player], stdin=script, stdout=printed, stderr=subprocess.PIPE, timeout=600, check=False)
        if done.returncode != 0 or done.stderr:
            raise Fault(f"the player ended with status {done.returncode}: {done.stderr[:200]}")
        printed.seek(0)
        return printed.read().decode().split("\n")[:-1]


def fault_in(lines, printed, kinds=None):
    """Returns what is wrong with the answers to the lines, or None. Counts the events of each kind in `kinds`."""
    judge, line = Judge(collections.Counter() if kinds is None else kinds), "the script"
    try:
        for line, answer in answers(lines, printed):
            judge.hear(line, answer)
    except Fault as fault:
        return f"at '{line[:200]}': {fault}"
    except (AttributeError, IndexError, KeyError, StopIteration, TypeError, ValueError) as error:
        return f"at '{line[:200]}': an answer of another form: {error!r}"
    return None


def fault_of(player, script, kinds=None):
    """Returns what is wrong with the player's answers to a script, or None. Counts the events of each kind in `kinds`."""
    lines = observed(script)
    try:
        return fault_in(lines, play(player, lines), kinds)
    except Fault as fault:
        return str(fault)


def has_number(line):
    """Says whether the line asks about a placement by its number, which only the player knows."""
    return line.split()[0] in QUESTIONS and re.search(r" (has|lacks) [0-9]+( |$)", line) is not None


def script_of(path):
    """Returns the lines of a script or of a case that are played."""
    with open(path, encoding="utf-8") as file:
        lines = [line for line in file.read().split("\n") if line.strip()]
    if any(line.startswith("> ") for line in lines):
        lines = [line[2:] for line in lines if line.startswith("> ") and line[2:].strip()]
    if any(line.split()[0] in ("event", "run", "still_holds") for line in lines):
        raise Skipped("its events are gathered for a law")
    script = [line for line in lines if line.startswith("{") or line.split()[0] in PLAYED and not has_number(line)]
    if all(line.startswith("{") for line in script):
        raise Skipped("it has nothing that the judge knows")
    if len(script) > MAX_LINES:
        raise Skipped(f"it has over {MAX_LINES} lines to judge")
    for line in script:
        if line.startswith("{"):
            View(opened(line).design).family(())  # raises TooLarge before the player is kept busy
    return script


def main():
    player, counts, skipped = os.path.abspath(sys.argv[1]), {True: 0, False: 0}, 0
    for path in sys.argv[2:]:
        name = os.path.basename(path)
        try:
            fault = fault_of(player, script_of(path))
        except (Skipped, TooLarge) as why:
            skipped += 1
            print(f"skipped: {name}: {why}")
            continue
        counts[fault is None] += 1
        if fault:
            print(f"failed: {name}: {fault}")
    print(f"{skipped} of {len(sys.argv) - 2} scripts were skipped")
    print(f"{counts[True]} passed, {counts[False]} failed")
    return 1 if counts[False] else 0


if __name__ == "__main__":
    sys.exit(main())
