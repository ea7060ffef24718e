#!/usr/bin/env python3
"""Writes the cases that are too large to be kept as text, in the form of tests/cases.

usage: tests/large_cases.py FOLDER

The answers are worked out here or by tests/reference.py, which shares nothing with the crates.
"""
import os
import sys

from reference import Session

DOMINOES = (
    '{"format":1,"grid":"square","board":["##","##"],"pieces":'
    '[{"name":"A","cells":[[0,0],[1,0]]},{"name":"B","cells":[[0,0],[1,0]]}]}'
)
HEXES = (
    '{"format":1,"grid":"hex","board":["##","##"],"pieces":'
    '[{"name":"A","cells":[[0,0],[1,0],[0,1]]},{"name":"B","cells":[[0,0]]}]}'
)
# Two names and optional cells, so that a tiling may leave cells and pieces out.
LOOSE = (
    '{"format":2,"grid":"square","board":["#++","++"],"pieces":'
    '[{"name":"A","cells":[[0,0],[1,0]],"least":0,"most":2},{"name":"B","cells":[[0,0]],"least":0,"most":1}]}'
)
EIGHT = '{"format":1,"grid":"square","board":["++++++++"],"pieces":[%s]}' % ",".join(
    '{"name":"%s","cells":[[0,0]],"need":"optional"}' % name for name in "ABCDEFGH"
)
OPTIONAL = '{"format":1,"grid":"%s","board":["++","++"],"pieces":[{"name":"A","cells":[[0,0],[1,0]],"need":"optional"}]}'
STRIP = '{"format":2,"grid":"square","board":["++++"],"pieces":[{"name":"A","cells":[[0,0],[1,0]],"least":0,"most":2}]}'
EIGHT_DOMINOES = (
    '{"format":2,"grid":"square","board":["####","####","####","####"],"pieces":'
    '[{"name":"A","cells":[[0,0],[1,0]],"least":8,"most":8}]}'
)
ROOMY = (
    '{"format":1,"grid":"square","board":["+++++","+++++","+++++","+++++"],"pieces":'
    '[{"name":"A","cells":[[0,0],[1,0]],"need":"optional"},{"name":"B","cells":[[0,0]],"need":"optional"}]}'
)
NOWHERE = '{"format":1,"grid":"square","board":["."],"pieces":[]}'


def report_too_wide():
    """A Branch with 4,096 arms has 4,097 nodes and is too large. With 4,095 arms it fits, but it doesn't hold."""
    for arms, answer in ((4096, "no 25 TooLarge"), (4095, "no 24 DoesNotHold")):
        yield from begin(DOMINOES)
        yield f"> report r 1 0 branch 0,0{' 0 rest' * arms} end"
        yield "report on 1 edition 0"
        yield "> hand_in r"
        yield answer
        yield "> cut r"
        yield answer
        yield "> numbers"
        yield "edition 0 endings 0 listed 0 pending 1"


def report_too_deep():
    """A chain of 512 Splits, each below the one before, is 513 nodes deep, which is too large."""
    yield from begin(DOMINOES)
    yield f"> report r 1 0{' split 0 rest' * 512} rest"
    yield "report on 1 edition 0"
    yield "> hand_in r"
    yield "no 25 TooLarge"
    yield "> numbers"
    yield "edition 0 endings 0 listed 0 pending 1"


def report_as_deep_as_allowed():
    """A chain of 511 Splits on one placement is 512 nodes deep. Below the first Split its placement is dead, so only the
    first Split's first tree and the last one's second tree become tasks."""
    yield from begin(DOMINOES)
    yield f"> report r 1 0{' split 0 rest' * 511} rest"
    yield "report on 1 edition 0"
    yield "> hand_in r"
    yield "applied 1 listed 0 opened 2 first 2"
    yield from settle(0, 4)


def undo_without_a_shelf():
    """A report makes a task of each of the 610 tilings: with or without one of 31 dominoes, and with or without a single cell,
    of which there are then 18 or 20. Dropping the single cell ends the tasks that have it. Since 610 tasks times its 20
    placements are over 4,096, no shelf is kept: the undo opens a task for each of these placements."""
    places = [(n, "/".join(f"{x},{y}" for x, y in cells)) for n, cells in Session(ROOMY.encode()).design.placements()]
    singles = "".join(f"split B={cells} rest " for name, cells in places if name == "B") + "rest"
    dominoes = "".join(f"split A={cells} {singles} " for name, cells in places if name == "A")
    yield from begin(ROOMY)
    yield f"> report r 1 0 {dominoes}{singles}"
    yield "report on 1 edition 0"
    yield "> hand_in r"
    yield "applied 1 listed 0 opened 610 first 2"
    yield "> drop B"
    yield "done 1 edit pending 610 shelved"
    yield "> numbers"
    yield f"edition 1 endings {1 + 31 * 18 + 20} listed 0 pending {31 + 1}"
    yield "> undo"
    yield f"done 2 undo pending {31 + 1}"
    yield "> numbers"
    yield f"edition 2 endings {1 + 31 * 18 + 20} listed 0 pending {31 + 1 + 20}"
    yield from settle(2, 610)


def long_lists_of_atoms():
    """More atoms than a design can have items: first all of them are the same, then each has another placement."""
    yield from begin(DOMINOES)
    yield f"> hopeless{' has 0' * 400}"
    yield "hopeless no"
    yield "> hopeless " + " ".join(f"has {number}" for number in range(400))
    yield "hopeless yes"


def browse_with_words_repeated():
    """A question says each of its words 5,000 times."""
    words = "+A=0,0/1,0 -A=0,1/1,1 @0,0"
    yield from begin(DOMINOES)
    yield from settle(0, 4)
    yield f"> browse {' '.join([words] * 5000)}"
    yield from answers(Session(DOMINOES.encode()), f"browse {words}")


def browse_each_placement_with_each_item():
    """Tilings that have a placement, or don't have it, and cover an item: for each placement and each item."""
    for puzzle, edits in (
        (DOMINOES, []),
        (DOMINOES, ["pin A 0,0 0,1", "cell 0,0 optional"]),
        (LOOSE, []),
        (HEXES, []),
    ):
        session = Session(puzzle.encode())
        yield from begin(puzzle)
        for edit in edits:
            session.reply(edit.encode().split())
            yield f"> {edit}"
            yield "done *"
        yield from settle(len(edits), len(session.design.tilings()))
        items = [f"{x},{y}" for x, y in session.design.cells] + list(session.design.pieces)
        for name, cells in sorted(session.design.placements()):
            placement = f"{name}=" + "/".join(f"{x},{y}" for x, y in cells)
            for item in items:
                for sign in "+-":
                    line = f"browse {sign}{placement} @{item}"
                    yield f"> {line}"
                    yield from answers(session, line)


def the_last_256_can_be_undone():
    """Of 257 changes the last 256 can be undone, and these can be redone."""
    yield from begin(DOMINOES)
    for edition in range(1, 258):
        yield "> cell 0,0 " + ("optional" if edition % 2 else "required")
        yield f"done {edition} edit pending *"
    for edition in range(258, 514):
        yield "> undo"
        yield f"done {edition} undo pending *"
    yield "> undo"
    yield "no 16 NothingToUndo"
    yield "> bounds 0,0"
    yield "bounds 0 1"
    for edition in range(514, 770):
        yield "> redo"
        yield f"done {edition} redo pending *"
    yield "> redo"
    yield "no 17 NothingToRedo"


def editions_run_out():
    """A book makes 100,000 changes and then no more."""
    yield from begin(NOWHERE)
    for edition in range(1, 100001):
        yield "> cell 0,0 " + ("optional" if edition % 2 else "blocked")
        yield f"done {edition} edit pending 1 shelved"
    yield "> cell 0,0 optional"
    yield "no 26 Spent"
    yield "> undo"
    yield "no 26 Spent"
    yield "> numbers"
    yield "edition 100000 endings 0 listed 0 pending 1"


def shelf_over_the_limit():
    """A report cuts the opening task into nine, and seven of these are worked on until all their tilings are listed: 916,454.
    A blocked cell then takes all of them away, and its undo would list them again besides the 394,353 of that design: too many.

    How many tasks that takes is not fixed, so 2,000 numbers are tried. Once no task is left, the last report is handed in
    again and again, and its task is gone."""
    yield from begin(EIGHT)
    yield "> report cut 1 0" + "".join(f" split {name}=0,0 rest" for name in "ABCDEFGH") + " rest"
    yield "report on 1 edition 0"
    yield "> hand_in cut"
    yield "applied 1 listed 0 opened 9 first 2"
    for task in [*range(2, 9), *range(11, 2011)]:
        yield f"> take j {task}"
        yield "task *"
        yield "> explore j r 4096"
        yield "report on *"
        yield "> hand_in r"
        yield "*"
    yield "> numbers"
    yield "edition 0 endings * listed 916454 pending 2"
    yield "> cell 0,0 blocked"
    yield "done 1 edit pending 2 shelved"
    yield "> numbers"
    yield "edition 1 endings * listed 0 pending 1"
    yield "> settle 100000 256"
    yield "settled by *"
    yield "> numbers"
    yield "edition 1 endings * listed 394353 pending 0"
    yield "> undo"
    yield "no 18 CatalogueFull"
    yield "> numbers"
    yield "edition 1 endings * listed 394353 pending 0"


def lists_of_a_search():
    """The search and the plain lister find the same tilings, and a settled book lists them."""
    for puzzle, edits in (
        (DOMINOES, []),
        (DOMINOES, ["pin A 0,0 0,1"]),
        (DOMINOES, ["forbid A 0,0 1,0"]),
        (DOMINOES, ["pin A 0,0 0,1", "cell 0,0 blocked"]),
        (DOMINOES, ["drop B"]),
        (HEXES, []),
        (LOOSE, []),
        (NOWHERE, []),
        (OPTIONAL % "square", []),
        (OPTIONAL % "hex", []),
        (STRIP, []),
        (STRIP, ["copies A 1 1"]),
        (STRIP, ["copies A 0 0"]),
        (EIGHT_DOMINOES, []),
    ):
        session = Session(puzzle.encode())
        yield from begin(puzzle)
        for edit in edits:
            session.reply(edit.encode().split())
            yield f"> {edit}"
            yield "done *"
        *tilings, _ = answers(session, "list")
        for verb in ("search_list", "lister_list"):
            yield f"> {verb}"
            yield from tilings
            yield f"found {len(tilings)}"
        yield from settle(len(edits), len(tilings))
        yield "> list q"
        yield from tilings


def begin(puzzle):
    return [f"> {puzzle}", "ok 0"]


def settle(edition, tilings):
    return ["> settle 1000 256", "settled by *", "> quiet q", f"quiet edition {edition} tilings {tilings}"]


def answers(session, line):
    return session.reply(line.encode().split())


def main():
    for make in (
        report_too_wide,
        report_too_deep,
        report_as_deep_as_allowed,
        undo_without_a_shelf,
        long_lists_of_atoms,
        browse_with_words_repeated,
        browse_each_placement_with_each_item,
        the_last_256_can_be_undone,
        editions_run_out,
        shelf_over_the_limit,
        lists_of_a_search,
    ):
        with open(os.path.join(sys.argv[1], f"{make.__name__}.txt"), "w", encoding="utf-8") as file:
            file.writelines(line + "\n" for line in make())


if __name__ == "__main__":
    main()
