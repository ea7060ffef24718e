#!/usr/bin/env python3
"""Tests the recipes of examples/recipes with the built program.

usage: tests/recipes.py

The expected outputs next to the designs are compared byte for byte. What the pictures, tables and edits say is compared with
tests/reference.py, which lists tilings by the definition alone: pictures are read back into tilings, and each edit that
`unique` may try is tried by the reference. The client is tested method by method. The commands between ```console and ``` in
docs/GUIDE.md are run, too. Standard output ends with a line `N passed, M failed`.
"""
import collections
import contextlib
import difflib
import importlib.machinery
import importlib.util
import io
import itertools
import json
import os
import re
import signal
import subprocess
import sys
import tempfile
import textwrap
import threading
from xml.etree import ElementTree

ROOT = os.path.dirname(os.path.dirname(os.path.abspath(__file__)))
RECIPES = os.path.join("examples", "recipes")
DESIGNS = ["hole", "flower"]
PENTOMINOES = os.path.join("examples", "pentominoes_6_by_10.txt")
sys.path[:0] = [os.path.join(ROOT, RECIPES), os.path.join(ROOT, "tests")]
sys.dont_write_bytecode = True

import polybench  # noqa: E402
import reference  # noqa: E402
from polybench import Ended, Placement, Refused, Session, Status  # noqa: E402

DOMINOES = {
    "format": 1,
    "grid": "square",
    "board": ["##", "##"],
    "pieces": [{"name": name, "cells": [[0, 0], [1, 0]]} for name in "AB"],
}
A, B = Placement("A", ((0, 0), (1, 0))), Placement("B", ((0, 1), (1, 1)))


CASES = []


def case(function):
    """Enters a function into the list of tests. It fails by raising an exception."""
    CASES.append(function)
    return function


def same(ours, wanted):
    """Fails with the first lines that differ, if the values aren't equal."""
    if ours != wanted:
        texts = [value.splitlines() if isinstance(value, str) else [repr(value)] for value in (wanted, ours)]
        lines = difflib.unified_diff(*texts, "wanted", "found", lineterm="")
        raise AssertionError("\n".join(line[:200] for line in itertools.islice(lines, 12)))


def raised(error, call, *arguments):
    """Returns the error of this type that the call raises."""
    try:
        call(*arguments)
    except error as found:
        return found
    raise AssertionError(f"{error.__name__} was not raised")


def run(*command, text="", output=subprocess.PIPE, **settings):
    """Runs a recipe and returns its status, its output and its errors."""
    ran = subprocess.run(
        command, input=text, stdout=output, stderr=subprocess.PIPE, universal_newlines=True, timeout=300, **settings
    )
    return ran.returncode, ran.stdout, ran.stderr


def recipe(name, *arguments):
    """Returns the output of a recipe that has to succeed without a word on standard error."""
    status, output, errors = run(f"{RECIPES}/{name}", *arguments)
    same((status, errors), (0, ""))
    return output


def design(name):
    return f"{RECIPES}/{name}.txt"


def expected(name, kind):
    with open(f"{RECIPES}/{name}.{kind}") as file:
        return file.read()


def reference_of(name):
    """Returns the reference's session after the lines of a design."""
    with open(design(name), "rb") as file:
        first, *lines = file.read().splitlines()
    session = reference.Session(first)
    for line in lines:
        session.reply(line.split())
    return session


# The outputs, against the files next to the designs.


@case
def outputs_are_the_expected_ones():
    for name in DESIGNS:
        for kind in ("draw", "unique", "difficulty"):
            same(recipe(kind, design(name)), expected(name, kind))


@case
def svg_is_the_expected_one():
    for name in DESIGNS:
        with tempfile.TemporaryDirectory() as room:
            recipe("draw", "--first", "2", "--svg", f"{room}/picture.svg", design(name))
            with open(f"{room}/picture.svg") as file:
                same(file.read(), expected(name, "svg"))


@case
def guide_shows_what_its_commands_print():
    with open("docs/GUIDE.md") as file:
        blocks = re.findall(r"^```console\n(.*?)^```$", file.read(), re.M | re.S)
    assert blocks, "the guide has no such block"
    for block in blocks:
        for command, output in re.findall(r"^\$ (.*)\n((?:(?!\$ ).*\n)*)", block, re.M):
            same((command, *run("bash", "-c", command)), (command, 0, output, ""))


# What the outputs say, against the reference.


def spots_of(grid, cells, size):
    """Returns where a picture shows each cell whose word has this size: the line, and the column of its first letter."""
    wide, high = (size + 1, 0) if grid == "square" else ((2, 1) if size == 1 else (4, 2))
    least = min(x * wide + y * high for x, y in cells)
    top = min(y for _, y in cells)
    return {(x, y): (y - top, x * wide + y * high - least) for x, y in cells}


def drawn_tilings(session, text, size):
    """Reads pictures that stand side by side, and returns for each the set of (letters, cells); `+` counts as letters."""
    spots = spots_of(session.design.grid, session.design.cells, size)
    width = max(column for _, column in spots.values()) + size
    tilings = []
    for block in text.strip("\n").split("\n\n"):
        lines = block.split("\n")
        for left in range(0, max(map(len, lines)), width + 4):
            found = {}
            for cell, (line, column) in spots.items():
                word = lines[line][left + column : left + column + size].strip()
                found.setdefault(word, set()).add(cell)
            tilings.append({(word, frozenset(cells)) for word, cells in found.items()})
    return tilings


@case
def pictures_are_the_tilings():
    for name, size in (("hole", 1), ("flower", 2)):
        session = reference_of(name)
        legend, pictures = recipe("draw", design(name)).split("\n\n", 1)
        replies, legend = legend.rsplit("\n", 1)
        same(replies.split("\n"), [f"ok {edition}" for edition in range(session.edition + 1)])
        pictures, count = pictures.rsplit("\n\n", 1)
        letters = dict(reversed(pair.split(" = ")) for pair in legend.split(", "))
        tilings = session.design.tilings()
        same(count, f"tilings {len(tilings)}\n")
        drawn = drawn_tilings(session, pictures, size)
        same(len(drawn), len(tilings))
        for shown, tiling in zip(drawn, tilings):
            covered = {cell for _, cells in tiling for cell in cells}
            pieces = sorted((letters.get(piece, piece), sorted(cells)) for piece, cells in tiling)
            same(sorted((word[0], sorted(cells)) for word, cells in shown if word != "+"), pieces)
            same({cell for word, cells in shown for cell in cells if word == "+"}, set(session.design.cells) - covered)


def drawn_cells(path, grid):
    """Returns the cells whose polygons a path has, and the sides of the polygons, each as a set of two points."""
    polygons = [[tuple(map(float, point.split(","))) for point in text.split("L")] for text in path[1:-1].split("ZM")]
    cells, sides = set(), []
    for points in polygons:
        x, y = (sum(point[k] for point in points) / len(points) / 32 for k in (0, 1))
        y = y if grid == "square" else y * 2 / 3**0.5
        cells.add((round(x if grid == "square" else x - y / 2), round(y)))
        sides += [frozenset(side) for side in zip(points, points[1:] + points[:1])]
    return frozenset(cells), sides


@case
def svg_shows_the_tilings_with_outlines():
    for name in DESIGNS:
        session = reference_of(name)
        solutions = ElementTree.fromstring(expected(name, "svg")).findall("{*}g")
        same(len(solutions), 2)
        for solution, tiling in zip(solutions, session.design.tilings()):
            *paths, outlines = solution.findall("{*}path")
            pieces, around, uncovered = set(), collections.Counter(), set()
            for path in paths:
                cells, sides = drawn_cells(path.get("d"), session.design.grid)
                if path.get("fill") == "white":
                    uncovered |= cells
                else:
                    pieces.add((path.findtext("{*}title"), reference.by_row(cells)))
                    # A side inside a piece belongs to two of its polygons.
                    around.update(side for side, times in collections.Counter(sides).items() if times == 1)
            same(pieces, set(tiling))
            same(uncovered, set(session.design.cells) - {cell for _, cells in tiling for cell in cells})
            ends = [side.split("L") for side in outlines.get("d")[1:].split("M")]
            drawn = [frozenset(tuple(map(float, end.split(","))) for end in side) for side in ends]
            same(collections.Counter(drawn), collections.Counter(set(around)))


def single_edits(design):
    """Yields the edits that `unique` may try, with pins of all placements, whether in a solution or not."""
    for name, cells in design.placements():
        yield f"pin {name} " + " ".join(f"{x},{y}" for x, y in cells)
    for mode in ("blocked", "required"):
        for x, y in reference.by_row(design.cells):
            yield f"cell {x},{y} {mode}"
    for name in sorted(design.pieces):
        yield f"mirror {name} off"


@case
def unique_edits_are_those_of_the_reference():
    for name in DESIGNS:
        session, good = reference_of(name), []
        for edit in list(single_edits(session.design)):
            with contextlib.suppress(reference.Refused):
                session.reply(edit.encode().split())
                if session.design.classes() == 1:
                    good.append(edit)
                session.reply([b"undo"])
        *edits, last = recipe("unique", design(name)).splitlines()
        same(edits, good)
        assert re.fullmatch(rf"{len(good)} of [0-9]+ edits leave one solution", last), last
    # The last design has good edits of each kind.
    same({re.sub(" .* ", " ", edit) for edit in good if edit.startswith("cell")}, {"cell blocked", "cell required"})
    same({edit.split(" ")[0] for edit in good}, {"pin", "cell", "mirror"})


@case
def unique_knows_designs_that_have_one_solution_or_too_many():
    same(run(f"{RECIPES}/unique", text=json.dumps(DOMINOES)), (0, "the design already has one solution\n", ""))
    # The cell in the corner can't be covered; without it there are over a million tilings.
    board = ["#.++++++", "..++++++", "..++++++", "..++++++"]
    domino = {"name": "D", "cells": [[0, 0], [1, 0]], "least": 0, "most": 16}
    puzzle = {"format": 2, "grid": "square", "board": board, "pieces": [domino]}
    same(run(f"{RECIPES}/unique", text=json.dumps(puzzle)), (0, "0 of 50 edits leave one solution\n", ""))


@case
def difficulty_is_that_of_the_reference():
    for name in DESIGNS:
        session = reference_of(name)
        _, *items, matches = session.reply([b"browse"])
        wanted = dict(item.split(" ")[1:] for item in items)
        head, cells, pieces = recipe("difficulty", design(name)).split("\n\n")
        same(head, matches.replace("matches", "tilings") + f"\nclasses {session.design.classes()}")
        title, *lines = cells.split("\n")
        same(title, "placements that cover a cell")
        size = max(len(number) for item, number in wanted.items() if "," in item)
        shown = {}
        for (x, y), (line, column) in spots_of(session.design.grid, session.design.cells, size).items():
            shown[f"{x},{y}"] = lines[line][column : column + size].strip()
        title, *lines = pieces.rstrip("\n").split("\n")
        same(title, "placements of a piece")
        rows = [line.split() for line in lines]
        same(rows, sorted(rows, key=lambda row: (int(row[0]), row[1])))
        shown.update((piece, number) for number, piece in rows)
        same(shown, wanted)


# The client.


@case
def docstring_example_prints_what_it_says():
    example = textwrap.dedent(re.search(r"\n((?:    .*\n|\n)+)", polybench.__doc__[200:])[1])
    printed = io.StringIO()
    with contextlib.redirect_stdout(printed):
        exec(example, {})
    assert len(example.strip().split("\n")) <= 10
    same(printed.getvalue(), "Dot=3,1 2\n")


@case
def methods_answer_in_python_values():
    with Session(json.dumps(DOMINOES)) as session:
        same(session.grid, "square")
        same(session.status(), Status(edition=0, listed=0, pending=1))
        same(session.count(), 4)
        same(session.classes(), 1)
        same(session.edit("pin", A), 1)
        same(session.tilings(), [(A, B)])
        same(session.edit("unpin", "A"), 2)
        same(session.undo(), 3)
        same(session.redo(), 4)
        same(session.edit("cell", (2, 0), "optional"), 5)
        same(session.edit("copies", "A", 0, 2), 6)
        same(session.edit("pin B 0,1 1,1"), 7)
        same(session.status()[0], 7)
        found = session.browse(f"+{B}", "-A=1,0/2,0", "@0,0", "@A")
        same(found.forced, (A, B))
        same(found.cells, {(0, 0): 1, (1, 0): 1, (2, 0): 0, (0, 1): 1, (1, 1): 1})
        same((found.pieces, found.matches), ({"A": 1, "B": 1}, 1))


@case
def browse_shares_nothing_without_matches():
    with Session(DOMINOES) as session:
        found = session.browse("@7,7")
        same((found.forced, found.matches, set(found.cells.values())), ((), 0, {0}))


@case
def empty_tiling_has_no_placements():
    with Session({**DOMINOES, "board": [], "pieces": []}) as session:
        same(session.tilings(), [()])


@case
def send_returns_the_lines_of_each_reply():
    with Session(DOMINOES, arguments=["--workers", "2"]) as session:
        same(session.send("pin A 0,0 1,0"), ["ok 1"])
        same(session.send("list\n"), ["tiling A=0,0/1,0 B=0,1/1,1", "tilings 1"])
        same(session.send("count"), ["tilings 1"])
        same(session.send("classes"), ["classes 1"])
        same(session.send("status"), ["status edition 1 listed 1 pending 0"])
        forced, *items, matches = session.send("browse")
        same((forced, len(items), matches), ("forced A=0,0/1,0 B=0,1/1,1", 6, "matches 1"))
        same(session.send("  "), [])
        same(session.send("\r\n"), [])
        raised(ValueError, session.send, "undo\nundo")
        raised(ValueError, session.edit, "count")
        same(session.count(), 1)


@case
def refusals_have_number_and_name():
    with Session(DOMINOES) as session:
        refused = raised(Refused, session.edit, "pin", "A", (0, 0), (1, 1))
        same((refused.number, refused.name, refused.line), (14, "NotAPlacement", "pin A 0,0 1,1"))
        same(str(refused), "the line `pin A 0,0 1,1` was refused: no 14 NotAPlacement")
        same(refused.reply, "no 14 NotAPlacement")
        same(raised(Refused, session.undo).number, 16)
        same(raised(Refused, session.redo).name, "NothingToRedo")
        same(raised(Refused, session.send, "caf\u00e9 \udcff").number, 19)
        same(raised(Refused, session.send, "x" * 70000).number, 20)
        same(session.count(), 4)
    same(raised(Refused, Session, {**DOMINOES, "grid": "cube"}).number, 4)
    same(raised(Refused, Session, "").number, 1)


@case
def questions_may_be_asked_again():
    with open(PENTOMINOES) as file, Session(file.readline(), arguments=["--turns", "10"]) as session:
        same(raised(Refused, session.count).name, "Unfinished")
        assert 0 < session.status().pending


@case
def program_that_ends_is_told():
    with tempfile.TemporaryDirectory() as room:
        program = f"{room}/program"
        with open(program, "w") as file:
            file.write("#!/bin/sh\nread puzzle\necho ok 0\nread line\nprintf 'tilings'\nexit 3\n")
        os.chmod(program, 0o755)
        session = Session(DOMINOES, program=program)
        same(str(raised(Ended, session.count)), f"{program} ended with status 3 before it answered: count")
        raised(Ended, session.count)
        session.close()
        session.close()
        missing = raised(Ended, Session, DOMINOES, f"{room}/none")
        same(str(missing), f"{room}/none could not be started: No such file or directory")
        settings = {"env": {**os.environ, "POLYBENCH": program}}
        for name in ("unique", "difficulty"):
            status, _, errors = run(f"{RECIPES}/{name}", design("hole"), **settings)
            same(status, 3)
            assert re.fullmatch(rf"{name}: {program} ended with status 3 before it answered: .*\n", errors), errors
        status, output, errors = run(f"{RECIPES}/draw", design("hole"), **settings)
        same((status, output), (3, "ok 0\n"))
        same(errors, f"draw: {program} ended with status 3 before it answered: list\n")


# The recipes as programs.


@case
def arguments_are_checked():
    for name, *arguments in (("draw", "--first", "0"), ("draw", "a", "b"), ("unique", "--all"), ("difficulty", "a", "b")):
        status, output, errors = run(f"{RECIPES}/{name}", *arguments)
        same((status, output), (2, ""))
        assert errors.startswith(f"usage: examples/recipes/{name} ") and f"\n{name}: error: " in errors, errors
    for name in ("draw", "unique", "difficulty"):
        same(run(f"{RECIPES}/{name}", "none.txt"), (2, "", f"{name}: none.txt: No such file or directory\n"))
        assert recipe(name, "--help").startswith(f"usage: examples/recipes/{name} ")
    status, _, errors = run(f"{RECIPES}/draw", "--svg", "none/x.svg", design("hole"))
    same((status, errors), (2, "draw: none/x.svg: No such file or directory\n"))


@case
def refused_lines_are_told():
    puzzle = json.dumps(DOMINOES)
    refused = "the line `drop C` was refused: no 9 NoSuchPiece"
    for name in ("unique", "difficulty"):
        same(run(f"{RECIPES}/{name}", text=puzzle + "\ndrop C\ndrop A\n"), (1, "", f"{name}: {refused}\n"))
    for name in ("draw", "unique", "difficulty"):
        for line, reply in (("{}", "no 2 BadField"), ("", "no 1 BadJson")):
            wanted = f"{name}: the line `{line}` was refused: {reply}\n"
            same(run(f"{RECIPES}/{name}", text=line + "\n"), (1, "", wanted))
    # What is typed goes on after a refused line.
    output = "ok 0\nno 9 NoSuchPiece\nok 1\ntilings 0\n"
    same(run(f"{RECIPES}/draw", text=puzzle + "\ndrop C\n\ndrop A\nlist"), (1, output, f"draw: {refused}\n"))


@case
def draw_ends_at_a_refused_line_of_a_design():
    puzzle = json.dumps(DOMINOES)
    with tempfile.TemporaryDirectory() as room:
        for text, output, told in (
            ("{}\ncount\n", "", "the line `{}` was refused: no 2 BadField"),
            (f"{puzzle}\ndrop A\ndrop C\nlist\n", "ok 0\nok 1\n", "the line `drop C` was refused: no 9 NoSuchPiece"),
            (f"{puzzle}\nlist 1\n", "ok 0\n", "the line `list 1` was refused: no 19 BadCommand"),
        ):
            with open(f"{room}/design.txt", "w") as file:
                file.write(text)
            same(run(f"{RECIPES}/draw", f"{room}/design.txt"), (1, output, f"draw: {told}\n"))


@case
def closed_and_full_outputs_are_handled():
    draw = subprocess.Popen([f"{RECIPES}/draw", PENTOMINOES], stdout=subprocess.PIPE, stderr=subprocess.PIPE)
    same(draw.stdout.readline(), b"ok 0\n")
    draw.stdout.close()
    same((draw.stderr.read(), draw.wait()), (b"", 3))
    with open("/dev/full", "w") as full:
        for name in ("draw", "unique", "difficulty"):
            same(run(f"{RECIPES}/{name}", design("hole"), output=full)[::2], (3, f"{name}: No space left on device\n"))


@case
def draw_answers_what_is_typed_at_once():
    draw = subprocess.Popen(
        [f"{RECIPES}/draw"], stdin=subprocess.PIPE, stdout=subprocess.PIPE, universal_newlines=True, bufsize=1
    )
    timer = threading.Timer(120, draw.kill)
    timer.daemon = True
    timer.start()
    for line, replies in (
        (json.dumps(DOMINOES), ["ok 0"]),
        ("pin A 0,0 1,0", ["ok 1"]),
        ("list", ["A A", "B B", "", "tilings 1"]),
        ("count", ["tilings 1"]),
        ("cell 3,0 optional", ["ok 2"]),
        ("cell 5,2 optional", ["ok 3"]),
        ("list", ["A A . +", "B B", "          +", "", "tilings 1"]),
    ):
        print(line, file=draw.stdin, flush=True)
        for reply in replies:
            same(draw.stdout.readline(), reply + "\n")
    draw.stdin.close()
    same((draw.stdout.read(), draw.wait()), ("", 0))
    timer.cancel()
    draw.stdout.close()


@case
def interrupt_ends_quietly():
    # a shell in which the tests run in the background lets its children ignore interrupts
    draw = subprocess.Popen(
        [f"{RECIPES}/draw"],
        stdin=subprocess.PIPE,
        stdout=subprocess.PIPE,
        stderr=subprocess.PIPE,
        preexec_fn=lambda: signal.signal(signal.SIGINT, signal.SIG_DFL),
    )
    draw.stdin.write(json.dumps(DOMINOES).encode() + b"\n")
    draw.stdin.flush()
    same(draw.stdout.readline(), b"ok 0\n")
    draw.send_signal(signal.SIGINT)
    same((*draw.communicate(timeout=60), draw.returncode), (b"", b"", 130))


@case
def design_without_cells_is_played():
    for name, output in (("draw", "ok 0\ntilings 1\n"), ("difficulty", "tilings 1\nclasses 1\n")):
        puzzle = json.dumps({**DOMINOES, "board": [], "pieces": []})
        same(run(f"{RECIPES}/{name}", text=puzzle + "\r\n" + "list\n" * (name == "draw")), (0, output, ""))


@case
def draw_can_show_the_first_few():
    output = recipe("draw", "--first", "2", design("hole"))
    same(output.split("\n")[-3:], ["", "tilings 30", ""])
    same(len(output.split("\n\n")[1].split("\n")[0].split("    ")), 2)


@case
def pieces_have_letters_of_their_own():
    loader = importlib.machinery.SourceFileLoader("draw", f"{RECIPES}/draw")
    draw = importlib.util.module_from_spec(importlib.util.spec_from_loader("draw", loader))
    loader.exec_module(draw)
    board = draw.Board("hex")
    board.update([], ["Bar", "B", "_"])
    same(board.letters, {"B": "B", "_": "A", "Bar": "R"})
    board.update([], ["Bar", *(f"piece{number}" for number in range(61))])
    same((board.letters["Bar"], len(board.letters), len(set(board.letters.values()))), ("R", 64, 64))
    same(len(set(draw.colours_of(board).values())), 64)


def main():
    os.chdir(ROOT)
    os.environ.pop("POLYBENCH", None)
    failed = 0
    for test in CASES:
        try:
            test()
        except Exception as error:
            failed += 1
            print(f"failed: {test.__name__}: {type(error).__name__}: {error}")
    print(f"{len(CASES) - failed} passed, {failed} failed")
    sys.exit(failed > 0)


if __name__ == "__main__":
    main()
