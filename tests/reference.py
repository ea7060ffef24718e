#!/usr/bin/env python3
"""A session over small puzzles by the definitions alone: it lists all tilings anew at each question.

usage: tests/reference.py <input

It reads a puzzle line and commands and writes the replies of docs/FORMATS.md. It shares nothing with the crates, so
tests/sessions.py compares the program with it, and tests/judge.py the player. It knows no limit on time, memory or guards,
and after the puzzle line none on cells, pieces, placements or tilings: puzzles have to be small. A `status` line tells the
edition and the number of tilings; `tests/sessions.py` says how to compare it. The exit status is 1 if the puzzle line is
refused.
"""
import functools
import json
import re
import sys

HISTORY = 256

TURNS = {
    "square": [
        lambda x, y: (x, y),
        lambda x, y: (-y, x),
        lambda x, y: (-x, -y),
        lambda x, y: (y, -x),
        lambda x, y: (-x, y),
        lambda x, y: (-y, -x),
        lambda x, y: (x, -y),
        lambda x, y: (y, x),
    ],
    "hex": [
        lambda q, r: (q, r),
        lambda q, r: (-r, q + r),
        lambda q, r: (-q - r, q),
        lambda q, r: (-q, -r),
        lambda q, r: (r, -q - r),
        lambda q, r: (q + r, -q),
        lambda q, r: (r, q),
        lambda q, r: (-q, q + r),
        lambda q, r: (-q - r, r),
        lambda q, r: (-r, -q),
        lambda q, r: (q, -q - r),
        lambda q, r: (q + r, -r),
    ],
}

STEPS = {
    "square": [(1, 0), (0, 1), (-1, 0), (0, -1)],
    "hex": [(1, 0), (0, 1), (-1, 1), (-1, 0), (0, -1), (1, -1)],
}

MAX_LINE = 65536

REFUSALS = {
    1: "BadJson", 2: "BadField", 3: "BadFormat", 4: "BadGrid", 5: "BadBoard", 6: "BadName", 7: "BadShape", 8: "NameTaken",
    9: "NoSuchPiece", 10: "BadCell", 11: "TooManyCells", 12: "TooManyPieces", 13: "TooManyPlacements",
    14: "NotAPlacement", 15: "NoChange", 16: "NothingToUndo", 17: "NothingToRedo", 19: "BadCommand", 20: "LineTooLong",
    23: "Gone", 24: "DoesNotHold", 25: "TooLarge",
}


class Refused(Exception):
    """A refusal; its argument is the number of the refusal."""


def by_row(cells):
    """Returns the cells in cell order: by row, then by column."""
    return tuple(sorted(cells, key=lambda c: (c[1], c[0])))


def normal(cells):
    """Returns the cells moved so that the least column and the least row are 0."""
    left = min(x for x, _ in cells)
    top = min(y for _, y in cells)
    return by_row((x - left, y - top) for x, y in cells)


def is_connected(grid, cells):
    reached, waiting = set(), [cells[0]]
    while waiting:
        x, y = cell = waiting.pop()
        if cell in cells and cell not in reached:
            reached.add(cell)
            waiting += [(x + dx, y + dy) for dx, dy in STEPS[grid]]
    return len(reached) == len(cells)


def placement_order(placement):
    name, cells = placement
    return name.encode(), [(y, x) for x, y in cells]


class Design:
    """A grid, modes by cell, and pieces by name; a piece is (shape, least, most, mirror, pin, forbidden)."""

    def __init__(self, grid, cells, pieces):
        self.grid, self.cells, self.pieces = grid, cells, pieces

    def with_cell(self, cell, mode):
        cells = {c: m for c, m in self.cells.items() if c != cell}
        if mode != "blocked":
            cells[cell] = mode
        return Design(self.grid, cells, self.pieces)

    def with_piece(self, name, piece):
        pieces = {n: p for n, p in self.pieces.items() if n != name}
        if piece is not None:
            pieces[name] = piece
        return Design(self.grid, self.cells, pieces)

    @functools.lru_cache(maxsize=1000)
    def placements(self):
        """Returns each (name, cells) that the design allows, in placement order."""
        found = set()
        for name, (shape, _, _, mirror, _, forbidden) in self.pieces.items():
            turns = TURNS[self.grid]
            turns = turns if mirror else turns[: len(turns) // 2]
            for turned in {normal([turn(x, y) for x, y in shape]) for turn in turns}:
                left, top = turned[0]
                for to_x, to_y in self.cells:
                    cells = tuple((x - left + to_x, y - top + to_y) for x, y in turned)
                    if all(c in self.cells for c in cells) and cells not in forbidden:
                        found.add((name, cells))
        return sorted(found, key=placement_order)

    def tilings(self, enough=float("inf")):
        """Returns all tilings in order; each is a tuple of placements in placement order. Stops once `enough` are found."""
        cells = by_row(self.cells)
        first = {c: [] for c in cells}
        for placement in self.placements():
            first[placement[1][0]].append(placement)
        pins = {(n, p[4]) for n, p in self.pieces.items() if p[4] is not None}
        found = []

        def extend(at, taken, chosen, used):
            if len(found) >= enough:
                return
            if at == len(cells):
                complete = all(used.get(n, 0) >= p[1] for n, p in self.pieces.items())
                if complete and pins <= set(chosen):
                    found.append(tuple(sorted(chosen, key=placement_order)))
                return
            cell = cells[at]
            if cell in taken or self.cells[cell] == "optional":
                extend(at + 1, taken, chosen, used)
            if cell in taken:
                return
            for name, shape in first[cell]:
                if used.get(name, 0) < self.pieces[name][2] and not taken & set(shape):
                    extend(at + 1, taken | set(shape), [*chosen, (name, shape)], {**used, name: used.get(name, 0) + 1})

        extend(0, frozenset(), [], {})
        return sorted(found, key=lambda tiling: [placement_order(p) for p in tiling])

    def symmetries(self):
        """Returns the maps from cell to cell that carry the design to itself."""
        places = set(self.placements())
        needed = {c for c, m in self.cells.items() if m == "required"}
        pins = {(n, frozenset(p[4])) for n, p in self.pieces.items() if p[4] is not None}
        found = []
        for turn in TURNS[self.grid]:
            turned = {cell: turn(*cell) for cell in self.cells}
            if turned:
                left = min(x for x, _ in self.cells) - min(x for x, _ in turned.values())
                top = min(y for _, y in self.cells) - min(y for _, y in turned.values())
                turned = {cell: (x + left, y + top) for cell, (x, y) in turned.items()}
            if set(turned.values()) != set(self.cells) or {turned[c] for c in needed} != needed:
                continue
            if {(n, by_row(turned[c] for c in cells)) for n, cells in places} != places:
                continue
            # A pin that covers a blocked cell can't be carried, but then there is no tiling to put into a class.
            if {(n, frozenset(turned.get(c) for c in pin)) for n, pin in pins} == pins:
                found.append(turned)
        return found

    def classes(self):
        """Returns the number of tilings up to the design's symmetries."""
        maps, seen, count = self.symmetries(), set(), 0
        for tiling in self.tilings():
            if frozenset(tiling) not in seen:
                count += 1
                seen |= {frozenset((n, by_row(m[c] for c in cells)) for n, cells in tiling) for m in maps}
        return count


def name_of(word):
    if not re.fullmatch(rb"[A-Za-z0-9_]{1,16}", word):
        raise Refused(6)
    return word.decode()


def cell_of(word):
    match = re.fullmatch(rb"([0-9]{1,9}),([0-9]{1,9})", word)
    if not match:
        raise Refused(19)
    x, y = int(match[1]), int(match[2])
    if x > 63 or y > 63:
        raise Refused(10)
    return x, y


def keyword(word, choices):
    if word.decode("latin-1") not in choices:
        raise Refused(19)
    return word.decode()


def distinct(cells):
    if len(cells) > 16 or len(set(cells)) < len(cells):
        raise Refused(7)
    return by_row(cells)


def shape_of(grid, cells):
    if not 1 <= len(cells) <= 16 or len(set(cells)) < len(cells) or not is_connected(grid, cells):
        raise Refused(7)
    return normal(cells)


def whole(text):
    """Reads a whole number of JSON. What isn't one by docs/FORMATS.md becomes another kind of number."""
    number = int(text)
    return number if text != "-0" and -(2**63) <= number < 2**64 else float(number)


def constant(text):
    raise ValueError(text)


def is_whole(value):
    return type(value) is int


def check(holds, number):
    """Refuses with the number unless the condition holds."""
    if not holds:
        raise Refused(number)


def design_of(line):
    """Returns the design of a puzzle line."""
    check(len(line) <= MAX_LINE, 20)
    try:
        puzzle = json.loads(line.decode(), parse_int=whole, parse_constant=constant)
    except ValueError:
        raise Refused(1) from None
    check(isinstance(puzzle, dict) and set(puzzle) == {"format", "grid", "board", "pieces"}, 2)
    form, grid, board, pieces = puzzle["format"], puzzle["grid"], puzzle["board"], puzzle["pieces"]
    check(is_whole(form) and isinstance(grid, str) and isinstance(board, list) and isinstance(pieces, list), 2)
    check(all(isinstance(row, str) for row in board) and all(isinstance(piece, dict) for piece in pieces), 2)
    check(form in (1, 2), 3)
    check(grid in TURNS, 4)
    check(len(board) <= 64 and all(len(row) <= 64 and set(row) <= set("#+.") for row in board), 5)
    marks = {(x, y): mark for y, row in enumerate(board) for x, mark in enumerate(row) if mark != "."}
    check(len(marks) <= 256, 11)
    check(len(pieces) <= 64, 12)
    design = Design(grid, {cell: "required" if mark == "#" else "optional" for cell, mark in marks.items()}, {})
    for piece in pieces:
        name, parts = piece_of(form, grid, piece)
        check(name not in design.pieces, 8)
        design = design.with_piece(name, parts)
    check(len(design.placements()) <= 20000, 13)
    return design


def piece_of(form, grid, piece):
    """Returns the name of a piece of a puzzle line, and the piece."""
    piece = {"mirror": True, **({"need": "required"} if form == 1 else {}), **piece}
    check(set(piece) == {"name", "cells", "mirror"} | ({"need"} if form == 1 else {"least", "most"}), 2)
    name, cells = piece["name"], piece["cells"]
    check(isinstance(name, str) and isinstance(piece["mirror"], bool) and isinstance(cells, list), 2)
    check(all(isinstance(cell, list) and len(cell) == 2 and all(map(is_whole, cell)) for cell in cells), 2)
    if form == 1:
        check(piece["need"] in ("required", "optional"), 2)
        least, most = int(piece["need"] == "required"), 1
    else:
        least, most = piece["least"], piece["most"]
        check(is_whole(least) and is_whole(most) and 0 <= least <= most <= 16, 2)
    name_of(name.encode())
    check(all(0 <= number <= 63 for cell in cells for number in cell), 10)
    shape = shape_of(grid, [tuple(cell) for cell in cells])
    return name, (shape, least, most, piece["mirror"], None, frozenset())


class Session:
    def __init__(self, line):
        self.design, self.edition, self.undos, self.redos = design_of(line), 0, [], []

    def move(self, design):
        self.design = design
        self.edition += 1
        return [f"ok {self.edition}"]

    def edit(self, design):
        self.undos, self.redos = (self.undos + [self.design])[-HISTORY:], []
        return self.move(design)

    def piece(self, name):
        if name not in self.design.pieces:
            raise Refused(9)
        return self.design.pieces[name]

    def replace(self, name, at, value):
        """Replaces one field of the piece. The same value is refused as no change."""
        piece = self.piece(name)
        if piece[at] == value:
            raise Refused(15)
        return self.edit(self.design.with_piece(name, (*piece[:at], value, *piece[at + 1 :])))

    def bounds(self, name, least, most):
        piece = self.piece(name)
        if piece[1:3] == (least, most):
            raise Refused(15)
        return self.edit(self.design.with_piece(name, (piece[0], least, most, *piece[3:])))

    def needs(self, words, least, exact=True):
        if len(words) < least or exact and len(words) != least:
            raise Refused(19)

    def reply(self, words):
        command, words = words[0].decode("latin-1"), words[1:]
        answer = getattr(self, "do_" + command, None)
        if answer is None:
            raise Refused(19)
        return answer(words)

    def do_add(self, words):
        self.needs(words, 4, exact=False)
        need, mirror = keyword(words[1], ["required", "optional"]), keyword(words[2], ["on", "off"])
        name = name_of(words[0])
        shape = shape_of(self.design.grid, [cell_of(w) for w in words[3:]])
        if name in self.design.pieces:
            raise Refused(8)
        piece = (shape, int(need == "required"), 1, mirror == "on", None, frozenset())
        return self.edit(self.design.with_piece(name, piece))

    def do_drop(self, words):
        self.needs(words, 1)
        name = name_of(words[0])
        self.piece(name)
        return self.edit(self.design.with_piece(name, None))

    def do_need(self, words):
        self.needs(words, 2)
        need = keyword(words[1], ["required", "optional"])
        return self.bounds(name_of(words[0]), int(need == "required"), 1)

    def do_copies(self, words):
        self.needs(words, 3)
        name = name_of(words[0])
        if not all(re.fullmatch(rb"[0-9]+", w) for w in words[1:]):
            raise Refused(19)
        least, most = int(words[1]), int(words[2])
        if not least <= most <= 16:
            raise Refused(19)
        return self.bounds(name, least, most)

    def do_mirror(self, words):
        self.needs(words, 2)
        mirror = keyword(words[1], ["on", "off"])
        return self.replace(name_of(words[0]), 3, mirror == "on")

    def do_cell(self, words):
        self.needs(words, 2)
        mode = keyword(words[1], ["required", "optional", "blocked"])
        cell = cell_of(words[0])
        if self.design.cells.get(cell, "blocked") == mode:
            raise Refused(15)
        return self.edit(self.design.with_cell(cell, mode))

    def placed(self, words):
        self.needs(words, 2, exact=False)
        name = name_of(words[0])
        return name, distinct([cell_of(w) for w in words[1:]])

    def do_pin(self, words):
        name, cells = self.placed(words)
        if self.piece(name)[4] == cells:
            raise Refused(15)
        self.is_placement(name, cells)
        return self.replace(name, 4, cells)

    def do_unpin(self, words):
        self.needs(words, 1)
        return self.replace(name_of(words[0]), 4, None)

    def do_forbid(self, words):
        name, cells = self.placed(words)
        forbidden = self.piece(name)[5]
        if cells in forbidden:
            raise Refused(15)
        self.is_placement(name, cells)
        return self.replace(name, 5, forbidden | {cells})

    def do_allow(self, words):
        name, cells = self.placed(words)
        return self.replace(name, 5, self.piece(name)[5] - {cells})

    def is_placement(self, name, cells):
        if (name, cells) not in self.design.placements():
            raise Refused(14)

    def do_undo(self, words):
        self.needs(words, 0)
        if not self.undos:
            raise Refused(16)
        self.redos.append(self.design)
        return self.move(self.undos.pop())

    def do_redo(self, words):
        self.needs(words, 0)
        if not self.redos:
            raise Refused(17)
        self.undos.append(self.design)
        return self.move(self.redos.pop())

    def do_count(self, words):
        self.needs(words, 0)
        return [f"tilings {len(self.design.tilings())}"]

    def do_list(self, words):
        self.needs(words, 0)
        tilings = self.design.tilings()
        return ["tiling" + text_of(t) for t in tilings] + [f"tilings {len(tilings)}"]

    def do_classes(self, words):
        self.needs(words, 0)
        return [f"classes {self.design.classes()}"]

    def do_status(self, words):
        self.needs(words, 0)
        return [f"status edition {self.edition} tilings {len(self.design.tilings())}"]

    def do_browse(self, words):
        queries = [query_of(word) for word in words]
        queries = [(mark, (what[0], distinct(what[1])) if mark in "+-" else what) for mark, what in queries]
        tilings = [t for t in self.design.tilings() if all(meets(t, *query) for query in queries)]
        forced = [p for p in self.design.placements() if tilings and all(p in t for t in tilings)]
        used = {p for t in tilings for p in t}
        items = [(f"{x},{y}", [p for p in used if (x, y) in p[1]]) for x, y in by_row(self.design.cells)]
        items += [(name, [p for p in used if p[0] == name]) for name in sorted(self.design.pieces)]
        lines = [f"item {item} {len(covering)}" for item, covering in items]
        return ["forced" + text_of(forced), *lines, f"matches {len(tilings)}"]


def query_of(word):
    """Returns the mark of a word of `browse` and what follows it; an `@` word with a comma is a cell."""
    mark, rest = word[:1].decode("latin-1"), word[1:]
    if mark == "@":
        return mark, cell_of(rest) if b"," in rest else name_of(rest)
    if mark not in ("+", "-"):
        raise Refused(19)
    name, equals, cells = rest.partition(b"=")
    name = name_of(name)
    if not equals:
        raise Refused(19)
    return mark, (name, [cell_of(c) for c in cells.split(b"/")])


def meets(tiling, mark, what):
    if mark == "+":
        return what in tiling
    if mark == "-":
        return what not in tiling
    return any(what == name or what in cells for name, cells in tiling)


def text_of(placements):
    if not placements:
        return " -"
    return "".join(f" {n}=" + "/".join(f"{x},{y}" for x, y in cells) for n, cells in placements)


def lines_of(data):
    """Returns the lines of the input, without the carriage return right before a line feed; None for one that is too long."""
    *lines, last = data.split(b"\n")
    lines = [line[:-1] if line.endswith(b"\r") and len(line) <= MAX_LINE else line for line in lines]
    return [line if len(line) <= MAX_LINE else None for line in (lines + [last] if last else lines)]


def refusal(number):
    return f"no {number} {REFUSALS[number]}"


def replies_to(data):
    """Returns the lines that a session over the input writes, and its exit status."""
    first, *lines = lines_of(data) or [b""]
    try:
        check(first is not None, 20)
        session = Session(first)
    except Refused as refused:
        return [refusal(refused.args[0])], 1
    replies = ["ok 0"]
    for line in lines:
        try:
            check(line is not None, 20)
            words = [word for word in line.split(b" ") if word]
            replies += session.reply(words) if words else []
        except Refused as refused:
            replies.append(refusal(refused.args[0]))
    return replies, 0


def main():
    replies, status = replies_to(sys.stdin.buffer.read())
    print("\n".join(replies))
    return status


if __name__ == "__main__":
    sys.exit(main())
