"""Atoms, guards, hopeless lists and trees by docs/DEFINITIONS.md alone. It shares nothing with the crates.

Placements and items are texts, as the player prints them: `A=0,0/1,0`, `0,0`, `A`. A placement that has only a number is
that number. An atom is a tuple: `has` or `lacks` with a placement, `least` or `most` with an item and a number. A tree is a
tuple too: `("rest",)`, `("found",)`, `("split", PLACEMENT, TREE, TREE)` or `("branch", ITEM, [(PLACEMENT, TREE), ..])`.
"""
import functools
import sys

from reference import by_row

MAX_NODES = 4096
MAX_DEPTH = 512
# A view isn't made of a larger design, since all tilings are listed.
MAX_CELLS = 20
MAX_TILINGS = 3000

# A tree that is too deep is read and measured before it is refused.
sys.setrecursionlimit(20000)


def text_of_placement(placement):
    name, cells = placement
    return f"{name}=" + "/".join(f"{x},{y}" for x, y in cells)


@functools.lru_cache(maxsize=100000)
def cells_of(placement):
    """Returns the cells of a placement. A number names no placement and covers nothing."""
    return frozenset(placement.partition("=")[2].split("/")) if "=" in placement else frozenset()


@functools.lru_cache(maxsize=100000)
def items_of(placement):
    """Returns the piece and the cells of a placement."""
    return cells_of(placement) | {placement.partition("=")[0]} if "=" in placement else frozenset()


def are_in_conflict(one, other):
    return one != other and not cells_of(one).isdisjoint(cells_of(other))


def count_on(item, placements):
    return sum(item in items_of(placement) for placement in placements)


class TooLarge(Exception):
    """A design that is too large for a view."""


class View:
    """A design, and by texts its placements, its pins, the bounds of its items, and its tilings.

    A set of tilings is a number, whose bit i stands for the tiling at index i of `tilings`."""

    def __init__(self, design):
        if len(design.cells) > MAX_CELLS:
            raise TooLarge(f"a design has over {MAX_CELLS} cells")
        self.design, self.known = design, {}
        self.places = [text_of_placement(p) for p in design.placements()]
        self.live = frozenset(self.places)
        self.pins = [text_of_placement((n, p[4])) for n, p in sorted(design.pieces.items()) if p[4] is not None]
        self.bounds = {f"{x},{y}": (int(design.cells[x, y] == "required"), 1) for x, y in by_row(design.cells)}
        self.bounds.update((name, piece[1:3]) for name, piece in sorted(design.pieces.items()))

    @functools.cached_property
    def tilings(self):
        tilings = self.design.tilings(MAX_TILINGS + 1)
        if len(tilings) > MAX_TILINGS:
            raise TooLarge(f"a design has over {MAX_TILINGS} tilings")
        return [frozenset(map(text_of_placement, tiling)) for tiling in tilings]

    @functools.cached_property
    def index(self):
        return {tiling: i for i, tiling in enumerate(self.tilings)}

    @functools.cached_property
    def everything(self):
        return (1 << len(self.tilings)) - 1

    def bounds_of(self, item):
        return self.bounds.get(item, (0, 0))

    def meeting(self, atom):
        """Returns the set of the tilings that meet the atom."""
        if atom not in self.known:
            self.known[atom] = sum(1 << i for i, tiling in enumerate(self.tilings) if meets(tiling, atom))
        return self.known[atom]

    def family(self, atoms):
        """Returns the set of the tilings that meet all of the atoms."""
        tilings = self.everything
        for atom in atoms:
            tilings &= self.meeting(atom)
        return tilings


def meets(tiling, atom):
    if atom[0] == "has":
        return atom[1] in tiling
    if atom[0] == "lacks":
        return atom[1] not in tiling
    count = count_on(atom[1], tiling)
    return count >= atom[2] if atom[0] == "least" else count <= atom[2]


def negation(atom):
    kind, what, *number = atom
    if kind in ("has", "lacks"):
        return ("lacks" if kind == "has" else "has", what)
    return ("most", what, number[0] - 1) if kind == "least" else ("least", what, number[0] + 1)


def guards(old, new):
    """Returns the guards of the change from one view to another."""
    fresh = [("lacks", p) for p in new.places if p not in old.live]
    leasts = [("least", i, least) for i, (least, _) in old.bounds.items() if new.bounds_of(i)[0] < least]
    mosts = [("most", i, most) for i, (_, most) in old.bounds.items() if most < new.bounds_of(i)[1]]
    return fresh + leasts + mosts + [("has", p) for p in old.pins if p not in new.pins]


def stairs(atoms):
    return [[*atoms[:j], negation(atom)] for j, atom in enumerate(atoms)]


def is_hopeless(view, atoms):
    has = {atom[1] for atom in atoms if atom[0] == "has"}
    return any(shows_nothing(view, has, has | set(view.pins), atom) for atom in atoms)


def shows_nothing(view, has, base, atom):
    """Says whether the atom shows that a list is hopeless, which has these placements; the base has the pins too."""
    kind, what = atom[:2]
    if kind == "lacks":
        return what in base
    if kind == "has":
        name = what.partition("=")[0]
        crowded = count_on(name, base) > view.bounds_of(name)[1]
        return what not in view.live or crowded or any(are_in_conflict(what, p) for p in base)
    if kind == "least":
        return what in view.bounds and atom[2] > view.bounds[what][1]
    return atom[2] < view.bounds_of(what)[0]


class Family:
    """A list of atoms on a view: which placements are ruled out, open or dead."""

    def __init__(self, view, atoms):
        self.view, self.atoms = view, atoms
        self.lacked = {atom[1] for atom in atoms if atom[0] == "lacks"}
        self.base = {atom[1] for atom in atoms if atom[0] == "has"} | set(view.pins)

    def most(self, item):
        return min([self.view.bounds_of(item)[1]] + [a[2] for a in self.atoms if a[:2] == ("most", item)])

    def least(self, item):
        numbers = [a[2] for a in self.atoms if a[:2] == ("least", item)]
        return max([self.view.bounds_of(item)[0], count_on(item, self.base)] + numbers)

    def is_ruled_out(self, placement):
        if placement in self.lacked or any(are_in_conflict(placement, p) for p in self.base):
            return True
        others = self.base - {placement}
        return any(count_on(item, others) >= self.most(item) for item in items_of(placement))

    def is_open(self, placement):
        return placement not in self.base and not self.is_ruled_out(placement)

    def is_dead(self, placement):
        return placement not in self.view.live or placement in self.lacked

    def count_open(self):
        return sum(map(self.is_open, self.view.places))

    def can_branch(self, item, arms):
        """Says whether a Branch on the item may have these placements as its arms."""
        if len(set(arms)) < len(arms) or not all(item in items_of(p) for p in arms):
            return False
        others = [p for p in self.view.places if item in items_of(p) and p not in arms and not self.is_ruled_out(p)]
        return len(others) < self.least(item)


def leaves(view, atoms, tree):
    """Returns the tilings and the rests of a tree, or None if the tree doesn't hold for the atoms."""
    if tree[0] == "rest":
        return [], [atoms]
    family = Family(view, atoms)
    if tree[0] == "found":
        return None if family.count_open() else (found(view, family), [])
    if tree[0] == "branch" and not family.can_branch(tree[1], [placement for placement, _ in tree[2]]):
        return None
    tilings, rests = [], []
    for placement, more, child in children(tree):
        if placement is not None and family.is_dead(placement):
            continue
        part = leaves(view, atoms + more, child)
        if part is None:
            return None
        tilings += part[0]
        rests += part[1]
    return tilings, rests


def children(tree):
    """Yields for each tree below a Branch or a Split the placement that is taken, if any, the atoms that it adds, and it."""
    if tree[0] == "split":
        yield tree[1], [("has", tree[1])], tree[2]
        yield None, [("lacks", tree[1])], tree[3]
        return
    before = []
    for placement, child in tree[2]:
        yield placement, [*before, ("has", placement)], child
        before.append(("lacks", placement))


def found(view, family):
    base = frozenset(family.base)
    return [base] if base in view.index and view.family(family.atoms) >> view.index[base] & 1 else []


def size_of(tree):
    """Returns the number of nodes, how many of these aren't Rest, and the depth."""
    below = [size_of(child) for _, _, child in children(tree)] if tree[0] in ("split", "branch") else []
    inner = int(tree[0] != "rest") + sum(size[1] for size in below)
    return 1 + sum(size[0] for size in below), inner, 1 + max([size[2] for size in below], default=0)


def fits(tree):
    nodes, _, depth = size_of(tree)
    return nodes <= MAX_NODES and depth <= MAX_DEPTH


@functools.lru_cache(maxsize=10000)
def atoms_of(text):
    """Returns the atoms that the words say."""
    words, atoms = iter(text.split()), []
    for kind in words:
        atoms.append((kind, next(words)) if kind in ("has", "lacks") else (kind, next(words), int(next(words))))
    return atoms


def tree_of(words):
    """Reads a tree from an iterator over its words."""
    kind = next(words)
    if kind == "split":
        return "split", next(words), tree_of(words), tree_of(words)
    if kind != "branch":
        return (kind,)
    item, arms = next(words), []
    for word in iter(words.__next__, "end"):
        arms.append((word, tree_of(words)))
    return "branch", item, arms
