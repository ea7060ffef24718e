"""A client of the workbench: a session with `./polybench`, its answers as Python values.

A contest setter scripts the workbench in ten lines. For example: where must the puzzle show the dot, so that one solution up
to symmetry is left?

    from polybench import Session

    with Session.from_file("examples/recipes/hole.txt") as session:
        dots = {placement for tiling in session.tilings() for placement in tiling if placement.name == "Dot"}
        for dot in sorted(dots):
            session.edit("pin", dot)
            if session.classes() == 1:
                print(dot, session.count())
            session.undo()

This prints `Dot=3,1 2`: with the dot at 3,1 there are two solutions, which are mirror images.

A refused line raises `Refused`; a program that can't be started, or ends before it answers, raises `Ended`. The program is
`./polybench` of the repository that contains this file, unless the environment variable POLYBENCH names another one.
"""
import argparse
import json
import os
import subprocess
import sys
from typing import Any, Callable, Dict, Iterator, List, NamedTuple, NoReturn, Optional, Sequence, Tuple, Union

REPOSITORY = os.path.dirname(os.path.dirname(os.path.dirname(os.path.abspath(__file__))))

Cell = Tuple[int, int]


class Placement(NamedTuple):
    """A piece and the cells that it lies on, in cell order. Its text is a word of a `tiling` line: `A=0,0/1,0`."""

    name: str
    cells: Tuple[Cell, ...]

    def __str__(self) -> str:
        return f"{self.name}=" + "/".join(f"{x},{y}" for x, y in self.cells)


Tiling = Tuple[Placement, ...]


class Browse(NamedTuple):
    """The answer to `browse`: what all matches share, and the number of placements for each cell and for each piece."""

    forced: Tiling
    cells: Dict[Cell, int]
    pieces: Dict[str, int]
    matches: int


class Status(NamedTuple):
    """The answer to `status`."""

    edition: int
    listed: int
    pending: int


class Refused(Exception):
    """A line was refused. It changed nothing, and the session goes on, unless the line was the puzzle line."""

    def __init__(self, line: str, reply: str):
        _, number, name = reply.split(" ")
        super().__init__(f"the line `{shortened(line)}` was refused: {reply}")
        self.line, self.number, self.name = line, int(number), name

    @property
    def reply(self) -> str:
        return f"no {self.number} {self.name}"


class Ended(Exception):
    """The program could not be started, or it ended before it answered."""


class Session:
    """A session with the program. It ends with `close()`, or at the end of a `with` statement.

    `puzzle` is the puzzle line of docs/FORMATS.md, or a dictionary with its keys. `arguments` go to the program:
    `Session(puzzle, arguments=["--workers", "4"])`. The attribute `grid` is "square" or "hex".
    """

    def __init__(self, puzzle: Union[str, Dict[str, Any]], program: Optional[str] = None, arguments: Sequence[str] = ()):
        self._program = program or os.environ.get("POLYBENCH") or os.path.join(REPOSITORY, "polybench")
        line = puzzle if isinstance(puzzle, str) else json.dumps(puzzle)
        try:
            self._process = subprocess.Popen(
                [self._program, *arguments],
                stdin=subprocess.PIPE,
                stdout=subprocess.PIPE,
                encoding="utf-8",
                errors="surrogateescape",
            )
        except OSError as error:
            raise Ended(f"{self._program} could not be started: {error.strerror}") from error
        try:
            self._exchange(one_line(line))
        except BaseException:
            self.close()
            raise
        self.grid: str = json.loads(line)["grid"]

    @classmethod
    def from_file(cls, path: str, program: Optional[str] = None, arguments: Sequence[str] = ()) -> "Session":
        """Starts a session and plays a design: a file with the puzzle line and the commands that changed it.

        The path `-` stands for standard input. The first line that is refused raises `Refused`.
        """
        lines = lines_of(path)
        session = cls(next(lines, ""), program, arguments)
        try:
            for line in lines:
                session.send(line)
        except BaseException:
            session.close()
            raise
        return session

    def __enter__(self) -> "Session":
        return self

    def __exit__(self, *_: object) -> None:
        self.close()

    def close(self) -> None:
        """Ends the program, which keeps nothing outside its session. A second call does nothing."""
        try:
            self._process.stdin.close()
        except BrokenPipeError:
            pass
        self._process.stdout.close()
        self._process.terminate()
        self._process.wait()

    def send(self, line: str) -> List[str]:
        """Sends any line after the puzzle line and returns the lines of its reply: none if the line has no words."""
        line = one_line(line)
        return self._exchange(line) if line.strip(" ") else []

    def edit(self, *words: Union[str, int, Cell, Placement]) -> int:
        """Sends an edit and returns the new edition.

        A word is text, a number, a cell (x, y), or a placement, which stands for its name and its cells. These are the same:

            session.edit("pin X 4,1 3,2")
            session.edit("pin", "X", (4, 1), (3, 2))
            session.edit("pin", Placement("X", ((4, 1), (3, 2))))
        """
        line = " ".join(word_of(word) for word in words)
        return int(self._ask(line, "ok"))

    def undo(self) -> int:
        """Undoes the last change and returns the new edition."""
        return self.edit("undo")

    def redo(self) -> int:
        """Redoes the change that was undone last and returns the new edition."""
        return self.edit("redo")

    def count(self) -> int:
        """Returns the number of tilings."""
        return int(self._ask("count", "tilings"))

    def tilings(self) -> List[Tiling]:
        """Returns all tilings, in order. Each is a tuple of placements."""
        return [placements_of(text) for word, text in map(parted, self.send("list")) if word == "tiling"]

    def browse(self, *conditions: str) -> Browse:
        """Returns what the tilings that meet all conditions have in common: `browse(f"+{placement}", "@3,1", "@Dot")`."""
        found = Browse((), {}, {}, 0)
        for word, text in map(parted, self.send(" ".join(["browse", *conditions]))):
            if word == "forced":
                found = found._replace(forced=placements_of(text))
            elif word == "matches":
                found = found._replace(matches=int(text))
            else:
                item, number = text.split(" ")
                if "," in item:
                    found.cells[cell_of(item)] = int(number)
                else:
                    found.pieces[item] = int(number)
        return found

    def classes(self) -> int:
        """Returns the number of tilings up to symmetry."""
        return int(self._ask("classes", "classes"))

    def status(self) -> Status:
        """Returns what is known without a search."""
        _, edition, _, listed, _, pending = self._ask("status", "status").split(" ")
        return Status(int(edition), int(listed), int(pending))

    def _ask(self, line: str, word: str) -> str:
        """Sends a line and returns what follows `word` in its reply, which is one line that begins with it."""
        replies = self.send(line)
        if len(replies) != 1 or parted(replies[0])[0] != word:
            raise ValueError(f"the reply to {shortened(line)!r} is not one line {word!r}")
        return parted(replies[0])[1]

    def _exchange(self, line: str) -> List[str]:
        """Sends a line that has a reply. The reply ends with the first line that isn't a part of a list."""
        try:
            self._process.stdin.write(line + "\n")
            self._process.stdin.flush()
        except BrokenPipeError:
            pass  # The program has ended: no reply will come.
        replies: List[str] = []
        while not replies or parted(replies[-1])[0] in ("tiling", "forced", "item"):
            reply = self._process.stdout.readline()
            if not reply.endswith("\n"):
                status = self._process.wait()
                raise Ended(f"{self._program} ended with status {status} before it answered: {shortened(line)}")
            replies.append(reply[:-1])
        if parted(replies[-1])[0] == "no":
            raise Refused(line, replies[-1])
        return replies


def one_line(text: str) -> str:
    """Returns the text without its line end, and refuses text of several lines."""
    line = text.rstrip("\r\n")
    if "\n" in line:
        raise ValueError("this is more than one line")
    return line


def shortened(line: str) -> str:
    return line if len(line) <= 60 else line[:58] + ".."


def parted(line: str) -> Tuple[str, str]:
    """Returns the first word of a reply and the rest."""
    word, _, rest = line.partition(" ")
    return word, rest


def word_of(word: Union[str, int, Cell, Placement]) -> str:
    """Returns a word of an edit as the program reads it. A placement makes several words."""
    if isinstance(word, Placement):
        return " ".join([word.name, *map(word_of, word.cells)])
    return f"{word[0]},{word[1]}" if isinstance(word, tuple) else str(word)


def cell_of(text: str) -> Cell:
    x, y = text.split(",")
    return int(x), int(y)


def placements_of(text: str) -> Tiling:
    """Reads what follows `tiling` or `forced`: placements, or `-` for none."""
    pairs = [word.split("=") for word in text.split(" ") if word != "-"]
    return tuple(Placement(name, tuple(map(cell_of, cells.split("/")))) for name, cells in pairs)


# Shared by the recipes next to this file.


def lines_of(path: str) -> Iterator[str]:
    """Yields the lines of a file, or for `-` those of standard input as they come."""
    file: Union[int, str] = 0 if path == "-" else path
    with open(file, encoding="utf-8", errors="surrogateescape", newline="\n", closefd=file != 0) as lines:
        yield from lines


def parser_of(text: str) -> argparse.ArgumentParser:
    """Returns a parser of arguments. The text at the head of a recipe is its help: a line, the usage, and the rest."""
    about, usage, rest = text.split("\n\n", 2)
    return argparse.ArgumentParser(
        usage=usage[len("usage: ") :],
        description=about,
        epilog=rest,
        formatter_class=argparse.RawDescriptionHelpFormatter,
    )


def picture(grid: str, words: Dict[Cell, str], hole: str) -> List[str]:
    """Lays the words of cells out as lines: rows of squares, or rows of hexagons, each half a cell further to the right.

    The word `hole` stands for a cell that is missing in a row; all words are equally long. The picture begins with the first
    row and the first column that has a cell.
    """
    # A row of hexagons is shifted by half the pitch, so their pitch has to be even.
    pitch = len(hole) + 1 if grid == "square" else len(hole) // 2 * 2 + 2
    shift = 0 if grid == "square" else pitch // 2
    left = min(x * pitch + y * shift for x, y in words)
    lines = []
    for y in range(min(y for _, y in words), max(y for _, y in words) + 1):
        columns = [x for x, row in words if row == y]
        if not columns:
            lines.append("")
            continue
        indent = " " * (min(columns) * pitch + y * shift - left)
        shown = [words.get((x, y), hole) for x in range(min(columns), max(columns) + 1)]
        lines.append(indent + (" " * (pitch - len(hole))).join(shown))
    return lines


def run(tool: Callable[[], None]) -> NoReturn:
    """Runs the main function of a recipe, and ends with one line on standard error and an exit status if it fails.

    The statuses are those of `./polybench`: 1 if a line was refused, 2 if a file can't be opened, 3 if the program ended or
    a write failed. If the reader of standard output has gone, as `head` does, nothing is said.
    """
    try:
        tool()
        sys.stdout.flush()
        sys.exit(0)
    except Refused as refused:
        status, text = 1, str(refused)
    except Ended as ended:
        status, text = 3, str(ended)
    except BrokenPipeError:
        status, text = 3, ""
    except OSError as error:
        status, text = (2, f"{error.filename}: {error.strerror}") if error.filename else (3, error.strerror)
    except KeyboardInterrupt:
        status, text = 130, ""
    # What is still to be written must not fail again when the interpreter ends.
    os.dup2(os.open(os.devnull, os.O_WRONLY), 1)
    if text:
        print(f"{os.path.basename(sys.argv[0])}: {text}", file=sys.stderr)
    sys.exit(status)
