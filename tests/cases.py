#!/usr/bin/env python3
"""Plays cases with the player of docs/PLAYER.md, and compares what it prints with what the cases say.

usage: tests/cases.py PLAYER SHIM CASE..

In a case, a line that begins with `> ` is played, a line that begins with `#` is a comment, and the other lines that aren't
empty are what must be printed. In these, `*` stands for any text, such as the number of reports of a `settle`, which no
document fixes, and `[1-9]` for one of these digits.

If a case has the comment `# each allocation refused`, it is also played once for each allocation that the player makes, with
that allocation refused by SHIM (tests/refuse_allocation.c) and the line that was refused played a second time. Then the same
must be printed. Only if there is no memory to read the case, nothing is printed.

Standard output ends with a line `N passed, M failed`, which counts cases.
"""
import fnmatch
import os
import subprocess
import sys
import tempfile


class Case:
    """The lines that are played, the lines that must be printed, and whether each allocation is refused."""

    def __init__(self, path):
        with open(path, encoding="utf-8") as file:
            lines = [line for line in file.read().split("\n") if line]
        self.name = os.path.basename(path)
        self.input = "".join(line[2:] + "\n" for line in lines if line.startswith("> ")).encode()
        self.wanted = [line for line in lines if not line.startswith(("> ", "#"))]
        self.refuses = "# each allocation refused" in lines

    def fault(self, output):
        """Returns what is wrong with the output, or None."""
        printed = output.decode("utf-8", "replace").split("\n")[:-1]
        for line, wanted in zip(printed, self.wanted):
            if not fnmatch.fnmatchcase(line, wanted):
                return f"printed '{line[:200]}' in place of '{wanted[:200]}'"
        if len(printed) != len(self.wanted):
            return f"printed {len(printed)} lines in place of {len(self.wanted)}"
        return None

    def played(self, player, arguments, environment):
        """Plays the case. Returns what is wrong, or None."""
        try:
            done = subprocess.run(
                [player, *arguments], input=self.input, capture_output=True, timeout=120, check=False,
                env=dict(os.environ, **environment),
            )
        except subprocess.TimeoutExpired:
            return "took over two minutes"
        if environment and done.returncode != 0 and not done.stdout:
            return None
        if done.returncode != 0:
            return f"ended with status {done.returncode}: {done.stderr[:200]}"
        return self.fault(done.stdout)

    def played_refused(self, player, shim):
        """Plays the case once for each allocation, with that one refused. Returns what is wrong, or None."""
        with tempfile.TemporaryDirectory() as room:
            sign = os.path.join(room, "refused")
            at = 0
            while True:
                at += 1
                environment = {"LD_PRELOAD": shim, "REFUSE_AT": str(at), "REFUSED": sign}
                why = self.played(player, ["--again"], environment)
                if not os.path.exists(sign):
                    break
                os.remove(sign)
                if why:
                    return f"with allocation {at} refused: {why}"
        print(f"refused memory: {self.name}, {at - 1} allocations", file=sys.stderr)
        return None if at > 1 else "met no allocation"


def main():
    player, shim = (os.path.abspath(path) for path in sys.argv[1:3])
    counts = {True: 0, False: 0}
    for path in sys.argv[3:]:
        case = Case(path)
        why = "plays nothing" if not case.input else case.played(player, [], {})
        if not why and case.refuses:
            why = case.played_refused(player, shim)
        counts[why is None] += 1
        if why:
            print(f"failed: {case.name}: {why}")
    print(f"{counts[True]} passed, {counts[False]} failed")
    return 1 if counts[False] else 0


if __name__ == "__main__":
    sys.exit(main())
