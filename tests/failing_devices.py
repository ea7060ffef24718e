#!/usr/bin/env python3
"""Plays two sessions with standard input or standard output failing after each number of bytes.

usage: tests/failing_devices.py PROGRAM SHIM

SHIM is tests/fail_devices.c, which tries all these failures in one run of a session and tells what went wrong. Here it is checked
that the run is otherwise as usual, that the failures were tried, and that a reply was always written before a byte of the next
line was read: so after a failed read the output is that of the lines that were read whole. The sessions are the examples "two
dominoes" and "refused commands". Standard output ends with a line `N passed, M failed`, which counts sessions with a device.
"""
import os
import subprocess
import sys
import tempfile
from itertools import accumulate

DOMINOES = (
    '{"format":1,"grid":"square","board":["##","##"],"pieces":'
    '[{"name":"A","cells":[[0,0],[1,0]]},{"name":"B","cells":[[0,0],[1,0]]}]}'
)
# Each line that is sent, with its reply. Only the last line may have no line feed.
TWO_DOMINOES = [
    (f"{DOMINOES}\n", "ok 0\n"),
    (
        "list\n",
        "tiling A=0,0/1,0 B=0,1/1,1\ntiling A=0,0/0,1 B=1,0/1,1\ntiling A=1,0/1,1 B=0,0/0,1\ntiling A=0,1/1,1 B=0,0/1,0\n"
        "tilings 4\n",
    ),
    ("classes\n", "classes 1\n"),
]
REFUSED_COMMANDS = [
    (f"{DOMINOES}\n", "ok 0\n"),
    ("undo\n", "no 16 NothingToUndo\n"),
    ("redo\n", "no 17 NothingToRedo\n"),
    ("cell 0,0 required\n", "no 15 NoChange\n"),
    ("cell 64,0 optional\n", "no 10 BadCell\n"),
    ("add A required on 0,0\n", "no 8 NameTaken\n"),
    ("add C required on 0,0 2,0\n", "no 7 BadShape\n"),
    ("drop Z\n", "no 9 NoSuchPiece\n"),
    ("pin A 0,0 1,1\n", "no 14 NotAPlacement\n"),
    ("fly\n", "no 19 BadCommand\n"),
    (f"{'x' * 65536}\n", "no 19 BadCommand\n"),
    (f"{'x' * 65537}\n", "no 20 LineTooLong\n"),
    ("status", "status edition 0 listed 0 pending 1\n"),
]


def play(program, shim, device, sent):
    """Runs the session. Returns its status, what it wrote, what is on standard error, and the lines of the shim's log."""
    with tempfile.TemporaryDirectory() as room:
        paths = {name: os.path.join(room, name) for name in ("input", "output", "errors", "log")}
        with open(paths["input"], "wb") as file:
            file.write(sent.encode())
        environment = {"LD_PRELOAD": shim, "FAILING": f"{device}s", "FAULT": f"polybench: {device} fault\n", "LOG": paths["log"]}
        with open(paths["input"], "rb") as file, open(paths["output"], "wb") as output, open(paths["errors"], "wb") as errors:
            done = subprocess.run(
                [program], stdin=file, stdout=output, stderr=errors, env={**os.environ, **environment}, timeout=300, check=False
            )
        texts = []
        for name in ("output", "errors", "log"):
            with open(paths[name], encoding="latin-1") as file:
                texts.append(file.read())
    return done.returncode, texts[0], texts[1], texts[2].splitlines()


def wanted_log(device, session):
    """Returns what the shim should log, apart from the number of runs, and how many runs there should be at least."""
    replies = "".join(reply for _, reply in session)
    if device == "write":
        return [], len(replies)
    read = accumulate(len(line) for line, _ in session if line.endswith("\n"))
    written = accumulate(len(reply) for line, reply in session if line.endswith("\n"))
    log = ["0 bytes read, 0 bytes written", *(f"{k} bytes read, {n} bytes written" for k, n in zip(read, written))]
    return log, 1 + sum(min(len(line), 300) for line, _ in session)


def fault_of(program, shim, device, session):
    """Returns what is wrong with the session, or None."""
    sent, replies = ("".join(part) for part in zip(*session))
    status, output, errors, log = play(program, shim, device, sent)
    if (status, output, errors) != (0, replies, ""):
        return f"ended with status {status}, {output[:200]!r} and {errors[:200]!r}"
    told = [line for line in log if not line.endswith(" runs")]
    wanted, least = wanted_log(device, session)
    if told != wanted:
        return "; ".join(line for line in told if line not in wanted) or "replies came late"
    runs = max((int(line.split()[0]) for line in log if line.endswith(" runs")), default=0)
    print(f"{device}s fail in {runs} runs", file=sys.stderr)
    return None if runs >= least else f"only {runs} failures were tried"


def main():
    program, shim = (os.path.abspath(path) for path in sys.argv[1:3])
    failed = 0
    for name, session in (("two dominoes", TWO_DOMINOES), ("refused commands", REFUSED_COMMANDS)):
        for device in ("read", "write"):
            fault = fault_of(program, shim, device, session)
            if fault:
                failed += 1
                print(f"failed: {name} with {device}s that fail: {fault[:1000]}")
    print(f"{4 - failed} passed, {failed} failed")
    return 1 if failed else 0


if __name__ == "__main__":
    sys.exit(main())
