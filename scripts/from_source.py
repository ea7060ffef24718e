#!/usr/bin/env python3
"""Proves and builds the program from the sources that stand here, by the toolchain's public commands.

usage: scripts/from_source.py

Each crate below the program is proved and built by `rt lib`, lowest first, and then the program by `rt run`. What an earlier
start has proved of the same files isn't proved again, so a start that was stopped goes on where it was. The program is then at
crates/polybench/out/polybench, and the list of its sources (scripts/sources.py) is in the file SOURCES next to it: `./polybench`
runs the program only while this list is that of the sources.

Standard error says which crate is being proved, how many are done, and the time so far. A second start waits until the first has
ended. The exit status is 0 if the program is built, else 1; then standard error also has the last lines of the failed command.
"""
import fcntl
import os
import subprocess
import sys
import time

import sources

ROOT = sources.ROOT
PROGRAM = sources.PROGRAM
OUT = f"{ROOT}/crates/{PROGRAM}/out"
LINES_OF_A_FAILURE = 60
START = time.monotonic()


def say(text):
    print(f"polybench: {text}", file=sys.stderr, flush=True)


def clock():
    seconds = int(time.monotonic() - START)
    return f"{seconds // 60} min {seconds % 60:02} s"


def is_built(listing):
    try:
        with open(f"{OUT}/SOURCES", encoding="utf-8") as file:
            return file.read() == listing and os.access(f"{OUT}/{PROGRAM}", os.X_OK)
    except FileNotFoundError:
        return False


def succeeds(crate, command):
    """Runs the command in the crate's folder. If it fails, prints the end of its output."""
    ran = subprocess.run(
        command, cwd=f"{ROOT}/crates/{crate}", stdin=subprocess.DEVNULL, stdout=subprocess.PIPE, stderr=subprocess.STDOUT
    )
    if ran.returncode:
        lines = ran.stdout.decode(errors="replace").splitlines()[-LINES_OF_A_FAILURE:]
        print("\n".join(lines), file=sys.stderr)
        say(f"{crate} could not be proved or built, after {clock()}; the end of the output is above")
    return ran.returncode == 0


def build():
    """Proves and builds all crates and the program. Returns whether it could."""
    crates = sources.crates_below(PROGRAM)
    say(f"proving {len(crates)} crates; from nothing, this takes an hour or more, once")
    for number, crate in enumerate(crates):
        say(f"proving {crate} ({number} of {len(crates)} done, {clock()})")
        # a program that is asked for its version reads no input and ends with status 0
        command = ["rt", "run", "--", "--version"] if crate == PROGRAM else ["rt", "lib"]
        if not succeeds(crate, command):
            return False
    say(f"built after {clock()}")
    return True


def build_once(version):
    """Builds the program unless the present sources are built already. Returns whether it is built."""
    listing = sources.listing(version)
    if is_built(listing):
        return True
    if not build():
        return False
    if sources.listing(version) != listing:
        say("a source was changed meanwhile; start again")
        return False
    with open(f"{OUT}/SOURCES", "w", encoding="utf-8") as file:
        file.write(listing)
    return True


def main():
    version = sources.toolchain()
    if version is None:
        say("the program can't be built: the command rt of the toolchain is not on the PATH")
        return 1
    os.makedirs(OUT, exist_ok=True)
    with open(f"{OUT}/.build-lock", "w", encoding="utf-8") as lock:
        try:
            fcntl.flock(lock, fcntl.LOCK_EX | fcntl.LOCK_NB)
        except BlockingIOError:
            say("another start is building the program; waiting for it")
            fcntl.flock(lock, fcntl.LOCK_EX)
        try:
            return 0 if build_once(version) else 1
        except KeyboardInterrupt:
            say("stopped; the next start goes on from here")
            return 1


if __name__ == "__main__":
    sys.exit(main())
