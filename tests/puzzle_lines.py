#!/usr/bin/env python3
"""Plays each puzzle line of tests/puzzle_lines.txt as a session of its own, and compares the answers.

usage: tests/puzzle_lines.py PROGRAM

The reference has to give the same answers, so that no answer stands in the file that only the program gives. Standard output
ends with a line `N passed, M failed`, which counts puzzle lines.
"""
import os
import subprocess
import sys

from reference import Refused, design_of, refusal

LINES = os.path.join(os.path.dirname(os.path.abspath(__file__)), "puzzle_lines.txt")


def cases():
    """Returns the puzzle lines and their answers."""
    with open(LINES, encoding="utf-8") as file:
        lines = [line for line in file.read().split("\n") if line and not line.startswith("#")]
    return [(typed[2:], answer) for typed, answer in zip(lines[::2], lines[1::2])]


def by_reference(line):
    try:
        design_of(line.encode())
    except Refused as refused:
        return refusal(refused.args[0])
    return "ok 0"


def by_program(program, line):
    """Returns what the program answers. An answer with a wrong exit status, or with more than one line, is returned as text."""
    done = subprocess.run([program], input=line.encode() + b"\n", capture_output=True, timeout=60, check=False)
    answer = done.stdout.decode("latin-1")
    if done.stderr or done.returncode != int(not answer.startswith("ok")) or answer.count("\n") != 1:
        return f"{answer!r} with status {done.returncode} and {done.stderr!r}"
    return answer.rstrip("\n")


def main():
    failed = 0
    for line, wanted in cases():
        told = {"the program": by_program(sys.argv[1], line), "the reference": by_reference(line)}
        wrong = [f"{who} answers {answer}" for who, answer in told.items() if answer != wanted]
        if wrong:
            failed += 1
            print(f"failed: {', '.join(wrong)} in place of {wanted}: {line}")
    print(f"{len(cases()) - failed} passed, {failed} failed")
    return 1 if failed else 0


if __name__ == "__main__":
    sys.exit(main())
