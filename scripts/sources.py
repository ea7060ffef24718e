#!/usr/bin/env python3
"""Lists the files that the program is compiled from, with their checksums.

usage: scripts/sources.py

The first line is a comment with the version of the toolchain, without the letter of its kit. Each further line is
`SHA-256  PATH`, as `sha256sum -c` reads it at the top of the repository: crates.txt, and each file under src/ of `polybench` and
of the crates below it. Contracts are part of these files; definitions and proofs are not compiled.
"""
import hashlib
import os
import re
import subprocess
import sys

ROOT = os.path.dirname(os.path.dirname(os.path.abspath(__file__)))
PROGRAM = "polybench"


def crates_below(name):
    """Returns the crate and all crates of the repository that it uses, each after those that it uses itself."""
    uses = {}
    with open(f"{ROOT}/crates.txt", encoding="utf-8") as file:
        for line in file:
            crate, colon, libraries = line.partition("#")[0].partition(":")
            if colon:
                uses[crate.split()[0]] = libraries.split()
    order = []

    def add(crate):
        if crate in uses and crate not in order:
            for library in uses[crate]:
                add(library)
            order.append(crate)

    add(name)
    return order


def files():
    """Returns the paths of the files, in order, relative to the top of the repository."""
    found = ["crates.txt"]
    for crate in crates_below(PROGRAM):
        for folder, _, names in os.walk(f"{ROOT}/crates/{crate}/src"):
            found += [os.path.relpath(f"{folder}/{name}", ROOT) for name in names]
    return sorted(found)


def checksum(path):
    with open(path, "rb") as file:
        return hashlib.sha256(file.read()).hexdigest()


def toolchain():
    """Returns the version of the toolchain without the letter of its kit, or None if it isn't installed.

    The kits 13b and 13f have the same checker and compiler, and differ in their commands alone. If the compiler of another
    letter differs, `./check` shows it, since it compares the release with what it has built.
    """
    try:
        version = subprocess.run(["rt", "version"], capture_output=True, check=True, text=True).stdout.strip()
    except (OSError, subprocess.CalledProcessError):
        return None
    return re.sub(r"^(rattle-kit-[0-9]+)[a-z]\b", r"\1", version)


def listing(version):
    """Returns the text of the list, with this version of the toolchain in its first line."""
    sums = "".join(f"{checksum(f'{ROOT}/{path}')}  {path}\n" for path in files())
    return f"# {version}\n{sums}"


if __name__ == "__main__":
    sys.stdout.write(listing(toolchain() or sys.exit("sources: the command rt of the toolchain is not on the PATH")))
