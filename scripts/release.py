#!/usr/bin/env python3
"""Makes the release from the program that was proved and built last, or compares the two.

usage: scripts/release.py [--check]

The release is the folder release/: the program, as the toolchain builds it from the sources beside it, and SOURCES, the list of
scripts/sources.py of these sources. `./check` and scripts/from_source.py leave the program that they proved and built at
crates/polybench/out/polybench, with the list of its sources next to it. If no such program of the present sources is there,
scripts/from_source.py builds it first.

With `--check` nothing is written: each way in which the release differs from the proved program, or from the present sources, is
a line `failed: ..`, and the last line is `N passed, M failed`.
"""
import filecmp
import os
import shutil
import subprocess
import sys

import sources

ROOT = sources.ROOT
BUILT = f"{ROOT}/crates/{sources.PROGRAM}/out/{sources.PROGRAM}"
BUILT_FROM = f"{ROOT}/crates/{sources.PROGRAM}/out/SOURCES"
RELEASE = f"{ROOT}/release/{sources.PROGRAM}-x86_64-linux"
RELEASED_FROM = f"{ROOT}/release/SOURCES"
MEND = "scripts/release.py makes the release from the proved program"


def text_of(path):
    """Returns the text of the file, or None if there is no such file."""
    try:
        with open(path, encoding="utf-8") as file:
            return file.read()
    except FileNotFoundError:
        return None


def is_built(listing):
    return os.access(BUILT, os.X_OK) and text_of(BUILT_FROM) == listing


def differences(listing):
    """Returns what keeps the release from being the proved program of the present sources."""
    if not is_built(listing):
        yield f"no proved program of the present sources is at {os.path.relpath(BUILT, ROOT)}"
    if text_of(RELEASED_FROM) is None:
        yield "release/SOURCES is missing"
    elif text_of(RELEASED_FROM) != listing:
        yield "release/SOURCES does not list the present sources and toolchain"
    if not os.access(RELEASE, os.X_OK):
        yield f"{os.path.relpath(RELEASE, ROOT)} is missing, or is not executable"
    elif is_built(listing) and not filecmp.cmp(RELEASE, BUILT, shallow=False):
        yield f"{os.path.relpath(RELEASE, ROOT)} is not the proved program, byte for byte"


def check(listing):
    found = list(differences(listing))
    for difference in found:
        print(f"failed: {difference}; {MEND}")
    print("0 passed, 1 failed" if found else "1 passed, 0 failed")
    return 1 if found else 0


def put(source, path):
    """Replaces the file at the path in one step: nobody runs or reads half of it."""
    shutil.copy(source, f"{path}.new")
    os.replace(f"{path}.new", path)


def release(listing):
    if not is_built(listing):
        status = subprocess.run([f"{ROOT}/scripts/from_source.py"], stdin=subprocess.DEVNULL).returncode
        if status:
            return status
    os.makedirs(f"{ROOT}/release", exist_ok=True)
    put(BUILT, RELEASE)
    put(BUILT_FROM, RELEASED_FROM)
    return 0


def main(arguments):
    if arguments not in ([], ["--check"]):
        print("usage: scripts/release.py [--check]", file=sys.stderr)
        return 2
    version = sources.toolchain()
    if version is None:
        print("failed: the command rt of the toolchain is not on the PATH")
        return 1
    listing = sources.listing(version)
    return check(listing) if arguments else release(listing)


if __name__ == "__main__":
    sys.exit(main(sys.argv[1:]))
