#!/usr/bin/env python3
"""Runs the gate, shows its progress, and logs what each crate costs.

usage: scripts/watch.py LOG COMMAND [ARGUMENT ..]

Runs the command, passes its output on to standard output, and ends with its exit status. Meanwhile:
- Twice a second it looks at the checks that the command has started. Each check belongs to a crate and a phase: the
  crate's `proof`, the proof of its `tests`, or its must-fail `edits`.
- Every half minute it says on standard error how many crates are proved, which checks run, and the time so far.
- At the end LOG has one line for each crate and phase, `CRATE PHASE BEGAN ENDED PROCESSOR CHECKS`: when its first
  check began and its last one ended, the user and system time of its checks, all in seconds, and the number of checks.
  The last line is `all all BEGAN ENDED PROCESSOR CHECKS` for the whole command and everything that it ran. There BEGAN is the
  time of day, in seconds since 1970, so that the log can be read beside that of benches/yardstick.py.
benches/costs.py makes a table of such a log.
"""
import os
import re
import resource
import subprocess
import sys
import threading
import time

LOOK_EVERY = 0.5
SAY_EVERY = 30
TICKS = os.sysconf("SC_CLK_TCK")
START = time.monotonic()
BEGAN = time.time()


def processes():
    """Returns the parent and the processor seconds of each process that runs now."""
    found = {}
    for pid in filter(str.isdigit, os.listdir("/proc")):
        try:
            with open(f"/proc/{pid}/stat", encoding="utf-8", errors="replace") as file:
                fields = file.read().rpartition(")")[2].split()
        except OSError:
            continue
        found[int(pid)] = int(fields[1]), (int(fields[11]) + int(fields[12])) / TICKS
    return found


def descendants(found, root):
    """Returns the root and all processes below it."""
    children = {}
    for pid, (parent, _) in found.items():
        children.setdefault(parent, []).append(pid)
    reached = [root]
    for pid in reached:
        reached += children.get(pid, [])
    return reached


def phase_of(pid):
    """Returns the crate and phase that a process checks, or None if the process isn't a check."""
    try:
        with open(f"/proc/{pid}/cmdline", "rb") as file:
            words = file.read().decode(errors="replace").split("\0")
        folder = os.path.basename(os.readlink(f"/proc/{pid}/cwd"))
    except OSError:
        return None
    if os.path.basename(words[0]) != "rattle" or "--crate-name" not in words:
        return None
    crate = words[words.index("--crate-name") + 1]
    return crate, "edits" if folder.startswith("rt-edit-") else "tests" if "--test" in words else "proof"


class Watch:
    """The checks that were seen, by crate and phase."""

    def __init__(self):
        self.phases = {}
        self.known = {}
        self.running = []
        self.proved = set()

    def look(self, root):
        now, found = time.monotonic() - START, processes()
        self.running = []
        for pid in descendants(found, root):
            phase = phase_of(pid)
            if not phase or pid not in found:
                continue
            if phase not in self.running:
                self.running.append(phase)
            # a check that forks workers counts once
            is_worker = phase_of(found[pid][0]) == phase
            entry = self.phases.setdefault(phase, {"began": now, "ended": now, "processor": {}, "checks": set()})
            entry["ended"] = now
            entry["processor"][pid] = found[pid][1]
            if not is_worker:
                entry["checks"].add(pid)

    def read(self, line):
        proved = re.fullmatch(r"rt: (\w+) proved\n?", line)
        if proved:
            self.proved.add(proved[1])

    def what(self, crate, phase):
        return f"edit {len(self.phases[crate, phase]['checks'])}" if phase == "edits" else phase

    def line(self, crates):
        """Returns the progress of the gate, as one line."""
        now = ", ".join(f"{crate} ({self.what(crate, phase)})" for crate, phase in self.running)
        seconds = int(time.monotonic() - START)
        return f"{seconds // 60} min {seconds % 60:02} s: {len(self.proved)} of {crates} crates proved; now {now or 'the programs and tests run'}"

    def log(self):
        """Returns the lines of the log."""
        for (crate, phase), entry in sorted(self.phases.items()):
            processor = sum(entry["processor"].values())
            yield f"{crate} {phase} {entry['began']:.0f} {entry['ended']:.0f} {processor:.1f} {len(entry['checks'])}\n"
        used = resource.getrusage(resource.RUSAGE_CHILDREN)
        checks = sum(len(it["checks"]) for it in self.phases.values())
        yield f"all all {BEGAN:.0f} {time.monotonic() - START:.0f} {used.ru_utime + used.ru_stime:.1f} {checks}\n"


def count_crates():
    try:
        with open("crates.txt", encoding="utf-8") as file:
            return sum(":" in line.partition("#")[0] for line in file)
    except OSError:
        return 0


def watch(command, log):
    seen, crates = Watch(), count_crates()
    child = subprocess.Popen(command, stdout=subprocess.PIPE, stderr=subprocess.STDOUT, text=True, errors="replace")

    def pass_on():
        for line in child.stdout:
            seen.read(line)
            sys.stdout.write(line)
            sys.stdout.flush()

    reader = threading.Thread(target=pass_on)
    reader.start()
    said = time.monotonic()
    while child.poll() is None:
        seen.look(child.pid)
        if time.monotonic() - said >= SAY_EVERY:
            said = time.monotonic()
            print(f"check: {seen.line(crates)}", file=sys.stderr, flush=True)
        time.sleep(LOOK_EVERY)
    reader.join()
    os.makedirs(os.path.dirname(os.path.abspath(log)), exist_ok=True)
    with open(log, "w", encoding="utf-8") as file:
        file.writelines(seen.log())
    return child.returncode


if __name__ == "__main__":
    sys.exit(watch(sys.argv[2:], sys.argv[1]))
