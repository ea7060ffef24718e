#!/usr/bin/env python3
"""Prints what each crate costs the gate, in processor minutes, as a table.

usage: benches/costs.py [LOG [YARDSTICK]]

LOG is what ./check has left, out/costs.log if not given. YARDSTICK is what benches/yardstick.py has logged meanwhile. With it,
the table is for a machine where `./dlx 10 6` takes 6 s: the time of each phase is multiplied by 6 and divided by the mean of the
seconds that the yardstick took during that phase, or of the run next to it if none ended meanwhile.
"""
import sys

PHASES = ("proof", "tests", "edits")
SECONDS = 6


def read_yardstick(name):
    """Returns for each run of the yardstick when it ended and how long it took, in seconds."""
    with open(name, encoding="utf-8") as file:
        return [tuple(float(word) for word in line.split()[:2]) for line in file]


def factor(runs, began, ended):
    """Returns what a time is multiplied by that was measured between the two times of day."""
    if not runs:
        return 1
    during = [seconds for at, seconds in runs if began <= at <= ended]
    if not during:
        during = [min(runs, key=lambda run: abs(run[0] - (began + ended) / 2))[1]]
    return SECONDS * len(during) / sum(during)


def main(log, runs):
    with open(log, encoding="utf-8") as file:
        lines = [line.split() for line in file]
    start = next((float(line[2]) for line in lines if line[0] == "all"), 0)
    costs, edits, total = {}, {}, None
    for crate, phase, began, ended, processor, checks in lines:
        if crate == "all":
            total = float(processor), float(ended)
            continue
        minutes = float(processor) / 60 * factor(runs, start + float(began), start + float(ended))
        costs.setdefault(crate, {})[phase] = minutes
        if phase == "edits":
            edits[crate] = int(checks)
    print("| Crate | Proof | Tests | Edits | Checks of edits | All |\n|---|---|---|---|---|---|")
    for crate, cost in sorted(costs.items()):
        columns = " | ".join(f"{cost.get(phase, 0):.1f}" for phase in PHASES)
        print(f"| {crate} | {columns} | {edits.get(crate, 0)} | {sum(cost.values()):.1f} |")
    columns = " | ".join(f"{sum(it.get(phase, 0) for it in costs.values()):.1f}" for phase in PHASES)
    print(f"| all | {columns} | {sum(edits.values())} | {sum(sum(it.values()) for it in costs.values()):.1f} |")
    if total:
        print(f"\nThe whole gate: {total[0] / 60:.1f} processor minutes, as measured, in {total[1] / 60:.1f} minutes.")


if __name__ == "__main__":
    main(
        sys.argv[1] if len(sys.argv) > 1 else "out/costs.log",
        read_yardstick(sys.argv[2]) if len(sys.argv) > 2 else [],
    )
