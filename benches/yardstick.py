#!/usr/bin/env python3
"""Times the yardstick, `./dlx 10 6`, every two minutes until it is stopped, and logs what it finds.

usage: benches/yardstick.py LOG

Each line of LOG has the time of day when a run ended, in seconds since 1970, and the user time of that run in seconds. Run it
beside ./check: then `benches/costs.py out/costs.log LOG` tells what the gate would cost on a machine of another speed.
"""
import os
import subprocess
import sys
import time

PAUSE = 110


def main(log):
    while True:
        run = subprocess.Popen(["./dlx", "10", "6"], stdout=subprocess.DEVNULL)
        _, status, usage = os.wait4(run.pid, 0)
        if status:
            sys.exit("./dlx failed; cc -O2 -o dlx benches/dlx.c makes it")
        with open(log, "a", encoding="utf-8") as file:
            file.write(f"{time.time():.0f} {usage.ru_utime:.2f}\n")
        time.sleep(PAUSE)


if __name__ == "__main__":
    main(sys.argv[1])
