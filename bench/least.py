"""Prints the least processor seconds of so many runs of a program over a file: `time` measures hundredths of a second.
Usage: least.py RUNS FILE PROGRAM WORD.."""

import resource
import subprocess
import sys


def seconds():
    """The processor seconds of all runs so far."""
    used = resource.getrusage(resource.RUSAGE_CHILDREN)
    return used.ru_utime + used.ru_stime


def main(runs, file, *command):
    found = []
    for _ in range(int(runs)):
        before = seconds()
        with open(file, "rb") as rows:
            subprocess.run(command, stdin=rows, stdout=subprocess.DEVNULL, check=True)
        found.append(seconds() - before)
    print(f"{min(found):.6f}")


main(*sys.argv[1:])
