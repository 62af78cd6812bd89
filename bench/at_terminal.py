"""Prints the least processor seconds of so many runs of a program, whose standard error is a terminal and then a file, in turn.
Usage: at_terminal.py RUNS PROGRAM WORD..: two numbers, first at the terminal. It prints nothing, and ends with 1, if no progress was shown."""

import os
import pty
import resource
import subprocess
import sys
import threading


def seconds():
    """The processor seconds of all runs so far."""
    used = resource.getrusage(resource.RUSAGE_CHILDREN)
    return used.ru_utime + used.ru_stime


def drained(terminal):
    """Starts to read what a terminal shows. Returns the thread, and the list of its pieces."""
    shown = []

    def read():
        while True:
            try:
                piece = os.read(terminal, 65536)
            except OSError:
                return
            if not piece:
                return
            shown.append(piece)

    thread = threading.Thread(target=read)
    thread.start()
    return thread, shown


def run_at_terminal(command):
    """Runs the program with its standard error at a terminal. Returns its processor seconds, and what was shown."""
    own, its = pty.openpty()
    thread, shown = drained(own)
    before = seconds()
    subprocess.run(command, stdin=subprocess.DEVNULL, stdout=subprocess.DEVNULL, stderr=its, check=True)
    used = seconds() - before
    os.close(its)
    thread.join()
    os.close(own)
    return used, b"".join(shown)


def run_at_file(command):
    """Runs the program with its standard error at no terminal. Returns its processor seconds."""
    before = seconds()
    subprocess.run(command, stdin=subprocess.DEVNULL, stdout=subprocess.DEVNULL, stderr=subprocess.DEVNULL, check=True)
    return seconds() - before


def main(runs, *command):
    at_terminal, at_file, is_shown = [], [], False
    for _ in range(int(runs)):
        used, shown = run_at_terminal(command)
        is_shown = is_shown or b" rows, " in shown
        at_terminal.append(used)
        at_file.append(run_at_file(command))
    if not is_shown:
        return 1
    print(f"{min(at_terminal):.6f} {min(at_file):.6f}")
    return 0


sys.exit(main(*sys.argv[1:]))
