#!/usr/bin/env python3
"""Prints the version of the program csvw, the commit that it was built from, and what proved it.

usage: build/version.py

Three lines on standard output: the version, the commit, and the kit that proved the program. `with changes` follows the
commit if the working tree differed from it. A fourth line says what has changed since. Of a program that
build/build.py didn't build, they say that nothing is known. The status is 0, or 4 if there is no program.
"""
import os
import sys

sys.dont_write_bytecode = True

from build import PROGRAM, as_it_is, recorded, said, say


def lines():
    record, now = recorded(), as_it_is()
    if record is None:
        yield "commit unknown"
        yield "not known to be proved: `./csvw --build` proves it"
        return
    yield f"commit {record['commit'] or 'unknown'}{' with changes' * record['changed']}"
    yield f"proved and built by {record['kit']}"
    changed = [it for it in ("sources", "kit") if record[it] != now[it]]
    if changed:
        yield f"changed since then: the {' and the '.join(changed)}; `./csvw --build` builds it again"


def main():
    if not os.access(PROGRAM, os.X_OK):
        say("no program is built: `./csvw --build` builds it")
        return 4
    print(said(str(PROGRAM), "--version"), *lines(), sep="\n")
    return 0


sys.exit(main())
