#!/usr/bin/env python3
"""Runs the program csvw unproved, by `rt try`, with the words that it is given.

usage: build/try.py WORDS..

Standard output, standard error and the status are those of the program. One line more on standard error says what this
is. A run ends after 60 seconds, and writes at most 1 MiB to each of its streams; past that it says so, and the status
is 4.
"""
import os
import re
import subprocess
import sys
import tempfile
from pathlib import Path
from urllib.parse import quote

TOP = Path(__file__).resolve().parent.parent
LIMITS = "at most 60 seconds and 1 MiB of output"
ENDED = re.compile(r"run=ended status=(\d+) ")


def lent_name(word, number):
    """The name under which a file is lent: its own, if it is below the folder of the call."""
    inside = not Path(word).is_absolute() and ".." not in Path(word).parts and "=" not in word
    return word if inside else f"file{number}/{Path(word).name.replace('=', '_')}"


def named_beside(document):
    """The files beside a document whose names it has, as `csvw check` finds the files of tables."""
    text = Path(document).read_bytes()
    beside = [it for it in Path(document).resolve().parent.iterdir() if it.is_file() and "=" not in it.name]
    return [it for it in beside if os.fsencode(it.name) in text or quote(it.name).encode() in text]


def split_resource(words, number):
    """The front of a word that isn't a path, as `URL=` of a resource, and the path."""
    word = words[number]
    is_resource = word.startswith("--resource=") or number > 0 and words[number - 1] == "--resource"
    front, sign, path = word.rpartition("=") if is_resource else ("", "", word)
    return front + sign, path


def as_data(words):
    """The words for the program, and the flags that lend it the files that they name."""
    given, lent = [], {}
    for number in range(len(words)):
        front, word = split_resource(words, number)
        if word != "-" and Path(word).is_file():
            name = lent_name(word, number)
            if words[0] == "check" and not lent:
                lent.update({str(Path(name).parent / it.name): it for it in named_beside(word)})
            lent[name] = Path(word).resolve()
            word = name
        given.append(front + word)
    return given, [flag for name, path in lent.items() for flag in ("--data", f"{name}={path}")]


def main():
    words, data = as_data(sys.argv[1:])
    print(f"csvw: this run is unproved, and has {LIMITS}; `./csvw --build` proves and builds the program", file=sys.stderr, flush=True)
    with tempfile.TemporaryFile() as out, tempfile.TemporaryFile() as err:
        subprocess.run(["rt", "try", *data, "--", *words], cwd=TOP / "crates" / "csvw", stdout=out, stderr=err)
        out.seek(0)
        err.seek(0)
        sys.stdout.buffer.write(out.read())
        lines = err.read().decode(errors="replace").splitlines(keepends=True)
    told = [line for line in lines if not re.match(r"(run=|checked: |interpreted: |rt: )", line)]
    sys.stderr.write("".join(told))
    ended = [ENDED.match(line) for line in lines if line.startswith("run=")]
    if ended and ended[-1]:
        return int(ended[-1][1])
    sys.stderr.write(f"csvw: the run passed a limit ({LIMITS}): build the program with `./csvw --build`\n")
    return 4


sys.exit(main())
