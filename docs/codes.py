#!/usr/bin/env python3
"""Writes docs/CODES.md: what each code means, from the text that `csvw explain` shows.

usage: docs/codes.py [--check]

    --check    writes nothing. The status is 1 if the file isn't what it would write
"""
import sys
from pathlib import Path

TOP = Path(__file__).resolve().parent.parent
SOURCE = TOP / "crates/csvw_explain/src/codes.rt"
PAGE = TOP / "docs/CODES.md"
HEAD = """# Codes

What each code of a report, of a document and of a stop means, with the smallest example that gives it. `csvw explain CODE` shows the same. In the
examples `\\n` is a line break, and braces say what stands for them. `docs/codes.py` makes this page.

"""


def page():
    source = SOURCE.read_text()
    return HEAD + source.split('r##"', 1)[1].rsplit('"##', 1)[0]


if sys.argv[1:] == ["--check"]:
    sys.exit(0 if PAGE.read_text() == page() else "docs/CODES.md isn't what docs/codes.py writes")
PAGE.write_text(page())
