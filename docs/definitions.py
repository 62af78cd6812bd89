"""Writes docs/DEFINITIONS.md from the first comments of the files of crates/*/specs, in the order of crates.txt.
Usage: python3 docs/definitions.py writes the file. With --check it writes nothing, and exits with 1 if the file differs.
A first comment that is missing, or whose first sentence is too long, is an error: the script names the file and exits with 1."""

import pathlib
import re
import sys

TOP = pathlib.Path(__file__).resolve().parent.parent
FILE = TOP / "docs/DEFINITIONS.md"
MOST_WORDS = 30

INTRODUCTION = """\
# Definitions

This page lists the definitions that contracts cite. It is for readers of contracts, who want to know what a promise means.
`python3 docs/definitions.py` writes this page from the first comments of the files. Change those comments, and not this page.

A contract is a clause of a function in crates/NAME/src. `is_white` in crates/csvw_text/src/class.rt has the contract
`ensures { result ≡ is_white_char c }`. A `ghost use` line of that file says which file of specs/ defines `is_white_char`.

Definitions are written in antt:

- `f : A → B → C` is the type of a function, `f x y` is its value, and `λ x. e` is a function of `x`.
- A definition whose type ends in `Type 0` is a relation. `abbrev pub` begins a function or a relation, `pub data` a type by its cases.
- `a ≡ b` says that both are equal. `P × Q` is both, `P ⊎ Q` is one of them, `P → Q` is "if P then Q", and `⊥` is never true.
- `(x : A) → P` says P of each `x`, and `(x : A) × P` of some `x`. A relation that is a `pub record` holds if each field holds.
- `ℕ` are the numbers from 0. A text is the list of its bytes in UTF-8, or of its characters, as `List ℕ`: `[]`, `x ∷ xs`, `xs ++ ys`.

In the column *Standard*:

- The names of standards are those of [PROFILE.md](PROFILE.md). *CSVW Namespace* is the document CSVW Namespace Vocabulary Terms.
- XML 1.0, XML Schema Part 2 (Datatypes, version 1.1), RDF Schema 1.1, RDF 1.1 Concepts and RDF 1.1 N-Triples are documents of the W3C.
- The URL Standard is a document of the WHATWG, and each RFC of the IETF.
- An empty cell means that no standard has the definition. It is a rule of this profile, a helper, a state or result of a call, or a law.
  Some files define the code's own pass. A law connects it to the definition by the standard.

Words of the code:

- A *link* is an about URL, a property URL or a value URL.
- A *plan* is what a run knows of a group before it reads a table. A *sink* takes triples.
- An *event* of a session is a piece of a table's text, or its end.

Each row has the first sentence of the file's first comment. Files of specs/formers, which are about types of lists, are not listed.

"""

# Names of standards as the files write them, and as the tables write them.
STANDARDS = {
    "Metadata Vocabulary for Tabular Data": "Vocabulary",
    "Model for Tabular Data": "Model",
    "csv2rdf": "csv2rdf",
    "RFC 3629": "RFC 3629",
    "RFC 3986": "RFC 3986",
    "RFC 4180": "RFC 4180",
    "RFC 6570": "RFC 6570",
    "RFC 6901": "RFC 6901",
    "RFC 7111": "RFC 7111",
    "RFC 8259": "RFC 8259",
    "URL Standard": "URL Standard",
    "XML 1.0": "XML 1.0",
    "XML Schema Part 2": "XML Schema Part 2",
    "XML Schema 1.1 Part 2": "XML Schema Part 2",
    "RDF 1.1 Concepts": "RDF 1.1 Concepts",
    "RDF 1.1 N-Triples": "RDF 1.1 N-Triples",
    "RDF Schema 1.1": "RDF Schema 1.1",
    "CSVW Namespace Vocabulary Terms": "CSVW Namespace",
}
NAMES = "|".join(re.escape(name) for name in STANDARDS)
# A parenthesis that begins with the name of a standard.
CITATION = re.compile(rf"\s\(((?:{NAMES})\b[^()]*)\)")


def head_of(file):
    """The first comment of a file, as one line."""
    lines = []
    for line in file.read_text(encoding="utf-8").split("\n"):
        if not line.startswith("--"):
            break
        lines.append(line[2:].strip())
    return " ".join(lines)


def first_sentence(text):
    """The text up to the first full stop before a space and a capital letter, or up to the end."""
    return re.split(r"(?<=\.) (?=[A-Z`])", text, maxsplit=1)[0]


def short(citation):
    """A citation with the short names of its standards."""
    for name, other in STANDARDS.items():
        citation = re.sub(rf"\b{re.escape(name)}\b", other, citation)
    return citation


def row_of(file):
    """The row of a file, and what is wrong with its first comment, if anything is."""
    head = head_of(file)
    crate = file.parent.parent.name
    where = file.relative_to(TOP)
    if not head:
        return "", f"{where} has no first comment"
    said = first_sentence(CITATION.sub("", head))
    if len(said.split()) > MOST_WORDS:
        return "", f"{where}: the first sentence has more than {MOST_WORDS} words"
    cited = []
    for citation in CITATION.findall(head):
        cited += [part for part in short(citation).split("; ") if part not in cited]
    link = f"[{file.stem}](../{where})"
    return f"| {crate} | {link} | {said} | {'; '.join(cited)} |".replace("  ", " "), ""


def groups():
    """The headings of crates.txt, each with the crates below it."""
    found = []
    for line in (TOP / "crates.txt").read_text(encoding="utf-8").split("\n"):
        if line.startswith("# "):
            found.append((line[2:], []))
        elif ":" in line:
            found[-1][1].append(line.split(":")[0])
    return found


def page():
    """The page, and what is wrong with first comments."""
    text, wrong = INTRODUCTION, []
    for heading, crates in groups():
        files = [it for crate in crates for it in sorted((TOP / "crates" / crate / "specs").glob("*.antt"))]
        rows = []
        for file in files:
            if file.stem == "Lib" or (file.parent / file.stem).is_dir():
                continue
            row, fault = row_of(file)
            rows.append(row)
            wrong += [fault] if fault else []
        if rows:
            text += f"## {heading[0].upper()}{heading[1:]}\n\n| Crate | File | What it defines | Standard |\n|---|---|---|---|\n"
            text += "\n".join(rows) + "\n\n"
    return text.rstrip("\n") + "\n", wrong


def main():
    text, wrong = page()
    if wrong:
        print("\n".join(wrong), file=sys.stderr)
        return 1
    if "--check" in sys.argv[1:]:
        if not FILE.is_file() or FILE.read_text(encoding="utf-8") != text:
            print("docs/DEFINITIONS.md differs from the first comments: run python3 docs/definitions.py", file=sys.stderr)
            return 1
        return 0
    FILE.write_text(text, encoding="utf-8")
    return 0


sys.exit(main())
