"""Compares which documents are N-Triples to our reader, to serdi, to rapper and to the standard's grammar.

    python3 bench/ntriples_accepted.py

The documents are small and the same at each run: each spelling of a triple, and lines with one character dropped,
doubled, replaced or put in. The grammar is that of RDF 1.1 N-Triples, section 7, written here once more, as regular
expressions. Printed are the differences of serdi and rapper from it by their kinds, each with how many documents have it
and the shortest of them. A kind is a change of the grammar that accounts for the difference. Where both take a document, our
triples are compared with serdi's. Exit status 1 if our reader differs from the grammar, or reads other triples than
serdi, or a difference is of no kind.
"""

import os
import re
import subprocess
import sys
from concurrent.futures import ThreadPoolExecutor
from dataclasses import dataclass

HERE = os.path.dirname(os.path.abspath(__file__))
CRATE = os.path.join(HERE, "..", "crates", "bench_ntriples")
PROGRAM = os.path.join(CRATE, "out", "bench_ntriples")

READERS = {
    "ours": [PROGRAM, "count"],
    "serdi": ["serdi", "-q", "-i", "ntriples", "-o", "ntriples", "-"],
    "rapper": ["rapper", "-q", "-i", "ntriples", "-c", "-", "http://example.org/"],
}

# The productions of the grammar, by their names there.
HEX = "[0-9A-Fa-f]"
UCHAR = rf"\\u{HEX}{{4}}|\\U{HEX}{{8}}"
ECHAR = r"""\\[tbnrf"'\\]"""
PN_CHARS_BASE = (
    "A-Za-z\u00c0-\u00d6\u00d8-\u00f6\u00f8-\u02ff\u0370-\u037d\u037f-\u1fff\u200c-\u200d\u2070-\u218f"
    "\u2c00-\u2fef\u3001-\ud7ff\uf900-\ufdcf\ufdf0-\ufffd\U00010000-\U000effff"
)
PN_CHARS_U = PN_CHARS_BASE + "_:"
PN_CHARS = PN_CHARS_U + "\\-0-9\u00b7\u0300-\u036f\u203f-\u2040"
IRIREF = rf'<(?:[^\x00-\x20<>"{{}}|^`\\]|{UCHAR})*>'
STRING_LITERAL_QUOTE = rf'"(?:[^"\\\n\r]|{ECHAR}|{UCHAR})*"'
BLANK_NODE_LABEL = rf"_:[{PN_CHARS_U}0-9](?:[{PN_CHARS}.]*[{PN_CHARS}])?"
LANGTAG = r"@[a-zA-Z]+(?:-[a-zA-Z0-9]+)*"
COMMENT = r"#[^\r\n]*"
NUMBERED = re.compile(rf"\\\\|\\u({HEX}{{4}})|\\U({HEX}{{8}})")


def is_character(number):
    return number < 0xD800 or 0xDFFF < number < 0x110000


@dataclass
class Grammar:
    """The grammar, and what a kind of difference changes in it."""

    iri: str = IRIREF
    label: str = BLANK_NODE_LABEL
    string: str = STRING_LITERAL_QUOTE
    tag: str = LANGTAG
    mark: str = r"\^\^"
    dot: str = r"\."
    gap: str = r"[ \t]*"
    gap_in_literal: str = r"[ \t]*"
    before: str = ""
    after: str = ""
    between: str = r"[\r\n]"
    decoding: str = "strict"
    any_number: bool = False

    def document(self):
        typed = rf"{self.gap_in_literal}{self.mark}{self.gap_in_literal}{self.iri}"
        literal = rf"{self.string}(?:{typed}|{self.gap_in_literal}{self.tag})?"
        terms = [rf"(?:{self.iri}|{self.label})", self.iri, rf"(?:{self.iri}|{self.label}|{literal})", self.dot]
        line = rf"{self.gap}(?:{self.gap.join(terms)}{self.gap})?"
        return rf"{self.before}{line}(?:{COMMENT})?(?:{self.between}{line}(?:{COMMENT})?)*{self.after}"

    def has(self, document):
        """Whether the bytes are a document: UTF-8, each line a triple or none, each UCHAR a character."""
        try:
            text = document.decode("utf-8", self.decoding)
        except UnicodeDecodeError:
            return False
        return re.fullmatch(self.document(), text) is not None and (self.any_number or are_characters(text))


def are_characters(text):
    """Whether each UCHAR outside comments is the number of a character."""
    code = re.sub(rf'({STRING_LITERAL_QUOTE}|<[^>\r\n]*>)|{COMMENT}', r"\1", text)
    numbers = [int(a or b, 16) for a, b in NUMBERED.findall(code) if a or b]
    return all(is_character(number) for number in numbers)


# The kinds: what another reader takes although the grammar refuses it, and what it refuses although the grammar has it.
ANY_LABEL = r"_[^\s<>\"]*[^\s<>\".]"
TAKEN = {
    "serdi": {
        "line breaks as white space, more than one triple in a line": {
            "gap": rf"(?:[ \t\r\n]|{COMMENT}[\r\n])*",
            "between": "",
        },
        "a UCHAR of no character": {"any_number": True},
        "other characters in a label": {"label": ANY_LABEL},
        "a second dot behind a label": {"label": rf"{BLANK_NODE_LABEL}\.*"},
        "empty parts in a language tag": {"tag": r"@[a-zA-Z]+(?:-[a-zA-Z0-9]*)*"},
        "one ^ for ^^": {"mark": r"\^+"},
        "no IRI after ^^": {"string": rf"{STRING_LITERAL_QUOTE}(?:\^\^)?"},
        "a byte order mark": {"before": "\ufeff?"},
        "a NUL, and anything after it": {"after": r"(?:\x00[\x00-\U0010ffff]*)?"},
        "bytes that aren't UTF-8": {"decoding": "replace"},
        "`a`, `[]` and `;` of Turtle": {"iri": rf"(?:{IRIREF}|a(?= ))", "label": rf"(?:{BLANK_NODE_LABEL}|\[\])", "dot": r"(?:;.*)?\."},
    },
    "rapper": {
        "other characters in an IRI": {"iri": r"<(?:[^> \r\n\\]|\\[^ \r\n])*>"},
        "no dot": {"dot": r"\.?"},
        "U+000B and U+000C as white space": {"gap": r"[ \t\x0b\x0c]*"},
        "a NUL, and anything after it": {"after": r"(?:\x00[\x00-\U0010ffff]*)?"},
        "other characters in a label": {"label": ANY_LABEL},
        "a second dot behind a label": {"label": rf"{BLANK_NODE_LABEL}\.*"},
        "a UCHAR of a surrogate": {"any_number": True},
        "line breaks in a string": {"string": rf'"(?:[^"\\]|{ECHAR}|{UCHAR})*"'},
        "other escapes in a string": {"string": r'"(?:[^"\\\r\n]|\\[^\r\n])*"'},
        "other characters in a language tag": {"tag": r"@[^\s<>\".]+"},
        "bytes that aren't UTF-8": {"decoding": "replace"},
    },
}
RELATIVE = {"iri": rf"(?=<[A-Za-z][-+.A-Za-z0-9]*:)(?:{IRIREF})"}
SPACED = {"gap_in_literal": ""}
REFUSED = {
    "serdi": {
        "a relative IRI": RELATIVE,
        "white space in a literal": SPACED,
        "a colon in a label": {"label": BLANK_NODE_LABEL.replace("_:" + "]", "]").replace(PN_CHARS_U, PN_CHARS_BASE + "_")},
        "an escape in an IRI of what can't stand there": {"iri": rf"(?!<[^>]*\\u00(?:[01]|20|22|3[CE]|5[CE]|60|7[BCD]))(?:{IRIREF})"},
    },
    "rapper": {
        "a relative IRI": RELATIVE,
        "white space in a literal": SPACED,
        "an escape in an IRI of what can't stand there": {"iri": rf"(?!<[^>]*\\u00(?:[01]|20|22|3[CE]|5[CE]|60|7[BCD]))(?:{IRIREF})"},
        "a letter outside ASCII and then a dot or a dash at the start of a label": {"label": rf"(?!_:[^\x00-\x7f][-.]){BLANK_NODE_LABEL}"},
        "an escaped apostrophe": {"string": STRING_LITERAL_QUOTE.replace("'", "")},
        "a UCHAR of U+FFFE or U+FFFF": {"string": rf'(?!"[^"]*\\uFFF[EF])(?:{STRING_LITERAL_QUOTE})'},
    },
}


def accepts(reader, document):
    run = subprocess.run(READERS[reader], input=document, stdout=subprocess.DEVNULL, stderr=subprocess.DEVNULL)
    if run.returncode not in (0, 1):
        raise SystemExit(f"{reader} ended with {run.returncode} at {document!r}")
    return run.returncode == 0


# Documents by what they are about; `S` is a subject and a predicate.
S = "<http://a/s> <http://a/p> "
SPELLINGS = [
    "", "\n", "\r", "\r\n", " ", "\t\n", "# comment", "# comment\n", "#\n#\n", f"{S}<http://a/o> .", f"{S}<http://a/o> .\n",
    f"{S}<http://a/o> .\r\n", f"{S}<http://a/o> .\r", f"{S}<http://a/o> .\r{S}<http://a/o> .\r", f"\n{S}<http://a/o> .\n",
    f"{S}<http://a/o> .\n\n\n{S}<http://a/o> .\n", f"{S}<http://a/o> .\n# c\n{S}<http://a/o> .\n",
    f"{S}<http://a/o> .\n  \n{S}<http://a/o> .\n", f"{S}<http://a/o> . # c\n", f"{S}<http://a/o> .# c\n",
    f"{S}<http://a/o> . # c\r{S}<http://a/o> .\n", f" {S}<http://a/o> .\n", f"\t{S}<http://a/o> .\n",
    "<http://a/s>\t<http://a/p>\t<http://a/o>\t.\n", "<http://a/s><http://a/p><http://a/o>.\n", f"{S}<http://a/o>.\n",
    f"{S}<http://a/o> .   \n", f"{S}<http://a/o> .\t\n", f"{S}<http://a/o>\n", f"{S}<http://a/o> . .\n",
    f"{S}<http://a/o> . {S}<http://a/o> .\n", f"{S}<http://a/o> .{S}<http://a/o> .\n", "<http://a/s>\n<http://a/p> <http://a/o> .\n",
    f"{S}\n<http://a/o> .\n", f"{S}<http://a/o>\n.\n", f"{S}# c\n<http://a/o> .\n", f"{S}<http://a/o> # c\n.\n",
    "<http://a/s>\x0b<http://a/p> <http://a/o> .\n", "<http://a/s>\x0c<http://a/p> <http://a/o> .\n",
    "<http://a/s>\u00a0<http://a/p> <http://a/o> .\n", f"\ufeff{S}<http://a/o> .\n", f"{S}<http://a/o> .\x00\n", f"{S}<http://a/o> .\x1a",
    "_:a <http://a/p> _:b .\n", "_:a<http://a/p>_:b.\n", "_:a <http://a/p> _:b.\n", "_:a.b <http://a/p> _:b.c.\n", "_:a. <http://a/p> _:b .\n",
    "_:a..b <http://a/p> _:b .\n", "_:a <http://a/p> _:b..\n", "_:a <http://a/p> _:.b .\n", "_: <http://a/p> _:b .\n", "_:a <http://a/p> _: .\n",
    "_:1 <http://a/p> _:12b .\n", "_:_ <http://a/p> _:a_ .\n", "_:a-b <http://a/p> _:a- .\n", "_:-a <http://a/p> _:b .\n",
    "_:a:b <http://a/p> _:b .\n", "_:: <http://a/p> _:b .\n", "_:b <http://a/p> _:a:b .\n", "_:\u00e9 <http://a/p> _:\u4e2d .\n",
    "_:a\u00b7 <http://a/p> _:a\u0301 .\n", "_:\u00b7a <http://a/p> _:b .\n", "_:\u0301a <http://a/p> _:b .\n", "_:a\u00d7 <http://a/p> _:b .\n",
    "_:a\u203f <http://a/p> _:b .\n", "_:\U0001f600 <http://a/p> _:b .\n", "_:a\\u0041 <http://a/p> _:b .\n", "_ :a <http://a/p> _:b .\n",
    "_:a _:p _:b .\n", '"s" <http://a/p> _:b .\n', '<http://a/s> "p" <http://a/o> .\n', "a:s a:p a:o .\n", "<http://a/s> a <http://a/o> .\n",
    "_:" + "a" * 3000 + " <http://a/p> _:b .\n", "[] <http://a/p> _:b .\n", f"{S}( ) .\n", f"{S}5 .\n", f"{S}true .\n",
    "@prefix a: <http://a/> .\n", "@base <http://a/> .\n", f"{S}<http://a/o> <http://a/g> .\n", f"{S}<http://a/o>, <http://a/x> .\n",
    f"{S}<http://a/o>; <http://a/x> <http://a/y> .\n",
]
IRIS = [
    "", "a", "a/b", "/a", "//a", "?q", "#f", "a:", "a:b", ":a", "1:a", "http://a/", "HTTP://A/", "http://a/b c", "http://a/b\tc",
    "http://a/b|c", "http://a/b^c", "http://a/b`c", "http://a/b{c", "http://a/b}c", "http://a/b<c", 'http://a/b"c', "http://a/b\\c",
    "http://a/b\x01c", "http://a/b\x7fc", "http://a/b\u00a0c", "http://a/\u00e9", "http://a/\U0001f600", "http://a/%zz", "http://a/%20",
    "http://a/[b]", "http://a/b'c", "http://a/\\u0041", "http://a/\\U00000041", "http://a/\\u00e9", "http://a/\\u00E9", "http://a/\\u0020",
    "http://a/\\u003E", "http://a/\\u003C", "http://a/\\u007C", "http://a/\\u0000", "http://a/\\uD800", "http://a/\\uDFFF", "http://a/\\uE000",
    "http://a/\\U00110000", "http://a/\\U0010FFFF", "http://a/\\UFFFFFFFF", "http://a/\\u004", "http://a/\\U0000004", "http://a/\\u004g",
    "http://a/\\t", "http://a/\\n", "http://a/\\\\", "http://a/\\>", "http://a/\n", "mailto:a", "urn:a:b", "http://a/\\x41", "http://a/\ufffe",
]
STRINGS = [
    "", "x", "tab\there", "\\t\\b\\n\\r\\f", "\\'", '\\"', "\\\\", '"', "\\", "\\\\\\", "\\a", "\\v", "\\0", "\\x41", "\\ ", "\\u0041",
    "\\u00e9", "\\u00E9", "\\U0001F600", "\\U0001f600", "\\uD83D\\uDE00", "\\uD800", "\\uDC00", "\\uDFFF", "\\uE000", "\\uFFFE", "\\uFFFF",
    "\\u0000", "\\U00110000", "\\U0010FFFF", "\\UFFFFFFFF", "\\U0000D800", "\\u", "\\u1", "\\u12", "\\u123", "\\u123g", "\\U1", "\\U1234567",
    "\\u+123", "\\u 123", "\n", "\r", "a\rb", "a\nb", "\x00", "\x01", "\x08", "\x0b", "\x0c", "\x1f", "\x7f", "\u0080", "\u00e9", "\u2028",
    "\ufeff", "\ufffe", "\U0001f600", "# no comment", "a . b", "<a>", "'", "\\\\u0041", "\\\\uD800",
]
SUFFIXES = [
    "", " ", "@en", "@EN", "@en-GB", "@en-gb", "@en-GB-x1", "@en-1996", "@e", "@en-", "@en--GB", "@-en", "@", "@1", "@en1", "@en_GB", "@en GB",
    "@ en", " @en", "\t@en", "@\u00e9n", "@en-\u00e9", "@abcdefghijk", "@en-abcdefghijk", "@en@de", "@en^^<a:b>", "^^<a:b>@en", "^^<http://a/d>", "^^ <http://a/d>",
    " ^^<http://a/d>", " ^^ <http://a/d>", "^ ^<http://a/d>", "^<http://a/d>", "^^^<http://a/d>", "^^", "^^<>", "^^<d>", "^^a:d", "^^_:d", '^^"d"',
    "^^<http://www.w3.org/1999/02/22-rdf-syntax-ns#langString>", "^^<http://www.w3.org/2001/XMLSchema#string>", "^^<http://a/d><http://a/d>", "@prefix", "@base",
]
BYTES = [b"\x80", b"\xc3", b"\xc0\x80", b"\xe9", b"\xed\xa0\x80", b"\xf4\x90\x80\x80", b"\xff", b"\xf0\x9f\x98\x80", b"\xe2\x82\xac"]
LINES = [
    "<a:s> <a:p> <a:o> .\n",
    "_:a.b <a:p> _:1-c.\n",
    '<a:s><a:p>"x\\n\\u00E9"@en-GB.\n',
    '_:a <a:p> "\\U0001F600"^^<a:d> . # c\n',
]
REPLACEMENTS = ["<", ">", '"', "\\", ".", " ", "\t", "\n", "\r", "#", "@", "^", ":", "_", "-", "0", "g", "\u00e9", "\x01", "|"]


def spelled():
    yield from SPELLINGS
    for iri in IRIS:
        yield f"<{iri}> <http://a/p> <http://a/o> .\n"
        yield f"<http://a/s> <{iri}> <http://a/o> .\n"
        yield f"{S}<{iri}> .\n"
        yield f'{S}"x"^^<{iri}> .\n'
    for value in STRINGS:
        yield f'{S}"{value}" .\n'
        yield f'{S}"a{value}b"@en .\n'
    for suffix in SUFFIXES:
        yield f'{S}"x"{suffix} .\n'
        yield f'{S}"x"{suffix}.\n'
        yield f'{S}"x"{suffix}'


def mutated(line):
    for at, c in enumerate(line):
        yield line[:at] + line[at + 1 :]
        yield line[:at] + c + line[at:]
        for other in REPLACEMENTS:
            yield line[:at] + other + line[at + 1 :]
            yield line[:at] + other + line[at:]


def in_bytes(piece):
    return [
        b"<http://a/s" + piece + b"> <http://a/p> <http://a/o> .\n",
        b'<http://a/s> <http://a/p> "x' + piece + b'" .\n',
        b"_:a" + piece + b" <http://a/p> <http://a/o> .\n",
        b"# " + piece + b"\n",
    ]


def documents():
    """Every document once."""
    found = {}
    for text in spelled():
        found[text.encode("utf-8")] = None
    for line in LINES:
        for text in mutated(line):
            found[text.encode("utf-8")] = None
    for piece in BYTES:
        for document in in_bytes(piece):
            found[document] = None
    return list(found)


def verdicts(document):
    return {reader: accepts(reader, document) for reader in READERS}


def kind_of(reader, document, taken):
    """The first change of the grammar that accounts for the difference; two of them, or none."""
    changes = (TAKEN if taken else REFUSED)[reader]
    for kind, change in changes.items():
        if Grammar(**change).has(document) == taken:
            return kind
    for kind, change in changes.items():
        for other, more in changes.items():
            if Grammar(**{**change, **more}).has(document) == taken:
                return "two of these"
    return None


def show(reader, taken, found):
    """Prints the kinds of a reader's differences, and returns whether each has a kind."""
    kinds = {}
    for document in found:
        kinds.setdefault(kind_of(reader, document, taken), []).append(document)
    print(f"{reader} {'takes' if taken else 'refuses'} {len(found)} documents that the grammar {'refuses' if taken else 'has'}:")
    for kind, some in sorted(kinds.items(), key=lambda entry: -len(entry[1])):
        print(f"  {len(some):5} {kind}: {min(some, key=len)!r}")
    for document in kinds.get(None, []):
        print(f"  of no kind: {document!r}")
    return None not in kinds


def output(command, document):
    """What the command writes, or None if it refuses the document."""
    run = subprocess.run(command, input=document, stdout=subprocess.PIPE, stderr=subprocess.DEVNULL)
    return run.stdout if run.returncode == 0 else None


def compared(document):
    """Whether serdi's triples are ours, both in our spelling; None if one of us doesn't write them."""
    ours = output([PROGRAM, "write", "1"], document)
    theirs = output(READERS["serdi"], document)
    if ours is None or theirs is None:
        return None
    return output([PROGRAM, "write", "1"], theirs) == ours


def main():
    subprocess.run(["rt", "run", "--", "count"], cwd=CRATE, stdin=subprocess.DEVNULL, stdout=subprocess.DEVNULL, check=True)
    every = documents()
    with ThreadPoolExecutor(max_workers=3) as pool:
        answers = list(pool.map(verdicts, every))
        grammar = Grammar()
        wanted = [grammar.has(document) for document in every]
        same = list(pool.map(compared, (d for d, w in zip(every, wanted) if w)))
    print(f"{len(every)} documents, of which the grammar has {sum(wanted)}")
    wrong = [d for d, w, a in zip(every, wanted, answers) if a["ours"] != w]
    print(f"ours differs at {len(wrong)}", *map(repr, wrong))
    print(f"serdi's triples are ours in {same.count(True)} of them and others in {same.count(False)}")
    named = not wrong and False not in same
    for reader in ("serdi", "rapper"):
        for taken in (True, False):
            found = [d for d, w, a in zip(every, wanted, answers) if a[reader] != w and w != taken]
            named = show(reader, taken, found) and named
    sys.exit(0 if named else 1)


main()
