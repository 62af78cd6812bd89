"""Writes the document that the benchmark reads: 810,000 triples of N-Triples, about 100 MB.

The triples are the same at each run. Subjects are IRIs and blank nodes; objects are IRIs, blank nodes and literals,
which have languages, datatypes, escapes, and letters outside ASCII as they are and as escapes. A few lines are comments.
"""

import sys

TRIPLES = 810_000
SITE = "http://example.org/register/"
XSD = "http://www.w3.org/2001/XMLSchema#"
WORDS = [
    "harbour", "station", "meadow", "quarry", "library", "orchard", "bridge", "market",
    "foundry", "lighthouse", "caf\u00e9", "chapel", "granary", "theatre", "arsenal", "mill",
]
LANGUAGES = ["en", "en-GB", "fr", "de-1996"]


def words(state, count):
    return " ".join(WORDS[(state >> (4 * i)) % len(WORDS)] for i in range(count))


def subject(number):
    if number % 4 == 0:
        return f"_:a{number}"
    return f"<{SITE}place/{number}>"


def literal(number, state):
    kind = number % 6
    if kind == 0:
        return f'"{state % 1_000_000 / 100:.2f}"^^<{XSD}decimal>'
    if kind == 1:
        return f'"{words(state, 4)}"@{LANGUAGES[state % 4]}'
    if kind == 2:
        return f'"the \\"{words(state, 2)}\\",\\n{words(state >> 8, 3)}\\t\\u00E9\\U0001F600"'
    return f'"{words(state, 7)}"'


def triple(number, state):
    predicate = f"<{SITE}terms#{WORDS[state % 10]}>"
    kind = state % 5
    if kind == 0:
        target = f"<{SITE}place/{state % TRIPLES}>"
    elif kind == 1:
        target = f"_:a{state % TRIPLES}"
    else:
        target = literal(number, state >> 3)
    return f"{subject(number)} {predicate} {target} .\n"


def main():
    out = open(sys.argv[1], "w", encoding="utf-8", newline="")
    state = 1
    for number in range(1, TRIPLES + 1):
        state = (state * 6364136223846793005 + 1442695040888963407) % 2**64
        if number % 1000 == 1:
            out.write(f"# places from {number} on\n")
        out.write(triple(number, state >> 20))
    out.close()


main()
