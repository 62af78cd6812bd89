"""Writes the table that the benchmark converts: a header and 1,000,000 rows of five columns, about 90 MB.

The rows are the same at each run. About one field in seven is quoted, and a few have doubled quotes, a
delimiter, a line break, a letter outside ASCII, or nothing at all.
"""

import sys

ROWS = 1_000_000
WORDS = [
    "harbour", "station", "meadow", "quarry", "library", "orchard", "bridge", "market",
    "foundry", "lighthouse", "caf\u00e9", "chapel", "granary", "theatre", "arsenal", "mill",
]


def words(state, count):
    return " ".join(WORDS[(state >> (4 * i)) % len(WORDS)] for i in range(count))


def note(number, state):
    if number % 10 == 0:
        return ""
    if number % 97 == 0:
        return '"' + words(state, 2) + "\n" + words(state >> 9, 3) + '"'
    if number % 7 == 0:
        return '"the ""' + words(state, 1) + '"", ' + words(state >> 9, 3) + '"'
    return words(state, 5)


def row(number, state):
    place = words(state >> 16, 2)
    if number % 3 == 0:
        place = '"' + place + ", " + words(state >> 24, 1) + '"'
    name = words(state >> 5, 2) + " " + str(state % 100_000)
    return f"{number},{name},{place},{state % 1_000_000 / 100:.2f},{note(number, state)}\n"


def main():
    out = open(sys.argv[1], "w", encoding="utf-8", newline="")
    out.write("id,name,place,amount,note\n")
    state = 1
    for number in range(1, ROWS + 1):
        state = (state * 6364136223846793005 + 1442695040888963407) % 2**64
        out.write(row(number, state >> 20))
    out.close()


main()
