"""Writes the table of the benchmark of datatypes: a header and 1,000,000 rows of an integer, a decimal, a date, a truth and
a string. The rows are the same at each run; some numbers have a sign, leading zeros, or zeros after the point at their end."""

import sys

ROWS = 1_000_000
WORDS = ["harbour", "station", "meadow", "quarry", "library", "orchard", "bridge", "market"]
TRUTHS = ["true", "false", "1", "0"]


def integer(state):
    number = state % 1_000_000
    if number % 11 == 0:
        return f"+00{number}"
    return str(-number if number % 5 == 0 else number)


def decimal(state):
    number = state % 10_000_000
    return f"{'-' if number % 7 == 0 else ''}{number // 1000}.{number % 1000:03}{'0' * (number % 3)}"


def date(state):
    return f"{1900 + state % 200:04}-{1 + state % 12:02}-{1 + state % 28:02}"


def row(number, state):
    words = " ".join(WORDS[(state >> (3 * i)) % len(WORDS)] for i in range(3))
    return f"{integer(state)},{decimal(state >> 7)},{date(state >> 11)},{TRUTHS[(state >> 5) % 4]},{words} {number}\n"


def main():
    with open(sys.argv[1], "w", encoding="utf-8", newline="") as out:
        out.write("id,amount,day,open,name\n")
        state = 1
        for number in range(1, ROWS + 1):
            state = (state * 6364136223846793005 + 1442695040888963407) % 2**64
            out.write(row(number, state >> 20))


main()
