"""Writes the files whose rows are read, the same at each run, into the folder that is given."""

import sys

WORDS = ["harbour", "station", "meadow", "quarry", "library", "orchard", "bridge", "market"]


def word(number):
    return WORDS[number % len(WORDS)]


def long_row(i):
    return f"{i},{word(i)} {word(i >> 3)},{i * 7 % 1000},{word(i >> 5)}"


FILES = {
    "long": (3_000_000, long_row),
    "wide": (12_000, lambda i: ",".join(word(i * j) for j in range(1000))),
    "quoted": (1_200_000, lambda i: ",".join(f'"{word(i * j)} {word(i)}"' for j in range(1, 6))),
    "escaped": (1_000_000, lambda i: ",".join(f'"{word(i * j)} ""{word(i)}"""' for j in range(1, 6))),
    "nonascii": (1_500_000, lambda i: ",".join(f"\u00e9\u6f22{word(i * j)}\u00fc" for j in range(1, 6))),
    "arrows": (2_500_000, lambda i: long_row(i).replace(",", "\u2192")),
}

for name, (count, row) in FILES.items():
    with open(f"{sys.argv[1]}/{name}.csv", "w", encoding="utf-8", newline="") as out:
        for i in range(count):
            out.write(row(i) + "\n")
