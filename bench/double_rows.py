"""Writes a table of one column with so many numbers, each with four digits behind the point.
Usage: double_rows.py ROWS FILE"""

import random
import sys


def main(rows, file):
    rng = random.Random(1)
    with open(file, "w") as table:
        table.write("n\n")
        for _ in range(int(rows)):
            table.write(f"{rng.uniform(0, 100000):.4f}\n")


main(*sys.argv[1:])
