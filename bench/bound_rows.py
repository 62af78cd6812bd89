"""Writes a table of one column with so many values of a datatype: dateTime, time, gYear or duration.
Usage: bound_rows.py DATATYPE ROWS FILE"""

import random
import sys


def time(rng):
    return f"{rng.randrange(24):02}:{rng.randrange(60):02}:{rng.randrange(60):02}"


def day(rng):
    return f"{rng.randrange(1990, 2020)}-{rng.randrange(1, 13):02}-{rng.randrange(1, 29):02}"


TEXTS = {
    "dateTime": lambda rng: f"{day(rng)}T{time(rng)}+01:00",
    "time": time,
    "gYear": lambda rng: str(rng.randrange(1990, 2020)),
    "duration": lambda rng: f"P{rng.randrange(1, 30)}Y{rng.randrange(12)}M{rng.randrange(28)}DT{rng.randrange(1, 24)}H",
}


def main(datatype, rows, file):
    rng = random.Random(1)
    with open(file, "w") as table:
        table.write("n\n")
        for _ in range(int(rows)):
            table.write(TEXTS[datatype](rng) + "\n")


main(*sys.argv[1:])
