"""Writes files of hostile rows, the same at each run, into the folder that is given: each row has about 1 MB."""

import sys

SIZE = 1_000_000
UNITS = {
    "letters": "a",
    "crs": "\r",
    "quotes": '""',
    "marks": "\ufeff",
    "umlauts": "\u00e9\r",
    "endings": "ab\r\r",
}


def row(unit, quoted):
    text = unit * (SIZE // len(unit.encode()))
    return f'"{text}"\r\n' if quoted else f"{text}\r\n"


def write(folder, count, name, unit, quoted):
    line = row(unit, quoted).encode()
    with open(f"{folder}/{name}_{count}.csv", "wb") as file:
        for _ in range(count):
            file.write(line)


for count in (60, 6):
    for name, unit in UNITS.items():
        if name != "quotes":
            write(sys.argv[1], count, name, unit, False)
        write(sys.argv[1], count, f"quoted_{name}", unit, True)
