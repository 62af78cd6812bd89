"""Writes the two tables of the benchmark of keys: a table of ROWS rows with a key and a number that refers to the other table's
key, and that table of as many rows. ORDER is sorted, backwards or shuffled. One row in 100,000 repeats a key, and one refers to
none. Usage: key_rows.py ROWS ORDER FIRST SECOND."""

import random
import sys


def keys(count, order):
    numbers = [7 * number for number in range(1, count + 1)]
    if order == "backwards":
        numbers.reverse()
    if order == "shuffled":
        random.Random(count).shuffle(numbers)
    return numbers


def main():
    count, order, first, second = int(sys.argv[1]), sys.argv[2], sys.argv[3], sys.argv[4]
    own = keys(count, order)
    with open(first, "w", encoding="utf-8", newline="") as out:
        out.write("id,ref,name\n")
        for place, number in enumerate(own):
            key = own[place - 1] if place % 100_000 == 50_000 else number
            refers = number + 1 if place % 100_000 == 70_000 else number
            out.write(f"{key},{refers},name {number}\n")
    with open(second, "w", encoding="utf-8", newline="") as out:
        out.write("k,name\n")
        for place, number in enumerate(own):
            key = own[place - 1] if place % 100_000 == 50_000 else number
            out.write(f"{key},name {number}\n")


main()
