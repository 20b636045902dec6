#!/usr/bin/env python3
"""Writes a database in dictd's form, an index and a text, of so many lines and about so many octets.

    make_database.py LINES OCTETS INDEX DICT

The first line of the index is the database's title. Each other line has a headword of its own and a text of its
own, of some lines; the texts stand behind one another in the order of the index.
"""

import sys

from dictd import spelled


def body(number, size):
    """A text of exactly so many octets, in lines of at most 72, the first with the headword."""
    head = f"headword {number}, the {number % 97}th of its kind\n"
    filler = "   It is told of in so many words, one line after the other, and no more."
    text = head
    while len(text) < size:
        text += filler[:71] + "\n"
    return text[: size - 1] + "\n"


def main():
    lines, octets = int(sys.argv[1]), int(sys.argv[2])
    title = "00-database-short\n  A made database\n"
    size = (octets - len(title)) // (lines - 1)
    with open(sys.argv[3], "w", newline="\n") as index, open(sys.argv[4], "w", newline="\n") as text:
        text.write(title)
        index.write(f"00-database-short\tA\t{spelled(len(title))}\n")
        offset = len(title)
        for number in range(1, lines):
            text.write(body(number, size))
            index.write(f"headword {number}\t{spelled(offset)}\t{spelled(size)}\n")
            offset += size


if __name__ == "__main__":
    main()
