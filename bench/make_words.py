#!/usr/bin/env python3
"""Writes a database of made words in dictd's form, an index and a text, of so many lines and about so many octets.

    make_words.py LINES OCTETS INDEX DICT [shown]

The first line of the index is the database's title. A headword has one to three words of three to eight letters, and a text
of its own, of some lines. The first 65,535 have neither `j` nor `k`, and of the further ones each second letter is one of the
two: so the database of 262,144 lines has every headword of the one of 65,536, and whatever text of four letters or more is found
in that is found in both, and no more. The lines are in the order of their octets, as dictd wants them. With `shown` each has a
fourth column, the headword with a capital.
"""

import os
import random
import sys

from dictd import spelled

FIRST = 65_535
LETTERS = "aabcdeefghiilmnoopqrrssttuvwxyz"


def word(made, is_further):
    """A word; of the further ones each second letter is `j` or `k`."""
    return "".join(made.choice("jk" if is_further and at % 2 else LETTERS) for at in range(made.randint(3, 8)))


def headwords(count):
    """So many headwords, each once, the first ones before the further ones."""
    found = {}
    for is_further in (False, True):
        made = random.Random(2229 + is_further)
        due = count if is_further else min(count, FIRST)
        while len(found) < due:
            found[" ".join(word(made, is_further) for _ in range(made.choice((1, 1, 1, 1, 2, 3))))] = None
    return sorted(found)


def body(headword, number, size):
    """A text of exactly so many octets, in lines of at most 72, the first with the headword."""
    text = f"{headword}\n   the {number}th of its kind\n"
    filler = "   It is told of in so many words, one line after the other, and no more."
    while len(text) < size:
        text += filler[:71] + "\n"
    return text[: size - 1] + "\n"


def main():
    lines, octets = int(sys.argv[1]), int(sys.argv[2])
    title = "00-database-short\n  A made database\n"
    size = (octets - len(title)) // (lines - 1)
    paths = sys.argv[3:5]
    with open(f"{paths[0]}.part", "w", newline="\n") as index, open(f"{paths[1]}.part", "w", newline="\n") as text:
        text.write(title)
        index.write(f"00-database-short\tA\t{spelled(len(title))}\n")
        offset = len(title)
        for number, headword in enumerate(headwords(lines - 1), 1):
            text.write(body(headword, number, size))
            shown = f"\t{headword.capitalize()}" if sys.argv[5:] == ["shown"] else ""
            index.write(f"{headword}\t{spelled(offset)}\t{spelled(size)}{shown}\n")
            offset += size
    # Under their names they are whole, also where this is stopped.
    for path in paths:
        os.replace(f"{path}.part", path)


if __name__ == "__main__":
    main()
