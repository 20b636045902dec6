#!/usr/bin/env python3
"""Writes COUNT keys, one a line: one to four words of two to ten letters, the same at each run."""
import random
import sys

count = int(sys.argv[1])
chance = random.Random(2229)
syllables = [a + b for a in "bcdfglmnprstvz" for b in ("a", "e", "i", "o", "u", "ar", "en", "in", "on", "é")]
vocabulary = ["".join(chance.choices(syllables, k=chance.randint(1, 4))) for _ in range(4000)] + ["fire", "opal", "stone"]
for _ in range(count):
    print(" ".join(chance.choices(vocabulary, k=chance.choice([1, 1, 1, 2, 2, 3, 4]))))
