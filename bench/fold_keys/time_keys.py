#!/usr/bin/env python3
"""Times programs over headwords that it makes: time_keys.py FOLDER ROUNDS PROGRAM..

Prints for each kind of headwords the milliseconds of one round by each program, and how many times as long the last
program takes as the first.
"""
import os
import random
import subprocess
import sys

RUNS = 11
KINDS = (
    ("ASCII", 65536, "abcdefghijklmnopqrstuvwxyz", " '-"),
    ("Greek", 10000, "αβγδεζηθικλμνξοπρστυφχψωάέήίόύώ", " "),
    ("Arabic", 10000, "ابتثجحخدذرزسشصضطظعغفقكلمنهوي", " "),
    ("French", 65536, "abcdefghijklmnopqrstuvwxyzéèêàçôûî", " '-"),
)


def headwords(count, letters, signs):
    """So many headwords of one to three words, a third of which begin with a capital."""
    chance = random.Random(2229)
    for _ in range(count):
        words = ["".join(chance.choices(letters, k=chance.randint(2, 10))) for _ in range(chance.choice((1, 1, 1, 2, 3)))]
        text = chance.choice(signs).join(words)
        yield text.capitalize() if chance.randrange(3) == 0 else text


def seconds(program, path, rounds):
    """The processor's time of one run, and what it prints."""
    child = subprocess.Popen([program, path, str(rounds)], stdout=subprocess.PIPE)
    told = child.stdout.read()
    _, status, used = os.wait4(child.pid, 0)
    child.returncode = 0
    if status:
        sys.exit(f"{program}: status {status}")
    return used.ru_utime + used.ru_stime, told


def main(folder, rounds, *programs):
    for name, count, letters, signs in KINDS:
        path = os.path.join(folder, name)
        with open(path, "w", encoding="utf-8") as file:
            file.writelines(f"{one}\n" for one in headwords(count, letters, signs))
        least = [9e9] * len(programs)
        for _ in range(RUNS):
            for at, program in enumerate(programs):
                taken = seconds(program, path, rounds)[0] - seconds(program, path, 0)[0]
                least[at] = min(least[at], taken)
        told = "  ".join(f"{1000 * it / int(rounds):8.3f} ms" for it in least)
        print(f"{count:6} {name:7} {told}  {least[-1] / least[0]:.2f}", flush=True)


if __name__ == "__main__":
    main(*sys.argv[1:])
