#!/usr/bin/env python3
"""Prints the figures of runs of bench/search/times.txt, the best of each, beside their bounds: table.py FILE.."""
import sys

PAGE = 4096


def read(path):
    """What one run told: the fewest microseconds of each kind, what was found of it, the pages, and the counts of entries, octets and steps."""
    times, found, pages, sizes = {}, {}, {}, {}
    for line in open(path):
        words = line.split()
        if words[1] == "us":
            times[words[0]] = min(times.get(words[0], int(words[2])), int(words[2]))
        elif words[1] == "pages":
            pages[words[0]] = int(words[2])
        elif words[0] == "entries":
            sizes.update(entries=int(words[1]), octets=int(words[3]))
        elif words[0] == "steps":
            sizes["steps"] = int(words[2])
        elif words[1] == "found":
            found[words[0]] = {name: int(words[at + 1]) for at, name in enumerate(words) if name in ("found", "looked", "rarer", "asked")}
    return times, found, pages, sizes


def bound(name, sums):
    """The microseconds that a query may take, of what was found by all of them; None where no bound is set."""
    if name == "exact":
        return 1
    if name in ("prefix", "suffix", "word"):
        return 0.5 + 0.1 * sums["found"] / sums["asked"]
    if name == "substring-of-three":
        return 40 + 0.1 * sums["rarer"] / sums["asked"]
    return None


runs = [read(path) for path in sys.argv[1:]]
_, found, _, sizes = runs[0]
best = {name: min(run[0][name] for run in runs) for name in runs[0][0]}
pages = min(run[2]["after"] - run[2]["before"] for run in runs)
entries = sizes["entries"]
print(f"{entries} entries; keys and shown headwords {sizes['octets']} octets")
print(f"made in {best['made'] / 1000:.0f} ms ({best['pushed'] / 1000:.0f} of them to push): {best['made'] / entries:.2f} ms a thousand, at most 2.5")
print(f"by {sizes['steps']} steps, the longest of {best['step'] / 1000:.1f} ms")
print(f"memory besides keys and shown headwords: {(pages * PAGE - sizes['octets']) / entries:.0f} octets an entry, at most 100")
for name, sums in found.items():
    if name not in best or "asked" not in sums:
        continue
    each = best[name] / sums["asked"]
    most = bound(name, sums)
    told = f", at most {most:.2f}" if most else ""
    print(f"{name:18} {each:8.2f} us a query{told}; of each {sums['found'] / sums['asked']:.1f} found, {sums['looked'] / sums['asked']:.1f} looked at, {sums['rarer'] / sums['asked']:.1f} with the rarer gram")
for name in ("headwords-by-prefix", "headwords-by-substring"):
    print(f"{name} of the letter a: {best[name] / 1000:.1f} ms")
