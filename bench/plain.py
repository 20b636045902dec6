#!/usr/bin/env python3
"""Pipes lines through `dictcat plain`, and prints requests a second, by the clock and by the processor's time, and peak memory.

Usage: bench/plain.py [MEGABYTES [PROGRAM..]]    (20, and the program of these sources, where nothing is given)

Half of the DEFINE lines find an entry and half find none. The databases are examples/type and one of 1,000 entries
that is made here. Each is asked with MEGABYTES and with a tenth of it: the memory should be the same for both.
Then one of 65,536 lines over 16 MB is asked: DEFINE with words that are there, and that aren't, and MATCH by each
strategy with queries that find a few headwords. Where several programs are given, each measures in turn, so that they
are compared in one run.
"""

import os
import pathlib
import resource
import subprocess
import sys
import tempfile
import time

from dictd import spelled

TOP = pathlib.Path(__file__).resolve().parent.parent


def make_thousand(folder):
    """A database of 1,000 entries, each of one line."""
    text = "00-database-short\nA thousand\n"
    lines = [f"00-database-short\tA\t{spelled(len(text))}\n"]
    for i in range(1000):
        body = f"word{i}\n  the entry of this number\n"
        lines.append(f"word{i}\t{spelled(len(text))}\t{spelled(len(body))}\n")
        text += body
    (folder / "thousand.index").write_text("".join(lines))
    (folder / "thousand.dict").write_text(text)
    return [f"word{i}" for i in range(1000)]


def make_requests(path, name, words, octets):
    """Lines for so many octets, hits and misses in turn, with a QUIT at the end; tells how many."""
    block = "".join(
        f'DEFINE {name} {word}\r\nDEFINE {name} no{word}\r\n' for word in words
    ).encode()
    count = 0
    with open(path, "wb") as out:
        written = 0
        while written < octets:
            out.write(block)
            written += len(block)
            count += 2 * len(words)
        out.write(b"QUIT\r\n")
    return count + 1


def peak_of(pid):
    """The most memory that the process has held so far, in KB. (wait4 would count this script's own, before exec.)"""
    for line in pathlib.Path(f"/proc/{pid}/status").read_text().splitlines():
        if line.startswith("VmHWM:"):
            return int(line.split()[1])
    return 0


def measure(program, name, index, text, requests):
    """Seconds by the clock and of the processor, peak memory in KB, and octets of the answers."""
    read_end, write_end = os.pipe()
    peak = 0
    before = resource.getrusage(resource.RUSAGE_CHILDREN)
    with open(requests, "rb") as source:
        begin = time.monotonic()
        child = subprocess.Popen(
            [program, "plain", name, index, text],
            stdin=source,
            stdout=write_end,
        )
        os.close(write_end)
        answered, pieces = 0, 0
        while piece := os.read(read_end, 1 << 16):
            answered += len(piece)
            pieces += 1
            if pieces % 100 == 1:
                peak = max(peak, peak_of(child.pid))
        status = child.wait()
        seconds = time.monotonic() - begin
    after = resource.getrusage(resource.RUSAGE_CHILDREN)
    worked = after.ru_utime + after.ru_stime - before.ru_utime - before.ru_stime
    os.close(read_end)
    if status != 0:
        sys.exit(f"the program ended with {status}")
    return seconds, worked, peak, answered


QUERIES = {
    "DEFINE, a hit": 'DEFINE made "headword {0}"',
    "DEFINE, a miss": 'DEFINE made "headword {0}x"',
    "MATCH exact": 'MATCH made exact "headword {0}"',
    "MATCH prefix": 'MATCH made prefix "headword {0}"',
    "MATCH suffix": "MATCH made suffix {0}",
    "MATCH substring": "MATCH made substring {0}",
    "MATCH word": "MATCH made word {0}",
    "MATCH first": 'MATCH made first "headword {0}"',
    "MATCH last": "MATCH made last {0}",
}


def small(programs, megabytes, folder):
    """DEFINE over two small databases."""
    thousand = make_thousand(folder)
    index = (TOP / "examples/type.index").read_text().splitlines()
    heads = (line.split("\t")[0] for line in index)
    glossary = [head for head in heads if head.isalpha() and head.isascii()]
    cases = [
        ("type", TOP / "examples/type.index", TOP / "examples/type.dict", glossary),
        ("thousand", folder / "thousand.index", folder / "thousand.dict", thousand),
    ]
    for name, index, text, words in cases:
        for size in (megabytes / 10, megabytes):
            path = folder / "requests"
            count = make_requests(path, name, words, int(size * 1_000_000))
            for program in programs:
                seconds, worked, peak, answered = measure(program, name, index, text, path)
                print(
                    f"{name}: {size:g} MB, {count} requests in {seconds:.2f} s: "
                    f"{count / seconds:,.0f} requests/s, {count / worked:,.0f} a processor's second, "
                    f"{answered / 1e6:.0f} MB answered, peak {peak} KB",
                    flush=True,
                )


def large(programs, count, folder):
    """Each kind of request over 65,536 lines. The seconds are without those of a session that only ends."""
    index, text, path = folder / "made.index", folder / "made.dict", folder / "requests"
    words = [TOP / "bench/make_database.py", "65536", "16000000", index, text]
    subprocess.run([sys.executable, *words], check=True)
    path.write_bytes(b"QUIT\r\n")
    opened = [
        [min(times) for times in zip(*(measure(program, "made", index, text, path)[:2] for _ in range(3)))]
        for program in programs
    ]
    for what, line in QUERIES.items():
        numbers = [(i * 40_503) % 55_000 + 10_000 for i in range(count)]
        path.write_text("".join(line.format(number) + "\r\n" for number in numbers) + "QUIT\r\n")
        for program, (start, start_worked) in zip(programs, opened):
            seconds, worked, peak, answered = measure(program, "made", index, text, path)
            seconds, worked = max(seconds - start, 0.001), max(worked - start_worked, 0.001)
            print(
                f"65,536 lines: {what}: {count} requests in {seconds:.2f} s: "
                f"{count / seconds:,.0f} requests/s, {count / worked:,.0f} a processor's second, "
                f"{answered} octets answered, peak {peak} KB",
                flush=True,
            )


def main():
    megabytes = float(sys.argv[1]) if len(sys.argv) > 1 else 20
    programs = sys.argv[2:]
    if not programs:
        found = subprocess.run([TOP / "tools/program"], check=True, stdout=subprocess.PIPE, text=True)
        programs = [found.stdout.strip()]
    with tempfile.TemporaryDirectory() as folder:
        small(programs, megabytes, pathlib.Path(folder))
        large(programs, 1000, pathlib.Path(folder))


main()
