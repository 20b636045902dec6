#!/usr/bin/env python3
"""store.py PROGRAM FOLDER: what run.sh prints, each time by the clock and, in brackets, by the processor.

The database has 65,535 entries over 16 MB of text, and one of a quarter."""

import os
import pathlib
import shutil
import sqlite3
import subprocess
import sys
import time

HERE = pathlib.Path(__file__).resolve().parent


def run(program, *words):
    """Seconds by the clock and by the processor, by the program's words, and its peak memory in MB."""
    process = subprocess.Popen([program, *map(str, words)], stdout=subprocess.PIPE, text=True)
    told = process.stdout.read()
    _, status, usage = os.wait4(process.pid, 0)
    assert status == 0 and "fault" not in told, (words, status, told)
    times, used = {}, 0
    for word, clock, processor in (line.split() for line in told.splitlines()):
        times[word] = int(clock) / 1e6, (int(processor) - used) / 1e6
        used = int(processor)
    return times, usage.ru_maxrss / 1024


def told_of(times):
    """Seconds by the clock and, in brackets, by the processor."""
    return f"{times[0]:.3f} s ({times[1]:.3f} s)"


def best(program, word, *words):
    """The quickest of five runs by the processor's time, and the greatest of their peaks."""
    runs = [run(program, *words) for _ in range(5)]
    return min((times[word] for times, _ in runs), key=lambda times: times[1]), max(memory for _, memory in runs)


def sizes(path):
    """The sizes of the file and of its log, in MB."""
    both = (path, pathlib.Path(f"{path}-wal"))
    return [f"{it.stat().st_size / 1e6:.1f}" if it.exists() else "-" for it in both]


def copied(path, to):
    """Copies the file and its log."""
    for end in ("", "-wal"):
        if pathlib.Path(f"{path}{end}").exists():
            shutil.copyfile(f"{path}{end}", f"{to}{end}")
    return to


def timed(work):
    """Seconds of a call, by the clock and by the processor."""
    clock, processor = time.monotonic(), time.process_time()
    work()
    return told_of((time.monotonic() - clock, time.process_time() - processor))


def insert_into(other, edition, entries):
    """Inserts the rows by one transaction."""
    other.execute("BEGIN")
    other.executemany(f"INSERT INTO edition VALUES ({', '.join('?' * len(edition[0]))})", edition)
    other.executemany(f"INSERT INTO entry VALUES ({', '.join('?' * len(entries[0]))})", entries)
    other.execute("COMMIT")


def read(rows):
    """Reads the rows in their order."""
    rows.execute("SELECT * FROM edition ORDER BY number").fetchall()
    rows.execute("SELECT * FROM entry ORDER BY edition, ord").fetchall()


def check(rows):
    """Has the file checked."""
    assert rows.execute("PRAGMA integrity_check").fetchall() == [("ok",)]


def beside(path, made):
    """What Python's sqlite3 module takes for the same rows in a new file, for reading them and for its check."""
    rows = sqlite3.connect(path)
    tables = [sql for (sql,) in rows.execute("SELECT sql FROM sqlite_schema WHERE type = 'table'")]
    edition = rows.execute("SELECT * FROM edition WHERE number = 1").fetchall()
    entries = rows.execute("SELECT * FROM entry WHERE edition = 1 ORDER BY ord").fetchall()
    checked = timed(lambda: check(rows))
    rows.close()
    other = sqlite3.connect(made, isolation_level=None)
    other.execute("PRAGMA journal_mode = WAL")
    other.execute("PRAGMA synchronous = FULL")
    for sql in tables:
        other.execute(sql)
    inserted = timed(lambda: insert_into(other, edition, entries))
    return inserted, timed(lambda: read(other)), checked


def opened(program, path, what):
    """Prints what an opening takes, by `sqlite` alone and by the desk with it."""
    alone, least = best(program, "connected", "connect", path)
    whole, memory = best(program, "opened", "open", path)
    print(f"{what}: connected in {told_of(alone)}, {least:.0f} MB; opened in {told_of(whole)}, {memory:.0f} MB", flush=True)


def ratio(program, one, four):
    """How many times the processor's time of the first file the second takes to open, each run ten times in turn."""
    seconds = [[run(program, "open", path)[0]["opened"][1] for path in (one, four)] for _ in range(10)]
    return min(pair[1] for pair in seconds) / min(pair[0] for pair in seconds)


def measure(program, work, lines, octets):
    """Makes a database of so many lines, installs it five times into a new file, under two names, and opens that."""
    path, index, text = work / f"{lines}.db", work / "made.index", work / "made.dict"
    subprocess.run([sys.executable, HERE.parent / "make_database.py", str(lines), str(octets), index, text], check=True)
    told, memory = run(program, "create", path)
    print(f"{lines} lines: made in {told_of(told['opened'])}, {memory:.0f} MB")
    one = work / f"{lines}.one.db"
    for number, name in enumerate(("made", "made", "made", "more", "more"), 1):
        told, memory = run(program, "install", path, name, f"r{number}", index, text)
        print(f"{lines} lines: install {number} in {told_of(told['installed'])}, {memory:.0f} MB; file and log in MB: {', '.join(sizes(path))}")
        if number != 3:
            count = min(number, 2) if number < 4 else number - 1
            opened(program, path, f"{lines} lines, editions: {count}")
        if number == 1:
            copied(path, one)
            inserted, rows, checked = beside(path, work / f"{lines}.beside.db")
            print(f"{lines} lines: sqlite3: inserted in {inserted}, read in {rows}, checked in {checked}")
    print(f"{lines} lines: four editions are opened in {ratio(program, one, path):.2f} times the processor's time of one")
    told, memory = run(program, "install", path, "made", "r6", index, text, 10)
    print(f"{lines} lines: ten installs by one process in {told_of(told['installed'])}, {memory:.0f} MB; file and log in MB: {', '.join(sizes(path))}")


def main():
    program, work = sys.argv[1], pathlib.Path(sys.argv[2])
    for lines, octets in ((16_384, 4_000_000), (65_536, 16_000_000)):
        measure(program, work, lines, octets)


if __name__ == "__main__":
    main()
