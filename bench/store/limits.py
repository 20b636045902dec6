"""The figures of the store and of a session, each beside its bound: limits.py PROGRAM WORK [PART..]

Parts: `lookups`, `installs`, `openings`, `migrations`, `removals`; all of them where none is named; and `largest`, a part of these. WORK is a folder that stays:
the made databases are there after the first run, and the files. Seconds and microseconds are of the processor, by the system's
count for the process (user and system); memory is the peak of the process.
"""
import functools
import os
import pathlib
import random
import re
import shutil
import sqlite3
import subprocess
import sys
import time

HERE = pathlib.Path(__file__).resolve().parent
sys.path[:0] = [str(HERE.parent), str(HERE.parent / "serve")]
from lists import headwords, of_length  # noqa: E402

SMALL, LARGE = (65_536, 13_000_000), (262_144, 67_108_864)
# A quarter of the largest edition's entries and of its text, each with a fourth column as there.
QUARTER = (LARGE[0] // 4, LARGE[1] // 4)
QUERIES = 1000
OLD_TABLES = (
    "CREATE TABLE mark (id INTEGER NOT NULL PRIMARY KEY, magic TEXT NOT NULL, version INTEGER NOT NULL, installs INTEGER NOT NULL) STRICT",
    "CREATE TABLE item (place INTEGER NOT NULL PRIMARY KEY, name TEXT NOT NULL UNIQUE, kind INTEGER NOT NULL, title TEXT, current INTEGER, former INTEGER) STRICT",
    "CREATE TABLE member (owner TEXT NOT NULL, ord INTEGER NOT NULL, name TEXT NOT NULL, PRIMARY KEY (owner, ord), UNIQUE (owner, name)) STRICT",
    "CREATE TABLE edition (number INTEGER NOT NULL PRIMARY KEY, owner TEXT NOT NULL, title TEXT NOT NULL, info TEXT NOT NULL, body BLOB NOT NULL) STRICT",
    "CREATE TABLE entry (edition INTEGER NOT NULL, ord INTEGER NOT NULL, headword TEXT NOT NULL, start INTEGER NOT NULL, length INTEGER NOT NULL, PRIMARY KEY (edition, ord)) STRICT",
    "CREATE TABLE kept (id TEXT NOT NULL PRIMARY KEY, number INTEGER NOT NULL UNIQUE, verb TEXT NOT NULL, name TEXT NOT NULL, edition INTEGER) STRICT",
)
OLD_COLUMNS = {"mark": "id, magic, 1, installs"}
DIGITS = b"ABCDEFGHIJKLMNOPQRSTUVWXYZabcdefghijklmnopqrstuvwxyz0123456789+/"


# Runs the words behind a descriptor, to which it tells what they took. A process that is begun by a large one has its peak as its own.
SMALL_PARENT = """
import os, sys, time
os.set_inheritable(int(sys.argv[1]), False)
start = time.monotonic()
_, ended, usage = os.wait4(os.posix_spawnp(sys.argv[2], sys.argv[2:], os.environ), 0)
took = time.monotonic() - start, usage.ru_utime + usage.ru_stime, usage.ru_maxrss / 1024, os.waitstatus_to_exitcode(ended)
os.write(int(sys.argv[1]), " ".join(map(str, took)).encode())
"""


def run(*words, status=0):
    """Seconds by the clock and by the processor, the peak of memory in MB, and what was printed."""
    taken, told = os.pipe()
    process = subprocess.run([sys.executable, "-S", "-c", SMALL_PARENT, str(told), *map(str, words)], stdout=subprocess.PIPE, text=True, pass_fds=[told])
    os.close(told)
    with open(taken) as it:
        clock, seconds, memory, ended = it.read().split()
    assert int(ended) == status, (words, ended, process.stdout)
    return float(clock), float(seconds), float(memory), process.stdout


def sizes(path):
    """The sizes of a file and of its log, in MB."""
    both = (pathlib.Path(path), pathlib.Path(f"{path}-wal"))
    return " and ".join(f"{it.stat().st_size / 1e6:.1f}" if it.exists() else "0" for it in both)


def copied(path, to):
    for end in ("", "-wal"):
        pathlib.Path(f"{to}{end}").unlink(missing_ok=True)
        if pathlib.Path(f"{path}{end}").exists():
            shutil.copyfile(f"{path}{end}", f"{to}{end}")
    return pathlib.Path(to)


def told(what, figure, bound=None, is_met=None):
    """One row of the table."""
    verdict = "" if is_met is None else "yes" if is_met else "**no**"
    print(f"| {what} | {figure} | {bound or ''} | {verdict} |", flush=True)


def bounded(what, value, unit, most, form=".1f", more=""):
    told(what, f"{value:{form}} {unit}{more}", f"{most} {unit}", value <= most)


class Made:
    """A made database, and the file into which it is installed."""

    def __init__(self, program, work, lines, octets, shown=False, stem="made"):
        self.program, self.work, self.lines = program, work, lines
        self.index, self.text, self.path = (work / f"{stem}{lines}.{end}" for end in ("index", "dict", "db"))
        if not self.text.exists():
            words = [HERE.parent / "make_words.py", lines, octets, self.index, self.text] + ["shown"] * shown
            run(sys.executable, *words)

    def install(self, path, request="r1", name="made"):
        return run(self.program, "install", path, name, request, self.index, self.text)

    def fresh(self, path=None):
        """Installs it into a new file, and tells what that took."""
        path = path or self.path
        for end in ("", "-wal", "-shm"):
            pathlib.Path(f"{path}{end}").unlink(missing_ok=True)
        run(self.program, "create", path)
        return self.install(path)

    def file(self):
        if not self.path.exists():
            self.fresh()
        return self.path


class Session:
    """A session over a file, and the processor's time that it has taken."""

    def __init__(self, program, path):
        self.process = subprocess.Popen([program, "session", path], stdin=subprocess.PIPE, stdout=subprocess.PIPE, bufsize=0)
        self.ask([])

    def seconds(self):
        return int(pathlib.Path(f"/proc/{self.process.pid}/schedstat").read_text().split()[0]) / 1e9

    def ask(self, lines):
        """Seconds that these lines took, and what was answered; STATUS behind them tells that all is there."""
        before = self.seconds()
        octets, answer = b"".join(b"%s\r\n" % it.encode() for it in [*lines, "STATUS"]), b""
        self.process.stdin.write(octets)
        while not re.search(rb"(^|\r\n)210 [^\r]*\r\n\Z", answer[-200:]):
            more = os.read(self.process.stdout.fileno(), 1 << 20)
            assert more, "the session has ended"
            answer += more
        return self.seconds() - before, answer

    def each(self, lines, at_once=50):
        """Microseconds of a line, and how many were found by one."""
        spent = found = 0
        for at in range(0, len(lines), at_once):
            seconds, answer = self.ask(lines[at:at + at_once])
            spent += seconds
            found += sum(map(int, re.findall(rb"\r\n15[02] (\d+) ", b"\r\n" + answer)))
        return spent / len(lines) * 1e6, found / len(lines)

    def end(self):
        self.process.stdin.close()
        self.process.wait()


def of_some(heads, chosen, end):
    """A beginning (or an end) of a headword by which 8 to 12 are found, most often 10."""
    while True:
        head = chosen.choice(heads)
        for length in range(2, len(head)):
            part = head[-length:] if end else head[:length]
            count = sum(it.endswith(part) if end else it.startswith(part) for it in heads)
            if 8 <= count <= 12 and of_length(part, length):
                return part
            if count < 8:
                break


def queries(index):
    """The lines that are asked, by the fixed generator."""
    heads, chosen = headwords(index), random.Random(45)
    some = lambda end: [of_some(heads, chosen, end) for _ in range(QUERIES // 20)] * 20
    inner = lambda it: it[1:6] if len(it) > 6 and of_length(it[1:6], 5) else None
    parts = [it for it in map(inner, chosen.sample(heads, 4 * QUERIES)) if it][:QUERIES]
    take = lambda: chosen.sample(heads, QUERIES)
    return {
        "DEFINE miss": [f'DEFINE made "{it}qx"' for it in take()],
        "MATCH exact": [f'MATCH made exact "{it}"' for it in take()],
        "MATCH prefix": [f'MATCH made prefix "{it}"' for it in some(False)],
        "MATCH suffix": [f'MATCH made suffix "{it}"' for it in some(True)],
        "MATCH substring of 5 octets": [f'MATCH made substring "{it}"' for it in parts],
        "MATCH word": [f'MATCH made word "{chosen.choice(it.split())}"' for it in take()],
        "DEFINE hit": [f'DEFINE made "{it}"' for it in take()],
    }


MOST = {"DEFINE miss": 40, "MATCH exact": 40, "MATCH prefix": 60, "MATCH suffix": 60, "MATCH substring of 5 octets": 250, "MATCH word": 60}


def lookups(program, small, _):
    asked, firsts = queries(small.index), []
    for number in range(2):
        session = Session(program, small.file())
        firsts.append(session.ask(asked["DEFINE hit"][number:number + 1])[0] * 1000)
        if number == 0:
            session.end()
    bounded("DEFINE hit, text not yet kept, 65,535 entries, 13 MB", min(firsts), "ms", 60)
    again, _ = session.each(asked["DEFINE hit"][1:101], 1)
    told("DEFINE hit, the next 100, one by one", f"{again:.1f} µs")
    for what, most in MOST.items():
        session.each(asked[what][:100])
        spent, found = session.each(asked[what])
        bounded(what, spent, "µs", most, more=f" ({found:.1f} found)")
    session.end()


def installs(program, small, large):
    _, *first = small.fresh()
    told("install of 65,536 lines, first run", f"{first[0]:.2f} s, {first[1]:.0f} MB; file and log {sizes(small.path)} MB")
    second = min(first[0], small.fresh()[1])
    bounded("install of 65,536 lines, the better of two", second, "s", 12, ".2f")
    quarter = Made(program, small.work, *QUARTER, shown=True, stem="quarter")
    part = min(quarter.fresh()[1] for _ in range(2))
    clock, seconds, memory, _ = min(large.fresh() for _ in range(2))
    told("install of 262,144 lines, the better of two", f"{seconds:.2f} s, by the clock {clock:.2f}; file and log {sizes(large.path)} MB")
    bounded("times that of a quarter of its lines and text", seconds / part, "times", 4.3, ".2f")
    bounded("memory of that install", memory, "MB", 260, ".0f")


def stages(program, *words):
    """What stages.sh tells of a run."""
    return subprocess.run([HERE / "stages.sh", program, *map(str, words)], capture_output=True, text=True).stdout


def opened(program, made, what):
    """An opening's seconds, what of it is of `sqlite` alone, and memory."""
    clock, seconds, memory, _ = run(program, "list", made.file())
    told(f"opening of {what} (`list`)", f"{seconds:.2f} s, by the clock {clock:.2f}")
    lines = stages(program, "list", made.path).splitlines()
    (made.work / f"stages-open-{made.lines}.txt").write_text("\n".join(lines) + "\n")
    first = next((float(it.split()[0]) for it in lines if "adopting::read" in it), None)
    if first is not None:
        told("of that by `sqlite` alone, which tests the pages (under `gdb`)", f"{first:.2f} of {float(lines[-1].split()[0]):.2f} s")
    bounded(f"memory of that opening", memory, "MB", 400, ".0f")


def openings(program, small, large):
    for made, what in ((small, "65,536 lines"), (large, "the largest edition")):
        opened(program, made, what)
        clock, seconds, memory, _ = run(program, "audit", made.path)
        told(f"`audit` of {what}", f"{seconds:.2f} s, by the clock {clock:.2f}; {memory:.0f} MB")


def older(path, to):
    """A file of schema 1 with the catalogue of one of the known schema, by stored texts."""
    for end in ("", "-wal", "-shm"):
        pathlib.Path(f"{to}{end}").unlink(missing_ok=True)
    rows = sqlite3.connect(to, isolation_level=None)
    rows.execute("PRAGMA journal_mode = WAL")
    rows.execute(f"ATTACH '{path}' AS newer")
    rows.execute("BEGIN")
    for text in OLD_TABLES:
        rows.execute(text)
        table = text.split()[2]
        if table in ("mark", "item", "member", "kept"):
            rows.execute(f"INSERT INTO main.{table} SELECT {OLD_COLUMNS.get(table, '*')} FROM newer.{table} ORDER BY newer.{table}.rowid")
    for header in rows.execute("SELECT number, owner, title, info FROM newer.edition ORDER BY number").fetchall():
        rows.execute("INSERT INTO main.edition VALUES (?, ?, ?, ?, ?)", [*header, octets(rows, header[0], 1)])
        lines = octets(rows, header[0], 0).split(b"\n")[:-1]
        entries = ((header[0], place, *entry_of(line)) for place, line in enumerate(lines))
        rows.executemany("INSERT INTO main.entry VALUES (?, ?, ?, ?, ?)", entries)
    rows.execute("COMMIT")
    rows.close()


def octets(rows, number, file):
    """The octets of an edition's index (0) or of its text (1): those of its parts."""
    sought = "SELECT octets FROM newer.dictcat_part WHERE edition = ? AND file = ? ORDER BY number"
    return b"".join(part for (part,) in rows.execute(sought, [number, file]))


def entry_of(line):
    """The headword, where the body begins and how long it is."""
    head, *numbers = line.split(b"\t")[:3]
    return head.decode(), *(functools.reduce(lambda value, digit: value * 64 + DIGITS.index(digit), spelled, 0) for spelled in numbers)


def migrations(program, small, large):
    """From schema 1, and from 4 where OLDER names a program that makes files of it (that of `dist/` at commit 500f3b9e)."""
    before = os.environ.get("OLDER")
    for made, what in ((small, "65,536 lines"), (large, "the largest edition")):
        old = made.work / f"old{made.lines}.db"
        older(made.file(), old)
        migrated(program, old, f"{what} from schema 1")
        if before:
            fourth = made.work / f"fourth{made.lines}.db"
            for end in ("", "-wal", "-shm"):
                pathlib.Path(f"{fourth}{end}").unlink(missing_ok=True)
            run(before, "create", fourth)
            run(before, "install", fourth, "made", "r1", made.index, made.text)
            _, seconds, _, _ = run(before, "list", fourth)
            told(f"an opening of {what} by the program of schema 4", f"{seconds:.1f} s")
            migrated(program, fourth, f"{what} from schema 4")


def migrated(program, old, what):
    path = copied(old, old.with_name("migrated.db"))
    clock, seconds, memory, _ = run(program, "list", path)
    told(f"migration of {what}", f"{seconds:.1f} s, by the clock {clock:.1f}; file and log {sizes(path)} MB")
    bounded("memory of that migration", memory, "MB", 260, ".0f")


def removals(program, small, large):
    for made, what in ((small, "65,536 lines"), (large, "the largest edition")):
        path = made.work / "removed.db"
        _, first, _, _ = made.fresh(path)
        for request, how, most in (("r2", "over another edition", 1.5), ("r3", "by which a former edition goes", 1.7)):
            _, seconds, memory, _ = made.install(path, request)
            told(f"install of {what} {how}", f"{seconds:.1f} s, {memory:.0f} MB; file and log {sizes(path)} MB")
            bounded("times that into an empty file", seconds / first, "times", most, ".2f")
        _, seconds, memory, _ = run(program, "retire", path, "made", "r4")
        told(f"`retire` of both editions of {what}", f"{seconds:.1f} s, {memory:.0f} MB; file and log {sizes(path)} MB")


def largest(program, small, large):
    """The largest edition alone: into an empty file, and over another edition."""
    clock, seconds, memory, _ = large.fresh()
    told("install of the largest edition", f"{seconds:.1f} s, by the clock {clock:.1f}; file and log {sizes(large.path)} MB")
    bounded("memory of that install", memory, "MB", 400, ".0f")
    clock, seconds, memory, _ = large.install(copied(large.path, large.work / "over.db"), "r2")
    told("install of it over another edition", f"{seconds:.1f} s, by the clock {clock:.1f}, {memory:.0f} MB")


PARTS = {it.__name__: it for it in (installs, lookups, openings, migrations, removals)}


def main():
    program, work = os.path.realpath(sys.argv[1]), pathlib.Path(sys.argv[2])
    work.mkdir(exist_ok=True)
    small, large = Made(program, work, *SMALL), Made(program, work, *LARGE, shown=True)
    print(f"On {time.strftime('%d %B %Y, %H:%M')}, load {' '.join(f'{it:.1f}' for it in os.getloadavg())}\n")
    print("| | Found | At most | Met |\n|---|---|---|---|")
    for part in sys.argv[3:] or PARTS:
        ({**PARTS, "largest": largest})[part](program, small, large)
    print(f"\nLoad at the end {' '.join(f'{it:.1f}' for it in os.getloadavg())}")


if __name__ == "__main__":
    main()
