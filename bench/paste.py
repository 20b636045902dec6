#!/usr/bin/env python3
"""Puts what bench/figures.sh has measured into the pages of bench/: paste.py OUTDIR [STEP..]

In the pages, and in docs/DICTIONARIES.md, a line `<!-- STEP -->` begins a block, and `<!-- end -->` ends it: what stands between
becomes what OUTDIR/STEP.md has; with STEPs only their blocks are changed. Where the figures in the pages were of another program,
the blocks of all other steps become empty. Then, out of the pages, `<!-- summary -->` of bench/README.md becomes the table of what
a reader wants to know, `<!-- program -->` the line of which program it was, when, and how busy the machine was, and
`tools/figures --write` fills in what other documents name.
"""
import pathlib
import re
import subprocess
import sys

HERE = pathlib.Path(__file__).resolve().parent
PAGES = ["README.md", "serve/README.md", "store/README.md", "search/README.md", "../docs/DICTIONARIES.md"]
BLOCK = r"(<!-- (\w+) -->)\n(.*?)(<!-- end -->)"
MADE = ("summary", "program")   # blocks that are made of all others
IN_FRAMES = ("search", "scale")   # what is printed by these is no table


def tables(text):
    """The tables of a page: the line above each, and its rows, the head first, each a list of cells."""
    found, above, rows = [], "", []
    for line in [*text.splitlines(), ""]:
        if line.startswith("|"):
            rows.append([cell.strip() for cell in line.strip("|").split("|")])
        else:
            if rows:
                found.append((above, [row for row in rows if set("".join(row)) - {"-"}]))
                rows = []
            above = line or above
    return found


class Figures:
    """What the steps printed."""

    def __init__(self, folder):
        self.folder = folder

    def text(self, step):
        path = self.folder / f"{step}.md"
        return path.read_text().strip() if path.exists() else ""

    def rows(self, step, sought):
        """The rows of the first table of which the line above or the head has the words."""
        for above, rows in tables(self.text(step)):
            if sought in above or sought in "|".join(rows[0]):
                return rows
        return []

    def row(self, step, sought, first):
        """The row that begins so, without its first cell."""
        return next((row[1:] for row in self.rows(step, sought) if row[0].startswith(first)), None)

    def request(self, name, kind, turn):
        """Microseconds of both, and answers in a second of both."""
        rows = self.rows("asked", f"`{name}`: microseconds")
        row = next((row for row in rows if row[0] == kind), None)
        if row is None:
            return None
        cell = row[rows[0].index(turn)]
        both, rates = re.fullmatch(r"(.*) \((.*)\)", cell).groups()
        return *both.split(" / "), *rates.split(", ")


def requests(figures):
    """Rows of what a request takes of the processor at 8 connections, and of the answers in a second."""
    kinds = {"hits": "a DEFINE over WordNet (147,309 lines, 31 MB), found", "misses": "the same, not found", "exacts": "MATCH, exact",
             "prefixes": "MATCH by a prefix of 4 letters", "suffixes": "MATCH by a suffix of 4", "substrings": "MATCH by a substring of 5",
             "words": "MATCH by a word", "mix": "a mix of 20 (10 found, 4 not, 6 MATCHes)"}
    for kind, what in kinds.items():
        if it := figures.request("wn", kind, "8 × 1"):
            yield what, f"{it[0]} µs", f"{it[1]} µs", "asked"
    if it := figures.request("ara", "mix", "8 × 1"):
        yield "a mix of 20 over an Arabic dictionary", f"{it[0]} µs", f"{it[1]} µs", "asked"
    each = [figures.request("wn", "hits", turn) for turn in ("1 × 1", "8 × 1", "64 × 1")]
    if all(each):
        yield "DEFINE answers a second, 1, 8, 64 connections", ", ".join(it[2] for it in each), ", ".join(it[3] for it in each), "asked"


def waits(figures):
    """Rows of the longest answers, and of who asks beside others."""
    if it := figures.row("asked", "10,000 answers", "`wn`, mix"):
        yield "the longest of 10,000 answers, 64 connections, the mix over WordNet", *(f"{cell.split(', ')[1]} ms" for cell in it), "asked"
    both = [figures.row("asked", "MATCH wn substring e", who) for who in ("dictcat", "dictd")]
    if all(both):
        yield "MATCH wn substring e (104,434 headwords, 2 MB)", *(f"{it[0]} ms" for it in both), "asked"
        yield "a greeting, and a DEFINE, beside 8 that repeat it", *(f"{it[1].replace(', ', ' and ')} s" for it in both), "asked"
        yield "the same beside 62", *(f"{it[2].replace(', ', ' and ')} s" for it in both), "asked"
    both = [figures.row("round", "MATCH gcide substring e", who) for who in ("dictcat", "dictd")]
    if all(both):
        yield "a DEFINE beside 63 that repeat a MATCH of 122,146 headwords of GCIDE: by the clock at most", *(f"{re.split('[, (]+', it[2])[1]} s" for it in both), "round"
    if it := figures.row("kept", "DEFINE, found", "65,536 lines, 13 MB"):
        yield "the first DEFINE over 65,536 lines, 13 MB, and those behind it", f"{it[0]}, {it[1].split(' (')[0]}", it[2].split(" (")[0], "kept"
    if rows := figures.rows("growth", "The same finds"):
        most = [max(float(row[at]) for row in rows[1:]) for at in (3, 6)]
        yield "four times the lines, the same finds: at most", *(f"{it:.2f} times" for it in most), "growth"


def store(figures):
    """Rows of files: their memory, their sizes, installs and openings."""
    idle = re.findall(r"^- while nothing comes, 64 connections, (dictcat|dictd): .* s, (\d+) kB of memory", figures.text("lines"), re.M)
    both = [figures.row("start", "A start over WordNet", who) for who in ("dictcat", "dictd")]
    if all(both):
        yield "a start with WordNet, until it greets, by the clock; memory then", *(f"{float(it[0]):.1f} s; {it[2]} MB" for it in both), "start"
    if len(idle) == 2:
        yield "64 connections over four lines: memory", *(f"{int(it) / 1000:.0f} MB" for _, it in idle), "lines"
    for step, sought, first, what in (
            ("debian", "`wn`", "an opening", "an opening of WordNet by a command (`list`)"), ("debian", "`wn`", "`install` by", "an install of WordNet by the command line"),
            ("limits", "Found", "opening of the largest", "an opening of the largest edition by a command, 262,144 lines, 67 MB"),
            ("limits", "Found", "install of 65,536 lines, first", "an install of 65,536 lines, 13 MB"),
            ("every", "Debian's dictionaries", "32 dictionaries", "all 31 packages of Debian's imported by HTTP, one after the other"),
            ("every", "Debian's dictionaries", "lines and octets", "lines and octets of them"), ("every", "Debian's dictionaries", "file and log", "their file and log"),
            ("every", "Debian's dictionaries", "an opening", "an opening of all of them by a command (`list`)")):
        if it := figures.row(step, sought, first):
            yield what, it[0], "not measured", step
    rows = figures.rows("install", "32 readers ask")[1:]
    for three in (rows[at:at + 3] for at in range(0, len(rows), 3)):
        most = [max(float(row[at].split(" ")[0]) for row in three) for at in (1, 2)]
        yield f"an install by HTTP of {three[0][0].split(': ')[0]}, 32 readers beside it: the editor waits at most; a reader", f"{most[0]:.1f} s; {most[1]:.2f} s", "none", "install"
    if it := re.search(r"^(\d+) kills: (.*)$", figures.text("kill"), re.M):
        yield f"{int(it[1]):,} kills within installs", re.sub("; the file has.*", "", it[2]), "none", "kill"


def summary(figures):
    rows = [*requests(figures), *waits(figures), *store(figures)]
    lines = [f"|{what}|{ours}|{theirs}|`{step}`|" for what, ours, theirs, step in rows]
    return "\n".join(["|What|dictcat|dictd 1.13|Step|", "|---|---|---|---|", *lines])


PROGRAM = (r"All of one program, `(?P<version>.*)` with the sum `(?P<sum>\w+)`, clone (?P<commit>\w+), (?P<day>\d+ \w+ \d+), (?P<begin>\S+), to (?P<end>\S+), "
           r"on (?P<machine>.*); load (?P<least>\S+) to (?P<most>\S+) by what was measured itself and what ran beside it\.")


def program(figures, former):
    """The line of the program; where the former line is of the same one, both runs together."""
    total, version, begun, machine = (figures.folder / "program").read_text().splitlines()[:4]
    times = (figures.folder / "times").read_text().splitlines()
    loads = [float(it) for line in times for it in re.findall(r"load (\S+) before, (\S+) behind", line)[0]]
    if former and former["sum"] == total[:12]:
        begun = f"clone {former['commit']}, {former['day']}, {former['begin']}"
        loads += [float(former["least"]), float(former["most"])]
    return (f"All of one program, `{version}` with the sum `{total[:12]}`, {begun}, to {times[-1].split()[0]}, on {machine}; "
            f"load {min(loads):.1f} to {max(loads):.1f} by what was measured itself and what ran beside it.")


class Pages(Figures):
    """The figures that the pages have."""

    def __init__(self):
        self.pages = {name: (HERE / name).read_text() for name in PAGES}
        self.blocks = {step: text.strip() for page in self.pages.values() for _, step, text, _ in re.findall(BLOCK, page, re.S)}

    def text(self, step):
        return self.blocks.get(step, "")

    def program(self):
        """Which program they are of, by the names of PROGRAM."""
        return re.match(PROGRAM, self.text("program"))

    def put(self, texts):
        """Renews the blocks of these steps."""
        self.blocks.update(texts)
        for name, page in self.pages.items():
            new = re.sub(BLOCK, lambda it: "\n".join(filter(None, [it[1], self.blocks[it[2]], it[4]])), page, flags=re.S)
            (HERE / name).write_text(new)


def block(figures, step):
    """What a step printed, as it stands in a page."""
    text = figures.text(step)
    if step == "table":
        time = re.search(rf"^(\S+) table: .* load (\S+) before, (\S+) behind", (figures.folder / "times").read_text(), re.M)
        day = (figures.folder / "program").read_text().splitlines()[2].split(", ")[1]
        text = f"On {day}, to {time[1]}, at a load of {time[2]} to {time[3]}:\n\n{text}" if text else ""
    if step == "search":
        text = re.sub(r"^== .*/", "== ", text, flags=re.M)   # the folder of an index
    return f"```text\n{text}\n```" if text and step in IN_FRAMES else text


def main():
    if len(sys.argv) < 2 or sys.argv[1].startswith("-"):
        sys.exit(__doc__)
    figures, pages = Figures(pathlib.Path(sys.argv[1])), Pages()
    former = pages.program()
    steps = [step for step in pages.blocks if step not in MADE]
    new = {step: block(figures, step) for step in steps if step in (sys.argv[2:] or steps) and figures.text(step)}
    if former is None or former["sum"] != (figures.folder / "program").read_text()[:12]:
        gone = [step for step in steps if pages.text(step) and step not in new]
        print(f"of another program, and gone: {' '.join(gone) or 'nothing'}")
        pages.put({step: "" for step in gone})
    pages.put(new)
    pages.put({"summary": summary(pages), "program": program(figures, former)})
    sys.exit(subprocess.run([HERE.parent / "tools" / "figures", "--write"]).returncode)


if __name__ == "__main__":
    main()
