"""Installs large dictionaries of Debian's whole, by the command line and by HTTP: debian.py PROGRAM WORK [NAME..]

NAMEs are of /usr/share/dictd (dict-wn, dict-gcide): `wn` and `gcide` where none is named. Each pair is mended as
`contrib/import-dictd` does it, installed by the command line into one file and by HTTP into another, asked in both (each answer
the same, and each text as the pair has it), another edition is installed over it and rolled back, the file is audited, and
sqlite3 checks it; into the other file the pair is installed twice more, and retired. Printed are seconds of the processor, peaks of memory and sizes; it ends by an error where something isn't as
it has to be.
"""
import json
import os
import pathlib
import random
import re
import subprocess
import sys
import time

HERE = pathlib.Path(__file__).resolve().parent
TOP = HERE.parent.parent
sys.path[:0] = [str(HERE), str(HERE.parent), str(HERE.parent / "serve")]
from limits import run, sizes  # noqa: E402
from servers import install, request, serve  # noqa: E402

ASKED = 200
DIGITS = b"ABCDEFGHIJKLMNOPQRSTUVWXYZabcdefghijklmnopqrstuvwxyz0123456789+/"


def number(spelled):
    value = 0
    for digit in spelled:
        value = value * 64 + DIGITS.index(digit)
    return value


class Pair:
    """A dictionary as it is installed: mended by contrib/import-dictd, or as it came."""

    def __init__(self, program, work, name):
        self.name = name
        script = TOP / "contrib" / "import-dictd"
        said = run(script, "--dictcat", program, "--dry-run", "--out", work / "in", work / "none.db", name, f"/usr/share/dictd/{name}")
        self.mended = said
        self.index, self.text = (work / "in" / f"{name}.{end}" for end in ("index", "dict"))
        self.octets = self.text.read_bytes()
        self.lines = [line.split(b"\t") for line in self.index.read_bytes().split(b"\n")[:-1]]

    def some(self):
        """Headwords, and the text of each of their entries, by a fixed generator."""
        texts = {}
        for head, start, length, *_ in self.lines:
            if not head.startswith(b"00"):
                at = number(start)
                texts.setdefault(head, []).append(self.octets[at:at + number(length)])
        chosen = random.Random(47)
        simple = [it for it in texts if re.fullmatch(rb"[A-Za-z][a-z]+", it) and texts[it]]
        return [(it.decode(), texts[it]) for it in chosen.sample(simple, ASKED)]


def sent(text):
    """A text as it is sent: its lines, a dot before one that begins with one."""
    lines = text.split(b"\n")
    return b"".join((b"." if it.startswith(b".") else b"") + it + b"\r\n" for it in (lines[:-1] if lines[-1] == b"" else lines))


def session(program, path, lines):
    octets = "".join(f"{line}\r\n" for line in [*lines, "QUIT"]).encode()
    process = subprocess.Popen([program, "session", path], stdin=subprocess.PIPE, stdout=subprocess.PIPE)
    answer = process.communicate(octets)[0]
    assert process.returncode == 0, process.returncode
    return answer


def row(what, figures):
    print(f"| {what} | {figures} |", flush=True)


def told(it):
    clock, seconds, memory, _ = it
    return f"{seconds:.1f} s (by the clock {clock:.1f}), {memory:.0f} MB"


def by_http(program, path, pair):
    """Installs by HTTP into a new file, and tells what the server took."""
    run(program, "create", path)
    server = serve(program, path)
    try:
        before, start = server.times(), time.monotonic()
        status, body = install(server.http_address, pair.name.encode(), b"r1", pair.index.read_bytes(), pair.octets)
        assert status == 200 and json.loads(body)["edition"] == 1, (status, body)
        peak = re.search(r"VmHWM:\s+(\d+)", pathlib.Path(f"/proc/{server.process.pid}/status").read_text())[1]
        row("the same by HTTP, by the server", f"{server.spent_since(before):.1f} s (by the clock {time.monotonic() - start:.1f}), "
            f"{int(peak) / 1024:.0f} MB")
        status, body = request(server.http_address, b"GET", b"/databases", b"g")
        assert status == 200 and json.loads(body)[0]["name"] == pair.name, body
    finally:
        server.kill()


def asked(program, one, other, pair):
    """Both files answer alike, each text as the pair has it."""
    some = pair.some()
    lines = [f'DEFINE {pair.name} "{head}"' for head, _ in some]
    lines += [f'MATCH {pair.name} {kind} "{head[:4] if kind == "prefix" else head[-4:] if kind == "suffix" else head}"'
              for head, _ in some[:20] for kind in ("exact", "prefix", "suffix", "substring", "word", "first", "last")]
    lines += [f"SHOW INFO {pair.name}", "SHOW DB"]
    answer = session(program, one, lines)
    assert session(program, other, lines) == answer, "the two files answer otherwise"
    wanting = [head for head, texts in some for text in texts if sent(text) not in answer]
    assert not wanting, wanting[:5]
    assert answer.count(b"\r\n150 ") + answer.count(b"\r\n152 ") == ASKED + 140, "not each headword was found"
    row("asked in both files", f"{len(lines)} lines, answered alike; the texts of {len(some)} headwords as the pair has them")
    return lines, answer


def rolled_back(program, path, pair, lines, answer):
    """Another edition over it is asked, and taken back."""
    gem = [TOP / "examples" / f"gem.{end}" for end in ("index", "dict")]
    row("another edition over it (`examples/gem`)", told(run(program, "install", path, pair.name, "r2", *gem)))
    assert b"a stone" in session(program, path, [f"DEFINE {pair.name} opal"])
    row("`rollback`", told(run(program, "rollback", path, pair.name, "r3")))
    assert session(program, path, lines) == answer, "otherwise after a rollback"


def replaced(program, path, pair):
    """The same pair over it, and a third by which the first goes, and both retired."""
    words = ("install", path, pair.name)
    row("the same pair over it", told(run(program, *words, "s2", pair.index, pair.text)))
    row("and again, by which a former edition goes", told(run(program, *words, "s3", pair.index, pair.text)))
    row("`retire` of both", told(run(program, "retire", path, pair.name, "s4")))


def audited(program, path):
    it = run(program, "audit", path)
    assert it[3] == "sound\n", it
    row("`audit`: sound", told(it))
    said = run("sqlite3", path, "PRAGMA integrity_check")
    assert said[3] == "ok\n", said
    row("Debian's `sqlite3`, `PRAGMA integrity_check`: ok", f"{said[1]:.1f} s (by the clock {said[0]:.1f})")


def seen(program, work, name):
    for it in work.glob(f"{name}-*.db*"):
        it.unlink()
    pair, one, other = Pair(program, work, name), work / f"{name}-file.db", work / f"{name}-http.db"
    print(f"\n| `{name}`: {len(pair.lines):,} lines, {len(pair.octets):,} octets of text | |\n|---|---|")
    row("`contrib/import-dictd --dry-run`", told(pair.mended))
    run(program, "create", one)
    row("`install` by the command line", f"{told(run(program, 'install', one, name, 'r1', pair.index, pair.text))}; file and log {sizes(one)} MB")
    by_http(program, other, pair)
    row("an opening (`list`)", told(run(program, "list", other)))
    lines, answer = asked(program, one, other, pair)
    rolled_back(program, one, pair, lines, answer)
    audited(program, one)
    row("file and log at the end", f"{sizes(one)} MB")
    replaced(program, other, pair)
    return pair


def main():
    program, work = os.path.realpath(sys.argv[1]), pathlib.Path(sys.argv[2])
    work.mkdir(exist_ok=True)
    print(f"On {time.strftime('%d %B %Y, %H:%M')}, load {' '.join(f'{it:.1f}' for it in os.getloadavg())}")
    for name in sys.argv[3:] or ["wn", "gcide"]:
        seen(program, work, name)
    print(f"\nLoad at the end {' '.join(f'{it:.1f}' for it in os.getloadavg())}")


if __name__ == "__main__":
    main()
