"""Kills a server in the midst of installs: kill.py DICTCAT TIMES [OCTETS]

A file keeps one database, in which each text of an edition says which install it came by. An editor installs one edition after
the other by HTTP, two readers ask all the while, and the server is killed by a signal at a random moment, so many times. After
each, `audit` has to say `sound`; the server that is started anew has to show the last acknowledged install or the one that was
under way; each reply is answered again under its id; and no answer that a reader got may have texts of two editions. With OCTETS each
text has so many more, of no entry, so that an install is filed by several commits: one by 1,048,576 of them.
"""
import json
import pathlib
import random
import re
import shutil
import sqlite3
import subprocess
import sys
import tempfile
import threading

from servers import install, opened, serve

sys.path.append(str(pathlib.Path(__file__).resolve().parent.parent))
from dictd import spelled

WORDS = 200
MORE = int(sys.argv[3]) if len(sys.argv) > 3 else 0
MAX_SECONDS = 0.12 + MORE / 10_000_000


def edition(count):
    """An index and a text, in which each word stands twice, and each text says the count."""
    text = "00-database-short\n  Made\n"
    lines = [f"00-database-short\tA\t{spelled(len(text))}\n"]
    for number in range(2 * WORDS):
        body = f"word{number // 2}\n  of install {count}, once more {count}\n"
        lines.append(f"word{number // 2}\t{spelled(len(text))}\t{spelled(len(body))}\n")
        text += body
    return "".join(lines).encode(), text.encode() + b"x" * MORE


def installs_in(answer):
    return set(map(int, re.findall(rb"(?:install|more) (\d+)", answer)))


def asked(it, line):
    """The whole answer to a line."""
    it.sendall(line)
    answer = b""
    while b"\r\n250 ok" not in answer or not answer.endswith(b"\r\n"):
        more = it.recv(65536)
        if not more:
            raise ConnectionError("the server has ended")
        answer += more
    return answer


def shown(address):
    """The install that each text of one answer says."""
    it = opened(address)
    (count,) = installs_in(asked(it, b"DEFINE made word7\r\n"))
    it.close()
    return count


class Reader(threading.Thread):
    """Asks until the server ends, and tests each answer."""

    def __init__(self, address):
        super().__init__()
        self.address, self.answers, self.wrong = address, 0, []

    def run(self):
        last = 0
        try:
            it = opened(self.address)
            while True:
                answer = asked(it, b"DEFINE made word%d\r\n" % random.randrange(WORDS))
                found = installs_in(answer)
                if len(found) != 1 or answer.count(b"\n151 ") != 2 or min(found) < last:
                    self.wrong.append(answer)
                last = max(found)
                self.answers += 1
        except (OSError, AssertionError):
            pass


def install_until_killed(server, editor, delay):
    """Installs until the server, which is killed after so many seconds, answers no more."""
    timer = threading.Timer(delay, server.process.kill)
    timer.start()
    try:
        while True:
            editor.install_next(server)
    except OSError:
        pass
    timer.join()
    server.process.wait()


class Editor:
    def __init__(self):
        self.replies, self.begun = {}, 0

    def install_again(self, server, count):
        status, text = install(server.http_address, b"made", b"r%d" % count, *edition(count))
        assert status == 200, (status, text)
        assert json.loads(text)["edition"] == json.loads(text)["number"] == count, text
        assert self.replies.setdefault(count, text) == text
        return text

    def install_next(self, server):
        self.begun = len(self.replies) + 1
        self.install_again(server, self.begun)


def tested(program, path, work, with_sqlite):
    """What a kill left is sound; where it is asked for, by Python's sqlite3 module too, on a copy."""
    if with_sqlite:
        copy = work / "copy.db"
        for end in ("", "-wal"):
            if pathlib.Path(f"{path}{end}").exists():
                shutil.copy(f"{path}{end}", f"{copy}{end}")
        rows = sqlite3.connect(copy)
        assert rows.execute("PRAGMA integrity_check").fetchall() == [("ok",)]
        rows.close()
        for it in work.glob("copy.db*"):
            it.unlink()
    audit = subprocess.run([program, "audit", path], capture_output=True, text=True)
    assert (audit.returncode, audit.stdout, audit.stderr) == (0, "sound\n", ""), audit


def main():
    program, times = sys.argv[1], int(sys.argv[2])
    random.seed(2229)
    kept = before = answers = 0
    with tempfile.TemporaryDirectory() as folder:
        work = pathlib.Path(folder)
        path, editor = work / "catalogue.db", Editor()
        subprocess.run([program, "create", path], check=True)
        for number in range(times):
            server = serve(program, path)
            if editor.begun:
                stands = shown(server.dict_address)
                assert stands in (len(editor.replies), editor.begun), (stands, editor.begun, len(editor.replies))
                kept, before = kept + (stands > len(editor.replies)), before + (stands < editor.begun)
                for count in {max(len(editor.replies), 1), editor.begun, random.randint(1, max(len(editor.replies), 1))}:
                    editor.install_again(server, count)
            else:
                editor.install_next(server)
            readers = [Reader(server.dict_address) for _ in range(2)]
            for it in readers:
                it.start()
            install_until_killed(server, editor, random.uniform(0, MAX_SECONDS))
            for it in readers:
                it.join()
                assert not it.wrong, it.wrong[0]
                answers += it.answers
            tested(program, path, work, number % 20 == 0)
        size = path.stat().st_size
    print(f"{times} kills: each file is sound; of the installs under way {kept} stand and {before} don't; "
          f"{len(editor.replies)} acknowledged, none lost; {answers} answers, none mixed; the file has {size} octets")


main()
