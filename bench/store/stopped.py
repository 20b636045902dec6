#!/usr/bin/env python3
"""stopped.py PROGRAM [TIMES]: kills an install at that many moments, and has each file that is left checked.

PROGRAM is one that was built of program.txt. An install of 16,384 lines over another edition is killed by a signal, each
time a little later. Then Python's sqlite3 module checks a copy of what is left (`PRAGMA integrity_check` has to say `ok`) and
counts its replies, and the program itself opens the file. It prints how many files had the install and how many didn't.
"""

import pathlib
import sqlite3
import subprocess
import sys
import tempfile
import time

from store import copied

HERE = pathlib.Path(__file__).resolve().parent


def accepted(path):
    """How many replies the file has, once it is checked."""
    rows = sqlite3.connect(path)
    assert rows.execute("PRAGMA integrity_check").fetchall() == [("ok",)]
    (count,) = rows.execute("SELECT count(*) FROM kept").fetchone()
    rows.close()
    return count


def main():
    program = sys.argv[1]
    times = int(sys.argv[2]) if len(sys.argv) > 2 else 40
    with tempfile.TemporaryDirectory() as folder:
        work = pathlib.Path(folder)
        path, index, text = work / "first.db", work / "made.index", work / "made.dict"
        subprocess.run([sys.executable, HERE.parent / "make_database.py", "16384", "4000000", index, text], check=True)
        subprocess.run([program, "create", path], check=True, stdout=subprocess.DEVNULL)
        install = [program, "install", path, "made", "r1", index, text]
        subprocess.run(install, check=True, stdout=subprocess.DEVNULL)
        begun = time.monotonic()
        whole = copied(path, work / "whole.db")
        subprocess.run([program, "install", whole, "made", "r2", index, text], check=True, stdout=subprocess.DEVNULL)
        most = time.monotonic() - begun
        found = {1: 0, 2: 0}
        for number in range(times):
            left = copied(path, work / f"left{number}.db")
            process = subprocess.Popen([program, "install", left, "made", "r2", index, text], stdout=subprocess.DEVNULL)
            time.sleep(most * 1.2 * number / times)
            process.kill()
            process.wait()
            count = accepted(copied(left, work / f"seen{number}.db"))
            found[count] += 1
            told = subprocess.run([program, "open", left], check=True, capture_output=True, text=True).stdout
            assert told.startswith("opened"), told
        print(f"{times} installs were killed: {found[1]} files are as they were, {found[2]} have the install; all are sound")


main()
