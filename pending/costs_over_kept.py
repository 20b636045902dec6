#!/usr/bin/env python3
"""What a check spends its time on, over the libraries that `rt ci` kept: as `tools/costs`, without proving those first.

  V5ROOT=CLONE V5HOME=FOLDER costs_over_kept.py ROOM CRATE [flags of over_kept.py]
                                 checks CRATE from nothing into the folder ROOM, and lists its dearest functions and modules
  costs_over_kept.py --look ROOM [N]   the N dearest so far, while it goes on

A module's seconds are those between its file and the one before, so they are right only with one job, while nothing else runs;
the processor's seconds are told too. What is taken as a source is proved as well: begin when `over_kept.py --list CRATE` names none.
"""
import collections
import os
import resource
import shutil
import subprocess
import sys
import time

HERE = os.path.dirname(os.path.abspath(__file__))


def written(room):
    """The files below a folder, by the time of their last change."""
    found = [os.path.join(at, it) for at, _, files in os.walk(room) for it in files]
    return sorted((os.stat(it).st_mtime, os.path.basename(it).removesuffix(".oantt").removesuffix(".decls")) for it in found)


def look(room, most, start=None):
    """Prints the sums by kind and by function, and the dearest modules."""
    files = written(room)
    kinds, functions, each = collections.Counter(), collections.Counter(), []
    before = start or (files[0][0] if files else 0)
    for after, name in files:
        each.append((after - before, name))
        kinds[name.rpartition(".")[2].partition("-")[0]] += after - before
        functions[name.rpartition(".")[0]] += after - before
        before = after
    for title, found in (("kind", kinds.most_common(8)), ("function", functions.most_common(most))):
        for name, seconds in found:
            print(f"{seconds:8.1f}  {title} {name}")
    for seconds, name in sorted(each, reverse=True)[:most]:
        print(f"{seconds:8.1f}  module {name}")


def main(words):
    if words[0] == "--look":
        return look(words[1], int(words[2]) if len(words) > 2 else 25)
    room, crate, flags = words[0], words[1], words[2:]
    shutil.rmtree(room, ignore_errors=True)
    os.makedirs(room)
    start = time.time()
    check = [sys.executable, f"{HERE}/over_kept.py", crate, "--jobs", "1", "--incremental", os.path.abspath(room), *flags]
    ran = subprocess.run(check, stdout=subprocess.PIPE, stderr=subprocess.STDOUT, errors="replace")
    used = resource.getrusage(resource.RUSAGE_CHILDREN)
    look(room, 30, start)
    print(ran.stdout[-4000:])
    print(f"{time.time() - start:.0f} s, {used.ru_utime + used.ru_stime:.0f} s of the processor, {used.ru_maxrss / 1e6:.1f} GB, status {ran.returncode}")
    return ran.returncode


if __name__ == "__main__":
    sys.exit(main(sys.argv[1:]))
