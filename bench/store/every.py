"""Imports all of Debian's dictionaries that docs/DICTIONARIES.md names into one server, and opens the file: every.py PROGRAM [FILE]

Each is imported over HTTP by `contrib/import-dictd`, as it comes in its package (mended, unpacked, in parts), one after the
other. Printed are the seconds by the clock of all of them, what of it the scripts and the server took of the processor, and the
size of the file; then an opening (`list`), a start of a server until it answers, and `audit`, with their peaks of memory.
"""
import importlib.machinery
import importlib.util
import os
import pathlib
import re
import sys
import tempfile
import time

HERE = pathlib.Path(__file__).resolve().parent
TOP = HERE.parent.parent
sys.path[:0] = [str(TOP / "tests" / "contrib"), str(HERE.parent / "serve"), str(HERE)]
os.environ["DICTCAT"] = os.path.realpath(sys.argv[1])   # common.py takes it from there
from limits import run, sizes  # noqa: E402
from servers import opened, serve  # noqa: E402


def dictionaries():
    """tests/contrib/dictionaries as a module: the packages, and how they are fetched."""
    loader = importlib.machinery.SourceFileLoader("dictionaries", str(TOP / "tests" / "contrib" / "dictionaries"))
    sys.dont_write_bytecode = True
    module = importlib.util.module_from_spec(importlib.util.spec_from_loader("dictionaries", loader))
    loader.exec_module(module)
    return module


def peak(process):
    return int(re.search(r"VmHWM:\s+(\d+)", pathlib.Path(f"/proc/{process.pid}/status").read_text())[1]) / 1024


def row(what, figure):
    print(f"| {what} | {figure} |", flush=True)


def imported(program, path, pairs):
    """All of them into one server: lines and octets that came in, and what each took by the clock."""
    run(program, "create", path)
    server, lines, octets, scripts, each = serve(program, path), 0, 0, 0.0, []
    try:
        start, before = time.monotonic(), server.times()
        for name, stem in pairs:
            address = "%s:%d" % server.http_address
            clock, seconds, _, told = run(TOP / "contrib" / "import-dictd", "--dictcat", program, "--http", address, name, stem)
            scripts += seconds
            came = re.search(r"^taken as it came: (\d+) lines, (\d+) octets", told, re.M)
            if came is None:
                came = re.search(r"^in:  (\d+) lines:.*; (\d+) octets", told, re.M)
            lines, octets = lines + int(came[1]), octets + int(came[2])
            each.append(f"`{name}` {clock:.1f} s")
        took = time.monotonic() - start
        row(f"{len(pairs)} dictionaries imported over HTTP into one server", f"{took:.0f} s by the clock; of the processor {scripts:.0f} s "
            f"by the scripts, {server.spent_since(before):.0f} s by the server; its peak {peak(server.process):.0f} MB")
    finally:
        server.kill()
    return lines, octets, each


def looked_into(program, path):
    clock, seconds, memory, listed = run(program, "list", path)
    kinds = [line.split()[2] for line in listed.splitlines()]
    row("what is in it", f"{len(kinds)} items: {kinds.count('regular')} databases, {kinds.count('virtual')} virtual ones")
    row("an opening (`list`)", f"{seconds:.1f} s, by the clock {clock:.1f}; {memory:.0f} MB")
    start = time.monotonic()
    server = serve(program, path)
    try:
        opened(server.dict_address).close()
        row("a start of a server, until it greets", f"by the clock {time.monotonic() - start:.1f} s; {peak(server.process):.0f} MB")
    finally:
        server.kill()
    clock, seconds, memory, told = run(program, "audit", path)
    assert told == "sound\n", told
    row("`audit`: sound", f"{seconds:.1f} s, by the clock {clock:.1f}; {memory:.0f} MB")


def main():
    program, debian = os.environ["DICTCAT"], dictionaries()
    print(f"On {time.strftime('%d %B %Y, %H:%M')}, load {' '.join(f'{it:.1f}' for it in os.getloadavg())}\n")
    pairs = [(stem.name, stem) for package in debian.ALL for stem in debian.fetched(package)[1]]
    print("| Debian's dictionaries, all in one file | |\n|---|---|")
    with tempfile.TemporaryDirectory() as folder:
        path = pathlib.Path(sys.argv[2] if len(sys.argv) > 2 else f"{folder}/every.db")
        lines, octets, each = imported(program, path, pairs)
        row("lines and octets of text that came in", f"{lines:,} and {octets:,}")
        row("file and log", f"{sizes(path)} MB")
        looked_into(program, path)
    print(f"\nBy the clock each: {', '.join(each)}.")
    print(f"\nLoad at the end {' '.join(f'{it:.1f}' for it in os.getloadavg())}")


if __name__ == "__main__":
    main()
