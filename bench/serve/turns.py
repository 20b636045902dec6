"""How long each turn of a server takes while editors change it: turns.py DICTCAT INDEX TEXT

The edition is installed by HTTP three times under one name, by which the first goes, its rollback is asked, which takes out what went, and
then both are retired, which the rollback of another name takes out. A turn is what is between two waits (epoll); it is told with the syncs in
it: none, two of a commit, six where the log was copied before. It needs strace, which takes a tenth of its time.
"""
import collections
import pathlib
import re
import subprocess
import sys
import tempfile
import time

from servers import Server, address_of, install, request

LINE = re.compile(r"(?:\d+ +)?([\d.]+) (\w+)\(.*<([\d.]+)>$")


def traced(program, path, trace):
    """dictcat over the catalogue in a file, each of whose waits and syncs is told in another one."""
    free = "127.0.0.1:0"
    process = subprocess.Popen(["strace", "--seccomp-bpf", "-f", "-ttt", "-T", "-e", "trace=epoll_wait,epoll_pwait,fsync,fdatasync", "-o", trace,
                                program, "serve", path, "--dict", free, "--http", free], stdout=subprocess.PIPE, text=True)
    dict_address = address_of(process.stdout.readline(), "dict")
    return Server(process, dict_address, address_of(process.stdout.readline(), "http"))


def turns_of(trace):
    """When each turn began, how long it took, how many syncs were in it, and how long these took."""
    found, begun, syncs = [], None, []
    for line in trace.read_text(errors="replace").splitlines():
        if not (told := LINE.match(line)):
            continue
        at, took = float(told[1]), float(told[3])
        if not told[2].startswith("epoll"):
            syncs.append(took)
            continue
        if begun is not None:
            found.append((begun, at - begun, len(syncs), sum(syncs)))
        begun, syncs = at + took, []
    return found


def row(what, turns):
    kinds = collections.defaultdict(list)
    for _, took, syncs, synced in turns:
        kinds[syncs].append((took, synced))
    cells = [f"{len(them):,}: {sum(it for it, _ in them) / len(them) * 1e3:.1f}, {max(them)[0] * 1e3:.1f} ({sum(it for _, it in them) / len(them) * 1e3:.1f})"
             if (them := kinds.get(kind)) else "-" for kind in (0, 1, 2, 6)]
    rest = sum(len(them) for kind, them in kinds.items() if kind not in (0, 1, 2, 6))
    print("| " + " | ".join([what, *cells, str(rest)]) + " |", flush=True)


def main():
    program, files = sys.argv[1], [pathlib.Path(it).read_bytes() for it in sys.argv[2:4]]
    with tempfile.TemporaryDirectory() as folder:
        path, trace, began = pathlib.Path(folder) / "catalogue.db", pathlib.Path(folder) / "trace", []
        subprocess.run([program, "create", path], check=True)
        server = traced(program, path, trace)
        address = server.http_address
        changes = [(f"install {number}", lambda name: install(address, b"new", name, *files)) for number in (1, 2, 3)]
        changes += [("rollback", lambda name: request(address, b"POST", b"/databases/new/rollback", name)),
                    ("retire", lambda name: request(address, b"DELETE", b"/databases/new", name)),
                    ("the next command", lambda name: request(address, b"POST", b"/databases/none/rollback", name))]
        for number, (what, change) in enumerate(changes):
            start = time.time()
            status, text = change(b"r%d" % number)
            assert status == 200 or what.startswith("the next"), text
            began.append((what, start, time.time()))
            time.sleep(0.3)
        subprocess.run(["pkill", "-P", str(server.process.pid)], check=True)
        server.process.wait()
        turns = turns_of(trace)
    print("| While it is asked, turns: mean, longest, ms (of them syncs, mean) | no sync | one | two | six | others |\n|---|---|---|---|---|---|")
    for what, start, end in began:
        row(f"{what}: {end - start:.2f} s", [it for it in turns if start <= it[0] + it[1] and it[0] <= end])


if __name__ == "__main__":
    main()
