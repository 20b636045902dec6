"""Asks servers over many connections: serve.py DICTCAT EXAMPLES

dictcat serves a file with EXAMPLES/gem, and dictd, where it is there, the same words. On each connection so many lines are
sent at once (1, or 20), their answers awaited whole, and so on. Printed are answers in a second, the median time of one turn,
and the processor's microseconds of the server for one answer; then what each server takes while nothing comes, with 64
connections and with none.
"""
import os
import pathlib
import selectors
import shutil
import statistics
import subprocess
import sys
import tempfile
import time

from servers import closed, install, opened, serve, started

SECONDS = float(os.environ.get("SECONDS_EACH", "2"))
IDLE_SECONDS = float(os.environ.get("IDLE_SECONDS", "30"))
MICRO = 1e6

# a line, and what stands once in each answer to it
QUESTIONS = {
    "STATUS": (b"STATUS\r\n", b"\r\n"),
    "DEFINE, found": (b"DEFINE gem opal\r\n", b"\r\n250 ok"),
    "DEFINE, not found": (b"DEFINE gem none\r\n", b"\r\n"),
    "MATCH prefix": (b"MATCH gem prefix o\r\n", b"\r\n250 ok"),
}


def measure(server, count, question, mark, batch):
    """Answers in a second, the median microseconds of a turn, and the server's microseconds of the processor for an answer."""
    chosen = selectors.DefaultSelector()
    held = [opened(server.dict_address) for _ in range(count)]
    for it in held:
        chosen.register(it, selectors.EVENT_READ)
    before, start = server.times(), time.perf_counter()
    began, partial, taken = {}, {it: b"" for it in held}, []
    for it in held:
        began[it] = time.perf_counter()
        it.sendall(question * batch)
    while time.perf_counter() - start < SECONDS:
        for key, _ in chosen.select(1):
            it = key.fileobj
            more = it.recv(65536)
            assert more, "the server has closed a connection"
            partial[it] += more
            if partial[it].endswith(b"\r\n") and partial[it].count(mark) == batch:
                now = time.perf_counter()
                taken.append(now - began[it])
                partial[it], began[it] = b"", now
                it.sendall(question * batch)
    passed, used = time.perf_counter() - start, server.spent_since(before)
    closed(held)
    answers = len(taken) * batch
    return answers / passed, statistics.median(taken) * MICRO, used / answers * MICRO


def dictcat(program, work, examples, name="gem"):
    """dictcat over a file in which the database of this name was installed by HTTP."""
    path = work / "catalogue.db"
    subprocess.run([program, "create", path], check=True)
    server = serve(program, path)
    index, text = ((examples / f"{name}.{it}").read_bytes() for it in ("index", "dict"))
    assert install(server.http_address, name.encode(), b"r1", index, text)[0] == 200
    return server


def dictd(work, examples, name="gem"):
    """dictd over the same words, sorted as it wants them, or None where it isn't there."""
    if not shutil.which("dictd"):
        return None
    lines = sorted((examples / f"{name}.index").read_text().splitlines(True), key=lambda it: it.split("\t")[0].lower())
    (work / f"{name}.index").write_text("".join(lines))
    shutil.copyfile(examples / f"{name}.dict", work / f"{name}.dict")
    port = 26280
    (work / "dictd.conf").write_text(
        f'global {{ listen_to 127.0.0.1\n port {port}\n limit_queries 1000000000 }}\naccess {{ allow * }}\n'
        f'database {name} {{ data "{work}/{name}.dict"\n index "{work}/{name}.index" }}\n'
    )
    work.chmod(0o755)
    process = subprocess.Popen(["dictd", "-d", "nodetach", "-c", work / "dictd.conf", "--pid-file", work / "pid"],
                               stdout=subprocess.DEVNULL, stderr=subprocess.DEVNULL)
    return started(process, ("127.0.0.1", port))


def ask_all(servers):
    """Two tables: microseconds of the processor for an answer, and in parentheses answers in a second."""
    for batch, how in ((1, "One line at a time"), (20, "20 lines at once")):
        print(f"\n| {how}: µs of the processor for an answer (answers in a second) | | 1 connection | 8 connections | 64 connections |\n|---|---|---|---|---|")
        for name, (question, mark) in QUESTIONS.items():
            for who, server in servers.items():
                each = [measure(server, count, question, mark, batch) for count in (1, 8, 64)]
                print(f"| {name} | {who} | " + " | ".join(f"{used:.1f} ({rate:,.0f})" for rate, _, used in each) + " |", flush=True)
    print()


def idle_all(servers):
    for count in (0, 64):
        for who, server in servers.items():
            held = [opened(server.dict_address) for _ in range(count)]
            before = server.times()
            time.sleep(IDLE_SECONDS)
            used, (resident, own) = server.spent_since(before), server.memory()
            print(f"- while nothing comes, {count} connections, {who}: {used * 1000:.1f} ms of the processor in {IDLE_SECONDS:.0f} s, "
                  f"{resident} kB of memory, {own} kB of it unshared", flush=True)
            closed(held)


def first_after_idling(servers):
    for who, server in servers.items():
        late = opened(server.dict_address)
        taken = []
        for _ in range(10):
            time.sleep(0.5)
            start = time.perf_counter()
            late.sendall(b"STATUS\r\n")
            late.recv(4096)
            taken.append((time.perf_counter() - start) * MICRO)
        closed([late])
        print(f"- the first answer after 0.5 s of nothing, {who}: median {statistics.median(taken):.0f} us, "
              f"at most {max(taken):.0f} us", flush=True)


def main():
    program, examples = sys.argv[1], pathlib.Path(sys.argv[2])
    with tempfile.TemporaryDirectory() as folder:
        work = pathlib.Path(folder)
        servers = {"dictcat": dictcat(program, work, examples)}
        if other := dictd(work, examples):
            servers["dictd"] = other
        try:
            ask_all(servers)
            idle_all(servers)
            first_after_idling(servers)
        finally:
            for server in servers.values():
                server.kill()


if __name__ == "__main__":
    main()
