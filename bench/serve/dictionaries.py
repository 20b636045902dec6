"""dictcat beside dictd over real dictionaries: dictionaries.py PROGRAM CLIENT WORK [PART..]

PARTS: `kept` (DEFINE over 65,536 lines of 5 and of 13 MB, first and again), `long` (answers of some MB), `answers` (what both answer, compared), `requests` (the processor's time of a request), `slowest` (of 10,000 answers under 64
connections), `crowd` (a newcomer beside readers that repeat a MATCH of 2 MB), `round` (one that asks DEFINE beside 63 that repeat the dearest MATCH of GCIDE), `memory`, `idle`, `install` (of editions by HTTP, while 32 readers ask), `growth` (the same finds over 65,536 and
262,144 entries), `start` (over WordNet alone, until it greets); without one it is all. The dictionaries are `wn`, `foldoc` and `freedict-ara-eng` of Debian's, mended for dictcat
by contrib/import-dictd and as they came, but uncompressed, for dictd 1.13; and `made`, of 262,144 lines (make_words.py), over
which both have the same files. dictd's limits are off. CLIENT is client.c, built. WORK is a folder that stays: what is in it is not
made again.
"""
import collections
import gzip
import os
import pathlib
import signal
import subprocess
import sys
import threading
import time

sys.path.append(str(pathlib.Path(__file__).resolve().parent.parent))
from dictd import spelled
from lists import KINDS, write
from serve import idle_all
from servers import install, opened, request, serve, started

HERE = pathlib.Path(__file__).resolve().parent
TOP = HERE.parent.parent
NAMES = {"wn": "wn", "foldoc": "foldoc", "ara": "freedict-ara-eng"}
LARGEST = (262_144, 67_108_864)
PORT = 26281
TURNS = [(count, at_once) for at_once in (1, 16) for count in (1, 8, 64)]   # connections, and lines at once
BOUNDS = {"hits": 0.5, "misses": 0.5, "exacts": 0.5, "prefixes": 0.5, "suffixes": 0.03, "substrings": 0.05, "words": 0.05, "mix": 0.12}
COMPARED = 400
LONG = (1, 2, 3, 5, 8)   # megabytes
SLOW = 3000   # microseconds of a request from which on fewer are asked
SECONDS = float(os.environ.get("SECONDS_EACH", "1"))
ASKED = os.environ.get("KINDS", " ".join(KINDS)).split()   # the lists that `requests` and `growth` take


def pair(program, work, name, debian):
    """The pair for dictcat and that for dictd of one of Debian's dictionaries."""
    (work / "in").mkdir(parents=True, exist_ok=True)
    (work / "dictd").mkdir(exist_ok=True)
    ours, theirs = ([work / folder / f"{name}.{end}" for end in ("index", "dict")] for folder in ("in", "dictd"))
    if not ours[1].exists():
        source = pathlib.Path("/usr/share/dictd") / debian
        subprocess.run([TOP / "contrib/import-dictd", "--dictcat", program, "--dry-run", "--out", work / "in", work / "none.db",
                        name, source], check=True, stdout=subprocess.DEVNULL)
        theirs[0].write_bytes(source.with_suffix(".index").read_bytes())
        theirs[1].write_bytes(gzip.decompress(source.with_suffix(".dict.dz").read_bytes()))
    return ours, theirs


def pairs(program, work):
    """For each name the pair for dictcat and that for dictd."""
    found = {name: pair(program, work, name, debian) for name, debian in NAMES.items()}
    made = [work / "in" / f"made.{end}" for end in ("index", "dict")]
    if not made[1].exists():
        subprocess.run([sys.executable, TOP / "bench/make_words.py", *map(str, LARGEST), *made], check=True)
    found["made"] = made, made
    return found


def dictcat(program, work, chosen, file="catalogue.db"):
    """dictcat over a file into which the pairs were installed by the command line."""
    path = work / file
    if not path.exists():
        subprocess.run([program, "create", path], check=True)
        for name, (ours, _) in chosen.items():
            subprocess.run([program, "install", path, name, f"r-{name}", *ours], check=True, stdout=subprocess.DEVNULL)
    return serve(program, path)


def dictd(work, chosen, port=PORT):
    """dictd over the same dictionaries, its limits off."""
    conf, rest = work / f"dictd-{port}.conf", "limit_childs 200\n limit_matches 0\n limit_definitions 0\n limit_queries 0\n limit_time 100000"
    databases = "".join(f'database {name} {{ data "{theirs[1]}"\n index "{theirs[0]}" }}\n' for name, (_, theirs) in chosen.items())
    conf.write_text(f"global {{ listen_to 127.0.0.1\n port {port}\n {rest} }}\naccess {{ allow * }}\n{databases}")
    for path in (work, *work.parents):
        if not os.stat(path).st_mode & 0o001:
            path.chmod(os.stat(path).st_mode | 0o055)
    process = subprocess.Popen(["dictd", "-d", "nodetach", "--locale", "C.UTF-8", "-c", conf, "--pid-file", work / f"pid-{port}"],
                               stdout=subprocess.DEVNULL, stderr=subprocess.DEVNULL)
    return started(process, ("127.0.0.1", port))


Taken = collections.namedtuple("Taken", "answers seconds median most found rare spent")


class Client:
    """client.c, connected and ready."""

    def __init__(self, client, server, count, at_once, path, seconds, answers):
        words = [client, server.dict_address[1], count, at_once, seconds, answers, path]
        self.server, self.process = server, subprocess.Popen([*map(str, words)], stdin=subprocess.PIPE, stdout=subprocess.PIPE, text=True)
        assert self.process.stdout.readline() == "ready\n", "the client could not connect"

    def begin(self):
        self.before = self.server.times()
        self.process.stdin.write("\n")
        self.process.stdin.flush()

    def end(self):
        line = self.process.stdout.readline().split()
        assert line, "the client has failed"
        spent = self.server.spent_since(self.before)
        self.process.stdin.write("\n")
        self.process.stdin.close()
        self.process.wait()
        time.sleep(0.05)
        answers, _, seconds, median, most, found, rare = line
        return Taken(int(answers), float(seconds), float(median), float(most), int(found), float(rare), spent)


def asked(client, server, count, at_once, path, seconds=SECONDS, answers=200):
    it = Client(client, server, count, at_once, path, seconds, answers)
    it.begin()
    return it.end()


class Line:
    """One connection, for answers that are looked at."""

    def __init__(self, server):
        self.it = opened(server.dict_address)
        self.file = self.it.makefile("rb")

    def ask(self, line):
        """What an answer has: its code, and its texts or its matches."""
        self.it.sendall(line.encode() + b"\r\n")
        found, code = [], None
        while True:
            got = self.file.readline().rstrip(b"\r\n")
            code = code or got[:3]
            if got[:3] in (b"151", b"152"):
                found.append(self.text())
            elif got[:3] != b"150":
                return code, found

    def text(self):
        rows = []
        while (row := self.file.readline().rstrip(b"\r\n")) != b".":
            rows.append(row)
        while rows and not rows[-1]:
            rows.pop()
        return rows


def compare(servers, lists):
    """How many of the first requests of each list both answer alike: the same texts, or the same matches."""
    print("\n| Answers alike, of the first 400 requests | " + " | ".join(KINDS[:-1]) + " |\n|---" * 1 + "|---" * len(KINDS[:-1]) + "|")
    examples = []
    for name, paths in lists.items():
        ours, theirs, row = Line(servers["dictcat"]), Line(servers["dictd"]), []
        for kind in KINDS[:-1]:
            same, lines = 0, paths[kind].read_text().splitlines()[:COMPARED]
            for line in lines:
                one, other = ours.ask(line), theirs.ask(line)
                alike = one[0] == other[0] and sorted(map(sorted, one[1])) == sorted(map(sorted, other[1]))
                same += alike
                if not alike and len([it for it in examples if it[:2] == (name, kind)]) < 2:
                    examples.append((name, kind, line, summary(one), summary(other)))
            row.append(f"{same}")
        print(f"| `{name}` | " + " | ".join(row) + " |", flush=True)
    print("\nSome of those that differ:\n")
    for name, kind, line, one, other in examples:
        print(f"- `{line}`: dictcat {one}; dictd {other}")


def summary(answer):
    code, found = answer
    if code == b"152":
        rows = {it.split(b" ", 1)[1].decode("utf-8", "replace") for it in found[0]}
        return f"{len(rows)} matches ({', '.join(sorted(rows)[:3])})"
    return f"{code.decode()} with {len(found)} texts"


def taken(client, servers, count, at_once, path, answers=200):
    """What the requests of a list take of each server: by its name what the client tells, and microseconds of a request."""
    took = {who: asked(client, server, count, at_once, path, answers=answers) for who, server in servers.items()}
    return took, {who: it.spent / it.answers * 1e6 for who, it in took.items()}


def requests(client, servers, lists):
    """The table of each dictionary. Where one answer of dictcat takes milliseconds, only one line at a time is asked."""
    for name, paths in lists.items():
        heads = [f"{count} × {at_once}" for count, at_once in TURNS]
        print(f"\n`{name}`: microseconds of the processor for a request, dictcat / dictd (answers in a second of both), by connections × lines at once\n")
        print("| | " + " | ".join(heads) + " | ours to dictd's, all of them | at most | met |\n" + "|---" * (len(heads) + 4) + "|")
        for kind in ASKED:
            cells, sums = [], collections.Counter()
            slow = taken(client, servers, 1, 1, paths[kind], 5)[1]["dictcat"] > SLOW
            for count, at_once in TURNS:
                if slow and at_once > 1:
                    cells.append("")
                    continue
                took, each = taken(client, servers, count, at_once, paths[kind], 20 if slow else 100)
                sums.update(each)
                cells.append(" / ".join(f"{each[who]:.1f}" for who in servers) + " (" + ", ".join(f"{it.answers / it.seconds:,.0f}" for it in took.values()) + ")")
            ratio = sums["dictcat"] / sums["dictd"] if "dictd" in sums else 0
            print(f"| {kind} | " + " | ".join(cells) + f" | {ratio:.3f} | {BOUNDS[kind]} | {'yes' if ratio <= BOUNDS[kind] else '**no**'} |", flush=True)


def slowest(client, servers, lists):
    """Of 10,000 answers; of fewer, which is told, where these would take more than ten seconds of the processor."""
    print("\n| 10,000 answers under 64 connections, one line at a time: the median and the longest, ms | " + " | ".join(servers) + " |\n|---" + "|---" * len(servers) + "|")
    for name, paths in lists.items():
        for kind in ("hits", "mix"):
            each = taken(client, servers, 1, 1, paths[kind], 20)[1]
            counts = {who: min(10_000, max(200, int(10e6 / each[who]))) for who in servers}
            took = {who: asked(client, server, 64, 1, paths[kind], 0, counts[who]) for who, server in servers.items()}
            few = "".join(f" ({it.answers:,} answers of {who})" for who, it in took.items() if counts[who] < 10_000)
            print(f"| `{name}`, {kind}{few} | " + " | ".join(f"{it.median / 1000:.2f}, {it.most / 1000:.1f}" for it in took.values()) + " |", flush=True)


def newcomer(server, line):
    """Seconds until the greeting of a new connection, and until the answer to its line behind that."""
    start = time.monotonic()
    it = Line(server)
    greeted = time.monotonic()
    it.ask(line)
    answered = time.monotonic()
    it.it.close()
    return greeted - start, answered - greeted


def crowd(client, servers, work):
    """A newcomer's greeting and DEFINE beside 8 and 62 connections that repeat the dearest MATCH of WordNet; and what one such answer takes."""
    path = work / "wn.dear"
    path.write_text("MATCH wn substring e\n")
    print("\n| MATCH wn substring e | the processor for one, ms | beside 8 that repeat it: a greeting, a DEFINE at most of 10, s | beside 62 |\n|---|---|---|---|")
    for who, server in servers.items():
        each, cells = asked(client, server, 1, 1, path, 0, 10), []
        for count in (8, 62):
            readers = Client(client, server, count, 1, path, 1e6, 0)
            readers.begin()
            time.sleep(2)
            waits = [newcomer(server, "DEFINE wn opal") for _ in range(10)]
            readers.process.send_signal(signal.SIGINT)
            readers.end()
            cells.append(", ".join(f"{max(it):.2f}" for it in zip(*waits)))
        print(f"| {who} | {each.spent / each.answers * 1e3:.1f} | " + " | ".join(cells) + " |", flush=True)


def waited(server, line, word):
    """Seconds until the answer to a DEFINE on an open connection, in which something is found, and how many the server took of the processor meanwhile."""
    start, before = time.monotonic(), server.times()
    code, found = line.ask(f"DEFINE gcide {word}")
    assert code == b"150" and found, code
    return time.monotonic() - start, server.spent_since(before)


def round_of_all(program, client, work):
    """What one round of all 64 connections takes: 63 repeat the dearest MATCH of GCIDE, and one asks a DEFINE, again and again."""
    chosen, path = {"gcide": pair(program, work, "gcide", "gcide")}, work / "gcide.dear"
    path.write_text("MATCH gcide substring e\n")
    servers = {"dictcat": dictcat(program, work, chosen, "gcide.db"), "dictd": dictd(work, chosen, PORT + 7)}
    print("\n| MATCH gcide substring e | headwords | the processor for one, ms | beside 63 that repeat it: a DEFINE, the median and the longest of at most 20, s | the server's processor meanwhile, s |\n|---|---|---|---|---|")
    try:
        for who, server in servers.items():
            line = Line(server)
            count = len(line.ask("MATCH gcide substring e")[1][0])
            each = asked(client, server, 1, 1, path, 0, 10)
            waited(server, line, "opal")
            readers = Client(client, server, 63, 1, path, 1e6, 0)
            readers.begin()
            time.sleep(5)
            took, end = [], time.monotonic() + 60
            while len(took) < 20 and (len(took) < 5 or time.monotonic() < end):
                took.append(waited(server, line, "opal"))
            waits, spent = map(sorted, zip(*took))
            readers.process.send_signal(signal.SIGINT)
            readers.end()
            print(f"| {who} | {count:,} | {each.spent / each.answers * 1e3:.1f} | {waits[len(took) // 2]:.2f}, {waits[-1]:.2f} (of {len(took)}) | {spent[len(took) // 2]:.2f}, {spent[-1]:.2f} |", flush=True)
    finally:
        for server in servers.values():
            server.kill()


def memory(client, servers, lists):
    print("\n| Memory, resident (and of that shared with no other process), MB | " + " | ".join(servers) + " |\n|---" + "|---" * len(servers) + "|")
    tell = lambda what: print(f"| {what} | " + " | ".join("{:.0f} ({:.0f})".format(*(it / 1024 for it in server.memory())) for server in servers.values()) + " |", flush=True)
    tell("when they answer first")
    for name, paths in lists.items():
        for server in servers.values():
            asked(client, server, 1, 1, paths["mix"], 0, 500)
        tell(f"and `{name}` was asked")


def changed_while_asked(server, client, path, change):
    """One change by HTTP while 32 readers ask, and a monitor asks for the list: what the readers saw, how long the editor waited, and the
    monitor at most."""
    took, answer, lists, done = {}, [], [], threading.Event()

    def edit():
        start, before = time.monotonic(), server.times()
        answer.append(change(server.http_address, b"r%d" % time.time_ns()))
        took.update(clock=time.monotonic() - start, processor=server.spent_since(before))
        done.set()

    def watch():
        while not done.is_set():
            start = time.monotonic()
            assert request(server.http_address, b"GET", b"/databases", b"g")[0] == 200
            lists.append(time.monotonic() - start)
            time.sleep(0.02)

    readers, threads = Client(client, server, 32, 1, path, 1e6, 0), [threading.Thread(target=it) for it in (edit, watch)]
    readers.begin()
    time.sleep(1)
    for it in threads:
        it.start()
    for it in threads:
        it.join()
    time.sleep(1)
    readers.process.send_signal(signal.SIGINT)
    it = readers.end()
    assert answer[0][0] == 200, answer
    took["list"] = max(lists, default=0)
    return it, took


def installs_while_asked(program, client, work, chosen, lists):
    """How long 32 readers wait while editions are installed by HTTP, the third of a name, by which the first goes, and while the last is
    taken back, and both are retired."""
    small, largest = [work / "in" / f"small.{end}" for end in ("index", "dict")], [work / "in" / f"largest.{end}" for end in ("index", "dict")]
    if not small[1].exists():
        subprocess.run([sys.executable, TOP / "bench/make_words.py", "65536", "5242880", *small], check=True)
    if not largest[1].exists():
        subprocess.run([sys.executable, TOP / "bench/make_words.py", *map(str, LARGEST), *largest, "shown"], check=True)
    editions = {"65,536 lines, 5 MB": small, "WordNet, 147,309 lines, 31 MB": chosen["wn"][0], "262,144 lines, 67 MB": largest}
    path, others = lists["foldoc"]["hits"], []
    print("\n| 32 readers ask FOLDOC, while by HTTP is installed | the editor waits, s (of the processor, with the readers' answers) | a reader waits at most, s | "
          "99.9 % at most, ms | the median, µs | answers in a second before, meanwhile, after |\n|---|---|---|---|---|---|")
    for what, pair in editions.items():
        server = dictcat(program, work, {"foldoc": chosen["foldoc"]}, f"asked-{len(what)}-{os.getpid()}.db")
        files = [it.read_bytes() for it in pair]
        try:
            watched = 0
            for turn in ("first", "second", "third, by which the first goes"):
                before = asked(client, server, 32, 1, path, 2)
                it, took = changed_while_asked(server, client, path, lambda address, name: install(address, b"new", name, *files))
                after = asked(client, server, 32, 1, path, 2)
                rates = ", ".join(f"{one.answers / one.seconds:,.0f}" for one in (before, it, after))
                watched = max(watched, took["list"])
                print(f"| {what}: the {turn} | {took['clock']:.1f} ({took['processor']:.1f}) | {it.most / 1e6:.2f} | {it.rare / 1e3:.1f} | {it.median:.0f} | {rates} |", flush=True)
            others.append(f"| {what}: `GET /databases` beside an install | {watched:.3f} |  |  |")
            for verb, method, rest in (("rollback", b"POST", b"/rollback"), ("retire", b"DELETE", b"")):
                it, took = changed_while_asked(server, client, path, lambda address, name: request(address, method, b"/databases/new" + rest, name))
                others.append(f"| {what}: a `{verb}` | {took['clock']:.3f} | {it.most / 1e6:.3f} | {it.rare / 1e3:.1f} |")
        finally:
            server.kill()
    print("\n| The same readers, by HTTP | it waits, s, at most | a reader at most, s | 99.9 % at most, ms |\n|---|---|---|---|")
    print("\n".join(others), flush=True)


def growth(program, client, work):
    """The same finds over 65,536 and over 262,144 lines: what a request takes of both servers."""
    sizes, servers, made = ((65_536, LARGEST[1] // 4), LARGEST), {}, {}
    for number, (lines, octets) in enumerate(sizes):
        files = [work / "in" / f"made{lines}.{end}" for end in ("index", "dict")]
        if not files[1].exists():
            subprocess.run([sys.executable, TOP / "bench/make_words.py", str(lines), str(octets), *map(str, files)], check=True)
        made[lines] = files
        servers["dictcat", lines] = dictcat(program, work, {"made": (files, files)}, f"made{lines}.db")
        servers["dictd", lines] = dictd(work, {"made": (files, files)}, PORT + 1 + number)
    (work / "growth").mkdir(exist_ok=True)
    paths = write(made[65_536][0], "made", work / "growth")
    print("\n| The same finds, one connection, 16 lines at once: microseconds of the processor | dictcat, 65,536 lines | 262,144 lines | times | dictd, 65,536 lines | 262,144 lines | times |\n" + "|---" * 7 + "|")
    try:
        for server in servers.values():
            asked(client, server, 1, 1, paths["hits"], 0, 1)   # the text is kept from now on
        for kind in ASKED:
            cells = []
            for who in ("dictcat", "dictd"):
                slow = kind in ("hits", "mix") and asked(client, servers[who, sizes[1][0]], 1, 1, paths[kind], 0, 5).spent > 5 * SLOW / 1e6
                count = 160 if slow else 4000 if who == "dictcat" else 160
                took = {lines: [asked(client, servers[who, lines], 1, 16, paths[kind], 0, count) for _ in range(1 if slow or who == "dictd" else 3)] for lines, _ in sizes}
                if who == "dictcat":
                    assert len({it.found for both in took.values() for it in both}) == 1, (kind, took)
                each = [min(it.spent / it.answers * 1e6 for it in took[lines]) for lines, _ in sizes]
                cells += [f"{each[0]:.1f}", f"{each[1]:.1f}", f"{each[1] / each[0]:.2f}"]
            print(f"| {kind} | " + " | ".join(cells) + " |", flush=True)
    finally:
        for server in servers.values():
            server.kill()


def kept(program, client, work):
    """DEFINE that finds, over one database: the first, for which its text is read, and those behind it."""
    print("\n| DEFINE, found, one connection, one line at a time: of the processor | dictcat, the first | those behind it | dictd |\n|---|---|---|---|")
    for number, octets in enumerate((5_000_000, 13_000_000)):
        name = f"kept{octets // 1_000_000}"
        files = [work / "in" / f"{name}.{end}" for end in ("index", "dict")]
        if not files[1].exists():
            subprocess.run([sys.executable, TOP / "bench/make_words.py", "65536", str(octets), *map(str, files)], check=True)
        pair = {name: (files, files)}
        ours, theirs, path = dictcat(program, work, pair, f"{name}.db"), dictd(work, pair, PORT + 3 + number), write(files[0], name, work)["hits"]
        try:
            first = asked(client, ours, 1, 1, path, 0, 1)
            took = [asked(client, it, 1, 1, path) for it in (ours, theirs)]
            each = [f"{it.spent / it.answers * 1e6:,.1f} µs ({it.answers / it.seconds:,.0f} a second)" for it in took]
            print(f"| 65,536 lines, {octets / 1e6:.0f} MB | {first.spent / first.answers * 1000:.1f} ms | {each[0]} | {each[1]} |", flush=True)
        finally:
            ours.kill()
            theirs.kill()


def whole(address, line):
    """Milliseconds until an answer was there for a client that reads at once, or None where it was cut off."""
    with opened(address) as it:
        start, answer = time.monotonic(), b""
        it.sendall(line)
        while not answer.endswith(b"\r\n.\r\n250 ok\r\n"):
            if not (more := it.recv(1 << 20)):
                return None
            answer = answer[-20:] + more
        return (time.monotonic() - start) * 1000


def longest_status(address, seconds):
    """Milliseconds that one who asks STATUS waits at most, within so many seconds."""
    most, end = 0.0, time.monotonic() + seconds
    with opened(address) as it:
        while (start := time.monotonic()) < end:
            it.sendall(b"STATUS\r\n")
            it.recv(4096)
            most = max(most, time.monotonic() - start)
    return most * 1000


def long_answers(program, work):
    """How many of ten answers of each size come whole to a client that reads at once, and who waits beside one that never reads."""
    text, lines = b"Long answers\n", [f"00-database-short\tA\t{spelled(13)}\n"]
    for megabytes in LONG:
        body = b"%b\n" % (b"x" * 99) * (megabytes * 10_000)
        lines.append(f"long{megabytes}\t{spelled(len(text))}\t{spelled(len(body))}\n")
        text += body
    files = [work / "in" / f"long.{end}" for end in ("index", "dict")]
    files[0].write_text("".join(lines))
    files[1].write_bytes(text)
    server = dictcat(program, work, {"long": (files, files)}, "long.db")
    try:
        print("\n| DEFINE of an entry of | of 10 answers came whole to who reads at once | the median, ms |\n|---|---|---|")
        for megabytes in LONG:
            took = [whole(server.dict_address, b"DEFINE long long%d\r\n" % megabytes) for _ in range(10)]
            there = sorted(it for it in took if it is not None)
            print(f"| {megabytes} MB | {len(there)} | {f'{there[len(there) // 2]:.1f}' if there else ''} |", flush=True)
        alone = longest_status(server.dict_address, 1)
        with opened(server.dict_address) as never:
            never.sendall(b"DEFINE long long%d\r\n" % LONG[-1])
            beside = longest_status(server.dict_address, 1)
        print(f"\nA STATUS waits {alone:.2f} ms at most alone, and {beside:.2f} ms beside one that asks for {LONG[-1]} MB and never reads.")
    finally:
        server.kill()


def starts(program, work):
    """A start of each over WordNet alone, until it greets, the best of three: by the clock, of the processor, and what it holds then."""
    chosen = {"wn": pair(program, work, "wn", NAMES["wn"])}
    dictcat(program, work, chosen, "start.db").kill()
    print("\n| A start over WordNet, until it greets | by the clock, s | of the processor, s | resident memory, MB |\n|---|---|---|---|")
    for name, begin in (("dictcat", lambda: dictcat(program, work, chosen, "start.db")), ("dictd", lambda: dictd(work, chosen, PORT + 1))):
        each = []
        for _ in range(3):
            begun = time.monotonic()
            server = begin()
            opened(server.dict_address).close()
            took = time.monotonic() - begun
            time.sleep(0.3)
            each.append((took, sum(server.times().values()), server.memory()[0] / 1000))
            server.kill()
        print("| %s | %.2f | %.2f | %.0f |" % (name, *min(each)), flush=True)


PARTS = ("kept", "long", "answers", "requests", "slowest", "crowd", "round", "memory", "idle", "install", "growth", "start")


def main():
    program, client, work = os.path.realpath(sys.argv[1]), sys.argv[2], pathlib.Path(sys.argv[3]).resolve()
    wanted = sys.argv[4:] or PARTS
    assert all(it in PARTS for it in wanted), f"the parts are {' '.join(PARTS)}"
    work.mkdir(exist_ok=True)
    print(f"On {time.strftime('%d %B %Y, %H:%M')}, load {' '.join(f'{it:.1f}' for it in os.getloadavg())}")
    chosen = pairs(program, work) if set(wanted) - {"kept", "long", "growth", "round", "start"} else {}
    (work / "in").mkdir(exist_ok=True)
    lists = {name: write(ours[0], name, work) for name, (ours, _) in chosen.items()}
    beside = [it for it in ("memory", "answers", "requests", "slowest", "crowd", "idle") if it in wanted]
    if beside:
        servers = {"dictcat": dictcat(program, work, chosen), "dictd": dictd(work, chosen)}
        try:
            for part in beside:
                {"memory": lambda: memory(client, servers, lists), "answers": lambda: compare(servers, lists),
                 "requests": lambda: requests(client, servers, lists), "slowest": lambda: slowest(client, servers, lists), "crowd": lambda: crowd(client, servers, work),
                 "idle": lambda: idle_all(servers)}[part]()
        finally:
            for server in servers.values():
                server.kill()
    if "round" in wanted:
        round_of_all(program, client, work)
    if "kept" in wanted:
        kept(program, client, work)
    if "long" in wanted:
        long_answers(program, work)
    if "install" in wanted:
        installs_while_asked(program, client, work, chosen, lists)
    if "growth" in wanted:
        growth(program, client, work)
    if "start" in wanted:
        starts(program, work)
    print(f"\nLoad at the end {' '.join(f'{it:.1f}' for it in os.getloadavg())}")


if __name__ == "__main__":
    main()
