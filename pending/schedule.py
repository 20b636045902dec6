#!/usr/bin/env python3
"""What the gate takes by the order of `rt ci`, without running it: when each crate would begin and end.

  schedule.py [--lanes N] [--faster FACTOR] [--without CRATE:LIBRARY ..] [CRATE=MINUTES ..]

Minutes are those of one processor, three others at work, by the rate of 30 November 2026 (`docs/GATE.md`); those of crates that it doesn't
name are from runs of 1 December, divided by 1.7. `--faster 0.9` multiplies all tests by it; `--without store_scans:store_holdings` lets the
one begin without the other; `store_desk=7` changes one. The order is that of `rt`'s `in_lanes` with `RT_JOBS` set: first what has the most lines
behind it.
"""
import os
import sys

TOP = os.path.dirname(os.path.dirname(os.path.abspath(__file__)))
PROOFS = dict(
    dict_text=0.6, http_request=0.9, dict_match=0.9, store_derived=0.8, dict_proto=1.2, store_tables=2.4, dict_index=1.3, net_outlet=0.9,
    store_places=1.2, dict_reading=1.0, dict_catalogue=1.6, store_pieces=1.4, dict_desk=1.9, store_sql=3.7, store_rows=2.2, store_older_sql=1.4,
    store_search=1.8, dict_session=2.1, http_service=2.6, store_holdings=2.1, net_hub=1.5, store_scans=2.8, store_commands=4.3, store_migration=2.8,
    store_opening=3.0, net_connection=1.3, dict_fixtures=1.0, app_words=3.0, net_driver=2.6, store_fixtures=2.5, store_desk=7.9, net_serving=0.6,
    app_commands=1.0, dictcat_lib=5.2, dictcat=4.0,
)
TESTS = dict(
    dict_base_tests=3.5, store_sql_tests=5.3, dict_desk_tests=3.8, http_tests=3.0, net_hub_tests=2.8, store_search_tests=2.7, net_driver_tests=3.5,
    dict_session_tests=2.9, store_tests=6.6, store_stop_tests=9.0, app_tests=6.4,
)


def lines_of(crate):
    """The lines of a crate's source."""
    return sum(open(f"{at}/{it}", "rb").read().count(b"\n") for at, _, names in os.walk(f"{TOP}/crates/{crate}/src") for it in names)


def tasks_of(without, minutes, factor):
    """Each task: what it waits for, its lines, its minutes."""
    rows = [it.split("#")[0].partition(":") for it in open(f"{TOP}/crates.txt") if it.split("#")[0].strip()]
    stands = {name.split()[0]: libraries.split() for name, _, libraries in rows}
    tasks = {}
    for crate, libraries in stands.items():
        waits = [(it, "proof") for it in libraries if it in stands and f"{crate}:{it}" not in without]
        lines = lines_of(crate)
        tasks[crate, "proof"] = waits, lines, PROOFS.get(crate, 0.25) if crate in TESTS else minutes.get(crate, PROOFS.get(crate, 0.25))
        if crate in TESTS:
            tasks[crate, "tests"] = waits, lines, minutes.get(crate, TESTS[crate] * factor)
    return tasks


def behind_of(tasks):
    """The lines of the longest chain that waits for each task, its own among them."""
    above = {key: [it for it in tasks if key in tasks[it][0]] for key in tasks}
    found = {}

    def behind(key):
        if key not in found:
            found[key] = tasks[key][1] + max(map(behind, above[key]), default=0)
        return found[key]

    return {key: behind(key) for key in tasks}


def run(tasks, lanes):
    """When each task begins and ends."""
    behind = behind_of(tasks)
    left, running, done, now, told = sorted(tasks, key=lambda it: -behind[it]), [], set(), 0.0, []
    while left or running:
        for key in [*left]:
            if len(running) < lanes and all(it in done for it in tasks[key][0]):
                left.remove(key)
                running.append((now + tasks[key][2], key))
                told.append((now, now + tasks[key][2], key))
        now, key = min(running)
        running.remove((now, key))
        done.add(key)
    return told


def main(words):
    lanes, factor, without, minutes = 4, 1.0, set(), {}
    words = iter(words)
    for word in words:
        if word == "--lanes":
            lanes = int(next(words))
        elif word == "--faster":
            factor = float(next(words))
        elif word == "--without":
            without.add(next(words))
        elif "=" in word:
            minutes[word.partition("=")[0]] = float(word.partition("=")[2])
        else:
            print(__doc__)
            return word not in ("-h", "--help")
    tasks = tasks_of(without, minutes, factor)
    told = run(tasks, lanes)
    for begin, end, (crate, what) in told:
        print(f"{begin:6.1f} {end:6.1f}  {crate} {what}")
    work = sum(it[2] for it in tasks.values())
    print(f"{max(it[1] for it in told):.1f} minutes, {work:.1f} of one processor, {work / lanes:.1f} if no lane were idle")
    return 0


if __name__ == "__main__":
    sys.exit(main(sys.argv[1:]))
