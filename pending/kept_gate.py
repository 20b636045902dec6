#!/usr/bin/env python3
"""kept_gate.py ROOT [--lanes N] [--only CRATE,..] [--no-tests]: proves what rt ci proves, and keeps it by the sums of the sources.

For a toolchain whose rt ci keeps nothing between its runs (rattle-kit-13b). KEPT names the folder of what was proved: a crate whose
sources, and those below it, have the same sum is taken from there, in whichever clone it was proved. The libraries are put into the
crates' out/ with their stamps, so that `rt check` in a crate above takes them too. --only: these crates, and what they stand on.
No verdict: that is rt ci's.
"""
import copy
import importlib.machinery
import importlib.util
import os
import shutil
import sys
import tempfile
import threading
import time

KIT = os.path.dirname(os.popen("rt doc").read().strip())
KEPT = os.path.abspath(os.environ.get("KEPT", ""))
sys.path.insert(0, f"{KIT}/bin")
loader = importlib.machinery.SourceFileLoader("rt_gate", f"{KIT}/bin/rt")
rt = importlib.util.module_from_spec(importlib.util.spec_from_loader("rt_gate", loader))
loader.exec_module(rt)
rtlib = rt.rtlib
printing = threading.Lock()


def flag(words, name, other):
    return words[words.index(name) + 1] if name in words else other


def say(*words):
    with printing:
        print(time.strftime("%H:%M:%S"), *words, flush=True)


def crates_of(root):
    """The crates of a repository, lowest first. A crate's sum is made once: it is that of all crates below it too."""
    os.chdir(root)
    rtlib.stop = rt.stop
    rt.Crate.cuts_libraries = True
    rt.Crate.allowed = rt.handles_of(root)
    rtlib.Crate = rt.Crate
    rtlib.guarded()
    sums, made = {}, rtlib.Crate.stamp

    def stamp(self):
        if self.folder not in sums:
            sums[self.folder] = made(self)
        return sums[self.folder]

    rtlib.Crate.stamp = rt.Crate.stamp = stamp
    return sorted(rtlib.crates_below(root), key=lambda it: len(it.below()))


def place(crate, tests):
    return f"{KEPT}/{crate.name}-{'tests' if tests else 'proof'}-{crate.stamp()[:24]}"


def parts(crate, tests):
    if tests:
        return [f"{crate.name}_tests", f"{crate.name}_tests.o"]
    return [crate.name + it for it in ["", *filter(None, rt.BACKENDS.values())]] if crate.is_program else ["rlib"]


def put(old, new):
    if os.path.isdir(old):
        shutil.copytree(old, new, symlinks=True, dirs_exist_ok=True)
    elif os.path.exists(old):
        shutil.copy2(old, new)


def keep(crate, tests):
    """Keeps what was made of a crate."""
    at = place(crate, tests)
    shutil.rmtree(f"{at}.new", ignore_errors=True)
    os.makedirs(f"{at}.new")
    for it in parts(crate, tests):
        put(f"{crate.folder}/out/{it}", f"{at}.new/{it}")
    shutil.rmtree(at, ignore_errors=True)
    os.rename(f"{at}.new", at)


def give(crate, tests):
    """Puts what is kept of a crate into its out/. Whether something is."""
    at = place(crate, tests)
    if not os.path.isdir(at):
        return False
    os.makedirs(f"{crate.folder}/out", exist_ok=True)
    for it in parts(crate, tests):
        shutil.rmtree(f"{crate.folder}/out/{it}", ignore_errors=True)
        put(f"{at}/{it}", f"{crate.folder}/out/{it}")
    stamp(crate, tests)
    return True


def stamp(crate, tests):
    if not tests and not crate.is_program:
        with open(f"{crate.folder}/out/rlib/stamp", "w", encoding="utf-8") as it:
            it.write(crate.stamp())


def work(crate, tests, given):
    """Proves a crate, or its tests, unless that is kept."""
    if not all(given[it.name, "proof"] for it in crate.below()):
        return tests
    if tests and not crate.has_tests() or give(crate, tests):
        return True
    crate, what, began = copy.copy(crate), f"{crate.name}{' (tests)' if tests else ''}", time.time()
    with tempfile.TemporaryFile("a+", errors="replace") as crate.out:
        os.makedirs(f"{crate.folder}/out", exist_ok=True)
        status = 0 if tests else rtlib.fmt(crate.folder, "--check", crate.out)
        status = status or crate.ci(["--jobs", "1"], tests)
        crate.out.seek(0)
        said = crate.out.read()
    if not status:
        keep(crate, tests)
        stamp(crate, tests)
    say(f"{what} {'NOT PROVED' if status else 'proved'} in {time.time() - began:.0f} s", said if status else "")
    return not status


def main(words):
    os.environ["RT_JOBS"] = flag(words, "--lanes", "4")
    names = flag(words, "--only", "")
    crates = crates_of(os.path.abspath(words[0]))
    wanted = [it for it in crates if not names or it.name in names.split(",")]
    below = {it.name for one in wanted for it in [one, *one.below()]}
    tasks = {}
    for crate in crates:
        if crate.name in below:
            waits = [(it.name, "proof") for it in crate.below()]
            tasks[crate.name, "proof"] = (waits, crate.count(rb"\n"), 1, lambda given, jobs, it=crate: work(it, False, given))
            if crate in wanted and "--no-tests" not in words:
                tasks[crate.name, "tests"] = (waits, crate.count(rb"\n"), 1, lambda given, jobs, it=crate: work(it, True, given))
    failed = [" ".join(it) for it, well in rt.in_lanes(tasks).items() if not well]
    say(f"{len(tasks) - len(failed)} proved, {len(failed)} not: {', '.join(failed)}")
    return bool(failed)


if __name__ == "__main__":
    if len(sys.argv) < 2 or sys.argv[1].startswith("-") or not os.environ.get("KEPT"):
        sys.exit(__doc__)
    os.makedirs(KEPT, exist_ok=True)
    sys.exit(main(sys.argv[1:]))
