#!/usr/bin/env python3
"""Verdicts of many edits by few checks: edits_at_once.py FOLDER CRATE.. [--lanes N]

FOLDER/CRATE/NAME.edit are edits, each of another function. All of a crate are applied to one copy of the repository, and the crate is checked
over the kept libraries (pending/over_kept.py) once: a function's proof doesn't read the bodies of others, so each verdict is that of the edit
alone. Edits that can't stand beside each other in a file get a further copy; those that aren't read are told, and left out. An edit counts as
refused where its function isn't proved: the log says whether by a goal, or where the standing proof of a clause no longer fits.
From the environment: ROUNDS_TOP, a clone, and ROUNDS_HOME, a folder for what is made.
"""
import concurrent.futures as futures
import os
import pathlib
import re
import shutil
import subprocess
import sys

FN = re.compile(r"^\s*(?:pub(?:\(crate\))? )?fn (\w+)", re.M)


def read(path):
    """The file that an edit changes, and its pairs of texts."""
    lines = path.read_text().splitlines()
    of = lambda word: [line.split(word, 1)[1].removeprefix(" ") for line in lines if line.startswith(word)]
    return of("file:")[0], [*zip(of("old:"), of("new:"))]


def function_at(text, place):
    """The name of the function in which a place of a file is."""
    names = [it.group(1) for it in FN.finditer(text) if it.start() <= place]
    return names[-1] if names else None


def applied(top, root, crate, edits):
    """Makes a copy with the edits that can be applied beside each other; returns those, with their files and functions, and the others."""
    shutil.rmtree(root, ignore_errors=True)
    root.mkdir(parents=True)
    for part in ("crates", "crates.txt", "HANDLES"):
        subprocess.run(["cp", "-al", f"{top}/{part}", f"{root}/{part}"], check=True)
    done, left = [], []
    for edit in edits:
        file, pairs = read(edit)
        path = root / "crates" / crate / file
        text, function = path.read_text(), None
        if any(text.count(old) != 1 for old, _ in pairs):
            left.append(edit)
            continue
        for old, new in pairs:
            function = function or function_at(text, text.index(old) + len(old) - 1)
            text = text.replace(old, new)
        path.unlink()
        path.write_text(text)
        done.append((edit, file, function))
    return done, left


def judged(top, home, folder, crate):
    """Checks a crate with its edits, until each has a verdict, and returns the lines that tell them."""
    edits, told = sorted((folder / crate).glob("*.edit")), []
    for number in range(1, 9):
        if not edits:
            break
        root, kept = home / f"{crate}-{number}", home / f"kept-{crate}"
        kept.mkdir(parents=True, exist_ok=True)
        done, left = applied(top, root, crate, edits)
        check = ["python3", f"{top}/pending/over_kept.py", crate, "--allow-holes", "--incremental", str(kept)]
        ran = subprocess.run(check, env={**os.environ, "V5ROOT": str(root), "V5HOME": str(home)}, stdin=subprocess.DEVNULL,
                             stdout=subprocess.PIPE, stderr=subprocess.STDOUT, text=True, errors="replace")
        (home / f"{crate}-{number}.log").write_text(ran.stdout)
        refused = re.findall(r"^fn (\S+): (?:not proved|no proof|could not tell)", ran.stdout, re.M)
        if refused or re.search(r"^fn \S+: ", ran.stdout, re.M):
            for edit, file, function in done:
                module = file.removeprefix("src/").removesuffix(".rt").replace("/", "::")
                hit = [it for it in refused if it.split("::")[-1] == function and module in it]
                told.append(f"{crate} {edit.stem} {function}: {'refused' if hit else 'STILL PROVED'}")
            edits = left
            continue
        unread = set()
        for file, line in re.findall(r"(src/\S+?\.rt):(\d+):\d+: error", ran.stdout):
            text = (root / "crates" / crate / file).read_text()
            place = sum(len(it) + 1 for it in text.split("\n")[: int(line)]) - 1
            unread |= {edit for edit, its, function in done if its == file and function == function_at(text, place)}
        told += [f"{crate} {edit.stem}: NOT READ" for edit in unread] or [f"{crate}: no verdict: {ran.stdout[-300:]}"]
        if not unread:
            break
        edits = [edit for edit, _, _ in done if edit not in unread] + left
    return told


def main(words):
    if len(words) < 2 or set(words) & {"-h", "--help"}:
        print(__doc__.strip())
        return 0 if words else 2
    lanes = int(words.pop(words.index("--lanes") + 1)) if "--lanes" in words else 2
    folder, *crates = [it for it in words if not it.startswith("--")]
    top, home = (pathlib.Path(os.environ[it]).resolve() for it in ("ROUNDS_TOP", "ROUNDS_HOME"))
    with futures.ThreadPoolExecutor(lanes) as pool:
        for done in futures.as_completed([pool.submit(judged, top, home, pathlib.Path(folder).resolve(), it) for it in crates]):
            print(*done.result(), sep="\n", flush=True)
    return 0


if __name__ == "__main__":
    sys.exit(main(sys.argv[1:]))
