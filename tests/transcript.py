"""Reads the transcripts of the program's commands (tests/transcripts/README.md says how they are written)."""
import pathlib
import re
import typing

TOP = pathlib.Path(__file__).resolve().parent.parent
ROOM = TOP / "tests" / "transcripts"
DATA = ROOM / "data"


class Command(typing.NamedTuple):
    """A command of a transcript: where it stands, its words, what it is given, what it writes, and its status."""

    place: str
    words: list
    given: bytes
    printed: bytes
    told: bytes
    status: int
    # Whether its input fails behind what it is given, and whether its output takes no more than what it writes.
    input_fails: bool
    output_fails: bool


def words_of(text):
    """The words of a command line, which are parted by single blanks; some are in double quotes, and one is no text."""
    found = re.findall(r'"((?:[^"\\]|\\["\\])*)"|(\$\'\\xFF\')|([^ "\\]+)', text)
    spelled = [f'"{quoted}"' if not (octet or plain) else octet or plain for quoted, octet, plain in found]
    assert " ".join(spelled) == text, f"no words: {text}"
    return [b"\xff" if octet else (plain or re.sub(r"\\(.)", r"\1", quoted)).encode() for quoted, octet, plain in found]


def version():
    """The program's version, which the crate of its command line has."""
    text = (TOP / "crates" / "app_words" / "src" / "version.rt").read_text(encoding="utf-8")
    return re.search(r'^pub const VERSION: &str = "([0-9.]+)";$', text, re.M)[1]


def read(file):
    """The commands of a transcript."""
    found, rows = [], None
    for number, line in enumerate(file.read_text(encoding="utf-8").split("\n"), 1):
        place = f"{file.name}:{number}"
        mark, text = line[:2], line[3:]
        if rows is None:
            assert not line or line[0] in "#$", f"{place}: no command"
            if mark == "$ ":
                rows = (place, words_of(line[2:]), {"given": b"", "printed": b"", "told": b""}, [])
        elif mark == "->":
            found.append(Command(*rows[:2], **rows[2], status=int(text), input_fails="C!" in rows[3], output_fails="S!" in rows[3]))
            rows = None
        elif mark in ("C!", "S!"):
            rows[3].append(mark)
        elif mark in ("C:", "C~", "S:", "S~"):
            rows[2]["given" if line[0] == "C" else "printed"] += text.encode() + (b"\r\n" if line[1] == ":" else b"")
        elif line[:1] == "!":
            rows[2]["told"] += line[2:].encode() + b"\n"
        else:
            rows[2]["printed"] += (f"dictcat {version()}" if line == "dictcat VERSION" else line).encode() + b"\n"
    assert rows is None, f"{rows[0]}: no status"
    return found


def all_files():
    """The transcripts in their order, which are all that there are."""
    names = (ROOM / "order").read_text().split()
    assert sorted(names) == sorted(it.name for it in DATA.glob("*.transcript")), "tests/transcripts/order has other names"
    return [DATA / it for it in names]
