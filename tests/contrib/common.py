"""What the tests of this folder share: the program, servers that end with the test, sessions, and checks that tell.

Without tests/contrib/run, TOP is the clone that this file is in, DICTCAT the program that tools/program prints (which may build
it), and CACHE ~/.cache/dictcat-contrib-test.
"""
import contextlib, os, pathlib, subprocess

TOP = pathlib.Path(os.environ.get("TOP") or pathlib.Path(__file__).resolve().parent.parent.parent)
DICTCAT = os.environ.get("DICTCAT") or subprocess.check_output([TOP / "tools/program"], text=True).strip()
CACHE = pathlib.Path(os.environ.get("CACHE") or pathlib.Path.home() / ".cache/dictcat-contrib-test")
CONTRIB = TOP / "contrib"
EXAMPLES = TOP / "examples"


def run(*words, status=0, given=None, **more):
    """What the program of these words prints, once it ended with this status."""
    it = subprocess.run([*map(str, words)], input=given, capture_output=True, text=True, **more)
    assert it.returncode == status, f"{words}\n  ended with {it.returncode}, not {status}\n{it.stdout[-2000:]}{it.stderr}"
    return it.stdout if status == 0 else it.stderr


def dictcat(*words, **more):
    return run(DICTCAT, *words, **more)


def session(file, lines):
    """What a session over the catalogue answers to the lines."""
    given = "".join(f"{line}\r\n" for line in [*lines, "QUIT"])
    return subprocess.run([DICTCAT, "session", file], input=given.encode(), capture_output=True, check=True).stdout


@contextlib.contextmanager
def served(file):
    """A server over the catalogue: its process and its two addresses. It is killed at the end, as by a failure of power."""
    words = [DICTCAT, "serve", file, "--dict", "127.0.0.1:0", "--http", "127.0.0.1:0"]
    server = subprocess.Popen(words, stdout=subprocess.PIPE, text=True)
    try:
        yield server, *(server.stdout.readline().split()[1] for _ in range(2))
    finally:
        server.kill()
        server.wait()


def same(found, due, what):
    assert found == due, f"{what}:\n  {str(found)[:2000]}\n  not\n  {str(due)[:2000]}"


def saw(told):
    print(told, flush=True)
