"""Tells where the seconds and the memory of one run of dictcat go: bench/store/stages.sh PROGRAM WORD..

It is run by gdb, which stops the program where one of its stages begins: where a file is opened and where that has ended, at
each statement that reads (its text is told), at each commit, and at the end. Each line has the seconds of the processor until then and since the line before, resident memory then and at most since
the line before in MB, and what begins. Statements that write are not told one by one: there are hundreds of thousands.
"""
import os
import re
import subprocess

import gdb

PROGRAM = gdb.current_progspace().filename
STAGES = re.compile(r"""sqlite::file::connect::|sqlite::connection::Connection::(query|query_near|commit)::
    |store_desk::adopting::read::|store_opening::records::read_records|store_scans::(census::test_rows|pieces::test_pieces)
    |dict_index::read_edition|store_desk::keeper::DeskKeeper::apply""", re.X)
REGISTERS = ("rdi", "rsi", "rdx", "rcx", "r8", "r9")
STATEMENTS = (b"SELECT", b"PRAGMA", b"INSERT", b"DELETE", b"CREATE")


def symbols():
    """The stages of the program: where each is, without the place to which it is loaded, and its name."""
    found = {}
    for line in subprocess.run(["nm", "-C", PROGRAM], capture_output=True, text=True, check=True).stdout.splitlines():
        place, kind, name = (line.split(" ", 2) + ["", ""])[:3]
        if kind in ("t", "T") and STAGES.search(name):
            found[int(place, 16)] = name.split("::<#")[0]
    return found


class Run:
    """The program while it is run."""

    def __init__(self):
        for it in ("set pagination off", "set confirm off", "set breakpoint pending on", "set startup-with-shell off"):
            gdb.execute(it)
        gdb.execute("starti", to_string=True)
        self.pid, self.before = gdb.selected_inferior().pid, 0.0
        maps = open(f"/proc/{self.pid}/maps").read().splitlines()
        self.base = next(int(line.split("-")[0], 16) for line in maps if line.endswith(os.path.realpath(PROGRAM)))

    def seconds(self):
        return int(open(f"/proc/{self.pid}/schedstat").read().split()[0]) / 1e9

    def memory(self):
        """Resident memory, and the most since the last line, in MB."""
        text = open(f"/proc/{self.pid}/status").read()
        found = [int(re.search(rf"{key}:\s+(\d+)", text)[1]) // 1024 for key in ("VmRSS", "VmHWM")]
        with open(f"/proc/{self.pid}/clear_refs", "w") as it:
            it.write("5")
        return found

    def statement(self):
        """The text of a statement that one of the arguments points to."""
        values = [int(gdb.parse_and_eval(f"${it}")) & (2 ** 64 - 1) for it in REGISTERS]
        for value in values:
            try:
                octets = bytes(gdb.selected_inferior().read_memory(value, 120))
            except gdb.MemoryError:
                continue
            if octets.startswith(STATEMENTS):
                length = next((it for it in values if 8 < it <= 120), 60)
                return octets[:length].decode("latin1").split("\0")[0]
        return ""

    def tell(self, what):
        now, (resident, most) = self.seconds(), self.memory()
        os.write(1, f"{now:8.3f} s, {now - self.before:7.3f} since; {resident:4} MB, {most:4} at most: {what}\n".encode())
        self.before = now


class Stage(gdb.Breakpoint):
    def __init__(self, run, place, name):
        super().__init__(f"*{run.base + place:#x}")
        self.run, self.name = run, name

    def stop(self):
        self.run.tell(f"{self.name} {self.run.statement() if 'query' in self.name else ''}".rstrip())
        return False


def main():
    run = Run()
    for place, name in symbols().items():
        Stage(run, place, name)
    gdb.execute("catch syscall exit_group", to_string=True)
    gdb.execute("continue", to_string=True)
    if run.pid == gdb.selected_inferior().pid:
        run.tell("the end")
        gdb.execute("continue", to_string=True)


main()
