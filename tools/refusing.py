"""Programs in which requests for memory are refused, for tools/memory.

A program is loaded once under a library made here, whose malloc, calloc, realloc, posix_memalign and aligned_alloc refuse what
they are told to, and is forked for each run. The library gives it the same random octets in each run, and tells when a server
waits.
"""
import contextlib
import ctypes
import mmap
import os
import select
import shutil
import signal
import subprocess
import sys

LIBRARY = r"""
#define _GNU_SOURCE
#include <errno.h>
#include <fcntl.h>
#include <signal.h>
#include <stddef.h>
#include <stdint.h>
#include <stdlib.h>
#include <sys/epoll.h>
#include <sys/mman.h>
#include <sys/prctl.h>
#include <sys/syscall.h>
#include <sys/wait.h>
#include <unistd.h>

extern void *__libc_malloc(size_t);
extern void *__libc_calloc(size_t, size_t);
extern void *__libc_realloc(void *, size_t);
extern void *__libc_memalign(size_t, size_t);

/* How many requests there were and were refused. Which is refused, from 1, or none; whether all behind it are too; and one that
   is refused before it, or none. How often a server had something to do; whether it waits; whether it ends where it would wait. */
struct counts { volatile uint64_t requests, refused, at, from, first, wakes, waits, ends; };
static struct counts own, *counts = &own;
static uint64_t seed;

static void stream(int as, const char *path, int how) {
    int file = open(path, how, 0600);
    if (file < 0 || dup2(file, as) < 0) _exit(90);
    close(file);
}

static void tell(int told, int32_t number) {
    if (write(told, &number, sizeof number) != sizeof number) _exit(91);
}

/* Forks at each order, and tells of each run its process, and then how it ended. In a run it returns. */
static void fork_at_orders(int orders, int told) {
    char order;
    while (read(orders, &order, 1) == 1) {
        int status, run = fork();
        if (run < 0) _exit(92);
        if (run == 0) {
            prctl(PR_SET_PDEATHSIG, SIGKILL);
            close(orders);
            close(told);
            stream(0, "given", O_RDONLY);
            stream(1, "out", O_WRONLY | O_CREAT | O_TRUNC);
            stream(2, "told", O_WRONLY | O_CREAT | O_TRUNC);
            counts->requests = counts->refused = counts->wakes = counts->waits = 0;
            return;
        }
        tell(told, run);
        if (waitpid(run, &status, 0) != run) _exit(93);
        tell(told, status);
    }
    _exit(0);
}

__attribute__((constructor)) static void begin(void) {
    const char *path = getenv("MEMORY_COUNTS"), *orders = getenv("MEMORY_ORDERS"), *told = getenv("MEMORY_TOLD");
    const char *first = getenv("MEMORY_SEED");
    int file = path ? open(path, O_RDWR | O_CLOEXEC) : -1;
    if (file >= 0) {
        void *map = mmap(NULL, sizeof own, PROT_READ | PROT_WRITE, MAP_SHARED, file, 0);
        close(file);
        if (map != MAP_FAILED) counts = map;
    }
    if (first) seed = strtoull(first, NULL, 10);
    if (orders && told) fork_at_orders(atoi(orders), atoi(told));
}

static int refused(void) {
    uint64_t n = ++counts->requests, at = counts->at;
    if (n != counts->first && (at == 0 || n < at || (n > at && !counts->from))) return 0;
    counts->refused++;
    errno = ENOMEM;
    return 1;
}

void *malloc(size_t n) { return refused() ? NULL : __libc_malloc(n); }
void *calloc(size_t k, size_t n) { return refused() ? NULL : __libc_calloc(k, n); }
void *realloc(void *p, size_t n) { return refused() ? NULL : __libc_realloc(p, n); }
void *memalign(size_t a, size_t n) { return refused() ? NULL : __libc_memalign(a, n); }
void *aligned_alloc(size_t a, size_t n) { return refused() ? NULL : __libc_memalign(a, n); }
int posix_memalign(void **p, size_t a, size_t n) {
    if (refused()) return ENOMEM;
    *p = __libc_memalign(a, n);
    return *p ? 0 : ENOMEM;
}

int getentropy(void *to, size_t n) {
    for (size_t at = 0; at < n; at++) {
        seed = seed * 6364136223846793005u + 1442695040888963407u;
        ((unsigned char *)to)[at] = seed >> 56;
    }
    return 0;
}

int epoll_wait(int poll, struct epoll_event *events, int most, int milliseconds) {
    long found = syscall(SYS_epoll_pwait, poll, events, most, 0, NULL, 8);
    if (found == 0 && milliseconds != 0) {
        if (counts->ends) _exit(99);
        counts->waits = 1;
        found = syscall(SYS_epoll_pwait, poll, events, most, milliseconds, NULL, 8);
        counts->waits = 0;
    }
    if (found > 0) counts->wakes++;
    return found;
}
"""


def library_in(folder):
    """Makes the library in a folder."""
    library = folder / "memory.so"
    (folder / "memory.c").write_text(LIBRARY)
    compiler = shutil.which("gcc") or shutil.which("cc")
    if not compiler:
        sys.exit("memory: there is no C compiler here")
    subprocess.run([compiler, "-O1", "-fPIC", "-shared", "-fno-builtin", "-o", library, folder / "memory.c"], check=True)
    return library


class Counts:
    """What a program under the library and this one share."""
    REQUESTS, REFUSED, AT, FROM, FIRST, WAKES, WAITS, ENDS = range(8)

    def __init__(self, path):
        self.path = path
        path.write_bytes(bytes(4096))
        with open(path, "r+b") as file:
            self.map = mmap.mmap(file.fileno(), 4096)
        self.of = (ctypes.c_uint64 * 8).from_buffer(self.map)

    def begin(self, at=0, from_on=False, ends=False):
        """Before a run: which request is refused in it, and whether a server ends where it would wait."""
        for place, value in enumerate((0, 0, at, int(from_on), 0, 0, 0, int(ends))):
            self.of[place] = value

    def refuse(self, n, from_on, first=0):
        """The nth request from now on, or behind the one that is refused first."""
        self.base = self.of[self.REQUESTS]
        self.of[self.REFUSED], self.of[self.FROM] = 0, int(from_on)
        self.of[self.FIRST] = self.base + first if first else 0
        self.of[self.AT] = self.base + first + n if n else 0

    def rest(self):
        """No further one; how many were refused, and made, since."""
        self.of[self.AT] = self.of[self.FIRST] = 0
        return self.of[self.REFUSED], self.of[self.REQUESTS] - self.base


class Program:
    """A program with its words under the library, loaded once: each run is a fork of it."""

    def __init__(self, library, folder, words, seed, counts=None):
        orders, self.orders = os.pipe()
        self.told, told = os.pipe()
        # Large pages, of which a run takes few: it would be half of its time.
        env = {"GLIBC_TUNABLES": "glibc.malloc.hugetlb=1:glibc.malloc.top_pad=16777216", "LD_PRELOAD": str(library), "MEMORY_ORDERS": str(orders), "MEMORY_TOLD": str(told), "MEMORY_SEED": str(seed)}
        if counts:
            env["MEMORY_COUNTS"] = str(counts.path)
        nothing = subprocess.DEVNULL
        self.folder, self.run_now = folder, None
        self.process = subprocess.Popen(words, cwd=folder, env=env, stdin=nothing, stdout=nothing, stderr=nothing, pass_fds=(orders, told))
        os.close(orders)
        os.close(told)

    def number(self, seconds):
        assert self.tells(seconds), f"it didn't end within {seconds} s"
        octets = os.read(self.told, 4)
        assert len(octets) == 4, "the library ended"
        return int.from_bytes(octets, "little", signed=True)

    def tells(self, seconds):
        """Whether it tells something, and so a run has ended, within this time."""
        return bool(select.select([self.told], [], [], seconds)[0])

    def begin(self):
        os.write(self.orders, b"r")
        self.run_now = self.number(20)

    def end(self, seconds=60):
        """How the run ended, what it wrote and what it told."""
        try:
            status = os.waitstatus_to_exitcode(self.number(seconds))
        except AssertionError:
            self.stop()
            raise
        self.run_now = None
        return status, (self.folder / "out").read_bytes(), (self.folder / "told").read_bytes()

    def run(self):
        self.begin()
        return self.end()

    def stop(self):
        """Kills the run that goes on, if one does."""
        if self.run_now is not None:
            with contextlib.suppress(ProcessLookupError):
                os.kill(self.run_now, signal.SIGKILL)
            self.run_now = None
            self.number(20)

    def close(self):
        self.stop()
        os.close(self.orders)
        os.close(self.told)
        self.process.wait()
