"""Runs programs whose requests for memory are refused: what bench/growths and bench/out_of_memory have in common.

A small C library is compiled by `cc` into a temporary folder and preloaded into the program: its malloc, calloc and realloc count
the requests that are made from the beginning of the program's main on, of all its threads, and refuse those from one number up to
another. It needs the GNU C library.
"""

import concurrent.futures
import dataclasses
import itertools
import os
import pathlib
import struct
import subprocess
import tempfile
import time

SOURCE = r"""
#define _GNU_SOURCE
#include <dlfcn.h>
#include <errno.h>
#include <fcntl.h>
#include <stdlib.h>
#include <sys/mman.h>
#include <unistd.h>

void *__libc_malloc(size_t);
void *__libc_calloc(size_t, size_t);
void *__libc_realloc(void *, size_t);

/* These numbers lie in a file, so that they can be read of a program that was killed, too. */
static struct { long begun, asked, refused; } *counts;

static long first, last;

static int refuses(void) {
    if (!counts || !counts->begun)
        return 0;
    long number = __atomic_add_fetch(&counts->asked, 1, __ATOMIC_SEQ_CST);
    if (number < first || last < number)
        return 0;
    __atomic_add_fetch(&counts->refused, 1, __ATOMIC_SEQ_CST);
    errno = ENOMEM;
    return 1;
}

void *malloc(size_t size) { return refuses() ? NULL : __libc_malloc(size); }
void *calloc(size_t count, size_t size) { return refuses() ? NULL : __libc_calloc(count, size); }
void *realloc(void *block, size_t size) { return refuses() ? NULL : __libc_realloc(block, size); }

__attribute__((constructor)) static void prepare(void) {
    int file = open(getenv("REFUSED_COUNTS"), O_RDWR);
    void *place = mmap(NULL, sizeof *counts, PROT_READ | PROT_WRITE, MAP_SHARED, file, 0);
    close(file);
    first = atol(getenv("REFUSED_FIRST"));
    last = atol(getenv("REFUSED_LAST"));
    if (place != MAP_FAILED)
        counts = place;
}

typedef int Main(int, char **, char **);

static Main *program;

static int counted(int count, char **words, char **variables) {
    if (counts)
        counts->begun = 1;
    return program(count, words, variables);
}

int __libc_start_main(Main *main, int count, char **words, void (*init)(void), void (*fini)(void), void (*end)(void), void *stack) {
    int (*start)(Main *, int, char **, void (*)(void), void (*)(void), void (*)(void), void *) = dlsym(RTLD_NEXT, "__libc_start_main");
    program = main;
    return start(counted, count, words, init, fini, end, stack);
}
"""

# A number above that of every request.
ALL = 1 << 62

# How many runs in a row meet no refusal before no more are made.
ENOUGH = 32


@dataclasses.dataclass
class Answer:
    """What a program answered."""

    # Below 0 the signal that ended it; None where it didn't end in time.
    status: int | None
    out: str
    err: str
    seconds: float
    # Whether its main began, how many requests it made from then on, and how many of them were refused.
    has_begun: bool
    asked: int
    refused: int


class Refuser:
    """The library, compiled."""

    def __enter__(self):
        self.folder = tempfile.TemporaryDirectory()
        self.files = pathlib.Path(self.folder.name)
        (self.files / "refuser.c").write_text(SOURCE)
        words = ["cc", "-O2", "-shared", "-fPIC", "-o", "refuser.so", "refuser.c", "-ldl"]
        subprocess.run(words, cwd=self.files, check=True)
        return self

    def __exit__(self, *_):
        self.folder.cleanup()

    def run(self, words, first=ALL, last=ALL, seconds=60, stdout=subprocess.PIPE, **options):
        """Runs a program, whose requests from the first to the last of these, counted from 1, are refused."""
        with tempfile.NamedTemporaryFile(dir=self.files) as counts:
            counts.write(bytes(24))
            counts.flush()
            variables = {"REFUSED_COUNTS": counts.name, "REFUSED_FIRST": str(first), "REFUSED_LAST": str(last)}
            environment = os.environ | variables | {"LD_PRELOAD": str(self.files / "refuser.so")}
            begin = time.monotonic()
            try:
                streams = {"stdin": subprocess.DEVNULL, "stdout": stdout, "stderr": subprocess.PIPE}
                got = subprocess.run(words, env=environment, **streams, timeout=seconds, **options)
                status, out, err = got.returncode, got.stdout or b"", got.stderr
            except subprocess.TimeoutExpired as late:
                status, out, err = None, late.stdout or b"", late.stderr or b""
            took = time.monotonic() - begin
            has_begun, asked, refused = struct.unpack("3q", pathlib.Path(counts.name).read_bytes())
        out, err = out.decode(errors="replace"), err.decode(errors="replace")
        return Answer(status, out, err, took, has_begun == 1, asked, refused)


def each(run, jobs=1):
    """The numbers 1, 2, .. with what `run` answers to each, so many side by side, until no run meets a refusal any more."""
    with concurrent.futures.ThreadPoolExecutor(jobs) as pool:
        for begin in itertools.count(1, ENOUGH):
            numbers = range(begin, begin + ENOUGH)
            answers = list(pool.map(run, numbers))
            yield from zip(numbers, answers)
            if not any(answer.refused for answer in answers):
                return
