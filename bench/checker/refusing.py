"""Runs of a program, in each of which one allocation is refused.

A `malloc` and a `realloc` that are loaded before those of the C library refuse that one, whichever thread makes it. It needs `cc`.
"""
import os
import subprocess

BLOCK = 64
REFUSING = r"""
#include <stdlib.h>
#include <unistd.h>

void *__libc_malloc(size_t);
void *__libc_realloc(void *, size_t);

static long left;
static int told;

__attribute__((constructor)) static void begin(void) {
    told = atoi(getenv("REFUSED_TOLD"));
    left = atol(getenv("REFUSED_CALL"));
}

static int refuses(void) {
    return __atomic_sub_fetch(&left, 1, __ATOMIC_SEQ_CST) == 0 && write(told, "r", 1) == 1;
}

void *malloc(size_t size) { return refuses() ? NULL : __libc_malloc(size); }

void *realloc(void *old, size_t size) { return refuses() ? NULL : __libc_realloc(old, size); }
"""


def build(folder):
    """Builds what refuses, in the folder."""
    source, library = folder / "refusing.c", folder / "refusing.so"
    source.write_text(REFUSING)
    subprocess.run(["cc", "-O1", "-shared", "-fPIC", "-o", library, source], check=True)
    return library


def run(library, call, words, seconds, **how):
    """Runs the words with that allocation refused: whether there was one, and how the run ended, or None where it did not."""
    reads, told = os.pipe()
    setting = {**os.environ, "LD_PRELOAD": str(library), "REFUSED_TOLD": str(told), "REFUSED_CALL": str(call)}
    try:
        ended = subprocess.run(words, env=setting, pass_fds=[told], capture_output=True, text=True, timeout=seconds, **how)
    except subprocess.TimeoutExpired:
        ended = None
    os.close(told)
    refused = os.read(reads, 1) == b"r"
    os.close(reads)
    return refused, ended


def sweep(turn, pool):
    """Refuses each allocation in turn, up to the first that there is not: its number, whether there was one, and what came of it."""
    first = 1
    while True:
        calls = range(first, first + BLOCK)
        for call, (refused, came) in zip(calls, pool.map(turn, calls)):
            yield call, refused, came
            if not refused:
                return
        first += BLOCK
