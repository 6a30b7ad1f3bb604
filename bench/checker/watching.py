"""Runs of the program whose allocations are timed.

A library that is loaded before the C library notes the times of allocations. What is timed stands in a script between two puts of one
long value, the mark. No other allocation has that value's length: so the time from the first to the last such allocation of a thread
is what the commands between them took, with the first put. It needs `cc`.
"""
from pathlib import Path

from .running import build, copy_of, run, run_on_copy, script, take_copy

MARK = 251
MARKING = f"put mark {'v' * MARK}"
# With one client alone no thread would be made.
IDLE = ["free s"]
WATCHING = r"""
#define _GNU_SOURCE
#include <dlfcn.h>
#include <malloc.h>
#include <pthread.h>
#include <stdio.h>
#include <stdlib.h>
#include <sys/mman.h>
#include <time.h>

void *__libc_malloc(size_t);
void *__libc_realloc(void *, size_t);
void __libc_free(void *);

enum { THREADS = 32, TIMES = 1 << 22 };

struct noted { long count, *times; };

static struct noted threads[THREADS];
static int noting, sessions, all;
static size_t mark;
static long begun, opened, ended, live, most;
static __thread struct noted *mine;

static long now(void) {
    struct timespec t;
    clock_gettime(CLOCK_MONOTONIC, &t);
    return t.tv_sec * 1000000000L + t.tv_nsec;
}

__attribute__((constructor)) static void begin(void) {
    mark = atol(getenv("WATCH_MARK"));
    all = getenv("WATCH_ALL") != NULL;
    begun = now();
}

/* Before the sessions how many bytes are in use; from then on the times of allocations, those of a mark as negative numbers. */
static void came(void *it, size_t size) {
    if (!sessions) {
        live += malloc_usable_size(it);
        most = live > most ? live : most;
        return;
    }
    if (!all && size != mark) return;
    if (!mine) {
        mine = &threads[__atomic_fetch_add(&noting, 1, __ATOMIC_SEQ_CST)];
        mine->times = mmap(NULL, TIMES * sizeof(long), PROT_READ | PROT_WRITE, MAP_PRIVATE | MAP_ANONYMOUS | MAP_NORESERVE, -1, 0);
    }
    if (mine->count < TIMES) mine->times[mine->count++] = size == mark ? -now() : now();
}

static void goes(void *it) { if (!sessions && it) live -= malloc_usable_size(it); }

void *malloc(size_t size) {
    void *it = __libc_malloc(size);
    if (it) came(it, size);
    return it;
}

void *realloc(void *old, size_t size) {
    goes(old);
    void *it = __libc_realloc(old, size);
    if (it) came(it, size);
    return it;
}

void free(void *it) {
    goes(it);
    __libc_free(it);
}

int pthread_create(pthread_t *thread, const pthread_attr_t *how, void *(*what)(void *), void *with) {
    static int (*create)(pthread_t *, const pthread_attr_t *, void *(*)(void *), void *);
    if (!sessions) {
        create = dlsym(RTLD_NEXT, "pthread_create");
        opened = now();
        sessions = 1;
    }
    return create(thread, how, what, with);
}

int pthread_join(pthread_t thread, void **result) {
    int (*join)(pthread_t, void **) = dlsym(RTLD_NEXT, "pthread_join");
    int joined = join(thread, result);
    ended = now();
    return joined;
}

/* How many bytes of memory the program had at most. */
static long resident(void) {
    char line[256];
    long kilobytes = 0;
    FILE *told = fopen("/proc/self/status", "r");
    while (fgets(line, sizeof line, told) && sscanf(line, "VmHWM: %ld", &kilobytes) != 1) {}
    fclose(told);
    return kilobytes * 1024;
}

/* The program's last call. A copy has no sessions: all of it counts as its opening. */
_Noreturn void _exit(int status) {
    if (!sessions) opened = ended = now();
    FILE *told = fopen(getenv("WATCH"), "w");
    fprintf(told, "%ld %ld %ld %ld %ld\n", opened - begun, ended - opened, live, most, resident());
    for (int i = 0; i < noting; i++) {
        for (long j = 0; j < threads[i].count; j++) {
            long at = threads[i].times[j];
            if (at > ended || -at > ended) break;
            fprintf(told, "%ld ", at);
        }
        fprintf(told, "\n");
    }
    fclose(told);
    quick_exit(status);
}
"""


class Watched:
    """A run: the seconds of its opening and of its sessions, the bytes in use between them and at most until then, the bytes of memory
    that it had at most, and times of allocations by thread, each with whether it was a mark; and its transcript."""

    def __init__(self, told, transcript):
        self.transcript = transcript
        first, *threads = told.read_text().splitlines()
        opening, sessions, self.live, self.most, self.resident = map(int, first.split())
        self.opening, self.sessions = opening / 1e9, sessions / 1e9
        self.threads = [[(abs(int(at)) / 1e9, at.startswith("-")) for at in line.split()] for line in threads]

    def marks(self):
        """The times of the marks, which one thread has."""
        (marks,) = [marks for marks in ([at for at, is_mark in thread if is_mark] for thread in self.threads) if marks]
        return marks

    def timed(self):
        """When the commands between the first put of the mark and the last one began and ended."""
        marks = self.marks()
        return marks[0], marks[-1]

    def others(self):
        """The times of allocations of each thread without marks."""
        return [[at for at, _ in thread] for thread in self.threads if not any(is_mark for _, is_mark in thread)]

    def other(self):
        """Those of the one that made the most."""
        return max(self.others(), key=len)


class Watcher:
    """Runs the program with the library, which is built in the folder."""

    def __init__(self, folder):
        self.folder = folder
        self.library = build(folder, "watching", WATCHING)
        self.told = Path(folder) / "told"

    def watch(self, store, clients, words=(), folder=None, **setting):
        """One run on a copy of the store in that folder, or in its own."""
        text = script(clients if len(clients) > 1 else [*clients, IDLE])
        _, transcript = run_on_copy(store, text, folder or self.folder, words, **self.watching(), **setting)
        return Watched(self.told, transcript)

    def copy(self, store, folder, to):
        """Copies the store, out of a copy of its files below the first folder. What was copied is the store in the other one then."""
        with copy_of(store, folder) as there:
            _, line = run(there, "", command="copy", **self.watching())
            take_copy(there, to)
        return Watched(self.told, line)

    def watching(self):
        return {"LD_PRELOAD": self.library, "WATCH": str(self.told), "WATCH_MARK": str(MARK)}


def longest(times, begun, ended):
    """The longest time without an allocation between the two."""
    times = [at for at in times if begun <= at <= ended]
    return max(later - at for at, later in zip([begun, *times], [*times, ended]))
