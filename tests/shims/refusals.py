"""A library in front of the C library's malloc and realloc that answers one growth of a program's memory with no memory: that of the
number in REFUSED_GROWTH. It tells so by a byte on the descriptor in REFUSED_TOLD, or there how many growths there were, where
COUNTS_GROWTHS stands. Growths are counted from the program's start; where FROM_CLOCK stands, from when it first asks for the time of
day.
"""
import contextlib
import os
import subprocess
import tempfile

SHIM = r"""
#define _GNU_SOURCE
#include <dlfcn.h>
#include <stdio.h>
#include <stdlib.h>
#include <time.h>
#include <unistd.h>
static long left = -2, count = 0;
static int waits = -1;
static int refused(void) {
    if (left == -2) { const char *text = getenv("REFUSED_GROWTH"); left = text ? atol(text) : 0; }
    if (waits == -1) waits = getenv("FROM_CLOCK") != NULL;
    if (waits) return 0;
    count++;
    if (left > 0 && --left == 0) { (void)!write(atoi(getenv("REFUSED_TOLD")), "x", 1); return 1; }
    return 0;
}
__attribute__((destructor)) static void tell(void) {
    if (left == 0 && getenv("COUNTS_GROWTHS")) dprintf(atoi(getenv("REFUSED_TOLD")), "%ld", count);
}
void *malloc(size_t size) {
    static void *(*real)(size_t);
    if (!real) real = dlsym(RTLD_NEXT, "malloc");
    return refused() ? NULL : real(size);
}
void *realloc(void *old, size_t size) {
    static void *(*real)(void *, size_t);
    if (!real) real = dlsym(RTLD_NEXT, "realloc");
    return refused() ? NULL : real(old, size);
}
int clock_gettime(clockid_t clock, struct timespec *now) {
    static int (*real)(clockid_t, struct timespec *);
    if (!real) real = dlsym(RTLD_NEXT, "clock_gettime");
    if (clock == CLOCK_REALTIME) waits = 0;
    return real(clock, now);
}
"""


def make_shim(room):
    with open(f"{room}/refusals.c", "w") as text:
        text.write(SHIM)
    subprocess.run(["gcc", "-shared", "-fPIC", "-o", f"{room}/refusals.so", f"{room}/refusals.c", "-ldl"], check=True)


class Telling:
    """Where a run tells whether its growth of that number was refused: a descriptor, and what its environment has."""

    def __init__(self, descriptor, name, growth):
        self.descriptor, self.name = descriptor, name
        self.environment = {"REFUSED_GROWTH": str(growth), "REFUSED_TOLD": str(descriptor)}

    def came(self):
        return os.path.getsize(self.name) > 0


    def count(self):
        with open(self.name) as text:
            return int(text.read())


@contextlib.contextmanager
def refusing(room, growth):
    descriptor, name = tempfile.mkstemp(dir=room)
    try:
        yield Telling(descriptor, name, growth)
    finally:
        os.close(descriptor)
        os.remove(name)


@contextlib.contextmanager
def counting(room):
    """The same for a run that is refused nothing, and tells how many growths it has."""
    with refusing(room, 0) as telling:
        telling.environment["COUNTS_GROWTHS"] = "1"
        yield telling
