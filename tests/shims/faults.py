"""A library in front of the C library's calls that read, write and sync, which has one of them fail, so that it is seen what a program
does then.

Of the call in FAULT_CALL, as `pread`, those count that are made on FAULT_WHERE: a descriptor's number, or the whole path of a file. That
of the number in FAULT_AT fails; or, where FAULT_BEHIND stands, the first after so many bytes went through, none of which goes past
them. It fails by the number in FAULT_ERROR, or by EIO, and so do as many calls as FAULT_TIMES says, or one; those after them are made.
Where FAULT_MOST stands, a call takes at most so many bytes.

On the descriptor in FAULT_TOLD it is told by `x` for each that failed, and then by `o` for each further call that takes bytes out of the
program, to the place in FAULT_OUT, or to the same place where that isn't given. Where COUNTS_CALLS stands, it is told there in the end how many calls counted.
"""
import contextlib
import errno
import os
import subprocess
import tempfile

SHIM = r"""
#define _GNU_SOURCE
#include <dlfcn.h>
#include <errno.h>
#include <stdio.h>
#include <stdlib.h>
#include <string.h>
#include <sys/socket.h>
#include <sys/types.h>
#include <unistd.h>
static const char *call, *where, *out;
static long at, behind, most, error, times, told, count, passed, failed;
static long number(const char *name, long otherwise) {
    const char *text = getenv(name);
    return text ? atol(text) : otherwise;
}
static void begin(void) {
    if (call) return;
    where = getenv("FAULT_WHERE");
    out = getenv("FAULT_OUT") ? getenv("FAULT_OUT") : where;
    at = number("FAULT_AT", 0);
    behind = number("FAULT_BEHIND", -1);
    most = number("FAULT_MOST", -1);
    error = number("FAULT_ERROR", EIO);
    times = number("FAULT_TIMES", 1);
    told = number("FAULT_TOLD", -1);
    call = getenv("FAULT_CALL") ? getenv("FAULT_CALL") : "";
}
static int is_there(int place, const char *where) {
    char link[64], path[4096];
    ssize_t length;
    if (!where) return 0;
    if (where[0] != '/') return place == atoi(where);
    snprintf(link, sizeof link, "/proc/self/fd/%d", place);
    length = readlink(link, path, sizeof path - 1);
    if (length < 0) return 0;
    path[length] = 0;
    return strcmp(path, where) == 0;
}
static void tell(const char *what) {
    static ssize_t (*real)(int, const void *, size_t);
    if (!real) real = dlsym(RTLD_NEXT, "write");
    if (told >= 0) (void)!real(told, what, strlen(what));
}
/* Whether the call fails; how many bytes it may take. */
static int fails(const char *name, int place, int is_out, size_t *length) {
    begin();
    if (is_out && failed >= times && is_there(place, out)) tell("o");
    if (strcmp(name, call) != 0 || !is_there(place, where)) return 0;
    count++;
    if (length && most >= 0 && *length > (size_t)most) *length = most;
    if (failed < times && (behind >= 0 ? passed == behind : at > 0 && count >= at)) {
        failed++;
        tell("x");
        errno = error;
        return 1;
    }
    if (length && behind >= 0 && failed == 0 && passed + (long)*length > behind) *length = behind - passed;
    return 0;
}
static ssize_t done(const char *name, int place, ssize_t length) {
    if (length > 0 && strcmp(name, call) == 0 && is_there(place, where)) passed += length;
    return length;
}
__attribute__((destructor)) static void end(void) {
    char text[32];
    begin();
    snprintf(text, sizeof text, "%ld", count);
    if (getenv("COUNTS_CALLS")) tell(text);
}
#define BYTES(name, out, buffer, more, given) \
    ssize_t name(int place, buffer bytes, size_t length more) { \
        static ssize_t (*real)(int, buffer, size_t more); \
        if (!real) real = dlsym(RTLD_NEXT, #name); \
        return fails(#name, place, out, &length) ? -1 : done(#name, place, real(place, bytes, length given)); \
    }
#define NOTHING
#define COMMA ,
BYTES(read, 0, void *, NOTHING, NOTHING)
BYTES(pread, 0, void *, COMMA off_t offset, COMMA offset)
BYTES(recv, 0, void *, COMMA int flags, COMMA flags)
BYTES(write, 1, const void *, NOTHING, NOTHING)
BYTES(pwrite, 1, const void *, COMMA off_t offset, COMMA offset)
BYTES(send, 1, const void *, COMMA int flags, COMMA flags)
#define OTHER(name, more, given) \
    int name(int place more) { \
        static int (*real)(int more); \
        if (!real) real = dlsym(RTLD_NEXT, #name); \
        return fails(#name, place, 0, NULL) ? -1 : real(place given); \
    }
OTHER(fsync, NOTHING, NOTHING)
OTHER(fdatasync, NOTHING, NOTHING)
OTHER(ftruncate, COMMA off_t length, COMMA length)
"""


def make_shim(room):
    with open(f"{room}/faults.c", "w") as text:
        text.write(SHIM)
    subprocess.run(["gcc", "-shared", "-fPIC", "-o", f"{room}/faults.so", f"{room}/faults.c", "-ldl"], check=True)


class Failing:
    """Where a run tells of its failing call: a descriptor, and what its environment has, beside LD_PRELOAD."""

    def __init__(self, descriptor, call, where, further):
        self.descriptor = descriptor
        self.environment = {"FAULT_CALL": call, "FAULT_WHERE": str(where), "FAULT_TOLD": str(descriptor), **further}

    def told(self):
        return os.pread(self.descriptor, 1_000_000, 0).decode()


@contextlib.contextmanager
def failing(room, call, where, error=errno.EIO, **further):
    """That call on that place fails: `at` says which one, `behind` behind how many bytes, `times` how many, `most` how much one takes,
    and `out` where no more is to go out then."""
    words = {f"FAULT_{name.upper()}": str(value) for name, value in further.items()}
    descriptor, name = tempfile.mkstemp(dir=room)
    os.remove(name)
    try:
        yield Failing(descriptor, call, where, {"FAULT_ERROR": str(error), **words})
    finally:
        os.close(descriptor)


@contextlib.contextmanager
def counting(room, call, where, **further):
    """No call fails, and `told` answers how many there were."""
    with failing(room, call, where, **further) as telling:
        telling.environment["COUNTS_CALLS"] = "1"
        yield telling
