"""A library in front of the C library's calls that write, sync and send, by which a process kills itself with the signal 9 at one of them, so
that each place at which a kill may come does come.

KILLED_AT is the number of the call, counted from when the time of day was asked for KILLED_TICK times, or from the start where that is 0. Of
what that call was to write, half goes out: of a file's pages, each of which the system writes whole, those of the first half.
"""
import subprocess

SHIM = r"""
#define _GNU_SOURCE
#include <dlfcn.h>
#include <signal.h>
#include <stdlib.h>
#include <sys/socket.h>
#include <sys/types.h>
#include <time.h>
#include <unistd.h>
static long at, tick, ticks, count;
__attribute__((constructor)) static void begin(void) {
    at = getenv("KILLED_AT") ? atol(getenv("KILLED_AT")) : 0;
    tick = getenv("KILLED_TICK") ? atol(getenv("KILLED_TICK")) : 0;
}
static int comes(void) { return at > 0 && ticks >= tick && ++count == at; }
static void die(void) { kill(getpid(), SIGKILL); for (;;) pause(); }
/* How much of a write goes out: half of it; of a write into a file as many whole pages as lie in that half. */
static size_t part(off_t offset, size_t length) {
    off_t end = (offset + (off_t)(length / 2)) / 4096 * 4096;
    return offset < 0 ? length / 2 : end > offset ? (size_t)(end - offset) : 0;
}
#define BYTES(name, offset, more, given) \
    ssize_t name(int place, const void *bytes, size_t length more) { \
        static ssize_t (*real)(int, const void *, size_t more); \
        if (!real) real = dlsym(RTLD_NEXT, #name); \
        if (comes()) { if (part(offset, length)) real(place, bytes, part(offset, length) given); die(); } \
        return real(place, bytes, length given); \
    }
#define NOTHING
#define COMMA ,
BYTES(write, -1, NOTHING, NOTHING)
BYTES(pwrite, offset, COMMA off_t offset, COMMA offset)
BYTES(send, -1, COMMA int flags, COMMA flags)
#define OTHER(name, more, given) \
    int name(int place more) { \
        static int (*real)(int more); \
        if (!real) real = dlsym(RTLD_NEXT, #name); \
        if (comes()) die(); \
        return real(place given); \
    }
OTHER(fsync, NOTHING, NOTHING)
OTHER(fdatasync, NOTHING, NOTHING)
OTHER(ftruncate, COMMA off_t length, COMMA length)
int clock_gettime(clockid_t clock, struct timespec *now) {
    static int (*real)(clockid_t, struct timespec *);
    if (!real) real = dlsym(RTLD_NEXT, "clock_gettime");
    if (clock == CLOCK_REALTIME) ticks++;
    return real(clock, now);
}
"""


def make_shim(room):
    with open(f"{room}/killed.c", "w") as text:
        text.write(SHIM)
    subprocess.run(["gcc", "-shared", "-fPIC", "-o", f"{room}/killed.so", f"{room}/killed.c", "-ldl"], check=True)


def environment(at, tick):
    return {"KILLED_AT": str(at), "KILLED_TICK": str(tick)}
