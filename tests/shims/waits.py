"""A library in front of the C library's calls of files by which a process waits at one of them, until it is let go: so that another
process comes in between two of its calls, each time.

WAITS_CALL names the call: `open`, `lock` (fcntl with a range), `sync` (fsync and fdatasync), `pwrite` or `unlink`. Of these the calls
count that are on the path of WAITS_WHERE, or, where WAITS_BEGINS stands, on any path that begins so. At that of the number in WAITS_AT
the process says by the file WAITS_SIGN.held that it has come, and goes on once the file WAITS_SIGN.go is there. Where there is no file
for it to wait at, it goes on. How many calls counted is told in WAITS_SIGN.count.
"""
import os
import subprocess
import time

SHIM = r"""
#define _GNU_SOURCE
#include <fcntl.h>
#include <stdarg.h>
#include <stdio.h>
#include <stdlib.h>
#include <string.h>
#include <sys/syscall.h>
#include <sys/types.h>
#include <unistd.h>
static long count;
static void mark(const char *end) {
    char name[4200], text[32];
    snprintf(name, sizeof name, "%s%s", getenv("WAITS_SIGN"), end);
    int place = syscall(SYS_openat, AT_FDCWD, name, O_WRONLY | O_CREAT | O_CLOEXEC, 0600);
    (void)!syscall(SYS_write, place, text, snprintf(text, sizeof text, "%ld", count));
    syscall(SYS_close, place);
}
static void meets(const char *call, const char *path) {
    const char *wanted = getenv("WAITS_CALL"), *where = getenv("WAITS_WHERE");
    char name[4200];
    if (!wanted || strcmp(call, wanted) || (getenv("WAITS_BEGINS") ? strncmp(path, where, strlen(where)) : strcmp(path, where))) return;
    if (++count != atol(getenv("WAITS_AT"))) return;
    mark(".held");
    snprintf(name, sizeof name, "%s.go", getenv("WAITS_SIGN"));
    for (int tries = 0; tries < 300000 && access(name, F_OK); tries++) usleep(1000);
}
static void meets_at(const char *call, int place) {
    char link[64], path[4096];
    snprintf(link, sizeof link, "/proc/self/fd/%d", place);
    ssize_t length = readlink(link, path, sizeof path - 1);
    if (length < 0) return;
    path[length] = 0;
    meets(call, path);
}
__attribute__((destructor)) static void end(void) { if (getenv("WAITS_CALL")) mark(".count"); }
int open(const char *name, int flags, ...) {
    va_list further;
    va_start(further, flags);
    int mode = va_arg(further, int);
    va_end(further);
    meets("open", name);
    return syscall(SYS_openat, AT_FDCWD, name, flags, mode);
}
int fcntl(int place, int command, ...) {
    va_list further;
    va_start(further, command);
    void *word = va_arg(further, void *);
    va_end(further);
    if (command == F_OFD_SETLK || command == F_SETLK) meets_at("lock", place);
    return syscall(SYS_fcntl, place, command, word);
}
int fcntl64(int place, int command, ...) __attribute__((alias("fcntl")));
int fsync(int place) { meets_at("sync", place); return syscall(SYS_fsync, place); }
int fdatasync(int place) { meets_at("sync", place); return syscall(SYS_fdatasync, place); }
ssize_t pwrite(int place, const void *bytes, size_t length, off_t at) {
    meets_at("pwrite", place);
    return syscall(SYS_pwrite64, place, bytes, length, at);
}
int unlink(const char *name) { meets("unlink", name); return syscall(SYS_unlink, name); }
"""
PATIENCE = 300


def make_shim(room):
    with open(f"{room}/waits.c", "w") as text:
        text.write(SHIM)
    subprocess.run(["gcc", "-O1", "-shared", "-fPIC", "-o", f"{room}/waits.so", f"{room}/waits.c"], check=True)


class Hold:
    """A place at which a process is to wait, and what its environment has. The call is on that path, or on one that begins so."""

    def __init__(self, room, sign, call, where, at=1, begins=False):
        self.sign = sign
        given = {"LD_PRELOAD": f"{room}/waits.so", "WAITS_CALL": call, "WAITS_WHERE": where, "WAITS_AT": str(at), "WAITS_SIGN": self.sign}
        self.environment = {**given, "WAITS_BEGINS": "1"} if begins else given

    def comes(self, process):
        """Waits until the process has come to the place, or has ended. Whether it has come."""
        until = time.monotonic() + PATIENCE
        while not os.path.exists(f"{self.sign}.held"):
            if process.poll() is not None or time.monotonic() > until:
                return os.path.exists(f"{self.sign}.held")
            time.sleep(0.001)
        return True

    def let_go(self):
        with open(f"{self.sign}.go", "wb"):
            pass

    def count(self):
        with open(f"{self.sign}.count") as text:
            return int(text.read())
