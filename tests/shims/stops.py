"""A library in front of the C library's calls of files, by which one of the two files of a laboratory, the file or its log, is stopped:
so many calls are passed on, and each later one fails. It keeps beside each of the two what it held when it was last synced, which is
all of it that a machine has to have where it stops too.

STOPPED_PATH names the file, STOPPED is `file` or `log`, and PASSED the calls that are passed on. They are counted from the program's
start; where FROM_CLOCK stands, from when it first asks for the time of day. How many there were is told in the file named by COUNTED.
"""
import contextlib
import os
import shutil
import subprocess

SHIM = r"""
#define _GNU_SOURCE
#include <dlfcn.h>
#include <errno.h>
#include <fcntl.h>
#include <stdarg.h>
#include <stdio.h>
#include <stdlib.h>
#include <string.h>
#include <sys/stat.h>
#include <sys/syscall.h>
#include <time.h>
#include <unistd.h>
static char kinds[1024], kind = 0, path[4096], waits = 0;
static long passed = 0, count = 0;
#define REAL(type, name, ...) static type (*real)(__VA_ARGS__); if (!real) real = dlsym(RTLD_NEXT, #name)
__attribute__((constructor)) static void begin(void) {
    const char *which = getenv("STOPPED");
    kind = which && *which == 'l' ? 'l' : 'f';
    snprintf(path, sizeof path, "%s", getenv("STOPPED_PATH"));
    passed = atol(getenv("PASSED"));
    waits = getenv("FROM_CLOCK") != NULL;
}
__attribute__((destructor)) static void tell(void) {
    char text[32];
    int to = syscall(SYS_openat, AT_FDCWD, getenv("COUNTED"), O_WRONLY | O_CREAT | O_TRUNC, 0600);
    (void)!syscall(SYS_write, to, text, snprintf(text, sizeof text, "%ld", count));
}
static char kind_of(int fd) { return fd >= 0 && fd < 1024 ? kinds[fd] : 0; }
static int stops(int fd) {
    if (kind_of(fd) != kind || waits || ++count <= passed) return 0;
    errno = EIO;
    return 1;
}
static void keep(int fd) {
    static char text[1 << 16], name[4200];
    long at = 0, size;
    if (!kind_of(fd)) return;
    snprintf(name, sizeof name, "%s%s.synced", path, kind_of(fd) == 'l' ? "-wal" : "");
    int to = syscall(SYS_openat, AT_FDCWD, name, O_WRONLY | O_CREAT | O_TRUNC, 0600);
    while ((size = syscall(SYS_pread64, fd, text, sizeof text, at)) > 0) {
        (void)!syscall(SYS_write, to, text, size);
        at += size;
    }
    syscall(SYS_close, to);
}
int open(const char *name, int flags, ...) {
    REAL(int, open, const char *, int, int);
    va_list further;
    va_start(further, flags);
    int fd = real(name, flags, va_arg(further, int));
    va_end(further);
    size_t length = strlen(path);
    if (fd >= 0 && fd < 1024) {
        const char *rest = strncmp(name, path, length) ? "?" : name + length;
        /* (a path that ends in '-' stands for all that have a number behind it) */
        if (length && path[length - 1] == '-') rest += strspn(rest, "0123456789");
        kinds[fd] = !*rest ? 'f' : strcmp(rest, "-wal") ? 0 : 'l';
    }
    return fd;
}
int close(int fd) {
    REAL(int, close, int);
    if (kind_of(fd)) kinds[fd] = 0;
    return real(fd);
}
ssize_t pread(int fd, void *to, size_t size, off_t at) {
    REAL(ssize_t, pread, int, void *, size_t, off_t);
    return stops(fd) ? -1 : real(fd, to, size, at);
}
ssize_t pwrite(int fd, const void *from, size_t size, off_t at) {
    REAL(ssize_t, pwrite, int, const void *, size_t, off_t);
    return stops(fd) ? -1 : real(fd, from, size, at);
}
int ftruncate(int fd, off_t size) {
    REAL(int, ftruncate, int, off_t);
    return stops(fd) ? -1 : real(fd, size);
}
int fsync(int fd) {
    REAL(int, fsync, int);
    if (stops(fd)) return -1;
    keep(fd);
    return real(fd);
}
int fdatasync(int fd) {
    REAL(int, fdatasync, int);
    if (stops(fd)) return -1;
    keep(fd);
    return real(fd);
}
int statx(int fd, const char *name, int flags, unsigned mask, struct statx *to) {
    REAL(int, statx, int, const char *, int, unsigned, struct statx *);
    return !*name && stops(fd) ? -1 : real(fd, name, flags, mask, to);
}
int clock_gettime(clockid_t clock, struct timespec *now) {
    REAL(int, clock_gettime, clockid_t, struct timespec *);
    if (clock == CLOCK_REALTIME) waits = 0;
    return real(clock, now);
}
"""
# More calls than any run has.
EACH = 1_000_000
ENDS = ("", "-wal")


def make_shim(room):
    with open(f"{room}/stops.c", "w") as text:
        text.write(SHIM)
    subprocess.run(["gcc", "-shared", "-fPIC", "-o", f"{room}/stops.so", f"{room}/stops.c", "-ldl"], check=True)


def environment(path, which, calls, from_clock):
    """What a run has to have in its environment beside the library."""
    told = {"STOPPED_PATH": path, "STOPPED": which, "PASSED": str(calls), "COUNTED": f"{path}.counted"}
    return {**told, "FROM_CLOCK": "1"} if from_clock else told


def counted(path):
    with open(f"{path}.counted") as text:
        return int(text.read())


def put(source, path):
    """The file as it is before a run, and its log where there is one, both synced; or no file."""
    remove(path)
    for end in ENDS if source else ():
        if os.path.exists(source + end):
            shutil.copy(source + end, path + end)
            shutil.copy(source + end, f"{path}{end}.synced")


def remove(path):
    for end in ("", "-wal", "-shm", ".synced", "-wal.synced", ".counted", ".ticks"):
        with contextlib.suppress(FileNotFoundError):
            os.remove(path + end)


def bytes_at(path):
    with contextlib.suppress(FileNotFoundError), open(path, "rb") as file:
        return file.read()
    return None


def images(path):
    """What the file and its log hold as the program has written them, and as the machine leaves them where it stops."""
    return [tuple(bytes_at(path + end + synced) for end in ENDS) for synced in ("", ".synced")]


def put_image(image, path):
    remove(path)
    for end, held in zip(ENDS, image):
        if held is not None:
            with open(path + end, "wb") as file:
                file.write(held)
