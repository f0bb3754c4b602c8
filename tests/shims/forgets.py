"""A disk under a file and its log, which a power cut leaves with what was synced, and which forgets what a failed sync had: as on Linux,
where a page whose writing failed counts as written, and no later sync writes it.

A library in front of the C library's calls that write, cut, sync and advise has, beside the file of FORGETS_PATH and its log, what is on
the disk of each (`.platter`), and which pages a sync has to write there yet (`.kept`). The files themselves are what the system has in
its memory, and reads. Both stay from one process to the next, as they do on a machine.

A sync writes the pages that are to be written. Of the syncs of both files, counted from the process's start, that of the number in
FORGETS_AT fails by EIO, as do so many as FORGETS_TIMES says, or one: nothing is written, and no page is to be written any more. Where
FORGETS_DROPS stands, the system follows an advice to let go of its memory (posix_fadvise), so that the disk is read then. Each call is
told in the file of FORGETS_STORY, to which others may add.

Moments and words are given in TICKS, as by clocked.py. Words that are of no tick are counted up.
"""
import os
import random
import shutil
import struct
import subprocess

SHIM = r"""
#define _GNU_SOURCE
#include <errno.h>
#include <fcntl.h>
#include <stdint.h>
#include <stdio.h>
#include <stdlib.h>
#include <string.h>
#include <sys/mman.h>
#include <sys/stat.h>
#include <sys/syscall.h>
#include <sys/uio.h>
#include <time.h>
#include <unistd.h>
enum { PAGE = 4096, MOST = 1 << 14 };
/* Of a file: its node, the least length that it had since it was synced, and which pages are to be written. */
static struct kept { int64_t node, least; unsigned char unwritten[MOST]; } *kept[2];
static char names[2][4096];
static int platters[2], story;
static long at, times, drops, syncs;
static int opened(const char *name, int flags) { return syscall(SYS_openat, AT_FDCWD, name, flags | O_CLOEXEC, 0600); }
static void *beside(const char *name, const char *end, int *place) {
    char whole[4200];
    snprintf(whole, sizeof whole, "%s%s", name, end);
    *place = opened(whole, O_RDWR | O_CREAT);
    return mmap(NULL, sizeof(struct kept), PROT_READ | PROT_WRITE, MAP_SHARED, *place, 0);
}
__attribute__((constructor)) static void begin(void) {
    int place;
    for (int which = 0; which < 2; which++) {
        snprintf(names[which], sizeof names[which], "%s%s", getenv("FORGETS_PATH"), which ? "-wal" : "");
        kept[which] = beside(names[which], ".kept", &place);
        syscall(SYS_close, place);
        beside(names[which], ".platter", &platters[which]);
    }
    story = opened(getenv("FORGETS_STORY"), O_WRONLY | O_APPEND);
    at = atol(getenv("FORGETS_AT"));
    times = atol(getenv("FORGETS_TIMES"));
    drops = atol(getenv("FORGETS_DROPS"));
}
static void tell(char what, int which, int64_t place, int64_t length, const void *bytes) {
    struct { char what, which, none[6]; int64_t place, length; } head = {what, '0' + which, {0}, place, length};
    struct iovec parts[2] = {{&head, sizeof head}, {(void *)bytes, bytes ? length : 0}};
    (void)!syscall(SYS_writev, story, parts, 2);
}
static void renew(int which, int64_t node) {
    memset(kept[which], 0, sizeof *kept[which]);
    kept[which]->node = node;
    (void)!syscall(SYS_ftruncate, platters[which], 0L);
    tell('n', which, 0, 0, NULL);
}
/* Which of the two is open there, or -1. */
static int which_of(int fd) {
    struct stat own, there;
    if (fd < 0 || fstat(fd, &own) || !S_ISREG(own.st_mode)) return -1;
    for (int which = 0; which < 2; which++) {
        if (stat(names[which], &there) || there.st_dev != own.st_dev || there.st_ino != own.st_ino) continue;
        if (kept[which]->node != (int64_t)own.st_ino) renew(which, own.st_ino);
        return which;
    }
    return -1;
}
static ssize_t wrote(int which, off_t place, ssize_t length, const void *bytes) {
    if (which < 0 || length <= 0) return length;
    for (long page = place / PAGE; page <= (place + length - 1) / PAGE; page++) kept[which]->unwritten[page] = 1;
    tell('w', which, place, length, bytes);
    return length;
}
ssize_t pwrite(int fd, const void *bytes, size_t length, off_t place) {
    return wrote(which_of(fd), place, syscall(SYS_pwrite64, fd, bytes, length, place), bytes);
}
ssize_t write(int fd, const void *bytes, size_t length) {
    int which = which_of(fd);
    off_t place = which < 0 ? 0 : lseek(fd, 0, SEEK_CUR);
    return wrote(which, place, syscall(SYS_write, fd, bytes, length), bytes);
}
int ftruncate(int fd, off_t length) {
    int which = which_of(fd), done = syscall(SYS_ftruncate, fd, length);
    if (which < 0 || done) return done;
    if (kept[which]->least > length) kept[which]->least = length;
    for (long page = (length + PAGE - 1) / PAGE; page < MOST; page++) kept[which]->unwritten[page] = 0;
    tell('t', which, 0, length, NULL);
    return 0;
}
/* Copies the pages that are to be written, or those that aren't, between the file and what is on the disk: even ones, odd ones, or all. */
static void copy(int which, int from, int to, int unwritten, long parts, int64_t length) {
    char page[PAGE];
    for (int64_t place = 0; place < length; place += PAGE) {
        if (kept[which]->unwritten[place / PAGE] != unwritten || !(parts >> place / PAGE % 2 & 1)) continue;
        int64_t size = length - place < PAGE ? length - place : PAGE;
        memset(page, 0, sizeof page);
        (void)!syscall(SYS_pread64, from, page, size, place);
        (void)!syscall(SYS_pwrite64, to, page, size, place);
    }
}
static int64_t length_of(int fd) {
    struct stat own;
    return fstat(fd, &own) ? 0 : own.st_size;
}
static int synced(int fd, int call) {
    int which = which_of(fd);
    if (which < 0) return syscall(call, fd);
    syncs++;
    int fails = at > 0 && syncs >= at && syncs < at + times, source = opened(names[which], O_RDONLY);
    int64_t length = length_of(source);
    if (!fails) {
        if (length_of(platters[which]) > kept[which]->least) (void)!syscall(SYS_ftruncate, platters[which], kept[which]->least);
        (void)!syscall(SYS_ftruncate, platters[which], length);
        copy(which, source, platters[which], 1, 3, length);
        kept[which]->least = length;
    }
    syscall(SYS_close, source);
    memset(kept[which]->unwritten, 0, sizeof kept[which]->unwritten);
    tell(fails ? 'x' : 's', which, syncs, 0, NULL);
    errno = EIO;
    return fails ? -1 : 0;
}
int fsync(int fd) { return synced(fd, SYS_fsync); }
int fdatasync(int fd) { return synced(fd, SYS_fdatasync); }
int posix_fadvise(int fd, off_t place, off_t length, int advice) {
    int which = which_of(fd);
    if (which < 0) return syscall(SYS_fadvise64, fd, place, length, advice) ? errno : 0;
    if (advice != POSIX_FADV_DONTNEED) return 0;
    int target = opened(names[which], O_WRONLY);
    copy(which, platters[which], target, 0, drops, length_of(target));
    syscall(SYS_close, target);
    tell('d', which, drops, 0, NULL);
    return 0;
}
int unlink(const char *name) {
    for (int which = 0; which < 2; which++) {
        if (!strcmp(name, names[which])) { kept[which]->node = 0; tell('u', which, 0, 0, NULL); }
    }
    return syscall(SYS_unlink, name);
}
static int ticks = -1, left;
static uint64_t spare;
static struct { int64_t seconds; uint64_t word; } tick;
int clock_gettime(clockid_t clock, struct timespec *now) {
    if (clock != CLOCK_REALTIME) return syscall(SYS_clock_gettime, clock, now);
    if (ticks < 0) ticks = opened(getenv("TICKS"), O_RDONLY);
    if (syscall(SYS_read, ticks, &tick, sizeof tick) != sizeof tick) return -1;
    now->tv_sec = tick.seconds;
    now->tv_nsec = 0;
    left = 8;
    return 0;
}
int getentropy(void *words, size_t length) {
    for (size_t place = 0; place < length; place += 8) {
        uint64_t word = left > 0 ? tick.word++ : (spare += 0x9e3779b97f4a7c15u);
        if (left > 0) left--;
        memcpy((char *)words + place, &word, length - place < 8 ? length - place : 8);
    }
    return 0;
}
"""
PAGE, MOST, SECTOR = 4096, 1 << 14, 512
ENDS = ("", "-wal")
HEAD = struct.Struct("=cc6xqq")


def make_shim(room):
    with open(f"{room}/forgets.c", "w") as text:
        text.write(SHIM)
    subprocess.run(["gcc", "-O1", "-shared", "-fPIC", "-o", f"{room}/forgets.so", f"{room}/forgets.c"], check=True)


def environment(room, path, ticks, at=0, times=1, drops=0):
    """What a run has: its sync of that number, and so many, fail; and what ticks are its own."""
    with open(f"{path}.ticks", "wb") as text:
        text.write(b"".join(struct.pack("=qQ", *tick) for tick in ticks))
    return {"LD_PRELOAD": f"{room}/forgets.so", "TICKS": f"{path}.ticks", "FORGETS_PATH": path, "FORGETS_STORY": f"{path}.story",
            "FORGETS_AT": str(at), "FORGETS_TIMES": str(times), "FORGETS_DROPS": str(drops)}


class Disk:
    """A file as the system has it in its memory, and as it is on the disk."""

    def __init__(self, held):
        self.is_there, self.memory, self.platter = held is not None, bytearray(held or b""), bytearray(held or b"")
        self.unwritten, self.least = set(), len(self.memory)

    def take(self, what, place, length, held):
        """Takes a call of the story."""
        if what == b"n":
            self.__init__(b"")
        elif what == b"u":
            self.__init__(None)
        elif what == b"w":
            self.memory.extend(bytes(max(0, place - len(self.memory))))
            self.memory[place:place + length] = held
            self.unwritten.update(range(place // PAGE, (place + length - 1) // PAGE + 1))
        elif what == b"t":
            self.memory = cut(self.memory, length)
            self.least = min(self.least, length)
            self.unwritten = {page for page in self.unwritten if page * PAGE < length}
        elif what == b"s":
            self.platter = self.mixed(lambda place: True, len(self.memory))
            self.unwritten, self.least = set(), len(self.memory)
        elif what == b"x":
            self.unwritten = set()
        elif what == b"d":
            for page in range((len(self.memory) + PAGE - 1) // PAGE):
                if page not in self.unwritten and place >> page % 2 & 1:
                    begin, end = page * PAGE, min(page * PAGE + PAGE, len(self.memory))
                    self.memory[begin:end] = cut(self.platter[begin:end], end - begin)

    def mixed(self, takes, length):
        """What is on the disk, with those sectors of the pages that are to be written which are taken."""
        platter = cut(cut(self.platter, min(len(self.platter), self.least, length)), length)
        for page in self.unwritten:
            for place in range(page * PAGE, min(page * PAGE + PAGE, length), SECTOR):
                if takes(place):
                    end = min(place + SECTOR, length)
                    platter[place:end] = cut(self.memory[place:end], end - place)
        return platter

    def lost(self):
        """What a power cut leaves of it, if it loses all that wasn't synced."""
        return bytes(self.platter) if self.is_there else None

    def left(self, draw):
        """What else it may leave: all that is to be written, too, or some of it."""
        if not self.is_there:
            return [None] * 2
        whole = self.mixed(lambda place: True, len(self.memory))
        some = self.mixed(lambda place: draw.random() < 0.5, draw.choice((len(self.platter), len(self.memory))))
        return [bytes(whole), bytes(some)]


def cut(held, length):
    """These bytes, cut or filled with zeros to that length."""
    return held[:length] + bytes(max(0, length - len(held)))


class Story:
    """The story of a file and its log: what the calls were of those who wrote them, and marks between these."""

    def __init__(self, source, path):
        """Puts the file as it is before, and its log where there is one: both are on the disk."""
        self.path = path
        for end in ENDS:
            name = path + end
            for one in ("", ".platter", ".kept"):
                if os.path.exists(name + one):
                    os.remove(name + one)
            node = length = 0
            if os.path.exists(source + end):
                shutil.copyfile(source + end, name)
                shutil.copyfile(source + end, f"{name}.platter")
                node, length = os.stat(name).st_ino, os.path.getsize(name)
            with open(f"{name}.kept", "wb") as kept:
                kept.write(struct.pack("=qq", node, length) + bytes(MOST))
        with open(f"{path}.story", "wb"):
            pass
        self.before = [bytes_at(path + end) for end in ENDS]

    def mark(self, number):
        with open(f"{self.path}.story", "ab", buffering=0) as story:
            story.write(HEAD.pack(b"m", b"-", number, 0))

    def calls(self):
        with open(f"{self.path}.story", "rb") as story:
            told = story.read()
        at = 0
        while at < len(told):
            what, which, place, length = HEAD.unpack_from(told, at)
            at += HEAD.size
            held = told[at:at + length] if what == b"w" else b""
            at += len(held)
            yield what, which, place, length, held

    def cuts(self, seed, is_each):
        """Behind each call, or before and behind each sync: the mark before it, and what the file and its log may be then."""
        disks, mark, draw = [Disk(held) for held in self.before], 0, random.Random(seed)
        for what, which, place, length, held in self.calls():
            if what == b"m":
                mark = place
            elif is_each or what in b"sx":
                yield from ((mark, image) for image in zip(*(disk.left(draw) for disk in disks)))
            if what != b"m":
                disks[int(which)].take(what, place, length, held)
            yield mark, tuple(disk.lost() for disk in disks)
        self.check(disks)

    def check(self, disks):
        """What the library has and what was made of its story are one."""
        for end, disk in zip(ENDS, disks):
            if disk.is_there:
                assert bytes_at(f"{self.path}{end}.platter") == bytes(disk.platter), "another platter"
                assert bytes_at(self.path + end) == bytes(disk.memory), "another file"

    def failed(self):
        """How many syncs failed, and how many there were."""
        whats = [what for what, *_ in self.calls()]
        return whats.count(b"x"), whats.count(b"x") + whats.count(b"s")

    def remove(self):
        for end in ENDS:
            for one in ("", ".platter", ".kept"):
                remove(f"{self.path}{end}{one}")
        for end in (".story", ".ticks", "-shm"):
            remove(self.path + end)


def remove(path):
    if os.path.exists(path):
        os.remove(path)


def bytes_at(path):
    if not os.path.exists(path):
        return None
    with open(path, "rb") as file:
        return file.read()
