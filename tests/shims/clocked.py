"""Runs `labdesk found` and `labdesk serve` over a file at moments, and with random words, that are given to them.

A small library in front of the C library's clock_gettime and getentropy answers the time of day, and then the eight words that are
drawn with it, from a list of ticks in place of the machine's. Once the list is at its end there is no time any more; and words that
are drawn before any time was asked for, which are of no tick, are zeros. Where DRAWN stands, only so many ticks have words.
"""
import itertools
import os
import struct
import subprocess
import sys
import tempfile

sys.path.append(os.path.join(os.path.dirname(os.path.dirname(os.path.abspath(__file__))), "lib"))
import served  # noqa: E402
from served import PATIENCE  # noqa: E402

SHIM = r"""
#define _GNU_SOURCE
#include <fcntl.h>
#include <stdint.h>
#include <stdlib.h>
#include <string.h>
#include <sys/syscall.h>
#include <time.h>
#include <unistd.h>
static int ticks = -1, left = -1, drawn = 0;
static struct { int64_t seconds; uint64_t word; } tick;
int clock_gettime(clockid_t clock, struct timespec *now) {
    if (clock != CLOCK_REALTIME) return syscall(SYS_clock_gettime, clock, now);
    if (ticks < 0) ticks = open(getenv("TICKS"), O_RDONLY | O_CLOEXEC);
    if (read(ticks, &tick, sizeof tick) != sizeof tick) return -1;
    now->tv_sec = tick.seconds;
    now->tv_nsec = 0;
    left = !getenv("DRAWN") || drawn++ < atoi(getenv("DRAWN")) ? 8 : 0;
    return 0;
}
int getentropy(void *words, size_t length) {
    if (left < 0) { memset(words, 0, length); return 0; }
    if (length % sizeof tick.word || left < (int)(length / sizeof tick.word)) return -1;
    for (size_t at = 0; at < length; at += sizeof tick.word, left--, tick.word++)
        memcpy((char *)words + at, &tick.word, sizeof tick.word);
    return 0;
}
"""


def folder():
    """A folder for files, in memory where the system has such a place: what is looked at here doesn't hang on a disk, which a commit
    waits for."""
    return tempfile.TemporaryDirectory(dir="/dev/shm" if os.access("/dev/shm", os.W_OK) else None)


def make_shim(room):
    with open(f"{room}/clocked.c", "w") as text:
        text.write(SHIM)
    subprocess.run(["gcc", "-shared", "-fPIC", "-o", f"{room}/clocked.so", f"{room}/clocked.c", "-ldl"], check=True)


def clocked(room, path, ticks, *before):
    """What the environment of a run has, so that these ticks are its own: pairs of a moment in seconds and the first of eight words.
    They lie in a file beside the path. Other libraries of the room may stand before."""
    with open(f"{path}.ticks", "wb") as text:
        text.write(b"".join(struct.pack("=qQ", *tick) for tick in ticks))
    return {"LD_PRELOAD": ":".join(f"{room}/{name}.so" for name in (*before, "clocked")), "TICKS": f"{path}.ticks"}


def found_words(program, path, lab):
    return [program, "found", "--file", path, "--lab", lab]


def found(program, path, lab, content, environment):
    """The status, and what is written and told."""
    ran = subprocess.run(found_words(program, path, lab), input=content, capture_output=True, env=environment, timeout=PATIENCE)
    return ran.returncode, ran.stdout, ran.stderr


class Server(served.Server):
    """labdesk serve over a file, for so many connections, or the reason why it doesn't listen."""

    def __init__(self, program, path, count, environment, **further):
        super().__init__(program, path, count=count, environment=environment, **further)


def play(program, room, path, stream):
    """Plays a stream over a file: foundings, and between them calls that come to one server."""
    for is_founding, part in itertools.groupby(stream.events, lambda event: event.startswith(b"found ")):
        events = list(part)
        ticks = [tuple(map(int, event.partition(b"\n")[0].split()[-3:-1])) for event in events]
        contents = [event.partition(b"\n")[2] for event in events]
        if is_founding:
            for event, tick, content in zip(events, ticks, contents):
                told = found(program, path, event.split()[1].decode(), content, clocked(room, path, [tick]))
                assert told[0] == 0, told
        else:
            with Server(program, path, len(events), clocked(room, path, ticks)) as server:
                for content in contents:
                    server.answer(content)
                ended = server.ended()
                assert ended == (0, b"", b""), ended
