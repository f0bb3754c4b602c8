"""A library in front of the C library's getentropy that hands out the bytes of a file, one after the other, and says how many it handed
out, so that it is seen which of them a program uses.

BYTES is the path of the file, and GIVEN that of another one, to which a line is added for each call: how many bytes it got. A call behind
the last byte fails.
"""
import hashlib
import subprocess

SHIM = r"""
#define _GNU_SOURCE
#include <fcntl.h>
#include <stdio.h>
#include <stdlib.h>
#include <unistd.h>
static int bytes = -1, given = -1;
int getentropy(void *words, size_t length) {
    if (bytes < 0) {
        bytes = open(getenv("BYTES"), O_RDONLY | O_CLOEXEC);
        given = open(getenv("GIVEN"), O_WRONLY | O_CREAT | O_APPEND | O_CLOEXEC, 0600);
    }
    if (read(bytes, words, length) != (ssize_t)length) return -1;
    dprintf(given, "%zu\n", length);
    return 0;
}
"""
# More than a server of a few connections draws.
MOST = 16_384


def make_shim(room):
    with open(f"{room}/drawn.c", "w") as text:
        text.write(SHIM)
    subprocess.run(["gcc", "-shared", "-fPIC", "-o", f"{room}/drawn.so", f"{room}/drawn.c"], check=True)


class Source:
    """Bytes that are as unlike as those of a hash, which a program is to draw in place of the machine's."""

    def __init__(self, room, name):
        self.bytes = b"".join(hashlib.sha256(f"{name} {at}".encode()).digest() for at in range(MOST // 32))
        self.given = f"{room}/{name}.given"
        with open(f"{room}/{name}.bytes", "wb") as out:
            out.write(self.bytes)
        self.environment = {"LD_PRELOAD": f"{room}/drawn.so", "BYTES": f"{room}/{name}.bytes", "GIVEN": self.given}

    def draws(self):
        """The bytes that each call got."""
        with open(self.given) as lines:
            lengths = [int(line) for line in lines]
        ends = [sum(lengths[:at]) for at in range(len(lengths) + 1)]
        return [self.bytes[begin:end] for begin, end in zip(ends, ends[1:])]
