"""A library in front of the C library's calls that read, write, accept and draw, which leaves room for so many bytes and then has them
fail, so that it is seen what a program does then.

NARROW has a word for each place, `PLACE:ROOM:ERROR:TIMES`: a descriptor's number, or `recv`, `send`, `accept` or `dup` for those calls
on any; how many bytes, or calls of `accept` and `dup`, go through; by which error the calls behind fail, where 0 stands for an answer
of no bytes; and how many of them fail before all go through again, where -1 stands for all. Where AT_ONCE stands, a read or write of
such a place takes at most so many bytes; where INTERRUPTED stands, so many reads of each such place are interrupted first; where
OTHER_ONES stands, each other one is. Where WIDER stands, the room of `recv` and of `send` is one byte more for each connection that is accepted.
On the descriptor in TELLS it is told in the end how often `recv` was called, and how many bytes it gave.
"""
import subprocess

SHIM = r"""
#define _GNU_SOURCE
#include <dlfcn.h>
#include <errno.h>
#include <fcntl.h>
#include <stdarg.h>
#include <stdio.h>
#include <stdlib.h>
#include <string.h>
#include <sys/socket.h>
#include <sys/types.h>
#include <unistd.h>
static struct place { char name[8]; long room, left; int error; long times, failed, interrupted; } places[8];
static int count = -1, is_other;
static long at_once, interrupted, accepted, asked, received;
static long number(const char *name) {
    const char *text = getenv(name);
    return text ? atol(text) : 0;
}
static struct place *named(const char *name) {
    if (count < 0) {
        char text[256], *rest = text, *word;
        snprintf(text, sizeof text, "%s", getenv("NARROW") ? getenv("NARROW") : "");
        count = 0;
        at_once = number("AT_ONCE");
        interrupted = number("INTERRUPTED");
        while ((word = strsep(&rest, " "))) {
            struct place *p = &places[count];
            if (sscanf(word, "%7[^:]:%ld:%d:%ld", p->name, &p->room, &p->error, &p->times) == 4) { p->left = p->room; count++; }
        }
    }
    for (int at = 0; at < count; at++) if (strcmp(places[at].name, name) == 0) return &places[at];
    return NULL;
}
static struct place *numbered(int place) {
    char name[16];
    snprintf(name, sizeof name, "%d", place);
    return named(name);
}
/* Whether a call that takes so many, which may become less, is answered in the real one's place; and how. */
static int answered(struct place *p, int is_in, size_t *length, ssize_t *answer) {
    if (!p) return 0;
    *answer = -1;
    if (strcmp(p->name, "recv") == 0) asked++;
    if (is_in && p->interrupted < interrupted) { p->interrupted++; errno = EINTR; return 1; }
    if (is_in && getenv("OTHER_ONES") && (is_other = !is_other)) { errno = EINTR; return 1; }
    if (p->times >= 0 && p->failed >= p->times) return 0;
    if (p->left == 0) { p->failed++; errno = p->error; *answer = p->error ? -1 : 0; return 1; }
    if (*length > (size_t)p->left) *length = p->left;
    if (at_once && *length > (size_t)at_once) *length = at_once;
    return 0;
}
static ssize_t passed(struct place *p, ssize_t length) {
    if (p && length > 0 && p->left > 0) p->left -= length;
    if (p && length > 0 && strcmp(p->name, "recv") == 0) received += length;
    return length;
}
__attribute__((destructor)) static void end(void) {
    if (getenv("TELLS")) dprintf(atoi(getenv("TELLS")), "%ld %ld", asked, received);
}
#define BYTES(name, of, is_in, buffer, more, given) \
    ssize_t name(int place, buffer bytes, size_t length more) { \
        static ssize_t (*real)(int, buffer, size_t more); \
        struct place *p = of; \
        ssize_t answer; \
        if (!real) real = dlsym(RTLD_NEXT, #name); \
        return answered(p, is_in, &length, &answer) ? answer : passed(p, real(place, bytes, length given)); \
    }
#define NOTHING
#define COMMA ,
BYTES(read, numbered(place), 1, void *, NOTHING, NOTHING)
BYTES(recv, named("recv"), 1, void *, COMMA int flags, COMMA flags)
BYTES(write, numbered(place), 0, const void *, NOTHING, NOTHING)
BYTES(send, named("send"), 0, const void *, COMMA int flags, COMMA flags)
int accept4(int place, struct sockaddr *address, socklen_t *length, int flags) {
    static int (*real)(int, struct sockaddr *, socklen_t *, int);
    struct place *p = named("accept"), *ends[2] = {named("recv"), named("send")};
    ssize_t answer;
    size_t one = 1;
    if (!real) real = dlsym(RTLD_NEXT, "accept4");
    if (answered(p, 0, &one, &answer)) return -1;
    if (p && p->left > 0) p->left--;
    place = real(place, address, length, flags);
    if (!getenv("WIDER") || place < 0) return place;
    for (int at = 0; at < 2; at++) if (ends[at]) { ends[at]->left = ends[at]->room + accepted; ends[at]->failed = 0; }
    accepted++;
    return place;
}
int fcntl(int place, int what, ...) {
    static int (*real)(int, int, ...);
    va_list words;
    void *word;
    ssize_t answer;
    size_t one = 1;
    if (!real) real = dlsym(RTLD_NEXT, "fcntl");
    va_start(words, what);
    word = va_arg(words, void *);
    va_end(words);
    if (what == F_DUPFD_CLOEXEC && answered(named("dup"), 0, &one, &answer)) return -1;
    return real(place, what, word);
}
"""


def make_shim(room):
    with open(f"{room}/narrow.c", "w") as text:
        text.write(SHIM)
    subprocess.run(["gcc", "-O1", "-shared", "-fPIC", "-o", f"{room}/narrow.so", f"{room}/narrow.c", "-ldl"], check=True)


def narrow(*places, **further):
    """What the environment of a run has, beside LD_PRELOAD: a place's name, its room, its error and how many calls fail."""
    words = " ".join(":".join(map(str, (*one, -1)[:4])) for one in places)
    return {"NARROW": words, **{name.upper(): str(value) for name, value in further.items()}}
