#!/usr/bin/env python3
"""Makes the table of docs/PERFORMANCE.md that has what a request costs: `labdesk serve` over a file, beside the C library by itself.

    bench/beside.py [PROGRAM [SIZE ..]]     prints the table; without a program, over the one that is proved. A SIZE is a part of the name
                                            of one (bench/sized.py); without any, all are measured
    bench/beside.py --time [PROGRAM ..]     takes the processor's time alone, which needs no valgrind

For each size a file is made (bench/sized.py). Over one copy of it `labdesk serve` answers requests on this machine's own network. From
them and their replies the statements are written down that the program runs for them (bench/statements.py), with all values. These
are played over another copy by a small C program (bench/plays.c). In the end both files have the same rows.

All kinds of requests are asked for in batches, by turns. The first batch of each counts for nothing, and a figure is that of the least
of the others, by the request. So the copying of the log into the file, at a thousand pages, is in none of them. A figure is either the
instructions that the process which has the file runs outside the kernel, by `valgrind --tool=callgrind`; these are nearly the same
from run to run. Or it is the processor's time of that process, the kernel's for it included. The speed of a machine that others share
changes by itself. So times are taken six times over all sizes, and the figure is the least of the six runs. `labdesk` reads the request and
writes the reply besides, and hashes; the C program does neither. The password of an opening and of a signature has 10,000 rounds of
PBKDF2. What these take is taken off, and told below the table: a ninth of what an opening costs more by a password of 100,000 rounds.

It wants the Debian packages gcc and libsqlite3-dev, and valgrind for the instructions. A file has to be open within a quarter of an hour,
or its sessions have ended before the first request.
"""
import contextlib
import datetime
import os
import pathlib
import re
import shutil
import subprocess
import sys
import tempfile
import time

sys.dont_write_bytecode = True
from children import compiled, proved_program  # noqa: E402
from serving import Server  # noqa: E402
from sized import BATCHES, KINDS, SIZES, begin  # noqa: E402
from statements import Play  # noqa: E402
import files  # noqa: E402

GRIND = ["valgrind", "-q", "--tool=callgrind", "--instr-atstart=no"]
# By which measure how many batches follow the one that counts for nothing, and how many runs there are.
COUNTED = {"instructions": 2, "time": BATCHES - 1}
RUNS = {"instructions": 1, "time": 6}
WITH_PASSWORD = ("signing", "opening")
# The openings by a password of 100,000 rounds, in a batch.
LONG = 2


# ---- by which measure


class Time:
    """The processor's time of the server."""

    def __init__(self, room):
        self.before = ()

    def begin(self, server):
        self.server, self.begun = server, server.spent()

    def end(self):
        return self.server.spent() - self.begun

    def played(self, plays, file, play):
        """What each part took of the play over the file."""
        told = subprocess.run([plays, file], stdin=open(play), stdout=subprocess.PIPE, check=True, text=True).stdout
        return [(name, float(seconds)) for name, _, seconds in map(str.split, told.splitlines())]


class Instructions:
    """The instructions of the server, by callgrind, which begins and prints them when its own channel says so."""

    def __init__(self, room):
        self.out = room / "dumped"
        self.before = (*GRIND, f"--callgrind-out-file={self.out}")

    def say(self, *words):
        subprocess.run(["vgdb", f"--pid={self.server.process.pid}", *words], check=True, stdout=subprocess.DEVNULL, stderr=subprocess.DEVNULL)

    def begin(self, server):
        self.server = server
        for old in self.dumps():
            old.unlink()
        self.say("instrumentation", "on")
        self.say("zero")

    def end(self):
        self.say("dump")
        self.say("instrumentation", "off")
        return total(self.dumps()[-1])

    def dumps(self):
        return sorted(self.out.parent.glob(self.out.name + ".*"), key=lambda path: int(path.suffix[1:]))

    def played(self, plays, file, play):
        for old in self.dumps():
            old.unlink()
        told = subprocess.run([*self.before, plays, file], stdin=open(play), stdout=subprocess.PIPE, check=True, text=True).stdout
        names = [line.split()[0] for line in told.splitlines()]
        return list(zip(names, map(total, self.dumps()), strict=True))


def total(dump):
    return int(re.search(r"^(?:summary|totals): (\d+)", dump.read_text(), re.M)[1])


# ---- a run


class Run:
    """A run over a size by a measure: what each request took of labdesk, and of the library."""

    def __init__(self, size, base, room, measure, long):
        self.size, self.measure, self.long = size, measure, long
        self.ours, self.theirs, self.play = (str(room / name) for name in ("ours", "theirs", "play"))
        for file in (self.ours, self.theirs):
            forget(file + "-wal")
            forget(file + "-shm")
        shutil.copy(base, self.ours)
        # (in the second before this one, so that the first reading of each session has to note its moment)
        self.tokens = begin(self.ours, int(time.time()) - 1)
        shutil.copy(self.ours, self.theirs)
        self.batches, self.figures = [], {}

    def serve(self, program):
        """The batches, by labdesk."""
        play = Play(self.theirs, "aqua", self.tokens)
        with Server(program, self.ours, self.measure.before) as server:
            server.tokens = dict(self.tokens)
            for batch in range(1 + COUNTED[type(self.measure).__name__.lower()]):
                for kind in self.size.kinds:
                    self.batch(server, play, kind, self.size.requests(kind, batch))
                if self.long:
                    self.batch(server, play, "long", [self.size.opens("dan") for _ in range(LONG)])
        with open(self.play, "w") as file:
            file.writelines(line + "\n" for line in play.lines)
        play.close()

    def batch(self, server, play, kind, requests):
        self.measure.begin(server)
        for one in requests:
            server.ask(one)
        self.figures.setdefault(kind, []).append(self.measure.end() / len(requests))
        play.part(kind)
        for one in requests:
            play.request()
            getattr(play, "opening" if kind == "long" else kind)(one)
        self.batches.append((kind, len(requests)))

    def played(self, plays):
        """The same, by the library."""
        self.beside = {}
        for (kind, count), (name, took) in zip(self.batches, self.measure.played(plays, self.theirs, self.play), strict=True):
            assert kind == name, (kind, name)
            self.beside.setdefault(kind, []).append(took / count)
        same_rows(self.ours, self.theirs)

    def least(self, kind):
        """Of labdesk and of the library."""
        return min(self.figures[kind][1:]), min(self.beside[kind][1:])


def same_rows(*paths):
    """Both files have the same rows in all tables, and all arrows lead somewhere."""
    with files.opened(paths[0]) as base:
        base.execute("ATTACH ? AS other", (paths[1],))
        for (table,) in base.execute("SELECT name FROM main.sqlite_schema WHERE type = 'table'").fetchall():
            for one, two in (("main", "other"), ("other", "main")):
                rows = base.execute(f"SELECT * FROM {one}.{table} EXCEPT SELECT * FROM {two}.{table} LIMIT 3").fetchall()
                assert not rows, f"{table}: {rows} of {one} alone"
        assert not base.execute("PRAGMA foreign_key_check").fetchall()


# ---- the table


def instructions(count):
    return f"{count / 1000:,.0f}" if count >= 10_000 else f"{count / 1000:,.1f}"


def microseconds(seconds):
    return f"{seconds * 1e6:,.0f} us"


SHOW = {"instructions": instructions, "time": microseconds}


def row(words):
    print("| " + " | ".join(words) + " |", flush=True)


def head(measures):
    words = ["Request", "Size"]
    for one in measures:
        words += [{"instructions": "`labdesk`, thousands of instructions", "time": "`labdesk`, processor"}[one], "C library", "times"]
    row(words)
    print("|" + "---|" * len(words))


def least(runs, kind):
    """The least of several runs, of labdesk and of the library."""
    return tuple(map(min, zip(*(run.least(kind) for run in runs))))


def password(runs):
    """What 10,000 rounds take: the long opening has 100,000."""
    return (least(runs, "long")[0] - least(runs, "opening")[0]) / 9


def table(sizes, runs, rounds):
    """The runs are those of a measure over a size; the rounds are what a password takes by each measure."""
    head(runs)
    for kind, called in KINDS.items():
        for size in sizes:
            if kind not in size.kinds:
                continue
            words = [called, size.name]
            for measure in runs:
                ours, theirs = least(runs[measure][size], kind)
                ours -= rounds[measure] if kind in WITH_PASSWORD else 0
                words += [SHOW[measure](ours), SHOW[measure](theirs), f"{ours / theirs:.1f}"]
            row(words)


def forget(file):
    with contextlib.suppress(FileNotFoundError):
        os.remove(file)


def runs_of(program, plays, measure, bases, room):
    """The runs by a measure, by their size. All sizes are run over before one is run over again."""
    runs = {size: [] for size in bases}
    for _ in range(RUNS[measure]):
        for number, (size, base) in enumerate(bases.items()):
            run = Run(size, base, room, {"time": Time, "instructions": Instructions}[measure](room), number == 0)
            run.serve(program)
            run.played(plays)
            runs[size].append(run)
    return runs


def made(size, path):
    """A file of that size."""
    begun = time.time()
    size.make(path)
    print(f"{size.name}: {os.path.getsize(path) / 1e6:.1f} MB, {time.time() - begun:.0f} s", file=sys.stderr, flush=True)
    return path


def main(words):
    measures = ["time"] if words[:1] == ["--time"] else ["instructions", "time"]
    words = words[1:] if words[:1] == ["--time"] else words
    program = os.path.abspath(words[0]) if words else proved_program()
    sizes = [size for size in SIZES if not words[1:] or any(word in size.name for word in words[1:])]
    with tempfile.TemporaryDirectory() as name:
        room = pathlib.Path(name)
        plays = compiled("plays.c", room, "-lsqlite3")
        bases = {size: made(size, str(room / f"base{number}")) for number, size in enumerate(sizes)}
        runs = {measure: runs_of(program, plays, measure, bases, room) for measure in measures}
    rounds = {measure: password(runs[measure][sizes[0]]) for measure in measures}
    table(sizes, runs, rounds)
    told = " and ".join(SHOW[measure](rounds[measure]) for measure in measures)
    print(f"\n10,000 rounds of PBKDF2: {told}; {datetime.date.today()}, load {os.getloadavg()[0]:.1f}")
    return 0


if __name__ == "__main__":
    sys.exit(main(sys.argv[1:]))
