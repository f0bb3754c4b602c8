#!/usr/bin/env python3
"""Times `labdesk check` on sound copies of some lengths and `labdesk copy` of many records, each beside something from outside, and
prints the greatest memory of each.

    bench/copying.py [PROGRAM [MEGABYTES ..]]   prints tables for docs/PERFORMANCE.md; without a program, over the one that is proved;
                                             without lengths, on copies of 1, 10 and 100 MB

A time is the processor's, and the least of three runs. Beside a check stand sha256sum of the same file and Python's csv reader over it.
Beside a copy stand a small C program over the C library (bench/copies.c), whose lines have to be the same but for the row that tells
when the copy was made; and the copy of one record of the file, which does little but open it. The status is 1 where a check takes more
than five times what sha256sum takes or more than 64 MB of memory, or where a copy takes 64 MB more than the opening.
"""
import datetime
import os
import pathlib
import subprocess
import sys
import tempfile

TOP = os.path.dirname(os.path.dirname(os.path.abspath(__file__)))
sys.path.insert(0, f"{TOP}/tests/model")
import files  # noqa: E402
from children import best, compiled, proved_program  # noqa: E402
from serving import found  # noqa: E402

BAR_OF_TIME, BAR_OF_MEMORY = 5, 64
SIGNERS = [("dan", "Dan Day"), ("eve", "Eve Ems")]
ROWS = 10
COUNTS = [10_000, 100_000]
READER = [sys.executable, "-c", "import csv, sys\nfor row in csv.reader(sys.stdin): pass"]


class Bars:
    """What was held against the two bars."""

    def __init__(self):
        self.missed = 0

    def hold(self, good, what):
        if not good:
            self.missed += 1
            print(f"FAILED copying: {what}")


def seconds(one):
    return f"{one.seconds:.3f} s"


def memory(one):
    return f"{one.memory:.1f} MB"


# ---- checks


def write_copy(path, size):
    """A copy of at least so many bytes; answers how many records it has."""
    with open(path, "w") as file:
        file.writelines(files.copy_of("aqua", "Aqua Lab", SIGNERS, ROWS, range(1, 10**9 + 1), size))
        file.flush()
        return int(last_line(path).split(",")[2])


def last_line(path):
    with open(path, "rb") as file:
        file.seek(max(0, os.path.getsize(path) - 1_000))
        return file.read().decode().splitlines()[-1]


def checks(program, room, megabytes, bars):
    print("| Copy | Records | `labdesk check` | its memory | `sha256sum` | its memory | Python's `csv` | its memory | times `sha256sum` |")
    print("|---|---|---|---|---|---|---|---|---|")
    for one in megabytes:
        path = str(room / "copy.csv")
        records = write_copy(path, one * 1_000_000)
        told = subprocess.run([program, "check"], stdin=open(path, "rb"), stdout=subprocess.PIPE, text=True).stdout
        bars.hold(told == f"good {records} {records} {ROWS * records} {2 * records}\n", f"a sound copy is {told}")
        check, plain, reader = best([program, "check"], path), best(["sha256sum"], path), best(READER, path)
        ratio = check.seconds / plain.seconds
        print(f"| {one} MB | {records:,} | {seconds(check)} | {memory(check)} | {seconds(plain)} | {memory(plain)} | {seconds(reader)} "
              f"| {memory(reader)} | {ratio:.1f} |", flush=True)
        bars.hold(ratio <= BAR_OF_TIME, f"a check of {one} MB takes {ratio:.1f} times what sha256sum takes")
        bars.hold(check.memory <= BAR_OF_MEMORY, f"a check of {one} MB takes {memory(check)}")


# ---- copies


def are_same(ours, theirs):
    """Whether both are the same copy, but for the row that says when it was made."""
    return subprocess.run(["bash", "-c", 'cmp <(sed 2d "$1") <(sed 2d "$2")', "cmp", ours, theirs]).returncode == 0


def copies(program, room, counts, bars):
    print("| Records | File | Copy | `labdesk copy` | its memory | of one record | its memory | C library | its memory | times, but for the "
          "opening |\n|---|---|---|---|---|---|---|---|---|---|")
    plain = compiled("copies.c", room, "-lsqlite3")
    for count in counts:
        file, ours, theirs = (str(room / f"{name}-{count}") for name in ("file", "ours", "theirs"))
        found(program, file, "aqua")
        files.fill(file, "aqua", count)
        words = [program, "copy", "--file", file, "--lab", "aqua", "--from", "1", "--to"]
        runs = 1 if count > 50_000 else 3
        copy, one = best([*words, str(count)], written=ours, runs=runs), best([*words, "1"], runs=runs)
        other = best([plain, file, "aqua"], written=theirs)
        bars.hold(are_same(ours, theirs), f"a copy of {count:,} records isn't what the C program writes")
        best([program, "check"], ours, runs=1)
        print(f"| {count:,} | {os.path.getsize(file) / 1e6:.1f} MB | {os.path.getsize(ours) / 1e6:.1f} MB | {seconds(copy)} | {memory(copy)} "
              f"| {seconds(one)} | {memory(one)} | {seconds(other)} | {memory(other)} "
              f"| {(copy.seconds - one.seconds) / other.seconds:.1f} |", flush=True)
        bars.hold(copy.memory - one.memory <= BAR_OF_MEMORY, f"a copy of {count:,} records takes {memory(copy)}, and of one {memory(one)}")


def main(words):
    program = words[0] if words else proved_program()
    bars = Bars()
    with tempfile.TemporaryDirectory() as name:
        room = pathlib.Path(name)
        checks(os.path.abspath(program), room, [int(word) for word in words[1:]] or [1, 10, 100], bars)
        print()
        copies(os.path.abspath(program), room, COUNTS, bars)
    print(f"\n{datetime.date.today()}, load {os.getloadavg()[0]:.1f}")
    return 1 if bars.missed else 0


if __name__ == "__main__":
    sys.exit(main(sys.argv[1:]))
