#!/usr/bin/env python3
"""Times `labdesk migrate` of a laboratory of so many records out of a file of schema 2, and its memory.

    bench/moving.py [PROGRAM [COUNT[xFIELDS] ..]]   prints a table for docs/PERFORMANCE.md; without a program, over the one that is proved;
                                                    without counts, at 1,000, 10,000 and 100,000 records, whose form has 2 fields, and
                                                    10,000, whose form has 60

The old file is written by Python's sqlite3 (bench/old_files.py). Each record has one released version of three rows. A time is the
processor's. The copy of the new laboratory is checked, and has to have all records.
"""
import datetime
import os
import pathlib
import subprocess
import sys
import tempfile
import time

sys.dont_write_bytecode = True
import old_files  # noqa: E402
from children import MEGABYTE, proved_program, took  # noqa: E402

COUNTS = ["1000", "10000", "100000", "10000x60"]


def measured(program, room, count, fields):
    old, new = str(room / "old"), str(room / "new")
    old_files.write(old, count, fields)
    begun = time.monotonic()
    moving = took([program, "migrate", "--old", old, "--new", new])
    wall = time.monotonic() - begun
    copying = subprocess.Popen([program, "copy", "--file", new, "--lab", "aqua", "--from", "1", "--to", str(count)], stdout=subprocess.PIPE)
    good = subprocess.run([program, "check"], stdin=copying.stdout, stdout=subprocess.PIPE, text=True).stdout
    assert copying.wait() == 0 and good == f"good {count} {count} {3 * count} {2 * count}\n", good
    opening = took([program, "copy", "--file", new, "--lab", "aqua", "--from", "1", "--to", "1"])
    sizes = [os.path.getsize(path) / MEGABYTE for path in (old, new)]
    print(f"| {count:,} | {fields} | {sizes[0]:.1f} MB | {moving.seconds:.2f} s | {wall:.2f} s | {moving.memory:.0f} MB | {sizes[1]:.1f} MB "
          f"| {opening.seconds:.2f} s | {opening.memory:.0f} MB |", flush=True)
    for path in (old, new, f"{new}-wal"):
        if os.path.exists(path):
            os.remove(path)


def main(words):
    program = os.path.abspath(words[0]) if words else proved_program()
    print("| Records | Fields | Old file | `labdesk migrate` | on the wall | its memory | New file | opening it | its memory |\n"
          "|---|---|---|---|---|---|---|---|---|")
    with tempfile.TemporaryDirectory() as room:
        for word in words[1:] or COUNTS:
            count, _, fields = word.partition("x")
            measured(program, pathlib.Path(room), int(count), int(fields or 2))
    print(f"\n{datetime.date.today()}, load {os.getloadavg()[0]:.1f}")


if __name__ == "__main__":
    main(sys.argv[1:])
