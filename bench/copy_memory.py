#!/usr/bin/env python3
"""Measures what memory `labdesk serve` takes for a copy over HTTP of a hundred long records, and how long it takes to reply.

    bench/copy_memory.py [PROGRAM]   prints the table of docs/PERFORMANCE.md; without a program, over the one that is proved

A file is written by the C library (bench/sized.py): a hundred records of one version, whose rows have reasons of 1,000 bytes, and in the
last case values of as many. The server opens it, and is asked for a copy of them all, twice. From `/proc` is read what memory it has
before, the most that it has until the first copy is there, and what it keeps; the most is set back before (`clear_refs`), since the
opening of the file wants more.
"""
import datetime
import os
import pathlib
import re
import sys
import tempfile
import time

sys.dont_write_bytecode = True
from children import MEGABYTE, proved_program  # noqa: E402
from serving import Request, Server  # noqa: E402
from sized import Size, Worked, begin  # noqa: E402
import files  # noqa: E402

RECORDS, LENGTH = 100, 1_000
CASES = [(20, False), (100, False), (200, False), (200, True)]


class Long(Worked):
    """A record whose rows have long reasons."""

    def row(self, version, at):
        return f"{at}.5", "" if at == 0 else f"{at} ".ljust(LENGTH, "r")


class Longer(Worked):
    """One whose values are long, too."""

    KEY, UNIT = "note", ""

    def row(self, version, at):
        return f"{at} ".ljust(LENGTH, "v"), "" if at == 0 else f"{at} ".ljust(LENGTH, "r")


class LongRecords(Size):
    def __init__(self, rows):
        super().__init__("", rows=rows, beside=0)
        self.numbers = range(1, RECORDS + 1)


def memory(server, what):
    with open(f"/proc/{server.process.pid}/status") as status:
        return int(re.search(rf"{what}:\s+(\d+) kB", status.read())[1]) * 1024 / MEGABYTE


def measured(program, room, rows, long_values):
    file = str(room / f"file-{rows}-{long_values}")
    LongRecords(rows).make(file, Longer if long_values else Long)
    with files.opened(file) as base:
        base.execute("UPDATE fields SET size = ? WHERE key = 'note'", (LENGTH,))
    tokens = begin(file, int(time.time()))
    with Server(program, file) as server:
        server.tokens = tokens
        begun = memory(server, "VmRSS")
        with open(f"/proc/{server.process.pid}/clear_refs", "w") as most:
            most.write("5")
        one = Request("bob", f"/copy?from=1&to={RECORDS}")
        first = server.ask(one)
        most, kept = memory(server, "VmHWM"), memory(server, "VmRSS")
        again = server.ask(one)
        assert one.body.count(b"\nentry,aqua,") == RECORDS * rows
        print(f"| {rows} | {'yes' if long_values else 'no'} | {len(one.body) / MEGABYTE:.1f} MB | {begun:.0f} MB | {most - begun:.0f} MB "
              f"| {kept - begun:.0f} MB | {first:.2f} s | {again:.2f} s |", flush=True)
    os.remove(file)


def main(words):
    program = os.path.abspath(words[0]) if words else proved_program()
    print("| Rows of each record | Long values | Copy | The server's memory before | more at the most | more that it keeps | first reply | "
          "second |\n|---|---|---|---|---|---|---|---|")
    with tempfile.TemporaryDirectory() as room:
        for rows, long_values in CASES:
            measured(program, pathlib.Path(room), rows, long_values)
    print(f"\n{datetime.date.today()}, load {os.getloadavg()[0]:.1f}")


if __name__ == "__main__":
    main(sys.argv[1:])
