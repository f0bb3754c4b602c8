#!/usr/bin/env python3
"""Times what it takes to open a file with few and with many records, beside the C library's own checks of it, and sha256sum.

    bench/opening.py [PROGRAM [COUNT ..]]   prints a table for docs/PERFORMANCE.md; without a program, over the one that is proved; without
                                            counts, at 100, 10,000 and 100,000 records of another laboratory

A file is written by the C library (bench/sized.py). `labdesk copy` of one record does little but open it; `labdesk serve` prints its
line when it has opened it. Beside them stand `sqlite3` with integrity_check and foreign_key_check. A time is the processor's, the least
of three runs, or that of one where the file is long.
"""
import datetime
import os
import pathlib
import sys
import tempfile

sys.dont_write_bytecode = True
from children import MEGABYTE, best, proved_program  # noqa: E402
from serving import Server  # noqa: E402
from sized import Size  # noqa: E402

COUNTS = [100, 10_000, 100_000]


def begun(program, file):
    """The processor's seconds until the server's line."""
    with Server(program, file) as server:
        return server.spent()


def measured(program, room, count):
    file = str(room / f"file-{count}")
    Size("", beside=count).make(file)
    size = os.path.getsize(file)
    runs = 1 if size > 50 * MEGABYTE else 3
    copy = best([program, "copy", "--file", file, "--lab", "aqua", "--from", "1", "--to", "1"], runs=runs)
    served = min(begun(program, file) for _ in range(runs))
    checks = best(["sqlite3", file, "PRAGMA integrity_check; PRAGMA foreign_key_check"], runs=runs)
    plain = best(["sha256sum", file], runs=runs)
    print(f"| {count:,} | {size / MEGABYTE:.1f} MB | {copy.seconds:.3f} s | {copy.memory:.1f} MB | {served:.3f} s "
          f"| {checks.seconds:.3f} s | {plain.seconds:.3f} s |", flush=True)
    os.remove(file)


def main(words):
    program = os.path.abspath(words[0]) if words else proved_program()
    print("| Records beside | File | `labdesk copy` of one record | its memory | `labdesk serve`, to its line | the C library's checks "
          "| `sha256sum` |\n|---|---|---|---|---|---|---|")
    with tempfile.TemporaryDirectory() as room:
        for count in [int(word) for word in words[1:]] or COUNTS:
            measured(program, pathlib.Path(room), count)
    print(f"\n{datetime.date.today()}, load {os.getloadavg()[0]:.1f}")


if __name__ == "__main__":
    main(sys.argv[1:])
