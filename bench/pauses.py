#!/usr/bin/env python3
"""How long a backup, or a copy to another machine, holds a server up: while the file is copied beside itself, and no longer.

    bench/pauses.py [PROGRAM [FOLDER ..]]   prints a table for docs/PERFORMANCE.md; without a program, over the one that is proved; without
                                            folders, in one of the machine's for temporary files

In each folder `labdesk serve` holds a file of 100,000 records, and then one that pages which nobody uses make as long as 1 GB. Ten times each
packaging/labdesk-backup copies it, as before a backup and before each copy that is sent, while a client asks for the card over and over. Where
the folder's file system lets files share blocks, as XFS and btrfs do, no byte is copied. It wants a machine with nothing else to do.
"""
import datetime
import importlib.machinery
import importlib.util
import os
import pathlib
import sqlite3
import statistics
import subprocess
import sys
import tempfile
import threading
import time

TOP = pathlib.Path(__file__).resolve().parent.parent
sys.dont_write_bytecode = True
from children import MEGABYTE, proved_program  # noqa: E402
from serving import Request, Server  # noqa: E402
from sized import Size  # noqa: E402

RECORDS, LONG, TIMES = 100_000, 1_000 * MEGABYTE, 10


def backup_script():
    loader = importlib.machinery.SourceFileLoader("labdesk_backup", str(TOP / "packaging/labdesk-backup"))
    module = importlib.util.module_from_spec(importlib.util.spec_from_loader(loader.name, loader))
    loader.exec_module(module)
    return module


def lengthen(path):
    """Adds pages that nobody uses."""
    base = sqlite3.connect(path)
    left = LONG - os.path.getsize(path)
    base.execute("CREATE TABLE room (part BLOB)")
    with base:
        base.executemany("INSERT INTO room VALUES (zeroblob(?))", [(10 * MEGABYTE,)] * (left // (10 * MEGABYTE)))
    base.execute("DROP TABLE room")
    base.commit()
    base.close()


class Asking(threading.Thread):
    """A client that asks for the card over and over, and how long it waited at most."""

    def __init__(self, server):
        super().__init__(daemon=True)
        self.server, self.most, self.ended = server, 0.0, threading.Event()

    def run(self):
        while not self.ended.is_set():
            self.most = max(self.most, self.server.ask(Request(None, "")))


def copies(backup, file, folder, server):
    """The seconds of each copy, and what a client waited at most beside all of them."""
    client, seconds = Asking(server), []
    client.start()
    for number in range(TIMES):
        target = folder / f"copy{number}"
        seconds.append(backup.copy_both(str(file), str(target), 60))
        for path in folder.glob(f"copy{number}*"):
            path.unlink()
        time.sleep(0.5)
    client.ended.set()
    client.join()
    return seconds, client.most


def measure(backup, program, folder):
    kind = subprocess.run(["stat", "-f", "-c", "%T", folder], capture_output=True, text=True).stdout.strip()
    file = folder / "laboratories"
    Size("", beside=RECORDS).make(str(file))
    for alter in (lambda path: None, lengthen):
        alter(file)
        with Server(program, str(file)) as server:
            seconds, most = copies(backup, file, folder, server)
        size, median = os.path.getsize(file) / MEGABYTE, statistics.median(seconds)
        print(f"| {size:,.0f} MB | {kind} | {median:.3f} s | {max(seconds):.3f} s | {most:.3f} s |", flush=True)


def main(words):
    program, backup = os.path.abspath(words[0]) if words else proved_program(), backup_script()
    print("| File | File system | Nobody could write for, median | at most | A client waited at most |\n|---|---|---|---|---|")
    for place in words[1:] or [tempfile.gettempdir()]:
        with tempfile.TemporaryDirectory(dir=place) as name:
            measure(backup, program, pathlib.Path(name))
    print(f"\n{TIMES} copies each; {datetime.date.today()}, load {os.getloadavg()[0]:.1f}")


if __name__ == "__main__":
    main(sys.argv[1:])
