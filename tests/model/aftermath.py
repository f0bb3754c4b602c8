"""What is left of a file of laboratories and of its log: the C library, by Python's sqlite3, looks over a copy of both, and the tables in
it say what they hold. The file and the log themselves stay as they are.
"""
import contextlib
import os
import shutil
import sqlite3
import tempfile

import kept_rows
from report import must_be

ENDS = ("", "-wal")


@contextlib.contextmanager
def copied(path, room):
    """A connection to a copy of the file and its log, in a folder of its own in the room."""
    with tempfile.TemporaryDirectory(dir=room) as name:
        for end in ENDS:
            if os.path.exists(path + end):
                shutil.copy(path + end, f"{name}/copy{end}")
        with contextlib.closing(sqlite3.connect(f"{name}/copy")) as base:
            yield base


def told(path, room, codes):
    """What the tables say of the laboratories of these codes, once the C library has found nothing wrong."""
    with copied(path, room) as base:
        for pragma, wanted in (("integrity_check", [("ok",)]), ("foreign_key_check", [])):
            must_be(pragma, base.execute(f"PRAGMA {pragma}").fetchall(), wanted)
        return "".join(kept_rows.told(base, code) for code in codes)


def wanted(labs):
    """What the tables have to say of these laboratories, and that there is nothing beside them."""
    return kept_rows.all_told(labs, [*labs, "all"])


def same(what, path, room, labs):
    """The tables say what these laboratories are, row by row."""
    there, other = told(path, room, [*labs, "all"]).split("\n"), wanted(labs).split("\n")
    for one, two in zip(there, other):
        must_be(f"{what}: a row", one, two)
    must_be(f"{what}: how many rows", len(there), len(other))


def told_by(labs, codes):
    """What tables of these laboratories say, asked by these codes."""
    return kept_rows.all_told(labs, [*codes, "all"])
