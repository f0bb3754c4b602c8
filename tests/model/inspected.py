#!/usr/bin/env python3
"""Writes a file of two laboratories and a copy of the records of one of them, on which the commands of docs/INSPECTING.md can be tried:
rows by Python's sqlite3, of the laboratories of tests/model/laboratory.py.

    tests/model/inspected.py FOLDER   writes FOLDER/laboratories and FOLDER/copy.csv, and nothing over what is there
"""
import csv
import os
import sys

import kept_rows
from copied import played
from laboratory import copy_rows

FORMULA = '=HYPERLINK("http://example.org","S5")'


def inspected():
    """The short day of examples/copy.csv, and after it a sample that reads like a formula, a lock and its end, other roles, a one-time
    password; and months later a changed password, and others that are due."""
    s = played()
    s.post(1340, "dan", "/records", form="water", sample=FORMULA, wants={"record": 5})
    s.post(1350, "dan", "/entries", record=5, key="lead", value="+7", unit="mg/L")
    s.post(1350, "dan", "/entries", record=5, key="note", value="-1 was read first", unit="")
    for moment in range(1400, 1405):
        s.open(moment, "fay", 20, "not the right one")
    s.open(1420, "ann")
    s.post(1430, "ann", "/unlock", code="fay")
    s.post(1440, "ann", "/roles", code="eve", roles=["reviewer"])
    s.post(1460, "ann", "/issue", code="cid")
    s.open(1465, "bob")
    s.post(1470, "bob", "/confirm", code="cid")
    s.open(1480, "fay")
    s.open(7_700_000, "dan")
    s.change(7_700_010, "dan", "another word of dan")
    s.open(7_900_000, "ann")
    return s.labs


def main(words):
    folder, = words
    labs = inspected()
    with open(os.path.join(folder, "copy.csv"), "x", encoding="utf-8", newline="") as file:
        csv.writer(file, lineterminator="\n").writerows(copy_rows(labs["aqua"], 1, 100, "hal", 5000))
    path = os.path.join(folder, "laboratories")
    if os.path.exists(path):
        sys.exit(f"there is {path} already")
    kept_rows.write(path, kept_rows.two(labs))


if __name__ == "__main__":
    main(sys.argv[1:])
