#!/usr/bin/env python3
"""Writes a file of schema 2 by Python's sqlite3: a laboratory, aqua, of so many records.

    bench/old_files.py FILE RECORDS [FIELDS]

Each record has one released version of three rows, two signatures, and six rows in the trail (tests/model/files.py); its form has so many
fields, or 2. Ann enters and signs, and bob reviews. Nobody has a password.
"""
import contextlib
import pathlib
import re
import sqlite3
import sys

TOP = pathlib.Path(__file__).resolve().parent.parent
sys.path.insert(0, str(TOP / "tests/model"))
import files  # noqa: E402
from kept_rows import schema  # noqa: E402

PEOPLE = {"ann": ("Ann Ames", 13), "bob": ("Bob Bell", 26), "cid": ("Cid Cole", 8)}


class OldSheet(files.Sheet):
    """A record whose version has text format 1. All of it is done in one second."""

    FORMAT, OPENED, ENTERED, SIGNED = 1, 1_300, 1_300, 1_300


def old_schema():
    """The tables of schema 2: those of today without the columns that came since, and without the index."""
    for text in schema()[:-2]:
        yield re.sub(", (approval|format|rounds2|ask_rounds) INTEGER( NOT NULL)?", "", text)


def add_lab(base):
    """The laboratory with its persons, by whose codes their ids are answered, and its founding in the trail."""
    lab = files.add(base, "labs", "code name last stray records sessions trail", [("aqua", "Aqua Lab", OldSheet.SIGNED, 0, 0, 0, 1)])[0]
    persons = files.add(base, "persons", "lab code name roles retired failures kind", [(lab, code, *one, 0, 0, 0) for code, one in PEOPLE.items()])
    files.add(base, "trail", "lab number moment person action subject", [(lab, 1, 0, None, "found", "aqua")])
    return lab, dict(zip(PEOPLE, persons))


def add_form(base, lab, fields):
    form = files.add(base, "forms", "lab code version", [(lab, files.FORM, 1)])[0]
    further = [(f"note_{place}", f"Note {place}", 0, "text", None, None, None, None, 200) for place in range(3, fields + 1)]
    files.add(base, "fields", "form place key label required kind unit decimals low high size",
              [(form, place, *field) for place, field in enumerate([*files.FIELDS, *further], 1)])
    return form


def add_sheets(base, lab, form, ids, told, sheets):
    """These records, with all that is theirs, behind so many rows of the trail. Answers how many there are then."""
    records = files.add(base, "records", "lab number form form_code sample current",
                        [(lab, one.number, form, files.FORM, one.sample, 1) for one in sheets])
    versions = files.add(base, "versions", "record number opener opened reason", [(record, 1, ids["ann"], OldSheet.OPENED, None) for record in records])
    pairs = list(zip(versions, sheets))
    files.add(base, "entries", "version place key value unit person moment reason",
              [(version, place, files.KEY, value, files.UNIT, ids["ann"], OldSheet.ENTERED, one.reason(value) or None)
               for version, one in pairs for place, value in enumerate(one.values, 1)])
    files.add(base, "signatures", "version place person name meaning moment reason digest seal",
              [(version, place, ids[person], name, meaning, OldSheet.SIGNED, None, one.digest, seal)
               for version, one in pairs for place, (meaning, person, name, seal) in enumerate(one.signatures, 1)])
    deeds = [deed for one in sheets for deed in one.deeds()]
    files.add(base, "trail", "lab number moment person action subject",
              [(lab, told + at, moment, ids[person], action, subject) for at, (person, action, subject, moment) in enumerate(deeds, 1)])
    return told + len(deeds)


def write(path, count, fields=2):
    signers = [(code, PEOPLE[code][0]) for code in ("ann", "bob")]
    with contextlib.closing(sqlite3.connect(path, isolation_level=None)) as base:
        base.execute("PRAGMA foreign_keys = ON")
        base.execute("BEGIN")
        for text in old_schema():
            base.execute(text)
        base.execute("INSERT INTO desk (schema) VALUES (2)")
        lab, ids = add_lab(base)
        form, told = add_form(base, lab, fields), 1
        for first in range(1, count + 1, files.PART):
            sheets = [OldSheet("aqua", signers, number, files.ROWS) for number in range(first, min(count, first + files.PART - 1) + 1)]
            told = add_sheets(base, lab, form, ids, told, sheets)
        base.execute("UPDATE labs SET records = ?, trail = ? WHERE id = ?", (count, told, lab))
        base.execute("COMMIT")


if __name__ == "__main__":
    if len(sys.argv) not in (3, 4):
        sys.exit("usage: bench/old_files.py FILE RECORDS [FIELDS]")
    write(sys.argv[1], *map(int, sys.argv[2:]))
