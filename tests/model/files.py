"""Fills a file of laboratories with records of one of them, by Python's sqlite3, which is no part of the program, as docs/TABLES.md
has the rows, and writes the inspection copy of them, as docs/COPIES.md has it. Digests and seals are made by hashlib.

A record has one version with some entries in one field, signed by its author and by a reviewer, who are the first two founders.
"""
import contextlib
import hashlib
import sqlite3

FORM, KEY, UNIT = "water", "lead", "mg/L"
FIELDS = [(KEY, "Lead", 1, "number", UNIT, 2, "0", None, None), ("note", "Note", 0, "text", None, None, None, None, 200)]
ROWS = 3
PART = 5_000


def sha(items):
    return hashlib.sha256("".join(f"{len(one)}:{one}\n" for one in items).encode()).digest()


def printed(moment):
    """A moment of the first day, as that is all that is needed here."""
    assert 0 <= moment < 86_400
    return f"1970-01-01T{moment // 3600:02}:{moment // 60 % 60:02}:{moment % 60:02}Z"


class Sheet:
    """A record: its rows and what they are signed with."""

    FORMAT, OPENED, ENTERED, SIGNED = 2, 1_000, 1_100, 1_300

    def __init__(self, lab, signers, number, rows):
        self.number, self.sample = number, f"Sample {number}"
        self.values = [f"{number % 97}.{row:02}" for row in range(rows)]
        author = signers[0][0]
        text = [f"labrecord {self.FORMAT}", lab, str(number), "1", FORM, "1", *["no"][:self.FORMAT - 1], self.sample, "-", "", author,
                printed(self.OPENED), str(rows)]
        for value in self.values:
            text += [KEY, value, UNIT, author, printed(self.ENTERED), self.reason(value)]
        self.digest = sha(text)
        self.signatures = [
            (meaning, person, name, sha([self.digest.hex(), lab, person, name, meaning, printed(self.SIGNED), ""]))
            for meaning, (person, name) in zip(("authorship", "review"), signers)]

    def reason(self, value):
        """Why the value takes the place of the one before it."""
        return "" if value == self.values[0] else "read again"

    def deeds(self):
        """What the trail has of it: who did what to what."""
        (_, author, _, _), (_, reviewer, _, _) = self.signatures
        yield author, "record", str(self.number), self.OPENED
        for _ in self.values:
            yield author, "entry", f"{self.number}/1/{KEY}", self.ENTERED
        yield author, "sign", f"{self.number}/1/authorship", self.SIGNED
        yield reviewer, "sign", f"{self.number}/1/review", self.SIGNED


def opened(path):
    base = sqlite3.connect(path, isolation_level=None)
    base.execute("PRAGMA foreign_keys = ON")
    base.execute("PRAGMA synchronous = OFF")
    return contextlib.closing(base)


def next_id(base, table):
    return (base.execute(f"SELECT max(id) FROM {table}").fetchone()[0] or 0) + 1


def add(base, table, columns, rows):
    """Adds rows, with ids behind those that are there, and answers them."""
    first = next_id(base, table)
    marks = ", ".join("?" * (1 + len(columns.split())))
    base.executemany(f"INSERT INTO {table} (id, {', '.join(columns.split())}) VALUES ({marks})",
                     [(first + at, *row) for at, row in enumerate(rows)])
    return range(first, first + len(rows))


def add_form(base, lab):
    form = add(base, "forms", "lab code version approval", [(lab, FORM, 1, 0)])[0]
    add(base, "fields", "form place key label required kind unit decimals low high size",
        [(form, place, *field) for place, field in enumerate(FIELDS, 1)])
    return form


def add_sheets(base, lab, form, ids, told, sheets):
    """These records, with all that is theirs; the trail had so many rows before."""
    records = add(base, "records", "lab number form form_code sample current",
                  [(lab, one.number, form, FORM, one.sample, 1) for one in sheets])
    author = ids[sheets[0].signatures[0][1]]
    versions = add(base, "versions", "record number format opener opened reason",
                   [(record, 1, 2, author, Sheet.OPENED, None) for record in records])
    add(base, "entries", "version place key value unit person moment reason",
        [(version, place, KEY, value, UNIT, author, Sheet.ENTERED, one.reason(value) or None)
         for version, one in zip(versions, sheets) for place, value in enumerate(one.values, 1)])
    add(base, "signatures", "version place person name meaning moment reason digest seal",
        [(version, place, ids[person], name, meaning, Sheet.SIGNED, None, one.digest, seal)
         for version, one in zip(versions, sheets) for place, (meaning, person, name, seal) in enumerate(one.signatures, 1)])
    deeds = [deed for one in sheets for deed in one.deeds()]
    add(base, "trail", "lab number moment person action subject",
        [(lab, told + at, moment, ids[person], action, subject) for at, (person, action, subject, moment) in enumerate(deeds, 1)])
    return told + len(deeds)


def fill(path, code, count, rows=ROWS):
    """So many records more of the laboratory of the code, which has none yet."""
    with opened(path) as base:
        base.execute("BEGIN")
        lab, records, told = base.execute("SELECT id, records, trail FROM labs WHERE code = ?", (code,)).fetchone()
        assert records == 0
        persons = base.execute("SELECT id, code, name FROM persons WHERE lab = ? ORDER BY code LIMIT 2", (lab,)).fetchall()
        signers, ids = [row[1:] for row in persons], {row[1]: row[0] for row in persons}
        form = add_form(base, lab)
        for first in range(1, count + 1, PART):
            sheets = [Sheet(code, signers, number, rows) for number in range(first, min(count, first + PART - 1) + 1)]
            told = add_sheets(base, lab, form, ids, told, sheets)
        base.execute("UPDATE labs SET records = ?, trail = ? WHERE id = ?", (count, told, lab))
        base.execute("COMMIT")
        base.execute("PRAGMA wal_checkpoint(TRUNCATE)")
        broken = base.execute("PRAGMA foreign_key_check").fetchall()
        assert not broken, broken


# ---- an inspection copy

HEADER = "kind,lab,record,version,key,value,unit,person,name,moment,reason,digest,seal\n"


def copy_lines(code, signers, sheet):
    """The lines of a record in a copy."""
    number, author, digest = sheet.number, signers[0][0], sheet.digest.hex()
    yield f"record,{code},{number},1,{FORM},{sheet.sample},,,,,,,\n"
    yield f"version,{code},{number},1,2,released,,{author},,{printed(sheet.OPENED)},,{digest},\n"
    for value in sheet.values:
        yield f"entry,{code},{number},1,{KEY},{value},{UNIT},{author},,{printed(sheet.ENTERED)},{sheet.reason(value)},,\n"
    for meaning, person, name, seal in sheet.signatures:
        yield f"signature,{code},{number},1,,{meaning},,{person},{name},{printed(sheet.SIGNED)},,{digest},{seal.hex()}\n"


def copy_of(code, name, signers, rows, numbers, size=None):
    """The lines of a copy that nobody asked for, at the end of the first day: of the records of these numbers, or of the first of
    them that have so many bytes."""
    yield HEADER
    yield f"copy,{code},{numbers[0]},{numbers[-1]},2,,,,{name},{printed(86_399)},,,\n"
    count, written = 0, 0
    for number in numbers:
        text = "".join(copy_lines(code, signers, Sheet(code, signers, number, rows)))
        yield text
        count, written = count + 1, written + len(text)
        if size is not None and written >= size:
            break
    yield f"end,{code},{count},{count},{rows * count},{2 * count},,,,,,,\n"
