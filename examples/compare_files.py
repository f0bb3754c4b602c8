#!/usr/bin/env python3
"""Compares a file of schema 2 with the file of schema 3 that `labdesk migrate` made of it, by docs/TABLES.md alone.

    compare_files.py OLD NEW

No server may hold either file, and the new file must be as `labdesk migrate` left it. The script reads copies of both, with their logs; it
writes into neither, and leaves nothing beside them. Rows are compared by their codes and numbers, not by their ids. An empty text in
place of a reason counts as no reason. Besides the rows of the old file, the new one must have text format 1, no approvals, and the rounds
of each verifier. The script prints 'same' and how many rows there are of each kind, with status 0; or a line for each of the first
hundred rows that one file alone has, 'old' or 'new' and the row, with status 1. If a file can't be read, it prints why, with status 2.
"""
import contextlib
import os
import shutil
import sqlite3
import sys
import tempfile

MOST = 100
LABS = "JOIN labs ON labs.id = {}.lab"
VERSION = "JOIN versions ON versions.id = {0}.version JOIN records ON records.id = versions.record JOIN labs ON labs.id = records.lab " \
    "JOIN persons ON persons.id = {0}.person"
# Each kind of rows: its columns, and where they come from. Columns that the old file lacks stand after them, each with what it
# has to be.
KINDS = {
    "labs": ("labs.code, name, last, stray, records, sessions, trail", "labs", {}),
    "persons": ("labs.code, persons.code, persons.name, roles, retired, failures, locked, kind, hex(salt), rounds, hex(bytes), hex(salt2), "
                "hex(bytes2), changed, (SELECT code FROM persons AS others WHERE others.id = persons.asker), asked, hex(ask_salt), hex(ask_bytes)",
                f"persons {LABS.format('persons')}",
                {"rounds2": "CASE kind WHEN 2 THEN rounds END", "ask_rounds": "CASE WHEN asker IS NOT NULL THEN 10000 END"}),
    "sessions": ("labs.code, number, persons.code, hex(token), opened, sessions.last, closed, signed",
                 f"sessions {LABS.format('sessions')} JOIN persons ON persons.id = sessions.person", {}),
    "forms": ("labs.code, forms.code, version", f"forms {LABS.format('forms')}", {"approval": "0"}),
    "fields": ("labs.code, forms.code, version, place, key, label, required, kind, unit, decimals, low, high, size",
               f"fields JOIN forms ON forms.id = fields.form {LABS.format('forms')}", {}),
    "choices": ("labs.code, forms.code, version, key, choices.place, choices.name",
                f"choices JOIN fields ON fields.id = choices.field JOIN forms ON forms.id = fields.form {LABS.format('forms')}", {}),
    "records": ("labs.code, number, form_code, forms.version, sample, current",
                f"records JOIN forms ON forms.id = records.form {LABS.format('records')}", {}),
    "versions": ("labs.code, records.number, versions.number, persons.code, opened, nullif(reason, '')",
                 f"versions JOIN records ON records.id = versions.record {LABS.format('records')} JOIN persons ON persons.id = opener",
                 {"format": "1"}),
    "entries": ("labs.code, records.number, versions.number, place, key, value, unit, persons.code, moment, nullif(entries.reason, '')",
                f"entries {VERSION.format('entries')}", {}),
    "signatures": ("labs.code, records.number, versions.number, place, persons.code, signatures.name, meaning, moment, "
                   "nullif(signatures.reason, ''), hex(digest), hex(seal)", f"signatures {VERSION.format('signatures')}", {}),
    "trail": ("labs.code, number, moment, persons.code, action, subject",
              f"trail {LABS.format('trail')} LEFT JOIN persons ON persons.id = trail.person", {}),
}


def rows_of(base, kind, is_old):
    """The rows of a kind, one after the other, in SQLite's order."""
    columns, source, further = KINDS[kind]
    columns = ", ".join([columns, *(further.values() if is_old else further)])
    places = base.execute(f"SELECT {columns} FROM {source} LIMIT 0").description
    return iter(base.execute(f"SELECT {columns} FROM {source} ORDER BY {', '.join(str(at + 1) for at in range(len(places)))}"))


def key(row):
    """By which SQLite orders rows: nothing comes before numbers, and numbers before texts."""
    return [(0, 0) if value is None else (2, value.encode()) if isinstance(value, str) else (1, value) for value in row]


def compared(old, new):
    """Each row that one of the two alone has, `old` or `new`; one that both have comes with neither word."""
    one, other = next(old, None), next(new, None)
    while one is not None or other is not None:
        if one == other:
            yield "", one
            one, other = next(old, None), next(new, None)
        elif other is None or (one is not None and key(one) < key(other)):
            yield "old", one
            one = next(old, None)
        else:
            yield "new", other
            other = next(new, None)


@contextlib.contextmanager
def opened(path, schema):
    """A connection to a copy of the file."""
    with tempfile.TemporaryDirectory() as room:
        for end in ("", "-wal"):
            if os.path.exists(path + end):
                shutil.copyfile(path + end, f"{room}/copy{end}")
        with contextlib.closing(sqlite3.connect(f"file:{room}/copy?mode=rw", uri=True)) as base:
            there = base.execute("SELECT schema FROM desk").fetchall()
            if there != [(schema,)]:
                raise sqlite3.Error(f"the file's schema is {there}, and {schema} is wanted")
            yield base


def flaws_of(old, new, counts):
    """A line for each row that one file alone has, and for rows that lead nowhere. The others are counted."""
    for kind in KINDS:
        counts[kind] = 0
        for side, row in compared(rows_of(old, kind, True), rows_of(new, kind, False)):
            counts[kind] += not side
            if side:
                yield f"{side} {kind} {row!r}"
        for side, base in (("old", old), ("new", new)):
            all_rows = base.execute(f"SELECT count(*) FROM {kind}").fetchone()[0]
            if all_rows != counts[kind]:
                yield f"{side} {kind}: {all_rows} in all, and {counts[kind]} in both files"


def main(words):
    if words in (["-h"], ["--help"]):
        print(__doc__.strip())
        return 0
    if len(words) != 2:
        print(__doc__, file=sys.stderr)
        return 2
    counts, flaws = {}, 0
    try:
        with opened(words[0], 2) as old, opened(words[1], 3) as new:
            for line in flaws_of(old, new, counts):
                flaws += 1
                if flaws <= MOST:
                    print(line)
    except (OSError, sqlite3.Error) as fault:
        print(f"compare_files.py: {fault}", file=sys.stderr)
        return 2
    if flaws > MOST:
        print(f"and {flaws - MOST} more")
    if not flaws:
        print("same:", ", ".join(f"{kind} {count}" for kind, count in counts.items()))
    return 1 if flaws else 0


if __name__ == "__main__":
    sys.exit(main(sys.argv[1:]))
