#!/usr/bin/env python3
"""Files of schema 2 whose tables say less than that schema's do, or say it in other words: out of rich-strict.db of files.tar.xz, by SQL.

    tests/old/loosen.py          writes loosened.tar.xz and loosened.answers
    tests/old/loosen.py FOLDER   writes the files into that folder, with rich-strict.db

Each file has the rows of rich-strict.db; in most of them one row has lost its owner, as no program of schema 2 leaves it. What `labdesk
migrate` answers stands in loosened.answers: the number of the refusal, or `moved`, and the file's name.
"""
import contextlib
import io
import os
import re
import sqlite3
import sys
import tarfile

HERE = os.path.dirname(os.path.abspath(__file__))
SOURCE = "rich-strict"
NOWHERE = 999_999

# A review in brick, without which a released version is one that is signed. Of aqua the last signature of another version, the last row of
# one that is open, a field and a choice that stand last, and a person who never did anything.
REVIEW, SIGNATURE, ROW, FIELD, CHOICE, PERSON = 17, 38, 80, 24, 24, 122


def without_reference(text, column):
    """The text of a table whose column leads nowhere."""
    return changed(text, rf"\b({column} INTEGER(?: NOT NULL)?) REFERENCES \w+ \(id\)", r"\1")


def with_null(text, column):
    """The text of a table whose column may be NULL."""
    return changed(text, rf"\b({column} INTEGER) NOT NULL", r"\1")


def changed(text, pattern, other):
    made, count = re.subn(pattern, other, text)
    assert count == 1, (text, pattern)
    return made


def as_it_is(text, column):
    return text


def without_references(text):
    return re.sub(r" REFERENCES \w+ \(id\)", "", text)


def without_keys(text):
    return re.sub(r", UNIQUE \([^)]*\)| UNIQUE\b", "", text)


def in_other_words(text):
    """Names in quotes and capitals, the columns from the last to the first, each reference and each key behind them, not STRICT."""
    name, body = re.fullmatch(r"CREATE TABLE (\w+) \((.*)\) STRICT", text).groups()
    columns, behind = [], []
    for part in re.split(r", (?![^(]*\))", body):
        if part.startswith("UNIQUE"):
            behind.append(part.lower())
            continue
        column, how = part.split(None, 1)
        if "REFERENCES" in how:
            how, parent = how.split(" REFERENCES ")
            parent = parent if len(columns) % 2 else parent.split()[0].upper()
            behind.append(f'FOREIGN KEY ("{column.upper()}") REFERENCES {parent} ON DELETE RESTRICT')
        columns.append(f'"{column.upper()}"\n  {how.lower()}')
    return f"create table [{name.capitalize()}] (\n" + ",\n".join(columns[::-1] + behind) + "\n)"


def one(table, change, *more):
    """A change of the text of one table, and statements."""
    return (lambda name, text: change(text, *more) if name == table else text)


def each(change):
    return lambda name, text: change(text)


def lost(table, column, number, change, owner):
    return one(table, change, column), [f"UPDATE {table} SET {column} = {owner} WHERE id = {number}"]


FORM = "INSERT INTO forms (id, lab, code, version) VALUES (31, {0}, 'water', 3)"
# By its name: which row has lost its owner, by its table, its column and its id. (Of a form there is none without fields: one is added.)
BROKEN = {
    "signature-of-nobody": ("signatures", "person", REVIEW),
    "signature-of-no-version": ("signatures", "version", REVIEW),
    "entry-of-nobody": ("entries", "person", ROW),
    "entry-of-no-version": ("entries", "version", ROW),
    "field-of-no-form": ("fields", "form", FIELD),
    "choice-of-no-field": ("choices", "field", CHOICE),
    "person-of-no-laboratory": ("persons", "lab", PERSON),
}
# By the file's name: the answer, how each table's text is changed, and what is done to the rows then.
FILES = {
    # A reference that the table lacks, and a row that it would have kept from losing its owner.
    **{name: (60, *lost(*row, without_reference, NOWHERE)) for name, row in BROKEN.items()},
    "form-of-no-laboratory": (60, one("forms", without_reference, "lab"), [FORM.format(NOWHERE)]),
    # No row has lost its owner, but nothing kept one from it.
    "no-references": (60, each(without_references), []),
    # Each reference is there, and NULL is admitted, which leads nowhere.
    "signature-null": (66, *lost("signatures", "person", SIGNATURE, with_null, "NULL")),
    "entry-null": (66, *lost("entries", "person", ROW, with_null, "NULL")),
    "signature-version-null": (63, *lost("signatures", "version", REVIEW, with_null, "NULL")),
    "entry-version-null": (63, *lost("entries", "version", ROW, with_null, "NULL")),
    "field-null": (63, *lost("fields", "form", FIELD, with_null, "NULL")),
    "choice-null": (63, *lost("choices", "field", CHOICE, with_null, "NULL")),
    "person-null": (63, *lost("persons", "lab", PERSON, with_null, "NULL")),
    "form-null": (63, one("forms", with_null, "lab"), [FORM.format("NULL")]),
    # Keys that the tables lack are tried by the new file's.
    "code-twice": (63, each(without_keys), ["UPDATE persons SET code = 'jon' WHERE id = 122"]),
    "key-twice": (63, each(without_keys), ["UPDATE fields SET key = 'lead' WHERE id = 24"]),
    "no-keys": ("moved", each(without_keys), []),
    # The tables are as they should be, and a row breaks a reference of its table.
    **{f"{name}-breaks": (63, *lost(*row, as_it_is, NOWHERE)) for name, row in BROKEN.items()},
    "form-of-no-laboratory-breaks": (63, one("forms", as_it_is, "lab"), [FORM.format(NOWHERE)]),
    # The same tables in other words.
    "other-words": ("moved", each(in_other_words), []),
}


def loosen(source, path, change, statements):
    """A new file at the path, of tables by the changed texts, with the rows of the source, after the statements."""
    with contextlib.closing(sqlite3.connect(path, isolation_level=None)) as base:
        base.execute("ATTACH ? AS source", (source,))
        for name, text in base.execute("SELECT name, sql FROM source.sqlite_schema WHERE type = 'table' ORDER BY rowid").fetchall():
            base.execute(change(name, text))
            columns = ", ".join(f'"{row[1]}"' for row in base.execute(f"PRAGMA source.table_info({name})"))
            base.execute(f"INSERT INTO main.{name} ({columns}) SELECT {columns} FROM source.{name} ORDER BY id")
        base.execute("DETACH source")
        for sql in statements:
            assert base.execute(sql).rowcount == 1, sql


def write(folder):
    with tarfile.open(f"{HERE}/files.tar.xz") as files, open(f"{folder}/{SOURCE}.db", "wb") as out:
        out.write(files.extractfile(f"{SOURCE}.db").read())
    for name, (_, change, statements) in FILES.items():
        loosen(f"{folder}/{SOURCE}.db", f"{folder}/loosened-{name}.db", change, statements)


def pack(folder):
    """The files, without a time or an owner, so that the archive is the same wherever it is made."""
    with tarfile.open(f"{HERE}/loosened.tar.xz", "w:xz", preset=9) as files:
        for name in FILES:
            held = tarfile.TarInfo(f"loosened-{name}.db")
            held.size = os.path.getsize(f"{folder}/{held.name}")
            with open(f"{folder}/{held.name}", "rb") as kept:
                files.addfile(held, io.BytesIO(kept.read()))
    with open(f"{HERE}/loosened.answers", "w") as answers:
        answers.writelines(f"{answer} {name}\n" for name, (answer, *_) in FILES.items())


def main(words):
    if words:
        write(words[0])
        return 0
    import tempfile
    with tempfile.TemporaryDirectory() as folder:
        write(folder)
        pack(folder)
    return 0


if __name__ == "__main__":
    sys.exit(main(sys.argv[1:]))
