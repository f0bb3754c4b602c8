"""Statements that make of a file of laboratories what the program never writes, or no file of laboratories at all, and what is told of
it. The rows that are spoiled are those of tests/model/kept_rows.py's `rich`, of aqua unless it is said otherwise.
"""
LAB = "(SELECT id FROM labs WHERE code = 'aqua')"
OTHER = "(SELECT id FROM labs WHERE code = 'brick')"


def person(code):
    return f"lab = {LAB} AND code = '{code}'"


def field(form, key):
    return f"key = '{key}' AND form IN (SELECT id FROM forms WHERE lab = {LAB} AND code = '{form}')"


# Record 2 of aqua has two versions, of which the second has been rejected.
RECORD = f"(SELECT id FROM records WHERE lab = {LAB} AND number = 2)"
VERSION = f"record = {RECORD} AND number ="
ROW = f"version IN (SELECT id FROM versions WHERE record = {RECORD})"
DAN = [f"UPDATE persons SET {one} WHERE {person('dan')}" for one in (
    "name = ' Dan'", "roles = 4294967296", "retired = -1", "failures = -1", "locked = 253402300800", "kind = 2", "kind = 3",
    "salt = x'01'", "rounds = 0", "rounds = 9999", "rounds = 4294967295", "rounds = 4294967296", "bytes = NULL", "changed = NULL")]
WATER = [f"UPDATE fields SET {what} WHERE {field('water', key)}" for key, what in (
    ("lead", "unit = NULL"), ("lead", "decimals = 7"), ("lead", "low = 'none'"), ("note", "size = NULL"))] + [
    f"UPDATE choices SET name = '' WHERE place = 1 AND field IN (SELECT id FROM fields WHERE {field('water', 'colour')})",
    f"DELETE FROM choices WHERE field IN (SELECT id FROM fields WHERE {field('water', 'colour')})"]
# By the request that wants what is spoiled.
SPOILED = {
    "card": [f"UPDATE labs SET {one} WHERE code = 'aqua'" for one in ("name = ''", "last = -1", "stray = -1", "records = -1", "trail = -1")],
    "open dan": DAN,
    "persons": [
        f"UPDATE persons SET code = 'Dan' WHERE {person('dan')}", f"UPDATE persons SET salt2 = NULL WHERE {person('ida')}",
        f"UPDATE persons SET rounds2 = 1 WHERE {person('ida')}",
        f"UPDATE persons SET asked = NULL WHERE {person('jon')}", f"UPDATE persons SET ask_salt = NULL WHERE {person('jon')}",
        f"UPDATE persons SET ask_rounds = 1 WHERE {person('jon')}"],
    "dan's record": [f"UPDATE sessions SET {one} WHERE number = {{session}} AND lab = {LAB}" for one in (
        "number = 0", "number = 1000000001", "opened = -1", "closed = -1")] + [f"UPDATE persons SET failures = -1 WHERE {person('dan')}"],
    "new record": [
        f"UPDATE forms SET version = 0 WHERE code = 'air' AND lab = {LAB}", f"UPDATE forms SET approval = -1 WHERE code = 'air' AND lab = {LAB}",
        *(f"UPDATE fields SET {one} WHERE {field('air', 'dust')}" for one in ("key = 'Dust'", "label = ''", "kind = 'colour'", "kind = 'number'")),
        f"DELETE FROM fields WHERE {field('air', 'dust')}"],
    "form": WATER,
    "records": WATER,
    "version": [f"UPDATE records SET {one} WHERE id = {RECORD}" for one in ("sample = ''", "form_code = 'Water'", "current = -1")] + [
        f"UPDATE fields SET label = '' WHERE {field('water', 'lead')}",
        f"UPDATE versions SET number = 3 WHERE {VERSION} 1", f"UPDATE versions SET format = -1 WHERE {VERSION} 2",
        f"UPDATE versions SET opened = -1 WHERE {VERSION} 2", f"UPDATE versions SET reason = NULL WHERE {VERSION} 2",
        *(f"UPDATE entries SET {one} WHERE {ROW}" for one in ("key = 'Lead'", "value = ''", "unit = ' '", "moment = -1", "reason = ''")),
        *(f"UPDATE signatures SET {one} WHERE {ROW} AND meaning = 'review'" for one in (
            "meaning = 'liking'", "meaning = 'rejection', reason = NULL", "name = ''", "digest = x'15'", "seal = x'17'"))],
    "trail": [f"UPDATE trail SET moment = -1 WHERE number = 2 AND lab = {LAB}", f"UPDATE trail SET action = 'dance' WHERE number = 2 AND lab = {LAB}",
              f"UPDATE persons SET code = 'D' WHERE {person('dan')}"],
}
# Brick's own row, its persons, its sessions, and what its forms and records have.
BRICK = ("UPDATE labs SET stray = -1 WHERE code = 'brick'; "
         f"UPDATE persons SET kind = 3, name = '' WHERE lab = {OTHER}; UPDATE sessions SET opened = -1 WHERE lab = {OTHER}; "
         f"UPDATE fields SET kind = 'colour' WHERE form IN (SELECT id FROM forms WHERE lab = {OTHER}); "
         f"UPDATE versions SET format = -1 WHERE record IN (SELECT id FROM records WHERE lab = {OTHER}); "
         "UPDATE entries SET value = '' WHERE version IN (SELECT versions.id FROM versions, records WHERE record = records.id AND "
         f"lab = {OTHER}); UPDATE signatures SET meaning = 'liking' WHERE meaning = 'authorship' AND person IN (SELECT id FROM persons WHERE lab = {OTHER})")

# Files that this program doesn't make, or not to the end.
DESK = "CREATE TABLE desk (id INTEGER PRIMARY KEY, schema INTEGER NOT NULL) STRICT; INSERT INTO desk (schema) VALUES "
OTHERS = [
    ("", "not_a_desk_file"),
    ("CREATE TABLE note (id INTEGER PRIMARY KEY, title TEXT NOT NULL) STRICT", "not_a_desk_file"),
    ("CREATE TABLE note (schema INTEGER); INSERT INTO note VALUES (3)", "not_a_desk_file"),
    ("CREATE TABLE desk (id INTEGER PRIMARY KEY, number INTEGER)", "not_a_desk_file"),
    ("CREATE TABLE desk (schema INTEGER)", "not_a_desk_file"),
    ("CREATE TABLE desk (schema INTEGER); INSERT INTO desk VALUES (3), (3)", "not_a_desk_file"),
    ("CREATE TABLE desk (schema TEXT); INSERT INTO desk VALUES ('three')", "not_a_desk_file"),
    ("CREATE TABLE desk (schema INTEGER); INSERT INTO desk VALUES (NULL)", "not_a_desk_file"),
    ("CREATE VIEW desk AS SELECT 3 AS schema", "not_a_desk_file"),
    *((f"{DESK}({number})", told) for number, told in (
        (1, "schema_old 1"), (2, "schema_old 2"), (3, "not_a_desk_file"), (4, "schema_new 4"), (9, "schema_new 9"),
        (9223372036854775807, "schema_new 9223372036854775807"), (0, "not_a_desk_file"), (-1, "not_a_desk_file"))),
]
# An arrow that leads nowhere, of a file with rows: every one is looked at when the file is opened (docs/PERFORMANCE.md).
ARROWS = [("UPDATE records SET form = 4 WHERE number = 2", "storage"), ("UPDATE entries SET person = 4 WHERE place = 1", "storage")]
# What is taken from a file that is whole, or put in its place.
LOSSES = [
    *((f"DROP TABLE {one}", "not_a_desk_file") for one in ("trail", "choices", "entries", "signatures", "sessions")),
    ("DROP TABLE trail; CREATE TABLE trail (id INTEGER PRIMARY KEY, lab INTEGER, number INTEGER, moment INTEGER, person INTEGER, action TEXT)",
     "not_a_desk_file"),
    ("DROP TABLE choices; CREATE TABLE choices (id INTEGER PRIMARY KEY, field INTEGER, name TEXT)", "not_a_desk_file"),
    ("DROP TABLE entries; CREATE TABLE entries (version INTEGER, place INTEGER, key TEXT, value TEXT, unit TEXT, person INTEGER, "
     "moment INTEGER, reason TEXT)", "not_a_desk_file"),
    ("DROP TABLE trail; UPDATE desk SET schema = 2", "schema_old 2"),
    ("DROP TABLE trail; UPDATE desk SET schema = 7", "schema_new 7"),
    ("DROP TABLE choices; CREATE TABLE Choices (ID INTEGER PRIMARY KEY, Field INTEGER, PLACE INTEGER, nAME TEXT)", "no_such_lab"),
    ("CREATE TABLE further (x TEXT); INSERT INTO further VALUES ('kept')", "no_such_lab"),
]
