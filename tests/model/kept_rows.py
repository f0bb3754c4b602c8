"""What checks of laboratories in a file begin with, ask and have to find: the rows of two laboratories, events with their answers, and
what the tables have to say of each laboratory afterwards. All of it is made by tests/model/laboratory.py, which is no part of the program,
and written and read by Python's sqlite3.

The laboratories are brick and aqua: the same codes, forms, samples and numbers, sessions of the same tokens. Each id is seven times a
number, and three; the rows of brick come first, and those of one laboratory in no order. Passwords of these rows have one round of
PBKDF2, so that trying one costs little.
"""
import contextlib
import copy
import functools
import os
import random
import re
import sqlite3

import laboratory
from streams import FOUNDERS, LEAD, NOTE, Stream, reply_of

ROOT = os.path.dirname(os.path.dirname(os.path.dirname(os.path.abspath(__file__))))
ROLES = ["analyst", "reviewer", "manager", "administrator", "inspector"]
COLUMNS = {
    "labs": "code name last stray records sessions trail",
    "persons": "lab code name roles retired failures locked kind salt rounds bytes salt2 rounds2 bytes2 changed asker asked ask_salt "
               "ask_rounds ask_bytes",
    "sessions": "lab person number token opened last closed signed",
    "forms": "lab code version approval",
    "fields": "form place key label required kind unit decimals low high size",
    "choices": "field place name",
    "records": "lab number form form_code sample current",
    "versions": "record number format opener opened reason",
    "entries": "version place key value unit person moment reason",
    "signatures": "version place person name meaning moment reason digest seal",
    "trail": "lab number moment person action subject",
}
# What the tables say of a laboratory, its code being ?1, without any id: each thing by what it is known by in the laboratory.
QUESTIONS = [
    "SELECT code, name, last, stray, records, sessions, trail FROM labs WHERE code = ?1",
    "SELECT persons.code, persons.name, roles, retired, failures, locked, kind, salt, rounds, bytes, salt2, rounds2, bytes2, changed, "
    "asked, ask_salt, ask_rounds, ask_bytes FROM labs, persons WHERE labs.code = ?1 AND persons.lab = labs.id ORDER BY persons.code",
    "SELECT persons.code, askers.code, askers.lab = labs.id FROM labs, persons, persons AS askers WHERE labs.code = ?1 AND persons.lab "
    "= labs.id AND askers.id = persons.asker ORDER BY persons.code",
    "SELECT sessions.number, persons.code, persons.lab = labs.id, token, opened, sessions.last, closed, signed FROM labs, sessions, "
    "persons WHERE labs.code = ?1 AND sessions.lab = labs.id AND persons.id = sessions.person ORDER BY sessions.number",
    "SELECT forms.code, version, approval FROM labs, forms WHERE labs.code = ?1 AND forms.lab = labs.id ORDER BY forms.code, version",
    "SELECT forms.code, version, place, key, label, required, kind, unit, decimals, low, high, size FROM labs, forms, fields WHERE "
    "labs.code = ?1 AND forms.lab = labs.id AND fields.form = forms.id ORDER BY forms.code, version, place",
    "SELECT forms.code, version, key, choices.place, choices.name FROM labs, forms, fields, choices WHERE labs.code = ?1 AND forms.lab "
    "= labs.id AND fields.form = forms.id AND choices.field = fields.id ORDER BY forms.code, version, key, choices.place",
    "SELECT number, form_code, forms.code, version, forms.lab = labs.id, sample, current FROM labs, records, forms WHERE labs.code = ?1 "
    "AND records.lab = labs.id AND forms.id = records.form ORDER BY number",
    "SELECT records.number, versions.number, format, persons.code, persons.lab = labs.id, opened, reason FROM labs, records, versions, "
    "persons WHERE labs.code = ?1 AND records.lab = labs.id AND versions.record = records.id AND persons.id = versions.opener ORDER BY "
    "records.number, versions.number",
    "SELECT records.number, versions.number, place, key, value, unit, persons.code, persons.lab = labs.id, moment, entries.reason FROM "
    "labs, records, versions, entries, persons WHERE labs.code = ?1 AND records.lab = labs.id AND versions.record = records.id AND "
    "entries.version = versions.id AND persons.id = entries.person ORDER BY records.number, versions.number, place",
    "SELECT records.number, versions.number, place, persons.code, persons.lab = labs.id, signatures.name, meaning, moment, "
    "signatures.reason, digest, seal FROM labs, records, versions, signatures, persons WHERE labs.code = ?1 AND records.lab = labs.id AND "
    "versions.record = records.id AND signatures.version = versions.id AND persons.id = signatures.person ORDER BY records.number, "
    "versions.number, place",
    "SELECT number, moment, action, subject FROM labs, trail WHERE labs.code = ?1 AND trail.lab = labs.id ORDER BY number",
    "SELECT number, persons.code, persons.lab = labs.id FROM labs, trail, persons WHERE labs.code = ?1 AND trail.lab = labs.id AND "
    "persons.id = trail.person ORDER BY number",
]
# How many rows each table has: so none stands beside those that a laboratory is told by.
COUNTS = [f"SELECT count(*) FROM {table} WHERE ?1 = 'all'" for table in ("desk", *COLUMNS)]


# ---- the laboratories as rows


def person_columns(p):
    salt = rounds = made = salt2 = rounds2 = made2 = changed = None
    kind = 0
    if p.password is not None:
        kind = 1 if p.password[0] == "chosen" else 2
        salt, rounds, made = p.password[1]
        changed = p.password[-1]
        if kind == 2:
            salt2, rounds2, made2 = p.password[2]
    asked = ask_salt = ask_rounds = ask_made = None
    if p.ask is not None:
        asked, (ask_salt, ask_rounds, ask_made) = p.ask[1:]
    roles = sum(2**at for at, role in enumerate(ROLES) if role in p.roles)
    return {"code": p.code, "name": p.name, "roles": roles, "retired": int(p.retired), "failures": p.failures, "locked": p.locked,
            "kind": kind, "salt": blob(salt), "rounds": rounds, "bytes": blob(made), "salt2": blob(salt2), "rounds2": rounds2,
            "bytes2": blob(made2), "changed": changed, "asked": asked, "ask_salt": blob(ask_salt), "ask_rounds": ask_rounds,
            "ask_bytes": blob(ask_made)}


def blob(digits):
    return None if digits is None else bytes.fromhex(digits)


class Rows:
    """The rows of laboratories, each table's in the order in which they are put in."""

    def __init__(self, labs, id_of=lambda at: 7 * at + 3, seed=1):
        self.tables = {table: [] for table in COLUMNS}
        self.id_of, self.random = id_of, random.Random(seed)
        for lab in labs:
            self.add_lab(lab)

    def add(self, table, **columns):
        at = len(self.tables[table]) + 1
        self.tables[table].append({"id": self.id_of(at), **columns})
        return self.id_of(at)

    def mixed(self, things):
        return self.random.sample(list(things), len(things))

    def add_lab(self, lab):
        counts = {name: laboratory.count_of(lab, name) for name in ("records", "sessions", "trail")}
        own = self.add("labs", code=lab.code, name=lab.name, last=lab.last, stray=lab.strays, **counts)
        mixed, before = sorted(self.mixed(lab.persons), key=lambda p: p.ask is not None), len(self.tables["persons"])
        persons = {p.code: self.id_of(at) for at, p in enumerate(mixed, before + 1)}
        for p in mixed:
            self.add("persons", lab=own, asker=p.ask and persons[p.ask[0]], **person_columns(p))
        for s in self.mixed(lab.sessions):
            self.add("sessions", lab=own, person=persons[s.person], number=s.number, token=blob(s.token), opened=s.opened, last=s.last,
                     closed=int(s.closed), signed=int(s.signed))
        forms = {(f.code, f.version): self.add_form(own, f) for f in self.mixed(lab.forms)}
        for r in self.mixed(lab.records):
            self.add_record(own, forms, persons, r)
        for t in self.mixed(lab.trail):
            self.add("trail", lab=own, number=t.number, moment=t.moment, person=persons.get(t.person), action=t.action, subject=t.subject)

    def add_form(self, lab, f):
        form = self.add("forms", lab=lab, code=f.code, version=f.version, approval=int(f.approval))
        for place, one in self.mixed(list(enumerate(f.fields, 1))):
            field = self.add("fields", form=form, place=place, key=one["key"], label=one["label"], required=int(one["required"]),
                             kind=one["kind"], unit=one.get("unit"), decimals=one.get("decimals"), low=one.get("min"),
                             high=one.get("max"), size=one.get("size"))
            for at, name in self.mixed(list(enumerate(one.get("choices", []), 1))):
                self.add("choices", field=field, place=at, name=name)
        return form

    def add_record(self, lab, forms, persons, r):
        kept = self.add("records", lab=lab, number=r.number, form=forms[r.form.code, r.form.version], form_code=r.form.code,
                        sample=r.sample, current=len(r.versions))
        for v in self.mixed(r.versions):
            version = self.add("versions", record=kept, number=v.number, format=v.format, opener=persons[v.opener], opened=v.opened,
                               reason=v.reason)
            for place, one in self.mixed(list(enumerate(v.rows, 1))):
                self.add("entries", version=version, place=place, key=one.key, value=one.value, unit=one.unit,
                         person=persons[one.person], moment=one.moment, reason=one.reason)
            for place, one in self.mixed(list(enumerate(v.signatures, 1))):
                self.add("signatures", version=version, place=place, person=persons[one.person], name=one.name, meaning=one.meaning,
                         moment=one.moment, reason=one.reason or None, digest=blob(one.digest), seal=blob(one.seal))

    def statements(self):
        """A statement for each table that has rows: its head, and a line for each row."""
        for table, rows in self.tables.items():
            if rows:
                names = ["id", *COLUMNS[table].split()]
                lines = [f"({', '.join(literal(row.get(name)) for name in names)})" for row in rows]
                yield [f"INSERT INTO {table} ({', '.join(names)}) VALUES", *lines]

    def fill(self, conn):
        """Makes the tables by the program's own statements, and puts these rows in."""
        conn.execute("PRAGMA foreign_keys = ON")
        for sql in schema():
            conn.execute(sql)
        for head, *rows in self.statements():
            conn.execute(f"{head} {', '.join(rows)}")

    def database(self):
        """Tables of the C library with these rows."""
        conn = sqlite3.connect(":memory:", isolation_level=None)
        self.fill(conn)
        return conn


def literal(value):
    if value is None:
        return "NULL"
    if isinstance(value, bytes):
        return f"x'{value.hex()}'"
    return str(value) if isinstance(value, int) else "'" + value.replace("'", "''") + "'"


@functools.lru_cache(None)
def schema():
    with open(f"{ROOT}/crates/lab_store_files/src/texts.rt") as f:
        text = re.sub(r"\\\n *", "", f.read())
    made = re.findall(r'"(CREATE (?:TABLE|INDEX) .*?)";', text)
    assert len(made) == 13
    return [*made, "INSERT INTO desk (schema) VALUES (3)"]


def write(path, labs, *further, page_size=4096):
    """A file of the C library with the rows of these laboratories, and what further statements, or functions, make of it."""
    with contextlib.closing(sqlite3.connect(path, isolation_level=None)) as conn:
        conn.execute(f"PRAGMA page_size = {page_size}")
        conn.execute("BEGIN")
        Rows(labs).fill(conn)
        for one in further:
            if callable(one):
                one(conn)
            else:
                for sql in one.split(";"):
                    conn.execute(sql)
        conn.execute("COMMIT")


def add_pages(conn):
    """More pages of 512 bytes than the 2,000 that a connection keeps in memory: what a request wants is read from the file then."""
    conn.execute("CREATE TABLE note (id INTEGER PRIMARY KEY, x BLOB)")
    conn.execute("INSERT INTO note (x) VALUES (zeroblob(1050000))")


# ---- a crowd: 2,000 records and 400 persons more of brick, whose id is 10, as are those of its first person and form


CROWD = [
    "INSERT INTO records (id, lab, number, form, form_code, sample, current) VALUES (7 * ?1 + 1003, 10, ?1, 10, 'water', 'C' || ?1, 1)",
    "INSERT INTO versions (id, record, number, format, opener, opened) VALUES (7 * ?1 + 1003, 7 * ?1 + 1003, 1, 2, 10, 1153)",
    "INSERT INTO entries (id, version, place, key, value, unit, person, moment) VALUES "
    "(7 * ?1 + 1003, 7 * ?1 + 1003, 1, 'lead', '1.5', 'mg/L', 10, 1153)",
    "INSERT INTO trail (id, lab, number, moment, person, action, subject) VALUES (7 * ?1 + 1003, 10, ?2 + ?1, 1153, 10, 'record', ?1 || '')",
]


def add_crowd(conn):
    """The other laboratory stays as it is."""
    lab, records, trail = conn.execute("SELECT id, records, trail FROM labs WHERE code = 'brick'").fetchone()
    assert lab == 10 and records == 2
    for number in range(1, 401):
        conn.execute("INSERT INTO persons (id, lab, code, name, roles, retired, failures, kind) "
                     "VALUES (7 * ?1 + 1003, 10, 'p' || ?1, 'P', 1, 0, 0, 0)", (number,))
    for number in range(3, 2003):
        for sql in CROWD:
            conn.execute(sql, (number, trail - 2)[:2 if "?2" in sql else 1])
    conn.execute("UPDATE labs SET records = 2002, trail = trail + 2000 WHERE id = 10")


def told(conn, code):
    """What the tables say of a laboratory: a line for each row of each question's answer."""
    def word(value):
        return "-" if value is None else value.hex() if isinstance(value, bytes) else str(value)
    questions = COUNTS if code == "all" else QUESTIONS
    return "".join("".join(word(value) + "|" for value in row) + "\n" for sql in questions for row in conn.execute(sql, (code,)))


def two(labs):
    """Both laboratories, brick first, as their rows stand in a file."""
    return [labs["brick"], labs["aqua"]]


def all_told(labs, codes):
    conn = Rows(labs.values()).database()
    assert conn.execute("PRAGMA foreign_key_check").fetchall() == []
    return "".join(told(conn, code) for code in codes)


# ---- the laboratories with which the tests begin


NAMES = {
    "aqua": {"dan": "Dan Day", "eve": "Eve Ems", "fay": "Fay Fox", "gus": "Gus Gray", "hal": "Hal Hill"},
    "brick": {"dan": "Dan Drew", "eve": "Eva East", "fay": "Fay Ford", "gus": "Gus Gunn", "hal": "Hal Hope"},
}
DUTIES = {"dan": ["analyst"], "eve": ["analyst", "reviewer"], "fay": ["reviewer"], "gus": ["manager"], "hal": ["inspector"]}
COLOUR = {"key": "colour", "label": "Colour", "required": False, "kind": "choice", "choices": ["none", "pale blue"]}


def begun(s, lab, value):
    """A laboratory with a form, an open record, a released one, an open ask, and somebody whose next failure locks."""
    s.next_word = 1_000
    s.found(0, lab, lab.capitalize() + " Lab", FOUNDERS)
    s.open(10, "ann", lab=lab)
    s.open(10, "bob", lab=lab)
    for code, name in NAMES[lab].items():
        s.post(20, "ann", "/persons", lab=lab, code=code, name=name, roles=DUTIES[code])
        first = s.post(20, "ann", "/issue", lab=lab, code=code)["half"]
        s.passwords[lab, code] = first + s.post(20, "bob", "/confirm", lab=lab, code=code)["half"]
        s.open(20, code, lab=lab)
    for code in NAMES[lab]:
        s.change(500, code, f"{code} of {lab} 1", lab=lab)
    s.post(500, "ann", "/persons", lab=lab, code="ida", name="Ida Inn", roles=["analyst"])
    s.passwords[lab, "ida"] = s.post(500, "ann", "/issue", lab=lab, code="ida")["half"]
    s.post(600, "gus", "/forms", lab=lab, form="water", fields=[LEAD, NOTE, COLOUR])
    s.open(900, "dan", lab=lab)
    s.post(1000, "dan", "/records", lab=lab, form="water", sample="S1")
    s.post(1100, "dan", "/entries", lab=lab, record=1, key="lead", value=value, unit="mg/L")
    s.post(1110, "dan", "/records", lab=lab, form="water", sample="S2")
    s.post(1110, "dan", "/entries", lab=lab, record=2, key="lead", value="8.01", unit="mg/L")
    s.sign(1120, "dan", 2, 1, "authorship", lab=lab, code="dan")
    s.open(1130, "eve", lab=lab)
    s.open(1130, "hal", lab=lab)
    s.sign(1140, "eve", 2, 1, "review", lab=lab, code="eve")
    for moment in range(1150, 1154):
        s.open(moment, "fay", lab=lab, password="not of fay at all", wants=20)


def setup():
    """Both laboratories, with no events so far. Passwords have the rounds of before."""
    s = Stream()
    with laboratory.old_rounds():
        begun(s, "brick", "6.25")
        begun(s, "aqua", "7.50")
    s.events, s.answers, s.next_word = [], [], 10_000
    return s


CODES = ["aqua", "brick", "cider", "all"]


# ---- events that both laboratories are asked


OTHER, SAME = ({"key": "lead", "value": value, "unit": "mg/L"} for value in ("7.5", "8.01"))


def entries(s, lab):
    second = {"record": 1, "key": "lead", "value": "7.5", "unit": "mg/L"}
    s.post(1200, "dan", "/entries", lab=lab, **second, wants=47)
    s.post(1200, "dan", "/entries", lab=lab, **second, reason="misread scale", wants={"rows": 2, "version": 1})
    s.sign(1300, "dan", 1, 1, "authorship", lab=lab, wants={"state": "signed"})


def amendments(s, lab):
    s.sign(1320, "eve", 1, 1, "review", lab=lab, wants={"state": "released"})
    s.get(1330, "hal", "/records/1/versions/1", lab=lab)
    s.post(1400, "dan", "/amendments", lab=lab, record=2, reason="one decimal is meant", altered=[SAME], wants=49)
    s.post(1400, "dan", "/amendments", lab=lab, record=2, altered=[OTHER], wants=47)
    s.post(1400, "dan", "/amendments", lab=lab, record=2, reason="one decimal is meant", altered=[OTHER], wants={"version": 2})
    s.post(1400, "dan", "/amendments", lab=lab, record=2, reason="once more", altered=[SAME], wants=50)
    s.sign(1410, "dan", 2, 2, "authorship", lab=lab, digest=s.digest(2, 1, lab), wants=52)
    s.sign(1410, "dan", 2, 2, "authorship", lab=lab, wants={"state": "signed"})
    s.sign(1420, "eve", 2, 2, "rejection", lab=lab, reason="not our scale", wants={"state": "rejected"})


def records_and_persons(s, lab):
    s.post(1430, "dan", "/records", lab=lab, form="water", sample="S1", wants={"number": 43, "record": 1})
    s.post(1430, "dan", "/records", lab=lab, form="water", sample="S9", wants={"record": 3, "version": 1})
    s.post(1440, "dan", "/entries", lab=lab, record=3, key="colour", value="pale blue", unit="", wants={"rows": 1})
    s.open(1450, "fay", lab=lab, password="not of fay at all", wants=20)
    s.post(1450, None, "/open", lab=lab, code="zed", password="nobody's password", wants=20)
    s.open(1470, "ann", lab=lab)
    s.post(1470, "ann", "/unlock", lab=lab, code="fay")
    s.post(1490, "ann", "/retire", lab=lab, code="dan")
    s.get(1490, "dan", "/records/1", lab=lab, wants=22)
    s.post(1490, "hal", "/close", lab=lab)


def hours():
    """All of that in aqua, and the first part in brick."""
    aqua, brick = setup(), setup()
    for part in (entries, amendments, records_and_persons):
        part(aqua, "aqua")
    entries(brick, "brick")
    return {"aqua": aqua, "brick": brick}


# ---- requests during which the store is stopped


def stopped():
    """What each is asked, with its answer and the laboratories afterwards; each by itself, on the laboratories as they begin."""
    def one(play):
        s = setup()
        play(s)
        assert len(s.events) == 1
        return s
    def founding(s):
        s.next_word = 20_000
        s.found(2000, "cider", "Cider Lab", FOUNDERS)
    return {
        "ENTRY": one(lambda s: s.post(1200, "dan", "/entries", record=1, key="lead", value="7.5", unit="mg/L", reason="misread scale")),
        "SIGNING": one(lambda s: s.sign(1300, "dan", 1, 1, "authorship")),
        "AMENDMENT": one(lambda s: s.post(1400, "dan", "/amendments", record=2, reason="one decimal is meant", altered=[OTHER])),
        "LOCK": one(lambda s: s.open(1450, "fay", password="not of fay at all", wants=20)),
        "READING": one(lambda s: s.get(1460, "hal", "/records/2/versions/1")),
        "FOUNDING": one(founding),
    }


def amended(s):
    """The stream with an amendment at its end."""
    s = copy.deepcopy(s)
    s.post(1700, "dan", "/amendments", record=2, reason="one decimal is meant", altered=[OTHER])
    return s


def refused_for_storage(s):
    moment = int(s.events[-1].split()[1])
    return reply_of(503, moment, laboratory.body(error="storage", number=63))


# ---- what is read of both, and requests that want what is spoiled


def rich():
    """Both laboratories after some hours, with each kind of field, of password and of deed: amendments, a signature that was refused, a
    lock, somebody who left, a one-time word, an ask. In aqua dan's session is the last one."""
    s = setup()
    for lab in ("brick", "aqua"):
        entries(s, lab)
        if lab == "aqua":
            amendments(s, lab)
        s.open(1430, "ann", lab=lab)
        s.open(1430, "bob", lab=lab)
        s.open(1430, "gus", lab=lab)
        s.post(1430, "bob", "/confirm", lab=lab, code="ida")
        s.post(1430, "ann", "/persons", lab=lab, code="jon", name="Jon Jay", roles=["analyst"])
        s.post(1430, "ann", "/issue", lab=lab, code="jon")
        if lab == "aqua":
            s.post(1430, "gus", "/forms", lab=lab, form="air", approval=True, fields=[{"key": "dust", "label": "Dust", "required": True, "kind": "yesno"}])
            s.post(1430, "gus", "/forms", lab=lab, form="water", fields=[{**LEAD, "unit": "ug/L", "decimals": 0, "max": "900"}])
            s.post(1430, "dan", "/records", lab=lab, form="water", sample="S3")
        s.post(1431, "gus", "/forms", lab=lab, form="rock", fields=[{"key": "day", "label": "Day", "required": False, "kind": "date"}])
        own = {"brick": ("max", "Max Moss"), "aqua": ("una", "Una Ulm")}[lab]
        s.post(1431, "ann", "/persons", lab=lab, code=own[0], name=own[1], roles=["analyst"])
        s.post(1431, "gus", "/close", lab=lab)
        s.post(1431, "ann", "/roles", lab=lab, code="eve", roles=["reviewer"])
        s.post(1431, "ann", "/retire", lab=lab, code="cid")
        s.open(1432, "fay", lab=lab, password="not of fay at all", wants=20)
        if lab == "brick":
            s.post(1433, "ann", "/unlock", lab=lab, code="fay")
        s.open(1440, "hal", lab=lab)
        s.open(1440, "dan", lab=lab)
    s.events, s.answers, s.next_word = [], [], 30_000
    return s


def readings():
    """All that can be read of both, and what isn't there."""
    s = rich()
    for lab, other in (("aqua", "brick"), ("brick", "aqua")):
        s.read_all("hal", lab)
        s.get(1500, "hal", "/records/9", 44, lab=lab)
        s.get(1500, "hal", "/records/1/versions/9", 45, lab=lab)
        s.get(1500, "hal", "/forms/water/3", 42, lab=lab)
        s.get(1500, "hal", "/forms/soil/1", 42, lab=lab)
        s.get(1500, "hal", "/records?from=2&to=3", lab=lab)
        s.get(1500, "hal", "/records?from=4&to=100", lab=lab)
        s.get(1500, "hal", "/trail?from=3&to=4", lab=lab)
        s.get(1500, "hal", "/trail?from=101&to=200", lab=lab)
        s.open(1500, "ivy", 20, "nobody's password", lab=lab)
    assert len({t.action for lab in s.labs.values() for t in lab.trail}) == 17
    s.get(1500, "hal", "/forms/air/1", 42, lab="brick")
    s.get(1500, "hal", "/records/3", 44, lab="brick")
    s.post(1500, "dan", "/records", 43, form="water", sample="S1")
    s.post(1500, "dan", "/records", {"record": 4}, form="air", sample="S1")
    s.post(1500, "dan", "/records", {"record": 3}, lab="brick", form="water", sample="S3")
    s.post(1500, "dan", "/records", 42, lab="brick", form="air", sample="S1")
    for lab, own, other in (("aqua", "una", "max"), ("brick", "max", "una")):
        s.post(1500, "ann", "/issue", 33, lab=lab, code=other)
        s.post(1500, "ann", "/issue", lab=lab, code=own)
        s.post(1500, "ann", "/persons", 27, lab=lab, code=own, name="Another", roles=["analyst"])
    for part in ("aqu", "aquas", "b"):
        s.get(1500, None, "", 40, lab=part)
    s.tokens["brick", "stranger"] = s.tokens["aqua", "hal"]
    s.get(1500, "stranger", "/persons", 22, lab="brick")
    return s


def foundings():
    """Three foundings in one file, whose founders come in another order than that of their codes, and one of a laboratory that is there."""
    s = Stream()
    s.next_word = 40_000
    one, two, three = FOUNDERS
    s.found(500, "terra", "Terra Lab", [three, one, two])
    s.found(510, "aqua", "Aqua Lab", [two, three, one])
    s.found(520, "aqua", "Another", FOUNDERS, wants=64)
    s.found(530, "brick", "Brick Lab", FOUNDERS)
    return s


def requests():
    """By name, each by itself over the rich laboratories: a request that wants some of aqua's rows, and one of brick."""
    def one(play):
        s = rich()
        play(s)
        assert len(s.events) == 1
        return s
    return {
        "card": one(lambda s: s.get(1500, None, "")),
        "open dan": one(lambda s: s.open(1500, "dan")),
        "persons": one(lambda s: s.get(1500, "hal", "/persons")),
        "dan's record": one(lambda s: s.get(1500, "dan", "/records/1")),
        "new record": one(lambda s: s.post(1500, "dan", "/records", form="air", sample="A1")),
        "form": one(lambda s: s.get(1500, "hal", "/forms/water/1")),
        "records": one(lambda s: s.get(1500, "hal", "/records?from=1&to=9")),
        "version": one(lambda s: s.get(1500, "hal", "/records/2")),
        "trail": one(lambda s: s.get(1500, "hal", "/trail?from=1&to=9")),
        "brick": one(lambda s: s.get(1500, "hal", "/persons", lab="brick")),
    }
