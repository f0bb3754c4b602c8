#!/usr/bin/env python3
"""The statements of a request over a file, in their order, as a play for bench/plays.c.

    bench/statements.py           lists them by the request, says by which key the C library finds the rows of each, and which of their
                                  texts no crate has any more

`labdesk` has a store of its own, in which nothing can be recorded from outside. So the lists were read off its sources, on 2026-11-27:
what is loaded before anything is decided off crates/lab_store_load and the crates of readers below it, what is changed off
crates/lab_store and lab_store_write_changes, and which changes a command makes off crates/lab_records_commands and
lab_records_laws. They stay as they are where the program learns to ask for less, so that its figures can be held against those of
before. bench/beside.py compares the rows of both files afterwards: what is written is written by both.
"""
import hashlib
import os
import pathlib
import re
import sqlite3
import sys
import tempfile

TOP = pathlib.Path(__file__).resolve().parent.parent
PERSON = ("code, name, roles, retired, failures, locked, kind, salt, rounds, bytes, salt2, rounds2, bytes2, changed, asker, asked, "
          "ask_salt, ask_rounds, ask_bytes")
RECORD = "SELECT id, number, form, form_code, sample, current FROM records WHERE lab = ?1 AND number"
TEXTS = {
    # What is loaded.
    "the laboratory": "SELECT id, code, name, last, stray, records, sessions, trail FROM labs WHERE code = ?1",
    "the codes of its persons, to count them": "SELECT code FROM persons WHERE lab = ?1 ORDER BY code",
    "the session of the token, with its person's code":
        "SELECT sessions.number, persons.code, sessions.token, sessions.opened, sessions.last, sessions.closed, sessions.signed FROM "
        "sessions, persons WHERE sessions.lab = ?1 AND sessions.token = ?2 AND persons.id = sessions.person",
    "the person": f"SELECT {PERSON} FROM persons WHERE lab = ?1 AND code = ?2",
    "the record": f"{RECORD} = ?2",
    "the records of the range": f"{RECORD} >= ?2 AND number <= ?3 ORDER BY number",
    "its form": "SELECT id, code, version, approval FROM forms WHERE id = ?1",
    "the form's fields":
        "SELECT id, key, label, required, kind, unit, decimals, low, high, size FROM fields WHERE form = ?1 ORDER BY place",
    "the record's versions, with their openers' codes":
        "SELECT versions.id, versions.number, versions.format, persons.code, versions.opened, versions.reason FROM versions, persons "
        "WHERE versions.record = ?1 AND persons.id = versions.opener ORDER BY versions.number",
    "the version's entries, with their persons' codes":
        "SELECT entries.key, entries.value, entries.unit, persons.code, entries.moment, entries.reason FROM entries, persons "
        "WHERE entries.version = ?1 AND persons.id = entries.person ORDER BY entries.place",
    "the version's signatures, with their persons' codes":
        "SELECT persons.code, signatures.name, signatures.meaning, signatures.reason, signatures.moment, signatures.digest, "
        "signatures.seal FROM signatures, persons WHERE signatures.version = ?1 AND persons.id = signatures.person "
        "ORDER BY signatures.place",
    "the rows of the trail of the range":
        "SELECT number, moment, person, action, subject FROM trail WHERE lab = ?1 AND number >= ?2 AND number <= ?3 ORDER BY number",
    "the code of the row's person": "SELECT code FROM persons WHERE id = ?1",
    # What is changed, by one commit.
    "begin": "BEGIN IMMEDIATE",
    "commit": "COMMIT",
    "set the laboratory's last moment": "UPDATE labs SET last = ?2 WHERE id = ?1",
    "the session's id": "SELECT id FROM sessions WHERE lab = ?1 AND token = ?2 ORDER BY id",
    "the person's id": "SELECT id FROM persons WHERE lab = ?1 AND code = ?2 ORDER BY id",
    "set the session":
        "UPDATE sessions SET lab = ?2, person = ?3, number = ?4, token = ?5, opened = ?6, last = ?7, closed = ?8, signed = ?9 WHERE id = ?1",
    "add the session":
        "INSERT INTO sessions (lab, person, number, token, opened, last, closed, signed) VALUES (?1, ?2, ?3, ?4, ?5, ?6, ?7, ?8)",
    "set the count of sessions": "UPDATE labs SET sessions = ?2 WHERE id = ?1",
    "set the person":
        "UPDATE persons SET lab = ?2, code = ?3, name = ?4, roles = ?5, retired = ?6, failures = ?7, locked = ?8, kind = ?9, salt = ?10, "
        "rounds = ?11, bytes = ?12, salt2 = ?13, rounds2 = ?14, bytes2 = ?15, changed = ?16, asker = ?17, asked = ?18, ask_salt = ?19, "
        "ask_rounds = ?20, ask_bytes = ?21 WHERE id = ?1",
    "the record's id and current version": "SELECT id, current FROM records WHERE lab = ?1 AND number = ?2 ORDER BY id",
    "the version's id": "SELECT id FROM versions WHERE record = ?1 AND number = ?2 ORDER BY id",
    "the ids of the version's entries, to count them": "SELECT id FROM entries WHERE version = ?1 ORDER BY id",
    "add the entry":
        "INSERT INTO entries (version, place, key, value, unit, person, moment, reason) VALUES (?1, ?2, ?3, ?4, ?5, ?6, ?7, ?8)",
    "the ids of the version's signatures, to count them": "SELECT id FROM signatures WHERE version = ?1 ORDER BY id",
    "add the signature":
        "INSERT INTO signatures (version, place, person, name, meaning, moment, reason, digest, seal) VALUES (?1, ?2, ?3, ?4, ?5, ?6, ?7, "
        "?8, ?9)",
    "add a row of the trail": "INSERT INTO trail (lab, number, moment, person, action, subject) VALUES (?1, ?2, ?3, ?4, ?5, ?6)",
    "set the count of the trail": "UPDATE labs SET trail = ?2 WHERE id = ?1",
}
NUMBERS = {what: number for number, what in enumerate(TEXTS)}
# Those that may show no row: an open version has no signatures, and nobody has the token that is about to be given.
MAYBE = ("the version's signatures, with their persons' codes", "the ids of the version's signatures, to count them")


def written(value):
    """A value as bench/plays.c reads it."""
    if value is None:
        return "-"
    if isinstance(value, int):
        return f"i{value}"
    return f"b{value.hex()}" if isinstance(value, bytes) else f"t{value.encode().hex()}"


class Play:
    """The play of requests to a laboratory, each after those before it. What it has to know of the file it is told by the file as it
    was before them all."""

    def __init__(self, path, lab, tokens):
        self.base = sqlite3.connect(f"file:{path}?mode=ro", uri=True)
        self.code, self.asked = lab, []
        self.lines = [f"text {text}" for text in TEXTS.values()]
        self.lab, self.sessions, self.trail = self.row("SELECT id, sessions, trail FROM labs WHERE code = ?", lab)
        self.form = self.row("SELECT id FROM forms WHERE lab = ?", self.lab)[0]
        self.tokens = {who: hashlib.sha256(bytes.fromhex(token)).digest() for who, token in tokens.items()}
        self.open_sessions = {token: [*self.row(TEXTS["the session of the token, with its person's code"], self.lab, token)]
                              for token in self.tokens.values()}
        self.persons, self.records, self.entries, self.signatures = {}, {}, {}, {}

    def close(self):
        self.base.close()

    def row(self, text, *values):
        return self.base.execute(text, values).fetchone()

    def person(self, code):
        if code not in self.persons:
            self.persons[code] = self.row(f"SELECT id, {PERSON} FROM persons WHERE lab = ? AND code = ?", self.lab, code)
        return self.persons[code]

    def record(self, number):
        """The ids of the record and of its versions, from the first on. How many rows each version has is kept besides."""
        if number not in self.records:
            record = self.row("SELECT id FROM records WHERE lab = ? AND number = ?", self.lab, number)[0]
            versions = [row[0] for row in self.base.execute("SELECT id FROM versions WHERE record = ? ORDER BY number", (record,))]
            for version in versions:
                self.entries[version] = self.row("SELECT count(*) FROM entries WHERE version = ?", version)[0]
                self.signatures[version] = self.row("SELECT count(*) FROM signatures WHERE version = ?", version)[0]
            self.records[number] = record, versions
        return self.records[number]

    # Lines of the play.

    def part(self, name):
        self.lines.append(f"part {name}")

    def request(self):
        self.lines.append("request")

    def put(self, how, what, values):
        self.asked.append(what)
        self.lines.append(" ".join([how, str(NUMBERS[what]), *map(written, values)]))

    def ask(self, what, *values):
        self.put("any" if what in MAYBE else "some", what, values)

    def change(self, what, *values):
        self.put("set", what, values)

    # What is loaded.

    def load(self, token=None, person=None, record=None, listed=None):
        self.ask("the laboratory", self.code)
        self.ask("the codes of its persons, to count them", self.lab)
        if listed:
            listed()
        if token:
            self.ask("the session of the token, with its person's code", self.lab, token)
            self.ask("the person", self.lab, self.open_sessions[token][1])
        if person:
            self.ask("the person", self.lab, person)
        if record:
            self.ask("the record", self.lab, record)
            self.whole(record)

    def whole(self, number):
        record, versions = self.record(number)
        self.ask("its form", self.form)
        self.ask("the form's fields", self.form)
        self.ask("the record's versions, with their openers' codes", record)
        for version in versions:
            self.ask("the version's entries, with their persons' codes", version)
            self.ask("the version's signatures, with their persons' codes", version)

    # What is changed.

    def begin(self, moment, token=None):
        """The laboratory and its last moment, and that of the session."""
        self.ask("the laboratory", self.code)
        self.put("any", "begin", [])
        self.change("set the laboratory's last moment", self.lab, moment)
        if token:
            self.open_sessions[token][4] = moment
            self.set_session(token)

    def set_session(self, token):
        number, code, *rest = self.open_sessions[token]
        at = self.row("SELECT id FROM sessions WHERE lab = ? AND token = ?", self.lab, token)[0]
        self.ask("the session's id", self.lab, token)
        person = self.person_id(code)
        self.change("set the session", at, self.lab, person, number, *rest)

    def person_id(self, code):
        self.ask("the person's id", self.lab, code)
        return self.person(code)[0]

    def accept(self, code):
        """A password was right: no failures are counted, and no lock."""
        at, _, name, roles, retired, _, _, *further = self.person(code)
        self.person_id(code)
        self.change("set the person", at, self.lab, code, name, roles, retired, 0, None, *further)

    def end(self, moment=None, code=None, action=None, subject=None):
        """A row of the trail, where there is one, and the commit."""
        if action:
            self.trail += 1
            self.change("add a row of the trail", self.lab, self.trail, moment, self.person_id(code), action, subject)
            self.change("set the count of the trail", self.lab, self.trail)
        self.put("any", "commit", [])

    # Requests. Each has who asks, the members of its body, the moment of its reply, and the reply.

    def card(self, one):
        self.load()
        self.ask("the laboratory", self.code)

    def entry(self, one):
        token, asked = self.tokens[one.who], one.members
        number = asked["record"]
        self.load(token, record=number)
        self.begin(one.moment, token)
        record, versions = self.record(number)
        self.ask("the record's id and current version", self.lab, number)
        self.ask("the version's id", record, len(versions))
        person = self.person_id(one.who)
        self.ask("the ids of the version's entries, to count them", versions[-1])
        self.entries[versions[-1]] += 1
        self.change("add the entry", versions[-1], self.entries[versions[-1]], asked["key"], asked["value"], asked["unit"], person,
                    one.moment, asked["reason"])
        self.end(one.moment, one.who, "entry", f"{number}/{len(versions)}/{asked['key']}")

    def signing(self, one):
        token, asked = self.tokens[one.who], one.members
        number = asked["record"]
        self.load(token, record=number)
        self.begin(one.moment, token)
        self.accept(one.who)
        self.open_sessions[token][6] = 1
        self.set_session(token)
        record, versions = self.record(number)
        self.ask("the record's id and current version", self.lab, number)
        self.ask("the version's id", record, asked["version"])
        person = self.person_id(one.who)
        self.ask("the ids of the version's signatures, to count them", versions[-1])
        self.signatures[versions[-1]] += 1
        self.change("add the signature", versions[-1], self.signatures[versions[-1]], person, self.person(one.who)[2], asked["meaning"],
                    one.moment, None, bytes.fromhex(one.reply["digest"]), bytes.fromhex(one.reply["seal"]))
        self.end(one.moment, one.who, "sign", f"{number}/{asked['version']}/{asked['meaning']}")

    def reading(self, one):
        token = self.tokens[one.who]
        self.load(token, record=int(one.place.rpartition("/")[2]))
        self.begin(one.moment, token)
        self.end()

    again = reading

    def opening(self, one):
        code, number = one.members["code"], one.reply["session"]
        token = hashlib.sha256(bytes.fromhex(one.reply["token"])).digest()
        self.load()
        self.put("any", "the session of the token, with its person's code", [self.lab, token])
        self.ask("the person", self.lab, code)
        self.begin(one.moment)
        self.accept(code)
        self.change("add the session", self.lab, self.person_id(code), number, token, one.moment, one.moment, 0, 0)
        self.change("set the count of sessions", self.lab, number)
        self.end(one.moment, code, "open", str(number))

    def records_of_range(self, low, high):
        self.ask("the records of the range", self.lab, low, high)
        for number, in self.base.execute("SELECT number FROM records WHERE lab = ? AND number BETWEEN ? AND ? ORDER BY number",
                                         (self.lab, low, high)).fetchall():
            self.whole(number)

    def records_read(self, one):
        token, (low, high) = self.tokens[one.who], map(int, re.findall(r"\d+", one.place))
        self.load(token, listed=lambda: self.records_of_range(low, high))
        self.begin(one.moment, token)
        self.end()

    def trail_of_range(self, low, high):
        self.ask("the rows of the trail of the range", self.lab, low, high)
        for row in self.base.execute("SELECT person FROM trail WHERE lab = ? AND number BETWEEN ? AND ? ORDER BY number",
                                     (self.lab, low, high)).fetchall():
            self.ask("the code of the row's person", *row)

    def trail_read(self, one):
        token, (low, high) = self.tokens[one.who], map(int, re.findall(r"\d+", one.place))
        self.load(token, listed=lambda: self.trail_of_range(low, high))
        self.begin(one.moment, token)
        self.end()


# ---- the lists, in words


def sources():
    """Every text between quotes of the crates over a file."""
    found = set()
    for source in TOP.glob("crates/lab_store*/src/*.rt"):
        found.update(re.findall(r'"((?:SELECT|INSERT|UPDATE) [^"]*)"', source.read_text()))
    return found


def listed():
    """Of each kind of request a request, over a small file, and what it asks."""
    import sized
    with tempfile.TemporaryDirectory() as room:
        file = os.path.join(room, "file")
        size = sized.Size("", persons=3, beside=2, own=2)
        size.make(file)
        tokens = sized.begin(file, 5_000)
        play = Play(file, "aqua", tokens)
        for kind, called in sized.KINDS.items():
            one = size.requests(kind, 0)[0]
            one.moment, one.reply = 5_000, {"digest": "00" * 32, "seal": "00" * 32, "session": 3, "token": "03"}
            play.asked = []
            getattr(play, kind)(one)
            print(f"{called}: {sum(one not in ('begin', 'commit') for one in play.asked)}")
            print("".join(f"    {what}{f', {many} times' if many > 1 else ''}\n" for what, many in runs(play.asked)))
        walks(play.base)
        play.close()


def runs(asked):
    """What is asked, each with how often it is asked until what came first comes again; so a list is short that says the same of each row."""
    return [(one, asked.count(one)) for one in dict.fromkeys(asked)] if len(asked) > 40 else [(one, 1) for one in asked]


def walks(base):
    """Each statement, and by which key the C library finds its rows; then those of the crates' texts that no request here runs."""
    now = sources()
    further = {text: text for text in sorted(now - set(TEXTS.values()))}
    print(f"By which key the C library finds the rows; {len(now)} texts stand in the crates:\n")
    for what, text in (TEXTS | further).items():
        if text.split()[0] in ("BEGIN", "COMMIT"):
            continue
        count = max(map(int, re.findall(r"\?(\d+)", text)), default=0)
        plans = [plan for *_, plan in base.execute("EXPLAIN QUERY PLAN " + text, [None] * count)]
        print(f"{'WALKS' if any(one.startswith('SCAN') for one in plans) else '     '} {what}: {'; '.join(plans) or 'adds a row'}"
              f"{'' if text in now else ' (no crate has this text)'}")


if __name__ == "__main__":
    sys.dont_write_bytecode = True
    sys.exit(listed())
