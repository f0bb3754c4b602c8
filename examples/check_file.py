#!/usr/bin/env python3
"""Checks the records of one laboratory in a file of laboratories, by docs/TABLES.md, VERSIONS.md, RECORDS.md, PERSONS.md and FORMS.md alone.

    check_file.py FILE LAB

No server may hold the file. Nothing is written into it; beside a file that has a log, FILE-wal, SQLite may leave FILE-shm. Each digest
and each seal is computed anew from the rows. The script also looks at who signed, whether numbers have gaps, whether a row leads
to another laboratory, and whether values are those that their forms admit; and it reads the trail row by row, as it was written, and
compares what the trail says with the persons, the sessions, the forms and the records that are there. It prints 'good' and how many
records, versions, entries and signatures the laboratory has, with status 0; or a line for each of the first hundred flaws, 'bad', a word
and a place, with status 1. If the file can't be read, it prints why, with status 2.

    integrity   what SQLite itself finds of the whole file
    schema      a table or the index isn't as docs/TABLES.md has it, or the file has a trigger
    digest      a signature's digest isn't that of its version
    seal        a signature's seal isn't that of its items
    one_person  the signatures aren't those of a state, or the persons aren't different ones, as the rules of signers and of one-time
                passwords want it
    order       a number is missing, a version follows one that isn't settled, or a reason is missing or not allowed
    value       the form doesn't admit a value, its key or its unit, a required value is missing, or an amendment alters nothing
    arrow       a row leads to a row of another laboratory
    person      a person isn't what the trail says: who there is, roles, retirement, locks, and which password was given when
    trail       something has no row of the trail, a row of the trail is about nothing or can't be there, or its moments go back
    row         no row can have what this row has; the check ends there

Before the verdict it prints 'added' and the name of each table, view or index that another program added. They are allowed.
"""
import collections
import contextlib
import datetime
import hashlib
import os
import re
import sqlite3
import sys
import urllib.parse

# Each table, as docs/TABLES.md has it, without its id: ! is NOT NULL, and > an arrow.
TABLES = {
    "desk": "schema INTEGER!",
    "labs": "code TEXT! UNIQUE, name TEXT!, last INTEGER!, stray INTEGER!, records INTEGER!, sessions INTEGER!, trail INTEGER!",
    "persons": "lab INTEGER! >labs, code TEXT!, name TEXT!, roles INTEGER!, retired INTEGER!, failures INTEGER!, locked INTEGER, "
               "kind INTEGER!, salt BLOB, rounds INTEGER, bytes BLOB, salt2 BLOB, rounds2 INTEGER, bytes2 BLOB, changed INTEGER, "
               "asker INTEGER >persons, asked INTEGER, ask_salt BLOB, ask_rounds INTEGER, ask_bytes BLOB, UNIQUE (lab, code)",
    "sessions": "lab INTEGER! >labs, person INTEGER! >persons, number INTEGER!, token BLOB!, opened INTEGER!, last INTEGER!, "
                "closed INTEGER!, signed INTEGER!, UNIQUE (lab, token), UNIQUE (lab, number)",
    "forms": "lab INTEGER! >labs, code TEXT!, version INTEGER!, approval INTEGER!, UNIQUE (lab, code, version)",
    "fields": "form INTEGER! >forms, place INTEGER!, key TEXT!, label TEXT!, required INTEGER!, kind TEXT!, unit TEXT, decimals INTEGER, "
              "low TEXT, high TEXT, size INTEGER, UNIQUE (form, place), UNIQUE (form, key)",
    "choices": "field INTEGER! >fields, place INTEGER!, name TEXT!, UNIQUE (field, place)",
    "records": "lab INTEGER! >labs, number INTEGER!, form INTEGER! >forms, form_code TEXT!, sample TEXT!, current INTEGER!, "
               "UNIQUE (lab, number), UNIQUE (lab, form_code, sample)",
    "versions": "record INTEGER! >records, number INTEGER!, format INTEGER!, opener INTEGER! >persons, opened INTEGER!, reason TEXT, "
                "UNIQUE (record, number)",
    "entries": "version INTEGER! >versions, place INTEGER!, key TEXT!, value TEXT!, unit TEXT!, person INTEGER! >persons, moment INTEGER!, "
               "reason TEXT, UNIQUE (version, place)",
    "signatures": "version INTEGER! >versions, place INTEGER!, person INTEGER! >persons, name TEXT!, meaning TEXT!, moment INTEGER!, "
                  "reason TEXT, digest BLOB!, seal BLOB!, UNIQUE (version, place), UNIQUE (version, meaning)",
    "trail": "lab INTEGER! >labs, number INTEGER!, moment INTEGER!, person INTEGER >persons, action TEXT!, subject TEXT!, UNIQUE (lab, number)",
}
INDEX = ("index", "sessions_of_person"), "CREATE INDEX sessions_of_person ON sessions (person, closed)"

STATES = {"": "open", "authorship": "signed", "authorship review": "released", "authorship rejection": "rejected"}
WITH_APPROVAL = {**STATES, "authorship review": "reviewed", "authorship review approval": "released",
                 "authorship review rejection": "rejected"}
ROLES = {"analyst": 1, "reviewer": 2, "manager": 4, "administrator": 8, "inspector": 16}
# Whose roles may do what, as docs/PERSONS.md has the policy.
MAY = {**dict.fromkeys(["enrol", "issue", "confirm", "roles", "retire", "unlock"], 8), "form": 4,
       **dict.fromkeys(["record", "entry", "amend", "authorship"], 1), "review": 2, "rejection": 2 | 4, "approval": 4}
WITHOUT_SESSION = ("open", "refuse", "lock")
LOCKED, LONGEST, ISSUED = 1_800, 28_800, 604_800
FAILURES = 5
MOST = 100
Person = collections.namedtuple("Person", "id code name roles retired failures locked kind changed asker asked")
Session = collections.namedtuple("Session", "number person opened last closed")
Field = collections.namedtuple("Field", "id place key required kind unit decimals low high size")
Version = collections.namedtuple("Version", "id number format opener opened reason")
Entry = collections.namedtuple("Entry", "place key value unit person moment reason")
Signature = collections.namedtuple("Signature", "place person name meaning moment reason digest seal")
Deed = collections.namedtuple("Deed", "action subject person moment")


def sha256(items):
    texts = [item.encode() for item in items]
    return hashlib.sha256(b"".join(b"%d:%s\n" % (len(text), text) for text in texts)).digest()


def printed(moment):
    return (datetime.datetime(1970, 1, 1) + datetime.timedelta(seconds=moment)).strftime("%Y-%m-%dT%H:%M:%SZ")


def are_signers(entries, signatures):
    """Whether the author entered a row, nobody who signed later did, and all of them are different persons."""
    entered, signers = {one.person for one in entries}, [one.person for one in signatures]
    return not signers or (signers[0] in entered and not entered & set(signers[1:]) and len(signers) == len(set(signers)))


# ---- values, by docs/FORMS.md


def amount(text):
    """The amount of a number in millionths, whatever < or > stands before it."""
    text = text.lstrip("<>")
    whole, _, rest = text.lstrip("+-").partition(".")
    return (-1 if text.startswith("-") else 1) * int(whole + rest.ljust(6, "0"))


def is_number(field, value):
    fraction = rf"(\.[0-9]{{1,{field.decimals}}})?" if field.decimals else ""
    if not re.fullmatch(rf"[<>]?[+-]?[0-9]{{1,15}}{fraction}", value):
        return False
    return (field.low is None or amount(field.low) <= amount(value)) and (field.high is None or amount(value) <= amount(field.high))


def is_date(value):
    try:
        return bool(re.fullmatch("[0-9]{4}-[0-9]{2}-[0-9]{2}", value) and datetime.date(*map(int, value.split("-"))))
    except ValueError:
        return False


def admits(field, choices, value, unit):
    """Whether a field of a form takes a value in a unit."""
    if unit != (field.unit or ""):
        return False
    if field.kind == "number":
        return is_number(field, value)
    if field.kind == "text":
        return 1 <= len(value.encode()) <= field.size and not re.search("[\0-\x09\x0b-\x1f\x7f]", value)
    return is_date(value) if field.kind == "date" else value in (choices if field.kind == "choice" else ("yes", "no"))


# ---- what the trail says


class Account:
    """What the trail says of a person so far."""

    def __init__(self, roles, kind, changed):
        self.roles, self.retired, self.kind, self.changed = roles, 0, kind, changed
        self.failures, self.locked, self.asker, self.asked = 0, None, None, None

    def accept(self):
        self.failures, self.locked = 0, None


def roles_of(words):
    return sum(ROLES[word] for word in words)


class Replay:
    """Reads the trail row by row, as it was written, and holds against each row what the rows before it say."""

    def __init__(self, lab, rows):
        self.lab, self.rows, self.number = lab, rows, 0
        enrolled = {row[4].split(" ")[0] for row in rows if row[3] == "enrol"}
        founders = sorted(set(lab.persons) - enrolled)
        if len(founders) != 3:
            lab.bad("person", "founders", *founders)
        self.accounts = {code: Account(ROLES["administrator"], 1, rows[0][1] if rows else None) for code in founders}
        self.forms, self.opened, self.records = {}, 0, 0
        # The sessions of a person that no row has closed, and those that a row closed, or may have closed.
        self.unclosed, self.shut, self.doubtful = collections.defaultdict(list), set(), set()
        # The rows about a record, and how many of them are entries of a version.
        self.deeds, self.entered = collections.defaultdict(list), collections.Counter()

    def read(self):
        before = 0
        for self.number, moment, person, action, subject in self.rows:
            who = None if person is None else self.lab.person(person, "trail", self.number)
            good = before <= moment <= self.lab.last and self.may(who, moment, action, subject)
            # (a row that may not stand there has done what it says, too)
            if who in self.accounts or action == "found":
                good = getattr(self, f"take_{action}", self.take_nothing)(who, moment, subject) and good
            if not good:
                self.lab.bad("trail", self.number)
            before = moment
            if action in ("record", "entry", "amend", "sign"):
                record, version = (subject.split("/") + [""])[:2]
                self.deeds[int(record)].append(Deed(action, subject, who, moment))
                self.entered[int(record), version] += action == "entry"

    def may(self, who, moment, action, subject):
        """Whether that person could do such a thing at that moment: who is there, in a session, with a role for it."""
        if action == "found" or self.number == 1:
            return (action, self.number, who) == ("found", 1, None)
        account = self.accounts.get(who)
        if account is None or account.retired:
            return False
        roles = MAY.get(subject.split("/")[-1] if action == "sign" else action)
        if roles is not None and not account.roles & roles:
            return False
        return action in WITHOUT_SESSION or self.works(who, moment)

    def works(self, who, moment):
        """Whether the person has a session that lives at that moment."""
        for session in reversed(self.unclosed[who]):
            if moment - session.opened > LONGEST:
                break
            if session.opened <= moment <= session.last:
                return True
        return False

    def other(self, who, code):
        """Another person's account, who is still there."""
        if who == code:
            self.lab.bad("one_person", "trail", self.number)
        account = self.accounts.get(code)
        return None if account is None or account.retired else account

    def close_all(self, code):
        self.shut.update(one.number for one in self.unclosed.pop(code, []))

    # Each of these takes a row, and answers whether it may stand there.

    def take_nothing(self, who, moment, subject):
        return False

    def take_found(self, who, moment, subject):
        return subject == self.lab.code

    def take_open(self, who, moment, subject):
        self.opened += 1
        session = self.lab.sessions.get(int(subject))
        if (session is None or (session.person, session.opened) != (who, moment)) or self.opened != session.number:
            return False
        self.unclosed[who].append(session)
        self.accounts[who].accept()
        return self.accounts[who].kind != 0

    def take_close(self, who, moment, subject):
        own = [one for one in self.unclosed[who] if one.number == int(subject)]
        self.shut.update(one.number for one in own)
        self.unclosed[who] = [one for one in self.unclosed[who] if one not in own]
        return bool(own)

    def take_refuse(self, who, moment, subject):
        account = self.accounts[who]
        if account.locked is not None and moment - account.locked >= LOCKED:
            account.accept()
        account.failures += account.locked is None
        return subject in ("open", "password", "sign") and account.failures <= FAILURES and account.kind != 0

    def take_lock(self, who, moment, subject):
        account = self.accounts[who]
        good = subject == who and account.failures == FAILURES and account.locked is None
        account.locked = moment
        self.close_all(who)
        return good

    def take_password(self, who, moment, subject):
        """It closes all sessions but the one in which it is made, which is one of those that go on."""
        account = self.accounts[who]
        account.kind, account.changed = 1, moment
        account.accept()
        self.shut.update(one.number for one in self.unclosed[who] if one.last < moment)
        self.unclosed[who] = [one for one in self.unclosed[who] if one.last >= moment]
        self.doubtful.update(one.number for one in self.unclosed[who])
        return subject == who

    def take_enrol(self, who, moment, subject):
        code, *roles = subject.split(" ")
        good = code in self.lab.persons and code not in self.accounts
        self.accounts[code] = Account(roles_of(roles), 0, None)
        return good

    def take_issue(self, who, moment, subject):
        account = self.other(who, subject)
        if account is None or (account.asker not in (None, who) and moment - account.asked <= ISSUED):
            return False
        account.asker, account.asked = who, moment
        return True

    def take_confirm(self, who, moment, subject):
        account = self.other(who, subject)
        if account is None or account.asker is None:
            return False
        if account.asker == who:
            self.lab.bad("one_person", "trail", self.number)
        good = moment - account.asked <= ISSUED
        account.kind, account.changed, account.asker, account.asked = 2, moment, None, None
        self.close_all(subject)
        return good

    def take_roles(self, who, moment, subject):
        code, *roles = subject.split(" ")
        account = self.other(who, code)
        if account is not None:
            account.roles = roles_of(roles)
        return account is not None

    def take_retire(self, who, moment, subject):
        account = self.other(who, subject)
        if account is not None:
            account.retired = 1
            self.close_all(subject)
        return account is not None

    def take_unlock(self, who, moment, subject):
        account = self.other(who, subject)
        if account is not None:
            account.accept()
        return account is not None

    def take_form(self, who, moment, subject):
        code, version = subject.split("/")
        before = self.forms.get(code, 0)
        self.forms[code] = int(version)
        return int(version) == before + 1 and (code, int(version)) in self.lab.forms

    def take_record(self, who, moment, subject):
        """A record is opened by the last version of its form."""
        self.records += 1
        code, version = self.lab.form_of.get(int(subject), (None, 0))
        return int(subject) == self.records and self.forms.get(code) == version

    def take_entry(self, who, moment, subject):
        return len(subject.split("/")) == 3

    def take_amend(self, who, moment, subject):
        return len(subject.split("/")) == 2

    def take_sign(self, who, moment, subject):
        self.accounts[who].accept()
        return len(subject.split("/")) == 3


class Laboratory:
    def __init__(self, base, code):
        self.base, self.code, self.flaws = base, code, {}
        found = self.ask("SELECT id, records, sessions, trail, last, stray FROM labs WHERE code = ?", code)
        if not found:
            raise sqlite3.Error(f"there is no laboratory {code}")
        self.id, *self.counted, self.last, self.stray = found[0]
        self.codes = dict(self.ask("SELECT id, code FROM persons WHERE lab = ?", self.id))
        self.counts = dict.fromkeys(["records", "versions", "entries", "signatures"], 0)

    def ask(self, text, *given):
        return self.base.execute(text, given).fetchall()

    def bad(self, word, *place):
        self.flaws[" ".join(["bad", word, "/".join(map(str, place))])] = None

    def person(self, id, *place):
        if id not in self.codes:
            self.bad("arrow", *place)
        return self.codes.get(id, "")

    def look_at_numbers(self, there, *place, until=None):
        """Numbers run from 1 without gaps, to the one that was counted."""
        if there != list(range(1, len(there) + 1)) or until not in (None, len(there)):
            self.bad("order", *place)

    # ---- what is there beside the records

    def read_persons(self):
        rows = [Person(*row) for row in self.ask("SELECT id, code, name, roles, retired, failures, locked, kind, changed, asker, asked "
                                                 "FROM persons WHERE lab = ? ORDER BY code", self.id)]
        return {one.code: one._replace(asker=None if one.asker is None else self.person(one.asker, one.code, "asker")) for one in rows}

    def read_sessions(self):
        rows = [Session(*row) for row in self.ask("SELECT number, person, opened, last, closed FROM sessions WHERE lab = ? ORDER BY number", self.id)]
        self.look_at_numbers([one.number for one in rows], "sessions", until=self.counted[1])
        return {one.number: one._replace(person=self.person(one.person, "session", one.number)) for one in rows}

    def read_forms(self):
        """The fields of each version of a form, by their keys, each with the names that may be chosen."""
        forms = {}
        for id, code, version in self.ask("SELECT id, code, version FROM forms WHERE lab = ?", self.id):
            fields = [Field(*row) for row in self.ask(
                "SELECT id, place, key, required, kind, unit, decimals, low, high, size FROM fields WHERE form = ? ORDER BY place", id)]
            self.look_at_numbers([one.place for one in fields], "form", code, version)
            forms[code, version] = {one.key: (one, self.read_choices(one, code, version)) for one in fields}
        return forms

    def read_choices(self, field, *place):
        rows = self.ask("SELECT place, name FROM choices WHERE field = ? ORDER BY place", field.id)
        self.look_at_numbers([row[0] for row in rows], "form", *place, field.key)
        return [row[1] for row in rows]

    def read_all(self):
        """What the trail is held against, and the trail."""
        self.persons, self.sessions, self.forms = self.read_persons(), self.read_sessions(), self.read_forms()
        self.form_of = {number: (code, version) for number, code, version in self.ask(
            "SELECT number, forms.code, version FROM records JOIN forms ON forms.id = form WHERE records.lab = ?", self.id)}
        rows = self.ask("SELECT number, moment, person, action, subject FROM trail WHERE lab = ? ORDER BY number", self.id)
        self.look_at_numbers([row[0] for row in rows], "trail", until=self.counted[2])
        self.told = Replay(self, rows)
        self.told.read()

    def check_persons(self):
        """Each person is what the trail says."""
        for code, one in self.persons.items():
            account = self.told.accounts.get(code)
            for name in ("roles", "retired", "failures", "locked", "kind", "changed", "asker", "asked") if account else ():
                if getattr(one, name) != getattr(account, name):
                    self.bad("person", code, name)

    def check_sessions(self):
        for number, one in self.sessions.items():
            if number > self.told.opened or not one.opened <= one.last <= one.opened + LONGEST:
                self.bad("trail", "session", number)
            is_shut = number in self.told.shut
            if one.closed != is_shut and (is_shut or number not in self.told.doubtful):
                self.bad("trail", "session", number, "closed")
        last = max([row[1] for row in self.told.rows] + [one.last for one in self.sessions.values()], default=0)
        # A password for a code that nobody has is counted in stray, and has no row, but its moment may be the last.
        if self.last < last or (self.last > last and not self.stray):
            self.bad("trail", "last")

    def check_forms(self):
        for code, version in sorted(self.forms):
            if version > self.told.forms.get(code, 0):
                self.bad("trail", "form", f"{code}/{version}")

    # ---- records

    def check_records(self):
        rows = self.ask("SELECT id, number, form, form_code, sample, current FROM records WHERE lab = ? ORDER BY number", self.id)
        self.look_at_numbers([row[1] for row in rows], "records", until=self.counted[0])
        for id, number, form, form_code, sample, current in rows:
            self.counts["records"] += 1
            (lab, code, form_version, approval), = self.ask("SELECT lab, code, version, approval FROM forms WHERE id = ?", form)
            if lab != self.id or code != form_code:
                self.bad("arrow", number)
            self.check_versions(id, number, current, [code, str(form_version)], approval, sample)
        for rows in self.told.deeds.values():
            self.bad("trail", *rows[0][:2])

    def check_versions(self, id, record, current, form, approval, sample):
        versions = [Version(*row) for row in self.ask(
            "SELECT id, number, format, opener, opened, reason FROM versions WHERE record = ? ORDER BY number", id)]
        self.look_at_numbers([one.number for one in versions], record, until=current)
        fields = self.forms.get((form[0], int(form[1])), {})
        before, settled, values, deeds = "-", True, {}, []
        for one in versions:
            self.counts["versions"] += 1
            entries, signatures = self.rows_of(record, one)
            if not settled or (one.number == 1) != (one.reason is None):
                self.bad("order", record, one.number)
            opener = self.person(one.opener, record, one.number)
            deeds += self.deeds_of(record, one, opener, entries, signatures)
            values = self.check_values(record, one, fields, values, entries, bool(signatures))
            digest = sha256(self.text_of(record, one, opener, form, approval, sample, before, entries))
            state = self.check_signatures(record, one, approval, digest, entries, signatures)
            before, settled = digest.hex(), state in ("released", "rejected")
        self.check_deeds(record, deeds)

    def rows_of(self, record, version):
        """The entries and the signatures of a version, with the codes of their persons."""
        place = record, version.number
        entries = [Entry(*row) for row in self.ask(
            "SELECT place, key, value, unit, person, moment, reason FROM entries WHERE version = ? ORDER BY place", version.id)]
        signatures = [Signature(*row) for row in self.ask(
            "SELECT place, person, name, meaning, moment, reason, digest, seal FROM signatures WHERE version = ? ORDER BY place", version.id)]
        for kind, rows in (("entries", entries), ("signatures", signatures)):
            self.look_at_numbers([one.place for one in rows], *place, kind)
            self.counts[kind] += len(rows)
        return ([one._replace(person=self.person(one.person, *place, one.place)) for one in entries],
                [one._replace(person=self.person(one.person, *place, one.meaning)) for one in signatures])

    def deeds_of(self, record, version, opener, entries, signatures):
        """The rows that the trail has to have of a version. The entries of an amendment come first, and have the amendment's."""
        place, told = f"{record}/{version.number}", self.told.entered[record, str(version.number)]
        amended, own = entries[:max(0, len(entries) - told)], entries[max(0, len(entries) - told):]
        opening = opener, version.opened, version.reason
        if bool(amended) != (version.number > 1) or any((one.person, one.moment, one.reason) != opening for one in amended):
            self.bad("trail", record, version.number)
        yield Deed(*(("record", str(record)) if version.number == 1 else ("amend", place)), opener, version.opened)
        for one in own:
            yield Deed("entry", f"{place}/{one.key}", one.person, one.moment)
        for one in signatures:
            yield Deed("sign", f"{place}/{one.meaning}", one.person, one.moment)

    def check_deeds(self, record, wanted):
        """The rows of the trail about a record are these, in that order."""
        there = self.told.deeds.pop(record, [])
        if there == wanted:
            return
        lacking, further = (collections.Counter(one) - collections.Counter(other) for one, other in ((wanted, there), (there, wanted)))
        for action, subject in dict.fromkeys(deed[:2] for deed in [*lacking, *further]):
            self.bad("trail", action, subject)
        if not lacking and not further:
            self.bad("trail", record, "order")

    def check_values(self, record, version, fields, before, entries, signed):
        """The values of a record after a version, of which each is one that the form admits, and one that takes a place has a reason."""
        values = dict(before)
        for one in entries:
            place = record, version.number, one.place, one.key
            if one.key not in fields or not admits(*fields[one.key], one.value, one.unit):
                self.bad("value", *place)
            if one.key in values and one.reason is None:
                self.bad("order", *place)
            values[one.key] = one.value
        if signed and any(field.required and key not in values for key, (field, _) in fields.items()):
            self.bad("value", record, version.number)
        if signed and version.number > 1 and values == before:
            self.bad("value", record, version.number)
        return values

    def text_of(self, record, version, opener, form, approval, sample, before, entries):
        """The items of a version's text, of which its digest is made."""
        items = [f"labrecord {version.format}", self.code, str(record), str(version.number), *form]
        items += [["no", "yes"][approval]] if version.format == 2 else []
        items += [sample, before, version.reason or "", opener, printed(version.opened), str(len(entries))]
        for one in entries:
            items += [one.key, one.value, one.unit, one.person, printed(one.moment), one.reason or ""]
        return items

    def check_signatures(self, record, version, approval, digest, entries, signatures):
        """The state of the version, or none."""
        for one in signatures:
            place = record, version.number, one.meaning
            if one.digest != digest:
                self.bad("digest", *place)
            if one.seal != sha256([one.digest.hex(), self.code, one.person, one.name, one.meaning, printed(one.moment), one.reason or ""]):
                self.bad("seal", *place)
            elif one.person in self.persons and one.name != self.persons[one.person].name:
                self.bad("person", one.person, "name")
            if (one.reason is not None) != (one.meaning == "rejection"):
                self.bad("order", *place)
        table = WITH_APPROVAL if approval and version.format == 2 else STATES
        state = table.get(" ".join(one.meaning for one in signatures))
        if state is None or not are_signers(entries, signatures):
            self.bad("one_person", record, version.number)
        return state

    # ---- the file

    def check_schema(self):
        """The tables and the index are those of docs/TABLES.md. Answers what another program added, and may add."""
        wanted = dict([INDEX])
        for name, columns in TABLES.items():
            columns = re.sub(r" >(\w+)", r" REFERENCES \1 (id)", columns.replace("!", " NOT NULL"))
            wanted["table", name] = f"CREATE TABLE {name} (id INTEGER PRIMARY KEY, {columns}) STRICT"
        added = []
        for kind, name, table, text in self.ask("SELECT type, name, tbl_name, sql FROM sqlite_schema ORDER BY rowid"):
            if (kind, name) in wanted:
                if text != wanted.pop((kind, name)):
                    self.bad("schema", kind, name)
            elif kind == "trigger":
                self.bad("schema", kind, name)
            elif text is not None:
                added.append(f"added {kind} {name}")
        for place in wanted:
            self.bad("schema", *place)
        return added

    def check(self):
        for row in self.ask("PRAGMA integrity_check") + self.ask("PRAGMA foreign_key_check"):
            if row != ("ok",):
                self.flaws[f"bad integrity {' '.join(map(str, row))}"] = None
        try:
            self.read_all()
            self.check_persons()
            self.check_sessions()
            self.check_forms()
            self.check_records()
        except (ValueError, OverflowError, IndexError, KeyError, TypeError, re.error) as fault:
            self.bad("row", fault)


def opened(path):
    """A connection that only reads. A file without a log, as a backup, is held by nobody, and nothing is left beside it."""
    how = "mode=ro" if os.path.exists(f"{path}-wal") else "mode=ro&immutable=1"
    return contextlib.closing(sqlite3.connect(f"file:{urllib.parse.quote(path)}?{how}", uri=True, timeout=1))


def main(words):
    if words in (["-h"], ["--help"]):
        print(__doc__.strip())
        return 0
    if len(words) != 2:
        print(__doc__, file=sys.stderr)
        return 2
    path, code = words
    try:
        with opened(path) as base:
            schema = base.execute("SELECT schema FROM desk").fetchall()
            if schema != [(3,)]:
                raise sqlite3.Error(f"the file's schema is {schema}, and this script knows schema 3")
            lab = Laboratory(base, code)
            added = lab.check_schema()
            lab.check()
    except sqlite3.Error as fault:
        print(f"check_file.py: {path}: {fault}", file=sys.stderr)
        return 2
    for line in added:
        print(line)
    if not lab.flaws:
        print("good", *lab.counts.values())
        return 0
    print("\n".join(list(lab.flaws)[:MOST]))
    if len(lab.flaws) > MOST:
        print(f"and {len(lab.flaws) - MOST} more")
    return 1


if __name__ == "__main__":
    sys.exit(main(sys.argv[1:]))
