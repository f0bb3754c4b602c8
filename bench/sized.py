"""Files of two laboratories, brick and aqua, of a given size, and the requests that bench/beside.py makes to aqua.

A file is written by the C library, with the rows of tests/model/files.py, and no request. In aqua ann enters and signs, and bob reviews and
reads. All records but the last of aqua have one released version of three rows. The last of aqua are those that are worked on: each
has so many versions of so many rows, released but for the last, which is open. Passwords have 10,000 rounds, the fewest that are read,
but that of dan, who has 100,000: both together show what the rounds take.
"""
import contextlib
import functools
import hashlib
import pathlib
import sqlite3
import sys

TOP = pathlib.Path(__file__).resolve().parent.parent
sys.path.insert(0, str(TOP / "tests/model"))
import files  # noqa: E402
from kept_rows import schema  # noqa: E402
from laboratory import OLD_ROUNDS, ROUNDS  # noqa: E402
from serving import Request  # noqa: E402

PEOPLE = {"ann": ("Ann Ames", 13, OLD_ROUNDS), "bob": ("Bob Bell", 26, OLD_ROUNDS), "dan": ("Dan Day", 1, ROUNDS)}
PASSWORDS = {code: f"correct horse of {code}" for code in PEOPLE}
KINDS = {"card": "read the card", "entry": "enter a value", "signing": "sign", "reading": "read a record", "again": "read it again",
         "opening": "open a session", "records_read": "read a hundred records", "trail_read": "read a hundred rows of the trail"}
# How many batches there are at most. Of the records that are worked on, these many are entered into and read in each of them, and these
# many are signed twice.
BATCHES, ENTERED, SIGNED = 6, 50, 4
OPENED, REWRITTEN, AGAIN = 1_000, 1_100, "read again"
# The sessions, by whose they are. Of bob there is one more for each reading that is a session's first in its second.
SESSIONS = {"ann": "ann", "bob": "bob"} | {f"bob {at}": "bob" for at in range(BATCHES * ENTERED)}
TOKENS = {who: hashlib.sha256(f"token of {who}".encode()).hexdigest() for who in SESSIONS}


@functools.cache
def verifier(code):
    salt, rounds = hashlib.sha256(code.encode()).digest()[:16], PEOPLE[code][2]
    return salt, rounds, hashlib.pbkdf2_hmac("sha256", PASSWORDS[code].encode(), salt, rounds)


def add_lab(base, code, persons):
    """A laboratory with these persons and so many others that there are as many as that, and its form."""
    lab = files.add(base, "labs", "code name last stray records sessions trail", [(code, f"{code.title()} Lab", OPENED, 0, 0, 0, 0)])[0]
    some = [(name, called, roles, *verifier(name)) for name, (called, roles, _) in PEOPLE.items()]
    salt, rounds, made = verifier("ann")
    some += [(f"p{at:03}", f"Person {at}", 1, salt, rounds, made) for at in range(len(some), persons)]
    files.add(base, "persons", "lab code name roles retired failures kind salt rounds bytes changed",
              [(lab, one, name, roles, 0, 0, 1, salt, rounds, made, OPENED) for one, name, roles, salt, rounds, made in some])


class Worked:
    """A record that is worked on."""

    KEY, UNIT = files.KEY, files.UNIT

    def __init__(self, lab, number, versions, rows):
        self.lab, self.number, self.sample, self.digests, self.versions = lab, number, f"In work {number}", [], []
        for version in range(1, versions + 1):
            self.versions.append([self.row(version, at) for at in range(rows)])
            self.digests.append(files.sha(self.text(version)))

    def row(self, version, at):
        """Its value, and why it was entered."""
        return f"{1000 * version + at}", "" if version == 1 and at == 0 else AGAIN

    def text(self, version):
        previous, reason = (self.digests[-1].hex(), AGAIN) if self.digests else ("-", "")
        text = ["labrecord 2", self.lab, str(self.number), str(version), files.FORM, "1", "no", self.sample, previous, reason, "ann",
                files.printed(OPENED), str(len(self.versions[version - 1]))]
        for value, why in self.versions[version - 1]:
            text += [self.KEY, value, self.UNIT, "ann", files.printed(REWRITTEN), why]
        return text

    def signatures(self, version):
        """Those of a released version."""
        digest = self.digests[version - 1]
        for place, (meaning, code) in enumerate((("authorship", "ann"), ("review", "bob")), 1):
            name = PEOPLE[code][0]
            seal = files.sha([digest.hex(), self.lab, code, name, meaning, files.printed(REWRITTEN), ""])
            yield place, code, name, meaning, digest, seal

    def deeds(self):
        """What the trail has of it."""
        for version, rows in enumerate(self.versions, 1):
            yield "ann", "record" if version == 1 else "amend", f"{self.number}" if version == 1 else f"{self.number}/{version}"
            yield from [("ann", "entry", f"{self.number}/{version}/{self.KEY}")] * (len(rows) - (version > 1))
            if version < len(self.versions):
                yield "ann", "sign", f"{self.number}/{version}/authorship"
                yield "bob", "sign", f"{self.number}/{version}/review"


def add_worked(base, lab, code, numbers, versions, rows, kind=Worked):
    """Records of these numbers, behind those that a laboratory has, of so many versions with so many rows. Answers the last digest of
    each."""
    form = base.execute("SELECT id FROM forms WHERE lab = ?", (lab,)).fetchone()[0]
    ids = dict(base.execute("SELECT code, id FROM persons WHERE lab = ?", (lab,)))
    told = base.execute("SELECT trail FROM labs WHERE id = ?", (lab,)).fetchone()[0]
    digests = {}
    for number in numbers:
        one = kind(code, number, versions, rows)
        record = files.add(base, "records", "lab number form form_code sample current",
                           [(lab, number, form, files.FORM, one.sample, versions)])[0]
        made = files.add(base, "versions", "record number format opener opened reason",
                         [(record, at, 2, ids["ann"], OPENED, AGAIN if at > 1 else None) for at in range(1, versions + 1)])
        files.add(base, "entries", "version place key value unit person moment reason",
                  [(version, place, one.KEY, value, one.UNIT, ids["ann"], REWRITTEN, why or None)
                   for version, rows_of_it in zip(made, one.versions) for place, (value, why) in enumerate(rows_of_it, 1)])
        files.add(base, "signatures", "version place person name meaning moment digest seal",
                  [(version, place, ids[who], name, meaning, REWRITTEN, digest, seal) for at, version in enumerate(made[:-1], 1)
                   for place, who, name, meaning, digest, seal in one.signatures(at)])
        deeds = list(one.deeds())
        files.add(base, "trail", "lab number moment person action subject",
                  [(lab, told + at, REWRITTEN, ids[who], action, subject) for at, (who, action, subject) in enumerate(deeds, 1)])
        told, digests[number] = told + len(deeds), one.digests[-1].hex()
    base.execute("UPDATE labs SET records = ?, trail = ? WHERE id = ?", (numbers[-1], told, lab))
    return digests


class Size:
    """How large a file is: so many persons of aqua, so many versions with so many rows of each record that is worked on, so many records
    of brick beside, and so many of aqua itself."""

    def __init__(self, name, persons=10, versions=1, rows=10, beside=100, own=100, kinds=tuple(KINDS)):
        self.name, self.persons, self.versions, self.rows = name, persons, versions, rows
        self.beside, self.own, self.kinds = beside, own, kinds
        # Long records are fewer.
        self.entered, self.signed = (ENTERED, SIGNED) if versions == 1 else (5, 1)
        worked = self.entered + self.signed * BATCHES
        self.numbers, self.digests = range(max(0, own - worked) + 1, max(own, worked) + 1), {}

    def make(self, path, kind=Worked):
        with contextlib.closing(sqlite3.connect(path, isolation_level=None)) as base:
            base.execute("BEGIN")
            for text in schema():
                base.execute(text)
            add_lab(base, "brick", 10)
            add_lab(base, "aqua", self.persons)
            base.execute("COMMIT")
        files.fill(path, "brick", self.beside)
        files.fill(path, "aqua", self.numbers[0] - 1)
        with files.opened(path) as base:
            base.execute("BEGIN")
            lab = base.execute("SELECT id FROM labs WHERE code = 'aqua'").fetchone()[0]
            self.digests = add_worked(base, lab, "aqua", self.numbers, self.versions, self.rows, kind)
            base.execute("COMMIT")
            broken = base.execute("PRAGMA foreign_key_check").fetchall()
            assert not broken, broken

    # The requests of a batch, from the first one on.

    def requests(self, kind, batch):
        return getattr(self, kind)(batch)

    def card(self, batch):
        return [Request(None, "") for _ in range(ENTERED)]

    def entry(self, batch):
        return [Request("ann", "/entries", {"record": number, "key": files.KEY, "value": f"{batch}.5", "unit": files.UNIT, "reason": AGAIN})
                for number in self.numbers[:self.entered]]

    def signing(self, batch):
        first = self.entered + self.signed * batch
        return [Request(who, "/signatures", {"record": number, "version": self.versions, "digest": self.digests[number], "meaning": meaning,
                                             "password": PASSWORDS[who], "code": who})
                for who, meaning in (("ann", "authorship"), ("bob", "review")) for number in self.numbers[first:first + self.signed]]

    def reading(self, batch):
        return [Request(f"bob {ENTERED * batch + at}", f"/records/{number}") for at, number in enumerate(self.numbers[:self.entered])]

    def again(self, batch):
        return [Request("bob", f"/records/{number}") for number in self.numbers[:self.entered]]

    def opening(self, batch):
        return [self.opens(who) for who in ("ann", "bob") * 2]

    def opens(self, who):
        return Request(None, "/open", {"code": who, "password": PASSWORDS[who]})

    def records_read(self, batch):
        return [Request("bob", "/records?from=1&to=100") for _ in range(3)]

    def trail_read(self, batch):
        return [Request("bob", "/trail?from=1&to=100") for _ in range(3)]


FEW = ("card", "entry", "signing", "reading", "again", "opening")
SIZES = [
    Size("small"), Size("500 persons", persons=500, kinds=FEW),
    Size("10 versions", versions=10, rows=140, kinds=FEW), Size("99 versions", versions=99, rows=140, kinds=FEW),
    Size("100,000 records of another", beside=100_000, kinds=FEW), Size("100,000 records of its own", own=100_000, kinds=FEW),
]


def begin(path, now):
    """The sessions are there, since a moment ago. Answers their tokens."""
    with files.opened(path) as base:
        lab = base.execute("SELECT id FROM labs WHERE code = 'aqua'").fetchone()[0]
        base.execute("BEGIN")
        for number, (who, token) in enumerate(TOKENS.items(), 1):
            base.execute("INSERT INTO sessions (lab, person, number, token, opened, last, closed, signed) "
                         "SELECT ?1, id, ?2, ?3, ?4, ?4, 0, 0 FROM persons WHERE lab = ?1 AND code = ?5",
                         (lab, number, hashlib.sha256(bytes.fromhex(token)).digest(), now, SESSIONS[who]))
        base.execute("UPDATE labs SET sessions = ?, last = ? WHERE id = ?", (len(TOKENS), now, lab))
        base.execute("UPDATE persons SET changed = ?", (now,))
        base.execute("COMMIT")
    return TOKENS
