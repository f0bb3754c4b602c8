#!/usr/bin/env python3
"""Checks an inspection copy, by docs/COPIES.md, docs/VERSIONS.md and docs/NAMES.md alone: order, digests, seals, and that
different persons signed.

    check_copy.py COPY     checks the file COPY
    check_copy.py < COPY   checks what comes from standard input

It prints 'good' and how many record, version, entry and signature rows the copy has, with status 0; or 'bad', the first flaw and its
row, with status 1. If the copy can't be read, it prints why, with status 2. The file is read byte by byte, as Latin-1, so that
lengths are those of bytes.

With 'good' it also prints remarks on standard error, at most a hundred: a line for each row that no server writes, although no rule of
a check forbids it. A remark changes neither the verdict nor the status."""
import csv
import datetime
import hashlib
import io
import itertools
import re
import sys

HEADER = "kind lab record version key value unit person name moment reason digest seal".split()
NAME, NOTE = r"(?! )[^\x00-\x1f\x7f]{1,%d}(?<! )", r"[^\x00-\x09\x0b-\x1f\x7f]{1,1000}"
TEXTS = {
    "lab": "[a-z][a-z0-9-]{0,11}", "person": "[a-z][a-z0-9-]{1,15}", "key": "[a-z][a-z0-9_]{0,23}",
    "name": NAME % 120, "unit": NAME % 20, "note": NOTE, "digest": "[0-9a-f]{64}",
    "number": "[1-9][0-9]{0,8}|1000000000", "count": "0|[1-9][0-9]{0,11}|1000000000000", "format": "[12]",
    "state": "open|signed|reviewed|released|rejected", "meaning": "authorship|review|rejection|approval",
    "approval": "approval", "moment": r"\d{4}-\d\d-\d\dT\d\d:\d\d:\d\dZ",
}
# What each kind of row fills in, but for its kind and laboratory; '?' may be empty, and all other fields are.
FIELDS = {
    "copy": "record=number version=number key=format person=person? name=name moment=moment",
    "record": "record=number version=number key=key value=name",
    "version": "record=number version=number key=format value=state person=person name=approval? moment=moment reason=note? "
               "digest=digest",
    "entry": "record=number version=number key=key value=note unit=unit? person=person moment=moment reason=note?",
    "signature": "record=number version=number value=meaning person=person name=name moment=moment reason=note? digest=digest "
                 "seal=digest",
    "end": "record=count version=count key=count value=count",
}
FIELDS = {kind: dict(field.split("=") for field in f"lab=lab {fields}".split()) for kind, fields in FIELDS.items()}
FOLLOWS = {"copy": "record end", "record": "version", "version": "entry signature version record end",
           "entry": "entry signature version record end", "signature": "signature version record end", "end": ""}
STATES = {"": "open", "authorship": "signed", "authorship review": "released", "authorship rejection": "rejected"}
MOST = 100
WITH_APPROVAL = {**STATES, "authorship review": "reviewed", "authorship review approval": "released",
                 "authorship review rejection": "rejected"}


class Bad(Exception):
    pass


def sha256(items):
    return hashlib.sha256("".join(f"{len(item)}:{item}\n" for item in items).encode("latin-1")).hexdigest()


def admits(rule, field):
    """Whether a field is a text of that rule; of none it is empty."""
    if not rule or not field:
        return not field and (not rule or rule.endswith("?"))
    field.encode("latin-1").decode()
    if not re.fullmatch(TEXTS[rule.rstrip("?")], field):
        return False
    return rule != "moment" or datetime.datetime.strptime(field, "%Y-%m-%dT%H:%M:%SZ").year >= 1970


def reads(row, older):
    """Whether a copy, of the older rules or the newer ones, can have such a row."""
    if len(row) != 13 or row[0] not in FIELDS:
        return False
    it, kind = dict(zip(HEADER, row)), row[0]
    try:
        if not all(admits(FIELDS[kind].get(field), it[field]) for field in HEADER[1:]):
            return False
    except ValueError:
        return False
    if kind == "version" and ((it["version"] == "1") == bool(it["reason"]) or it["key"] == "1" and it["name"]):
        return False
    if kind == "signature" and (it["value"] == "rejection") != bool(it["reason"]):
        return False
    newer = {"version": it["key"] == "2" or it["value"] == "reviewed", "signature": it["value"] == "approval"}
    return not (older and newer.get(kind))


class Remarks:
    """Notes what a good copy may have, and no server writes, as docs/COPIES.md lists it."""

    def __init__(self):
        self.lines, self.count = [], 0
        # Where a form and a sample were, and which unit a key of a form had.
        self.samples, self.units = {}, {}

    def add(self, at, text):
        self.count += 1
        if self.count <= MOST:
            self.lines.append(f"remark row {at}: {text}")

    def look(self, it, kind, at):
        if kind == "copy":
            self.made = it["moment"]
        elif kind == "record":
            self.look_at_record(it, at)
        elif kind in ("version", "entry", "signature"):
            if it["moment"] < self.before:
                self.add(at, "its moment is before that of a row above it")
            if it["moment"] > self.made:
                self.add(at, "its moment is after that of the copy")
            self.before = max(self.before, it["moment"])
            getattr(self, f"look_at_{kind}")(it, at)

    def look_at_record(self, it, at):
        self.form, self.before, self.values = (it["key"], it["version"]), "", {}
        other = self.samples.setdefault((it["key"], it["value"]), it["record"])
        if other != it["record"]:
            self.add(at, f"record {other} has this form and sample, too")

    def look_at_version(self, it, at):
        self.version, self.known, self.is_first_row = it, dict(self.values), True

    def look_at_entry(self, it, at):
        if self.version["reason"] and self.is_first_row and any(it[name] != self.version[name] for name in ("person", "moment", "reason")):
            self.add(at, "the first value of an amendment has not its person, its moment and its reason")
        if it["key"] in self.values and not it["reason"]:
            self.add(at, "a second value, and no reason")
        if self.units.setdefault((*self.form, it["key"]), it["unit"]) != it["unit"]:
            self.add(at, "another unit than this key has elsewhere")
        self.values[it["key"]], self.is_first_row = it["value"], False

    def look_at_signature(self, it, at):
        if it["value"] == "authorship" and self.version["reason"] and self.values == self.known:
            self.add(at, "a signature of an amendment that alters nothing")


class Copy:
    def __init__(self):
        self.asked = self.record = self.version = self.last = None
        self.remarks = Remarks()
        self.counts = dict.fromkeys(["record", "version", "entry", "signature"], 0)

    def is_in_place(self, it, kind):
        here, last = (it["record"], it["version"]), self.last
        if not self.asked:
            return kind == "copy" and int(here[0]) <= int(here[1])
        if it["lab"] != self.asked["lab"] or kind not in FOLLOWS[last].split():
            return False
        if kind == "record":
            above = int(self.record["record"]) if self.record else 0
            return max(int(self.asked["record"]), above + 1) <= int(here[0]) <= int(self.asked["version"])
        if kind == "version" and last == "record":
            return here == (self.record["record"], "1")
        if kind == "version":
            after = self.version["record"], str(int(self.version["version"]) + 1)
            return here == after and self.version["value"] in ("released", "rejected")
        if kind == "end":
            return [it[field] for field in ("record", "version", "key", "value")] == [str(n) for n in self.counts.values()]
        return here == (self.version["record"], self.version["version"])

    def end_version(self):
        """The digest and the signers of the version whose rows have ended, if any have."""
        if self.last not in ("version", "entry", "signature"):
            return
        it, about = self.version, self.record
        items = ["labrecord " + it["key"], it["lab"], it["record"], it["version"], about["key"], about["version"]]
        items += [] if it["key"] == "1" else ["yes" if it["name"] else "no"]
        items += [about["value"], self.previous if it["reason"] else "-", it["reason"], it["person"], it["moment"]]
        items += [str(len(self.entries))]
        for row in self.entries:
            items += [row[field] for field in ("key", "value", "unit", "person", "moment", "reason")]
        if sha256(items) != it["digest"]:
            raise Bad("digest", self.row)
        entered, signers = {row["person"] for row in self.entries}, [row["person"] for row in self.signatures]
        state = (WITH_APPROVAL if it["name"] else STATES).get(" ".join(row["value"] for row in self.signatures))
        if (state != it["value"] or signers and signers[0] not in entered or entered & set(signers[1:])
                or len(signers) != len(set(signers))):
            raise Bad("one_person", self.row)

    def take(self, row, at):
        if not reads(row, not self.asked or self.asked["key"] == "1"):
            raise Bad("bad_row", at)
        it, kind = dict(zip(HEADER, row)), row[0]
        if not self.is_in_place(it, kind):
            raise Bad("order", at)
        if kind == "entry":
            self.entries.append(it)
        elif kind == "signature":
            if it["digest"] != self.version["digest"]:
                raise Bad("digest", at)
            if sha256(it[f] for f in ("digest", "lab", "person", "name", "value", "moment", "reason")) != it["seal"]:
                raise Bad("seal", at)
            self.signatures.append(it)
        else:
            self.end_version()
        if kind == "copy":
            self.asked = it
        if kind == "record":
            self.record = it
        if kind == "version":
            self.previous = self.version and self.version["digest"]
            self.version, self.row, self.entries, self.signatures = it, at, [], []
        if kind in self.counts:
            self.counts[kind] += 1
        self.last = kind
        self.remarks.look(it, kind, at)


def check(file):
    lines = io.TextIOWrapper(file, "latin-1", newline="")
    first = re.sub("^\xef\xbb\xbf", "", next(lines, ""))  # a byte order mark
    copy = Copy()
    for at, row in enumerate((row for row in csv.reader(itertools.chain([first], lines)) if row), 1):
        if at > 1:
            copy.take(row, at)
        elif row != HEADER:
            raise Bad("bad_row", 1)
    if copy.last != "end":
        copy.end_version()
        raise Bad("no_end")
    return copy


def main(words):
    if words in (["-h"], ["--help"]):
        print(__doc__.strip())
        return 0
    if len(words) > 1:
        print(__doc__, file=sys.stderr)
        return 2
    csv.field_size_limit(2**31 - 1)
    try:
        with open(words[0], "rb") if words else sys.stdin.buffer as file:
            copy = check(file)
        print("good", *copy.counts.values())
    except Bad as flaw:
        print("bad", *flaw.args)
        return 1
    except OSError as fault:
        print(f"check_copy.py: {fault}", file=sys.stderr)
        return 2
    for line in copy.remarks.lines:
        print(line, file=sys.stderr)
    if copy.remarks.count > MOST:
        print(f"and {copy.remarks.count - MOST} remarks more", file=sys.stderr)
    return 0


if __name__ == "__main__":
    sys.exit(main(sys.argv[1:]))
