#!/usr/bin/env python3
"""Finds records of one laboratory, in a backup or in an inspection copy, and takes the laboratory's trail along.

    find.py FILE LAB [OPTIONS]     the records of a file of laboratories that no server holds, as of a backup
    find.py COPY [OPTIONS]         the records of a copy, if check_copy.py, which lies beside this script, finds it good
    find.py --trail FILE LAB       the trail of the laboratory, as CSV
    find.py --check-trail TRAIL    checks such a CSV

Each record that is found meets all of the options that are given:

    --record N       its number
    --form CODE      the code of its form
    --sample TEXT    its sample has this text in it, byte for byte
    --person CODE    this person opened a version of it, entered a value or signed
    --from DAY       something of it was opened, entered or signed on this day or later, as 2026-11-29, in UTC
    --to DAY         on this day or earlier; of both, on one of these days
    --state STATE    its last version is open, signed, reviewed, released or rejected
    --csv            they are printed as CSV, and not as a table

A table is for people: a character that can't be seen has its code before it. CSV has each text as it is. How many records were found, of
how many, is printed on standard error. The status is 0 if a record was found, 1 if none was, and 2 if the command line is wrong or the file
can't be read.

The trail ends in a row with the number of its rows and the SHA-256 of all bytes before that row. A check prints 'good' and that number; or
'bad', a word and a row: 'bad_row', 'order' (a number is missing, or a moment goes back), 'digest' or 'no_end'.
"""
import argparse
import csv
import hashlib
import io
import re
import sqlite3
import sys

sys.dont_write_bytecode = True
import check_copy  # noqa: E402
import check_file  # noqa: E402
import show_copy  # noqa: E402

COLUMNS = "record form form_version sample version state opened last persons".split()
DAY = re.compile(r"\d{4}-\d\d-\d\d")
STATES = ["open", "signed", "reviewed", "released", "rejected"]
TRAIL = "kind lab number moment person action subject".split()
TRAIL_ROW = ["trail", check_copy.TEXTS["lab"], check_copy.TEXTS["number"], check_copy.TEXTS["moment"], f"({check_copy.TEXTS['person']})?",
             "[a-z]+", "[a-z0-9_/ -]+"]


class Record:
    """A record with what was done to it."""

    def __init__(self, number, form, form_version, sample):
        self.record, self.form, self.form_version, self.sample = number, form, form_version, sample
        self.version, self.state, self.people, self.days, self.moments = 0, "", {}, set(), []

    def add(self, person, moment):
        self.people[person] = None
        self.days.add(moment[:10])
        self.moments.append(moment)

    def line(self):
        return [self.record, self.form, self.form_version, self.sample, self.version, self.state, min(self.moments), max(self.moments), " ".join(self.people)]


# ---- where records are


# What was done to records: by whom, when, and the meaning of a signature, in the order of a version's signatures.
QUESTIONS = [
    "SELECT records.number, versions.number, persons.code, opened, NULL FROM records JOIN versions ON versions.record = records.id "
    "JOIN persons ON persons.id = opener WHERE records.lab = ? ORDER BY records.number, versions.number",
    "SELECT records.number, versions.number, persons.code, moment, NULL FROM records JOIN versions ON versions.record = records.id "
    "JOIN entries ON entries.version = versions.id JOIN persons ON persons.id = person WHERE records.lab = ?",
    "SELECT records.number, versions.number, persons.code, moment, meaning FROM records JOIN versions ON versions.record = records.id "
    "JOIN signatures ON signatures.version = versions.id JOIN persons ON persons.id = person WHERE records.lab = ? ORDER BY place",
]


def lab_of(base, code):
    found = base.execute("SELECT id FROM labs WHERE code = ?", (code,)).fetchone()
    if found is None:
        raise ValueError(f"there is no laboratory {code}")
    return found[0]


def of_file(path, code):
    """The records of a laboratory in a file."""
    with check_file.opened(path) as base:
        lab, records, approvals = lab_of(base, code), {}, {}
        for number, form, version, sample, approval in base.execute(
                "SELECT number, form_code, version, sample, approval FROM records JOIN forms ON forms.id = form WHERE records.lab = ? ORDER BY number", (lab,)):
            records[number], approvals[number] = Record(number, form, version, sample), approval
        formats = dict(base.execute("SELECT records.number, format FROM records JOIN versions ON versions.record = records.id "
                                    "WHERE records.lab = ? AND versions.number = current", (lab,)))
        meanings = {}
        for question in QUESTIONS:
            for number, version, person, moment, meaning in base.execute(question, (lab,)):
                records[number].add(person, check_file.printed(moment))
                records[number].version = max(records[number].version, version)
                meanings.setdefault((number, version), []).extend([meaning] if meaning else [])
        for number, one in records.items():
            table = check_file.WITH_APPROVAL if approvals[number] and formats[number] == 2 else check_file.STATES
            one.state = table.get(" ".join(meanings[number, one.version]), "none")
        return list(records.values())


def of_copy(path):
    """The records of a copy that is good."""
    with open(path, "rb") as file:
        check_copy.check(file)
    records = []
    with open(path, encoding="utf-8-sig", newline="") as file:
        for row in csv.DictReader(file):
            if row["kind"] == "record":
                records.append(Record(int(row["record"]), row["key"], int(row["version"]), row["value"]))
            elif row["kind"] in ("version", "entry", "signature"):
                records[-1].add(row["person"], row["moment"])
            if row["kind"] == "version":
                records[-1].version, records[-1].state = int(row["version"]), row["value"]
    return records


def meets(one, wanted):
    return ((wanted.record is None or one.record == wanted.record) and wanted.form in (None, one.form)
            and (wanted.sample is None or wanted.sample in one.sample) and (wanted.person is None or wanted.person in one.people)
            and wanted.state in (None, one.state)
            and any((wanted.first or day) <= day <= (wanted.last or day) for day in one.days))


def print_table(lines):
    """Columns side by side, of texts in which nothing is hidden."""
    rows = [COLUMNS, *([show_copy.seen(str(field)) for field in line] for line in lines)]
    widths = [max(map(len, column)) for column in zip(*rows)]
    for row in rows:
        print("  ".join(field.ljust(width) for field, width in zip(row, widths)).rstrip())


# ---- the trail


def write_trail(path, code, out):
    with check_file.opened(path) as base:
        text, digest, count = io.StringIO(), hashlib.sha256(), 0
        writer = csv.writer(text, lineterminator="\n")

        def write(row):
            writer.writerow(row)
            part = text.getvalue().encode()
            text.seek(0)
            text.truncate()
            out.write(part)
            digest.update(part)

        write(TRAIL)
        for number, moment, person, action, subject in base.execute(
                "SELECT number, moment, persons.code, action, subject FROM trail LEFT JOIN persons ON persons.id = person WHERE trail.lab = ? "
                "ORDER BY number", (lab_of(base, code),)):
            count += 1
            write(["trail", code, number, check_file.printed(moment), person or "", action, subject])
        write(["end", code, count, "", "", "", digest.hexdigest()])


def check_trail(data):
    """What is wrong with a trail, or how many rows it has."""
    front, _, end = data.rstrip(b"\n").rpartition(b"\n")
    rows = list(csv.reader(io.StringIO((front + b"\n").decode())))
    if not rows or rows[0] != TRAIL:
        return "bad bad_row 1"
    lab, before = None, ""
    for at, row in enumerate(rows[1:], 2):
        if len(row) != len(TRAIL) or not all(map(re.fullmatch, TRAIL_ROW, row)) or (row[4] == "") != (row[5] == "found"):
            return f"bad bad_row {at}"
        if row[1] != (lab or row[1]) or int(row[2]) != at - 1 or row[3] < before:
            return f"bad order {at}"
        lab, before = row[1], row[3]
    last = end.decode().split(",")
    if last[:3] != ["end", lab or last[1], str(len(rows) - 1)]:
        return "bad no_end"
    return f"good {len(rows) - 1}" if last[6:] == [hashlib.sha256(front + b"\n").hexdigest()] else f"bad digest {len(rows) + 1}"


# ---- what is asked


def words_of(words):
    parser = argparse.ArgumentParser(usage="find.py FILE LAB [OPTIONS], or COPY [OPTIONS]; '--help' says more", add_help=False)
    parser.add_argument("paths", nargs="+")
    parser.add_argument("--record", type=int)
    for name in ("form", "sample", "person"):
        parser.add_argument(f"--{name}")
    parser.add_argument("--from", dest="first")
    parser.add_argument("--to", dest="last")
    parser.add_argument("--state", choices=STATES)
    for name in ("csv", "trail", "check-trail"):
        parser.add_argument(f"--{name}", action="store_true")
    there = parser.parse_args(words)
    wanted = [2] if there.trail else [1] if there.check_trail else [1, 2]
    if len(there.paths) not in wanted or not all(DAY.fullmatch(day) for day in (there.first, there.last) if day is not None):
        parser.error("other arguments are expected")
    return there


def find(wanted):
    records = of_file(*wanted.paths) if len(wanted.paths) == 2 else of_copy(*wanted.paths)
    lines = [one.line() for one in records if meets(one, wanted)]
    if wanted.csv:
        csv.writer(sys.stdout, lineterminator="\n").writerows([COLUMNS, *lines])
    else:
        print_table(lines)
    print(f"{len(lines)} of {len(records)} records", file=sys.stderr)
    return 0 if lines else 1


def main(words):
    if words in (["-h"], ["--help"]):
        print(__doc__.strip())
        return 0
    wanted = words_of(words)
    csv.field_size_limit(2**31 - 1)
    sys.stdout.reconfigure(encoding="utf-8")
    try:
        if wanted.trail:
            write_trail(*wanted.paths, sys.stdout.buffer)
            return 0
        if wanted.check_trail:
            with open(wanted.paths[0], "rb") as file:
                told = check_trail(file.read())
            print(told)
            return 0 if told.startswith("good ") else 1
        return find(wanted)
    except check_copy.Bad as flaw:
        print("find.py: the copy isn't good: bad", *flaw.args, file=sys.stderr)
    except (OSError, ValueError, sqlite3.Error, csv.Error) as fault:
        print(f"find.py: {fault}", file=sys.stderr)
    return 2


if __name__ == "__main__":
    sys.exit(main(sys.argv[1:]))
