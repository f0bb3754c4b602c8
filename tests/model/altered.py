"""Copies and files of laboratories that somebody altered, each in one way, and what finds each of them: 47 copies and 99 files, in the
groups of docs/INSPECTING.md's two tables.

    tests/model/altered.py   prints both tables, out of what is wanted here

A copy is one of the page's laboratory (tests/model/inspected.py) or of that of tests/model/tampered.py. It is altered row by row, and then
no hash is computed; or its laboratory is altered before the copy is made, and each digest and seal is computed anew. A file is the page's
or that of tests/model/tampered.py. What is wanted of a copy is the line of each checker; of a file, the words of examples/check_file.py or
all that it prints, and in COPIED what a check finds of a copy that `labdesk copy` makes of the file.
"""
import collections
import contextlib
import copy
import csv
import functools
import io
import os
import sqlite3

import inspected
import laboratory
import kept_rows
import tampered

# ---- copies


@functools.lru_cache(None)
def labs_of_the_page():
    return inspected.inspected()


def of_the_page():
    return labs_of_the_page()["aqua"]


def text_of(lines):
    out = io.StringIO()
    csv.writer(out, lineterminator="\n").writerows(lines)
    return out.getvalue().encode()


def by_rows(change):
    """The page's copy with its rows changed; rows are counted from 1, as a check counts them."""
    def made():
        lines = [None, *map(list, laboratory.copy_rows(of_the_page(), 1, 100, "hal", 5000))]
        change(lines)
        return text_of([one for one in lines if one])
    return made


def put(*places):
    """Fields get other texts: each is a row, the field's name and the text."""
    def change(lines):
        for at, name, text in places:
            lines[at][laboratory.HEADER.index(name)] = text
    return by_rows(change)


def without(rows_there, *places):
    """Rows are left out, and fields get other texts, those of the end row among them, so that its counts fit."""
    def change(lines):
        for at, name, text in places:
            lines[at][laboratory.HEADER.index(name)] = text
        for at in rows_there:
            kind = lines[at][0]
            lines[at] = None
            count = ["record", "version", "entry", "signature"].index(kind) + 2
            lines[-1][count] = str(int(lines[-1][count]) - 1)
    return by_rows(change)


def anew(alteration, lab=of_the_page):
    """The laboratory is altered, and each digest and seal computed anew."""
    def made():
        there = copy.deepcopy(lab())
        alteration(there)
        tampered.reseal(there)
        return text_of(laboratory.copy_rows(there, 1, 100, "hal", 5000))
    return made


def cut(lines):
    del lines[10:]


def released_by_one_hash(lines):
    """The rejection of record 2 becomes a review."""
    version, row = (dict(zip(laboratory.HEADER, lines[at])) for at in (11, 15))
    items = [row["digest"], "aqua", row["person"], row["name"], "review", row["moment"], ""]
    seal = laboratory.sha(b"".join(map(laboratory.item, items)))
    lines[11][laboratory.HEADER.index("value")] = "released"
    for name, text in (("value", "review"), ("reason", ""), ("seal", seal)):
        lines[15][laboratory.HEADER.index(name)] = text
    assert (version["value"], row["value"]) == ("rejected", "rejection")


def version(lab, record, number):
    return lab.records[record - 1].versions[number - 1]


def signature(lab, record, place):
    return version(lab, record, 1).signatures[place - 1]


def another_value(lab):
    version(lab, 1, 1).rows[0].value = "0.75"


def another_reviewer(lab):
    signature(lab, 1, 2).person, signature(lab, 1, 2).name = "fay", "Fay Fox"


def a_second_code(lab):
    signature(lab, 1, 2).person, signature(lab, 1, 2).name = "dan2", "Dan Day"


def another_name(lab):
    signature(lab, 1, 2).name = "Eve Emerson"


def an_invented_record(lab):
    further = copy.deepcopy(lab.records[1])
    further.number, further.sample = 6, "S6"
    for one in further.versions[0].rows + further.versions[0].signatures + further.versions:
        for name in ("moment", "opened"):
            if getattr(one, name, None) is not None:
                setattr(one, name, getattr(one, name) + 200)
    lab.records.append(further)


def another_laboratory(lab):
    lab.code, lab.name = "brick", "Brick Lab"


def exchanged_samples(lab):
    lab.records[0].sample, lab.records[1].sample = lab.records[1].sample, lab.records[0].sample


def no_approval(lab):
    """Record 3 is released by two signatures, although its form asks for a third."""
    lab.records[2].form = copy.deepcopy(lab.records[2].form)
    lab.records[2].form.approval = version(lab, 3, 1).approval = False


def an_older_format(lab):
    version(lab, 1, 1).format = version(lab, 1, 2).format = 1


def no_first_value(lab):
    """The value that was replaced is gone, and so is the reason."""
    del version(lab, 1, 1).rows[0]
    version(lab, 1, 1).rows[0].reason = None


def a_letter_that_looks_alike(lab):
    signature(lab, 1, 2).name = "Е" + "ve Ems"


def a_value_turned_round(lab):
    version(lab, 1, 1).rows[0].value = "\u202e05.7"


def another_day(lab):
    for one in version(lab, 1, 1).signatures:
        one.moment += 5


def an_author_who_entered_nothing(lab):
    signature(lab, 1, 1).person, signature(lab, 1, 1).name = "gus", "Gus Gray"


def a_reviewer_who_entered(lab):
    version(lab, 2, 1).rows[1].person = "fay"


def a_control_character(lab):
    version(lab, 2, 1).rows[1].value = "clear\x07"


def with_other_ends():
    return b"\xef\xbb\xbf" + text_of(laboratory.copy_rows(of_the_page(), 1, 100, "hal", 5000)).replace(b"\n", b"\r\n")


def remarked(wanted):
    """The copies of tests/model/tampered.py that are good, and on which there are remarks."""
    for what, alteration, moment, lines in tampered.REMARKED:
        if lines:
            yield ("impossible", what, functools.partial(tampered.copy_of, alteration, moment), wanted, len(lines))


GOOD = "good 5 6 7 6"
# The group, what is altered, the copy, what each checker prints, and how many remarks there are.
COPIES = [
    ("rows", "a value", put((5, "value", "7.05")), "bad digest 4", 0),
    ("rows", "a unit", put((5, "unit", "ug/L")), "bad digest 4", 0),
    ("rows", "a sample", put((3, "value", "S7")), "bad digest 4", 0),
    ("rows", "the version of a form", put((3, "version", "2")), "bad digest 4", 0),
    ("rows", "who entered", put((5, "person", "eve")), "bad digest 4", 0),
    ("rows", "the reason of an amendment", put((8, "reason", "misread")), "bad digest 8", 0),
    ("rows", "a printed name", put((7, "name", "Eve Em")), "bad seal 7", 0),
    ("rows", "when was signed", put((7, "moment", "1970-01-01T00:20:11Z")), "bad seal 7", 0),
    ("rows", "a state without its signatures", put((22, "value", "signed")), "bad one_person 22", 0),
    ("rows", "the rows from a signature on are left out", by_rows(cut), "bad no_end", 0),
    ("rows", "a row behind the end", by_rows(lambda lines: lines.append(lines[-1])), "bad order 28", 0),
    ("rows", "the rules of the copy", put((2, "key", "1")), "bad bad_row 4", 0),
    ("copy", "who asked", put((2, "person", "gus")), GOOD, 0),
    ("copy", "the range", put((2, "version", "5")), GOOD, 0),
    ("copy", "when the copy was made", put((2, "moment", "1970-01-02T01:23:20Z")), GOOD, 0),
    ("copy", "the laboratory's name", put((2, "name", "Aqua")), GOOD, 0),
    ("less", "the last record", without([23, 24, 25, 26]), "good 4 5 5 6", 0),
    ("less", "a record between others", without([10, 11, 12, 13, 14, 15]), "good 4 5 5 4", 0),
    ("less", "an amendment", without([8, 9]), "good 5 5 6 6", 0),
    ("less", "a review, and the state is signed", without([20], (17, "value", "signed")), "good 5 6 7 5", 0),
    ("less", "a rejection, and the state is signed", without([15], (11, "value", "signed")), "good 5 6 7 5", 0),
    ("anew", "a rejection is a review, by one hash", by_rows(released_by_one_hash), GOOD, 0),
    ("anew", "a value", anew(another_value), GOOD, 0),
    ("anew", "who reviewed", anew(another_reviewer), GOOD, 0),
    ("anew", "a second code of the author reviewed", anew(a_second_code), GOOD, 0),
    ("anew", "a printed name", anew(another_name), GOOD, 0),
    ("anew", "a record that nobody entered", anew(an_invented_record), "good 6 7 9 8", 0),
    ("anew", "the laboratory", anew(another_laboratory), GOOD, 0),
    ("anew", "two samples are exchanged", anew(exchanged_samples), GOOD, 0),
    ("anew", "a form asks for no approval", anew(no_approval), GOOD, 0),
    ("anew", "the format of a version", anew(an_older_format), GOOD, 0),
    ("anew", "the first of two values is gone", anew(no_first_value, lambda: tampered.begun()["aqua"]), "good 3 4 3 6", 0),
    ("anew", "a name with a letter that looks alike", anew(a_letter_that_looks_alike), GOOD, 0),
    ("anew", "a value that is read from right to left", anew(a_value_turned_round), GOOD, 0),
    ("anew", "other moments that fit", anew(another_day), GOOD, 0),
    *remarked("good 3 4 4 6"),
    ("signers", "an author who entered nothing", anew(an_author_who_entered_nothing), "bad one_person 4", 0),
    ("signers", "a reviewer who entered a row", anew(a_reviewer_who_entered), "bad one_person 11", 0),
    ("signers", "a control character", anew(a_control_character), "bad bad_row 13", 0),
    ("ends", "lines that end in CR LF, and a byte order mark", with_other_ends, GOOD, 0),
]


# ---- files


VERSION = "(SELECT versions.id FROM versions, records, labs WHERE versions.record = records.id AND records.lab = labs.id AND code = 'aqua' " \
          "AND records.number = {} AND versions.number = {})"
AQUA = "(SELECT id FROM labs WHERE code = 'aqua')"
BRICK = "(SELECT id FROM labs WHERE code = 'brick')"
PERSON = "(SELECT id FROM persons WHERE lab = {} AND code = '{}')"
# The group, what is altered in the file of the page, how, and the words of the lines that check_file.py prints of it.
OWN = [
    ("none", "nothing", "", ""),
    ("version", "a value", f"UPDATE entries SET value = '7.6' WHERE version = {VERSION.format(1, 1)}", "digest"),
    ("version", "a unit", f"UPDATE entries SET unit = 'ug/L' WHERE version = {VERSION.format(1, 1)}", "digest value"),
    ("open", "a value of a version that nobody signed", f"UPDATE entries SET value = '7.6' WHERE version = {VERSION.format(1, 2)}", ""),
    ("version", "who entered a value", f"UPDATE entries SET person = {PERSON.format(AQUA, 'eve')} WHERE version = {VERSION.format(2, 1)}",
     "digest one_person trail"),
    ("version", "when a value was entered", f"UPDATE entries SET moment = moment - 1 WHERE version = {VERSION.format(1, 1)}", "digest trail"),
    ("version", "a value more", f"INSERT INTO entries SELECT max(id) + 1, {VERSION.format(1, 1)}, 2, 'note', 'x', '', max(person), 1300, NULL FROM entries",
     "digest trail"),
    ("version", "a value less", f"DELETE FROM entries WHERE version = {VERSION.format(2, 1)} AND place = 1", "digest order trail value"),
    ("version", "the sample", "UPDATE records SET sample = 'S7' WHERE sample = 'S1'", "digest"),
    ("open", "why a version was opened", f"UPDATE versions SET reason = 'x' WHERE id = {VERSION.format(1, 2)}", "trail"),
    ("version", "a reason of version 1", f"UPDATE versions SET reason = 'x' WHERE id = {VERSION.format(2, 1)}", "digest order"),
    ("version", "who opened a version", f"UPDATE versions SET opener = {PERSON.format(AQUA, 'eve')} WHERE id = {VERSION.format(1, 1)}", "digest trail"),
    ("version", "the format of a version", f"UPDATE versions SET format = 1 WHERE id = {VERSION.format(1, 1)}", "digest"),
    ("version", "whether a form wants an approval", "UPDATE forms SET approval = 0 WHERE approval = 1", "digest"),
    ("version", "the form of a record", "UPDATE records SET form = (SELECT id FROM forms WHERE version = 2) WHERE sample = 'S1'", "digest order trail"),
    ("signature", "a printed name", "UPDATE signatures SET name = 'Eve Em' WHERE name = 'Eve Ems'", "seal"),
    ("signature", "when was signed", "UPDATE signatures SET moment = moment + 1 WHERE meaning = 'rejection'", "seal trail"),
    ("signature", "who signed", f"UPDATE signatures SET person = {PERSON.format(AQUA, 'dan')} WHERE version = {VERSION.format(1, 1)}", "one_person seal trail"),
    ("signature", "a meaning", "UPDATE signatures SET meaning = 'review', reason = NULL WHERE meaning = 'rejection'", "seal trail"),
    ("signature", "a digest", f"UPDATE signatures SET digest = zeroblob(32) WHERE version = {VERSION.format(1, 1)} AND place = 1", "digest seal"),
    ("signature", "a seal", f"UPDATE signatures SET seal = zeroblob(32) WHERE version = {VERSION.format(1, 1)} AND place = 1", "seal"),
    ("signature", "a review less", f"DELETE FROM signatures WHERE version = {VERSION.format(1, 1)} AND place = 2", "order trail"),
    ("signature", "an author's signature less", f"DELETE FROM signatures WHERE version = {VERSION.format(3, 1)} AND place = 1", "one_person order trail"),
    ("session", "a session's opening", "UPDATE sessions SET opened = opened - 1 WHERE number = 9", "trail"),
    ("trail", "a row of the trail less", f"DELETE FROM trail WHERE lab = {AQUA} AND action = 'unlock'", "order"),
    ("trail", "the last row of the trail less, which is an opening", f"DELETE FROM trail WHERE lab = {AQUA} AND number = (SELECT trail FROM labs WHERE code = 'aqua')",
     "order trail"),
    ("trail", "a moment of the trail", f"UPDATE trail SET moment = 1 WHERE lab = {AQUA} AND action = 'unlock'", "trail"),
    ("trail", "who did something", f"UPDATE trail SET person = {PERSON.format(AQUA, 'eve')} WHERE subject = '1/1/authorship'", "trail"),
    ("trail", "an entry's row of the trail", f"UPDATE trail SET subject = '5/1/lead' WHERE lab = {AQUA} AND subject = '1/1/lead'", "trail"),
    ("trail", "a subject that isn't one", f"UPDATE trail SET subject = 'x' WHERE lab = {AQUA} AND subject = '1/1/lead'", "row trail"),
    ("number", "how many records were numbered", "UPDATE labs SET records = 6 WHERE code = 'aqua'", "order"),
    ("number", "which version is the last", "UPDATE records SET current = 1 WHERE sample = 'S1'", "order"),
    ("number", "a person of another laboratory", f"UPDATE entries SET person = {PERSON.format(BRICK, 'ann')} WHERE version = {VERSION.format(5, 1)}", "arrow trail"),
    ("number", "a signer of another laboratory", f"UPDATE signatures SET person = {PERSON.format(BRICK, 'ann')} WHERE version = {VERSION.format(2, 1)} AND place = 2",
     "arrow seal trail"),
    ("number", "an arrow that leads nowhere", "UPDATE signatures SET version = 999 WHERE meaning = 'rejection'", "integrity trail"),
    ("number", "a record of no form", "UPDATE records SET form = 999 WHERE sample = 'S1'", "integrity row trail"),
    ("trail", "many moments of the trail", f"UPDATE trail SET moment = -number WHERE lab = {AQUA}", "person trail"),
    ("number", "a moment that is none", f"UPDATE versions SET opened = 999999999999999 WHERE id = {VERSION.format(1, 1)}", "row"),
]


def flip_a_bit(path):
    """7.50 of a released version becomes 6.50, as by a disk that errs."""
    with open(path, "r+b") as file:
        text = file.read()
        assert text.count(b"lead7.50mg/L") == 1
        file.seek(text.index(b"lead7.50mg/L") + 4)
        file.write(b"6")


def cut_off_a_page(path):
    os.truncate(path, os.path.getsize(path) - 4096)


def put_back(path):
    """The file as it was before its last days: nothing in it is altered."""
    os.remove(path)
    kept_rows.write(path, kept_rows.two(earlier()))


@functools.lru_cache(None)
def earlier():
    return inspected.played().labs


# The same, where the bytes of the file are altered.
BYTES = [
    ("version", "one bit of a value", flip_a_bit, "digest"),
    ("number", "the last page is cut off", cut_off_a_page, "unread"),
    ("anew", "an older file is put back", put_back, ""),
]
# What a check finds of a copy that `labdesk copy` makes of the file, or what `labdesk copy` prints, where that isn't `good ..`.
COPIED = {
    **dict.fromkeys(["a value", "a unit", "who entered a value", "when a value was entered", "a value more", "a value less", "the sample",
                     "who opened a version", "the format of a version", "whether a form wants an approval", "the form of a record", "a digest",
                     "one bit of a value"], "bad digest"),
    **dict.fromkeys(["a printed name", "when was signed", "who signed", "a meaning", "a seal", "a signer of another laboratory"], "bad seal"),
    "a review less": "bad order", "an author's signature less": "bad one_person",
    **dict.fromkeys(["an arrow that leads nowhere", "a record of no form", "a moment that is none", "the last page is cut off", "a trigger"],
                    "labdesk: storage"),
}
File = collections.namedtuple("File", "group what write words printed copied")


def write_own(path, change):
    kept_rows.write(path, kept_rows.two(labs_of_the_page()))
    if callable(change):
        change(path)
        return
    with contextlib.closing(sqlite3.connect(path, isolation_level=None)) as base:
        base.execute(change)


def words_of(printed, status=1):
    """The words of flaws, or `unread` where the script can't read the file."""
    return ["unread"] if status == 2 else sorted({line.split()[1] for line in printed.splitlines() if line.startswith("bad ")})


def files():
    """Each file that is altered: how it is written, the words of its flaws, all that check_file.py prints where that is wanted, and
    what a check of its copy has to find."""
    for group, what, change, words in [*OWN, *BYTES]:
        yield File(group, what, functools.partial(write_own, change=change), sorted(words.split()), None, COPIED.get(what, "good"))
    for group, what, change, printed in [*tampered.FOUND, *tampered.ADDED, *tampered.NOT_FOUND]:
        yield File(group, what, functools.partial(tampered.write, alteration=change), words_of(printed), printed, COPIED.get(what, "good"))


# ---- the tables of docs/INSPECTING.md

COPY_GROUPS = {
    "rows": "any field of a record, version, entry or signature, or rows cut off or added; no hash is computed",
    "signers": "signers against the rules, or a forbidden character; all is computed anew",
    "impossible": "what no server writes; all is computed anew",
    "copy": "the second row",
    "less": "a record, version or signature left out, with counts that fit; no hash is computed",
    "anew": "anything else; one hash, or all, computed anew",
    "ends": "ends of lines and a byte order mark alone",
}
FILE_GROUPS = {
    "version": "a version that is signed",
    "signature": "a signature",
    "value": "a value, reason or amendment against the rules; all is computed anew",
    "open": "a version that nobody signed",
    "person": "a person",
    "session": "a session",
    "trail": "a row of the trail, or the order of what was done",
    "form": "a form or a field",
    "lab": "the laboratory's name or last moment",
    "number": "a number, an arrow, or a page of the file",
    "schema": "the schema",
    "anew": "the last thing with its row of the trail, a signature more with all computed, or the whole file",
}


def table(head, groups, those):
    """A row for each group: how many there are, and how many of them are found by each way, or by none. Those: a group, and whether
    each way finds it."""
    lines = ["| " + " | ".join(head) + " |", "|" + "---|" * len(head)]
    for group, about in groups.items():
        there = [finds for one, finds in those if one == group]
        counts = [len(there), *(sum(column) for column in zip(*there)), sum(not any(finds) for finds in there)]
        lines.append(f"| {about} | " + " | ".join(map(str, counts)) + " |")
    return "\n".join(lines) + "\n"


def copies_table(those):
    return table(["What is changed in a copy", "copies", "a check finds", "a remark", "neither"], COPY_GROUPS, those)


def files_table(those):
    return table(["What is changed in a file", "files", "`check_file.py` finds", "a check of its copy finds", "neither"], FILE_GROUPS, those)


def main():
    print(copies_table([(group, (line.startswith("bad"), count > 0)) for group, _, _, line, count in COPIES]))
    print(files_table([(one.group, (bool(one.words), one.copied != "good")) for one in files() if one.group != "none"]), end="")


if __name__ == "__main__":
    main()
