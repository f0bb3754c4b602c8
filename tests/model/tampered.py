"""Laboratories that somebody altered in their file, and what examples/check_file.py prints of each: of aqua of tests/model/kept_rows.py after
some hours. An alteration is a statement over the file; or it is done to the laboratory before its rows are written, and then each digest
and each seal is computed anew and the trail is numbered anew, as somebody would who hides it. Beside them are copies that somebody altered
in the same way, and what examples/check_copy.py remarks on each.
"""
import contextlib
import copy
import csv
import functools
import io
import sqlite3

import laboratory
import kept_rows
from laboratory import Thing

GOOD = "good 3 4 4 6\n"


@functools.lru_cache(None)
def begun():
    return kept_rows.rich().labs


def reseal(lab):
    """Digests, seals and numbers of the trail, as they have to be for what is there."""
    for number, row in enumerate(lab.trail, 1):
        row.number = number
    for record in lab.records:
        before = None
        for version in record.versions:
            version.previous = before
            before = laboratory.digest_of(lab, record, version)
            for one in version.signatures:
                one.digest = before
                items = [before, lab.code, one.person, one.name, one.meaning, laboratory.printed(one.moment), one.reason or ""]
                one.seal = laboratory.sha(b"".join(map(laboratory.item, items)))


def write(path, alteration):
    """The file of both laboratories, of which aqua is altered."""
    labs = copy.deepcopy(begun())
    if callable(alteration):
        alteration(labs["aqua"])
        reseal(labs["aqua"])
    kept_rows.write(path, kept_rows.two(labs))
    if not callable(alteration):
        with contextlib.closing(sqlite3.connect(path)) as base:
            base.executescript(alteration)
            base.commit()


# ---- what is altered, where everything is computed anew


def row_of(lab, action, subject):
    return next(one for one in lab.trail if (one.action, one.subject) == (action, subject))


def version(lab, record, number):
    return lab.records[record - 1].versions[number - 1]


def entered(key, value, unit):
    """Something is entered into record 3, which has lead in ug/L without decimals, up to 900."""
    def alter(lab):
        version(lab, 3, 1).rows.append(Thing(key=key, value=value, unit=unit, person="dan", moment=1440, reason=None))
        lab.trail.append(Thing(number=0, moment=1440, person="dan", action="entry", subject=f"3/1/{key}"))
    return alter


def admitted(kind, value, **about):
    """The same, into a field of a kind that the form of record 3 is given."""
    def alter(lab):
        lab.records[2].form.fields.append({"key": "field", "label": "Field", "required": False, "kind": kind, **about})
        entered("field", value, "")(lab)
    return alter


def no_reason_of_a_second_value(lab):
    version(lab, 1, 1).rows[1].reason = None


def a_reason_of_a_first_value(lab):
    version(lab, 1, 1).rows[0].reason = "as it was read"


def no_required_value(lab):
    for row, one in zip(version(lab, 1, 1).rows, [one for one in lab.trail if one.subject == "1/1/lead"]):
        row.key, row.unit, one.subject = "note", "", "1/1/note"


def nothing_is_amended(lab):
    version(lab, 2, 2).rows[0].value = "8.01"


def an_entry_after_the_authorship(lab):
    row, sign = [one for one in lab.trail if one.subject == "1/1/lead"][1], row_of(lab, "sign", "1/1/authorship")
    version(lab, 1, 1).rows[1].moment = row.moment = sign.moment
    lab.trail.remove(row)
    lab.trail.insert(lab.trail.index(sign) + 1, row)


def an_older_form(lab):
    lab.records[2].form = lab.records[0].form


def reviews_without_the_role(lab):
    row_of(lab, "enrol", "eve analyst reviewer").subject = "eve analyst"


def a_review_after_the_retirement(lab):
    retired = row_of(lab, "retire", "cid")
    retired.subject, retired.person, retired.moment = "eve", "bob", 1130
    lab.trail.remove(retired)
    lab.trail.insert(lab.trail.index(row_of(lab, "sign", "2/1/review")), retired)


def two_records_in_another_order(lab):
    first, second = row_of(lab, "record", "1"), row_of(lab, "record", "2")
    first.subject, second.subject = second.subject, first.subject


def the_last_signature_less(lab):
    version(lab, 2, 2).signatures.pop()
    lab.trail.remove(row_of(lab, "sign", "2/2/rejection"))


def the_last_record_less(lab):
    lab.records.pop()
    lab.trail.remove(row_of(lab, "record", "3"))


def the_last_roles_less(lab):
    """Those that somebody has were given by no row, and there was another before."""
    lab.trail.remove(row_of(lab, "roles", "eve reviewer"))
    next(one for one in lab.persons if one.code == "eve").roles = {"analyst", "reviewer"}


def another_code_of_a_founder(lab):
    """Of one who did nothing, and to whom nothing was done."""
    lab.trail.remove(row_of(lab, "retire", "cid"))
    founder = next(one for one in lab.persons if one.code == "cid")
    founder.code, founder.retired = "cyd", False


def another_reason_of_an_amendment(lab):
    """Of one that nobody signed."""
    amendment = version(lab, 2, 2)
    lab.trail = [one for one in lab.trail if not one.subject.startswith("2/2/")]
    amendment.signatures, amendment.reason, amendment.rows[0].reason = [], "another one", "another one"


def an_open_version_as_signed(lab):
    """Its author signs, as whoever computes everything anew has it."""
    entered("lead", "7", "ug/L")(lab)
    version(lab, 3, 1).signatures.append(Thing(person="dan", name="Dan Day", meaning="authorship", moment=1440, reason=None))
    lab.trail.append(Thing(number=0, moment=1440, person="dan", action="sign", subject="3/1/authorship"))


# ---- what no rule of a check forbids in a copy


def a_review_before_the_authorship(lab):
    version(lab, 2, 1).signatures[1].moment = 1119


def an_entry_behind_the_authorship(lab):
    version(lab, 1, 1).rows[1].moment = 1310


def two_reasons_of_an_amendment(lab):
    version(lab, 2, 2).rows[0].reason = "another one"


def two_units_of_a_key(lab):
    version(lab, 1, 1).rows[1].unit = "ug/L"


def two_records_of_a_sample(lab):
    lab.records[1].sample = "S1"


def as_it_is(lab):
    pass


# ---- what is found of each

AQUA = "(SELECT id FROM labs WHERE code = 'aqua')"
PERSON = f"(SELECT id FROM persons WHERE lab = {AQUA} AND code = '{{}}')"
OWN = f"lab = {AQUA}"


def lines(*flaws):
    return "".join(f"bad {one}\n" for one in flaws)


FOUND = [
    # the file
    ("number", "an arrow that leads nowhere", "UPDATE signatures SET version = 999 WHERE meaning = 'rejection'",
     lines("integrity signatures 52 versions 1", "trail sign/2/2/rejection")),
    ("schema", "a trigger", "CREATE TRIGGER later AFTER UPDATE ON labs BEGIN SELECT 1; END", lines("schema trigger/later")),
    ("schema", "a column more", "ALTER TABLE labs ADD COLUMN further TEXT", lines("schema table/labs")),
    ("schema", "the index less", "DROP INDEX sessions_of_person", lines("schema index/sessions_of_person")),
    # persons
    ("person", "a person whom nobody enrolled",
     f"INSERT INTO persons (id, lab, code, name, roles, retired, failures, kind) SELECT 1000, id, 'zoe', 'Zoe Zinn', 1, 0, 0, 0 FROM labs WHERE code = 'aqua'",
     lines("person founders/ann/bob/cid/zoe", *(f"person zoe/{one}" for one in ("roles", "kind", "changed")))),
    ("person", "another person in the row of an enrolment", f"UPDATE trail SET subject = 'cid analyst' WHERE {OWN} AND subject = 'una analyst'",
     lines(*(f"person {code}/{one}" for code in ("cid", "una") for one in ("roles", "kind", "changed")))),
    ("person", "another code of a person", f"UPDATE persons SET code = 'uno' WHERE code = 'una' AND {OWN}",
     lines("person founders/ann/bob/cid/uno", "trail 61", *(f"person uno/{one}" for one in ("roles", "kind", "changed")))),
    ("person", "roles that no row gave", f"UPDATE persons SET roles = 31 WHERE code = 'dan' AND {OWN}", lines("person dan/roles")),
    ("person", "somebody retired is back", f"UPDATE persons SET retired = 0 WHERE code = 'cid' AND {OWN}", lines("person cid/retired")),
    ("person", "a lock and its failures are gone", f"UPDATE persons SET failures = 0, locked = NULL WHERE code = 'fay' AND {OWN}",
     lines("person fay/failures", "person fay/locked")),
    ("person", "a password that no row gave", f"UPDATE persons SET changed = 1440 WHERE code = 'dan' AND {OWN}", lines("person dan/changed")),
    ("person", "a one-time password that was chosen", f"UPDATE persons SET kind = 1 WHERE code = 'ida' AND {OWN}", lines("person ida/kind")),
    ("person", "a one-time password that nobody asked for", f"UPDATE persons SET asker = {PERSON.format('bob')}, asked = 1440 WHERE code = 'una' AND {OWN}",
     lines("person una/asker", "person una/asked")),
    ("person", "another printed name of somebody who signed", f"UPDATE persons SET name = 'Dan Dow' WHERE code = 'dan' AND {OWN}", lines("person dan/name")),
    ("trail", "who asked also confirms", f"UPDATE trail SET person = {PERSON.format('ann')} WHERE {OWN} AND action = 'confirm' AND subject = 'hal'",
     lines("one_person trail/22")),
    ("trail", "somebody confirms for themselves", f"UPDATE trail SET person = {PERSON.format('ida')} WHERE {OWN} AND action = 'confirm' AND subject = 'ida'",
     lines("one_person trail/54", "trail 54")),
    ("trail", "who made a form isn't a manager", f"UPDATE trail SET person = {PERSON.format('hal')} WHERE {OWN} AND subject = 'water/1'", lines("trail 31")),
    ("trail", "who reviewed isn't a reviewer", reviews_without_the_role, lines("trail 40", "trail 47", "trail 50")),
    ("trail", "who is retired reviews", a_review_after_the_retirement,
     lines("trail 40", "trail 41", "trail 48", "trail 51", "trail 64", "person cid/retired", "person eve/roles", "person eve/retired",
           "trail session/4/closed", "trail session/9/closed")),
    # sessions, forms, the last moment
    ("session", "a session that was closed is open", f"UPDATE sessions SET closed = 0 WHERE number = 5 AND {OWN}", lines("trail session/5/closed")),
    ("session", "a session is closed that nothing closed", f"UPDATE sessions SET closed = 1 WHERE number = 15 AND {OWN}", lines("trail session/15/closed")),
    ("session", "an earlier end of a session", f"UPDATE sessions SET last = 1200 WHERE number = 8 AND {OWN}",
     lines("trail 46", "trail 48", "trail 49", "trail 59")),
    ("form", "a form that nobody made", f"INSERT INTO forms (id, lab, code, version, approval) SELECT 1000, id, 'soil', 1, 0 FROM labs WHERE code = 'aqua'",
     lines("trail form/soil/1")),
    ("lab", "a last moment to come", "UPDATE labs SET last = last + 315360000 WHERE code = 'aqua'", lines("trail last")),
    # values
    ("value", "a second value without a reason", no_reason_of_a_second_value, lines("order 1/1/2/lead")),
    ("value", "a key that the form doesn't have", entered("zinc", "7", "ug/L"), lines("value 3/1/1/zinc")),
    ("value", "another unit", entered("lead", "7", "mg/L"), lines("value 3/1/1/lead")),
    ("value", "a value with a decimal too many", entered("lead", "7.5", "ug/L"), lines("value 3/1/1/lead")),
    ("value", "a value that is no number", entered("lead", "seven", "ug/L"), lines("value 3/1/1/lead")),
    ("value", "a value above the greatest", entered("lead", "901", "ug/L"), lines("value 3/1/1/lead")),
    ("value", "a value below the least", entered("lead", "-1", "ug/L"), lines("value 3/1/1/lead")),
    ("value", "a choice that there isn't", admitted("choice", "green", choices=["pale blue", "none"]), lines("value 3/1/1/field")),
    ("value", "a day that there isn't", admitted("date", "2026-02-30"), lines("value 3/1/1/field")),
    ("value", "neither yes nor no", admitted("yesno", "Yes"), lines("value 3/1/1/field")),
    ("value", "a text that is too long", admitted("text", "water", size=4), lines("value 3/1/1/field")),
    ("value", "no value of a required field", no_required_value, lines("value 1/1")),
    ("value", "an amendment that alters nothing", nothing_is_amended, lines("value 2/2")),
    # the order of what was done
    ("trail", "an entry after the authorship", an_entry_after_the_authorship, lines("trail 1/order")),
    ("trail", "an older version of a form", an_older_form, lines("trail 59")),
    ("trail", "two records in another order", two_records_in_another_order,
     lines("trail 33", "trail 35", "trail record/1", "trail record/2")),
]
# What another program may add.
ADDED = [
    ("schema", "a view, a table and its index", "CREATE VIEW signed AS SELECT * FROM signatures; CREATE TABLE further (x); CREATE INDEX quick ON further (x); ANALYZE",
     f"added view signed\nadded table further\nadded index quick\nadded table sqlite_stat1\n{GOOD}"),
]
# What docs/INSPECTING.md says isn't found.
NOT_FOUND = [
    ("none", "nothing is altered", "", GOOD),
    ("none", "values of kinds that a form may have", admitted("date", "2024-02-29"), GOOD.replace("3 4 4", "3 4 5")),
    ("value", "a reason of a first value", a_reason_of_a_first_value, GOOD),
    ("open", "another sample of a record that nobody signed", "UPDATE records SET sample = 'S9' WHERE sample = 'S3'", GOOD),
    ("open", "another reason of an amendment that nobody signed", another_reason_of_an_amendment, "good 3 4 4 4\n"),
    ("person", "another name of somebody who didn't sign", f"UPDATE persons SET name = 'Una Unn' WHERE code = 'una' AND {OWN}", GOOD),
    ("person", "another code of a founder who did nothing", another_code_of_a_founder, GOOD),
    ("person", "another verifier of a password", f"UPDATE persons SET salt = zeroblob(16), bytes = zeroblob(32) WHERE code = 'eve' AND {OWN}", GOOD),
    ("session", "another token of a session", f"UPDATE sessions SET token = zeroblob(32) WHERE number = 15 AND {OWN}", GOOD),
    ("lab", "a later last moment where a stray password was counted", "UPDATE labs SET last = last + 315360000, stray = 1 WHERE code = 'aqua'", GOOD),
    ("form", "another label of a field", "UPDATE fields SET label = 'Pb' WHERE key = 'lead'", GOOD),
    ("form", "another greatest amount, which every value fits", "UPDATE fields SET high = '999' WHERE high = '900'", GOOD),
    ("lab", "the laboratory's name", "UPDATE labs SET name = 'Aqua' WHERE code = 'aqua'", GOOD),
    ("trail", "another occasion of a refused password", f"UPDATE trail SET subject = 'open' WHERE {OWN} AND action = 'refuse'", GOOD),
    ("trail", "another administrator, who had a session", f"UPDATE trail SET person = {PERSON.format('bob')} WHERE {OWN} AND subject = 'jon analyst'", GOOD),
    ("trail", "another moment, which fits", f"UPDATE trail SET moment = 1430 WHERE {OWN} AND subject = 'rock/1'", GOOD),
    ("anew", "the last roles less, and their row of the trail", the_last_roles_less, GOOD),
    ("anew", "the last signature less, and its row of the trail", the_last_signature_less, "good 3 4 4 5\n"),
    ("anew", "the last record less, and its row of the trail", the_last_record_less, "good 2 3 4 6\n"),
    ("anew", "a signature more, of which everything is computed", an_open_version_as_signed, "good 3 4 5 7\n"),
]
# What is done to the laboratory before a copy is made of it, the copy's moment, and the remarks beside its verdict, which is good.
REMARKED = [
    ("nothing", as_it_is, 5000, []),
    ("a review before the authorship", a_review_before_the_authorship, 5000, ["row 13: its moment is before that of a row above it"]),
    ("a signature behind the copy", as_it_is, 1415, ["row 17: its moment is after that of the copy", "row 19: its moment is after that of the copy"]),
    ("an entry behind the authorship", an_entry_behind_the_authorship, 5000, ["row 7: its moment is before that of a row above it"]),
    ("a second value without a reason", no_reason_of_a_second_value, 5000, ["row 6: a second value, and no reason"]),
    ("an amendment that alters nothing", nothing_is_amended, 5000, ["row 16: a signature of an amendment that alters nothing"]),
    ("two reasons of an amendment", two_reasons_of_an_amendment, 5000,
     ["row 15: the first value of an amendment has not its person, its moment and its reason"]),
    ("two units of a key", two_units_of_a_key, 5000, ["row 6: another unit than this key has elsewhere"]),
    ("two records of a form and a sample", two_records_of_a_sample, 5000, ["row 9: record 1 has this form and sample, too"]),
]


def copy_of(alteration, moment):
    """A copy of aqua, altered."""
    lab, text = copy.deepcopy(begun()["aqua"]), io.StringIO()
    alteration(lab)
    reseal(lab)
    csv.writer(text, lineterminator="\n").writerows(laboratory.copy_rows(lab, 1, 9, "hal", moment))
    return text.getvalue().encode()
