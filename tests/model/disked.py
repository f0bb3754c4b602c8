"""Texts of crates/lab_tests_rows, lab_tests_twins, lab_tests_disks and lab_tests_memory: the rows of two laboratories, what is asked
over them, and what has to come of it. All of it is made by tests/model/laboratory.py, which is no part of the program, and
tests/model/kept_rows.py.

The laboratories are brick and aqua: the same codes, numbers and tokens, other values. An id stands as # before a number, so that
whoever reads the rows says what it is.
"""
import copy
import functools
import hashlib

import named_cases
import laboratory
import kept_rows
from streams import FOUNDERS, LEAD, NOTE, Stream, reply_of

COLOUR = {"key": "colour", "label": "Colour", "required": False, "kind": "choice", "choices": ["none", "pale blue"]}
LOWER = {"key": "lead", "value": "7.4", "unit": "mg/L"}
# How long a line of a source may be.
WIDTH = 100


# ---- the laboratories, and what is asked


def begun(s, lab, opened, values):
    """Sessions are opened then. Record 1 is open, 2 is signed, 3 is released. Eve has an open ask, and dan has none."""
    s.next_word = 1_000
    s.found(0, lab, lab.capitalize() + " Lab", FOUNDERS)
    s.open(opened, "ann", lab=lab)
    s.open(opened, "bob", lab=lab)
    s.post(20, "bob", "/roles", lab=lab, code="ann", roles=["analyst", "manager", "administrator"])
    s.post(20, "ann", "/roles", lab=lab, code="bob", roles=["reviewer", "administrator"])
    for code, name in (("dan", "Dan Day"), ("eve", "Eve Ems")):
        s.post(30, "ann", "/persons", lab=lab, code=code, name=name, roles=["analyst"])
    s.post(30, "ann", "/issue", lab=lab, code="eve")
    s.post(40, "ann", "/forms", lab=lab, form="water", fields=[LEAD, NOTE, COLOUR])
    for record, value in enumerate(values, 1):
        s.post(50, "ann", "/records", lab=lab, form="water", sample=f"S{record}")
        s.post(50, "ann", "/entries", lab=lab, record=record, key="lead", value=value, unit="mg/L")
    s.sign(60, "ann", 2, 1, "authorship", lab=lab, code="ann")
    s.sign(60, "ann", 3, 1, "authorship", lab=lab)
    s.sign(70, "bob", 3, 1, "review", lab=lab, code="bob")


@functools.cache
def laboratories():
    """Both, with no events so far. Passwords have the rounds of before, so that trying one costs little."""
    s = Stream()
    with laboratory.old_rounds():
        begun(s, "brick", 15, ["6.25", "6.50", "6.75"])
        begun(s, "aqua", 10, ["7.50", "7.75", "8.00"])
    s.events, s.answers, s.next_word = [], [], 10_000
    return s


def entry(s):
    s.post(100, "ann", "/entries", record=1, key="note", value="clear", unit="")


def signing(s):
    s.sign(100, "ann", 1, 1, "authorship")


def review(s):
    s.sign(100, "bob", 2, 1, "review")


def amendment(s):
    s.post(100, "ann", "/amendments", record=3, reason="misread scale", altered=[LOWER])


def issue(s):
    s.post(100, "ann", "/issue", code="dan")


def confirmation(s):
    s.post(100, "bob", "/confirm", code="eve")


def copying(s):
    s.copy(100, "ann", 1, 100)


def opening(s):
    s.open(100, "bob", who="again")


def reading(place):
    return lambda s: s.get(100, "ann", place)


STOPPED = {"ENTRY": entry, "SIGNING": signing, "REVIEW": review, "AMENDMENT": amendment, "ISSUE": issue, "CONFIRMATION": confirmation,
           "COPY": copying}
READ = ["", "/persons", "/forms/water/1", "/records/1", "/records/3/versions/1", "/records?from=1&to=9", "/trail?from=1&to=40"]
DAY = [*STOPPED.values(), opening, *map(reading, READ)]


def played(*parts):
    """Streams of these one after the other, of which each has an event."""
    s = copy.deepcopy(laboratories())
    for part in parts:
        part(s)
    assert len(s.events) == len(parts)
    return s


# Of named_cases.py, those in which a result is entered, signed, reviewed and amended, each from the same beginning.
WORKED = ["a_second_value_wants_a_reason_and_both_stay", "the_first_signing_takes_the_code_and_a_second_person_releases",
          "a_session_rests_for_nine_hundred_seconds", "and_not_for_a_second_more", "who_entered_a_row_signs_as_author_alone",
          "an_author_who_is_a_reviewer_too_does_not_review", "what_is_released_is_amended_and_nothing_overwritten",
          "one_form_and_sample_make_one_record", "a_record_is_opened_beside_a_crowd"]


@functools.cache
def beginning():
    """Where these cases begin, with passwords of the rounds of before. In brick there is a form, so that its people can open records."""
    s = copy.deepcopy(named_cases.as_before(named_cases.setup))
    for who in ("ann", "bob"):
        s.open(1100, who, lab="brick", who=f"{who} of brick")
    s.post(1100, "bob of brick", "/roles", lab="brick", code="ann", roles=["analyst", "manager", "administrator"])
    s.post(1100, "ann of brick", "/forms", lab="brick", form="water", fields=[LEAD])
    s.events, s.answers, s.next_word = [], [], 10_000
    return s


# What a crowd is made of: 400 persons, and 2,000 records with a version, an entry and a row of the trail each.
CROWD = {
    "CROWD_PERSON": ("Adds a person of brick: an id and a code.",
                     "INSERT INTO persons (id, lab, code, name, roles, retired, failures, kind) VALUES (?, {lab}, ?, 'P', 1, 0, 0, 0)"),
    "CROWD_RECORD": ("Adds a record of brick: an id, a number and a sample.",
                     "INSERT INTO records (id, lab, number, form, form_code, sample, current) VALUES (?, {lab}, ?, {form}, 'water', ?, 1)"),
    "CROWD_VERSION": ("Adds a version: its id and that of its record.",
                      "INSERT INTO versions (id, record, number, format, opener, opened) VALUES (?, ?, 1, 2, {ann}, 1100)"),
    "CROWD_ENTRY": ("Adds an entry: its id and that of its version.",
                    "INSERT INTO entries (id, version, place, key, value, unit, person, moment) VALUES (?, ?, 1, 'lead', '1.5', 'mg/L', {ann}, 1100)"),
    "CROWD_TRAIL": ("Adds a row of brick's trail: an id, a number and a subject.",
                    "INSERT INTO trail (id, lab, number, moment, person, action, subject) VALUES (?, {lab}, ?, 1100, {ann}, 'record', ?)"),
    "CROWD_COUNTS": ("Counts what a crowd has added to brick.", "UPDATE labs SET records = 2000, trail = trail + 2000 WHERE id = {lab}"),
}


def crowd_texts():
    """Statements that put a crowd into brick, where the ids are seven times a number, and three."""
    tables = kept_rows.Rows(kept_rows.two(beginning().labs)).tables

    def id_of(table, **wanted):
        return next(row["id"] for row in tables[table] if wanted.items() <= row.items())

    lab = id_of("labs", code="brick")
    ids = {"lab": lab, "form": id_of("forms", lab=lab), "ann": id_of("persons", lab=lab, code="ann")}
    text = "//! A crowd in brick, by `tests/model/disked.py`, where the ids are those of rows that are spread.\n"
    trail = beginning().labs["brick"].trail
    text += constant("CROWD_TRAIL_BEGINS", "i64", len(trail), "How many rows brick's trail has before.")
    for name, (comment, sql) in CROWD.items():
        text += constant(name, "&str", literal(sql.format(**ids)), comment)
    return text


def a_record_is_opened_beside_a_crowd(s):
    s.post(1200, "dan", "/records", form="water", sample="S9", wants='{"record":2,"version":1}')
    s.get(1200, "dan", "/records/2")


def worked(name):
    s = copy.deepcopy(beginning())
    (globals().get(name) or getattr(named_cases, name))(s)
    return s


# ---- as Rattle


def pieces(text, room):
    """The lines of a literal: each ends behind a line's end or a space where it has one, and none begins with a space."""
    while len(text) > room:
        breaks = [at for at in range(room // 2, room + 1) if text[at - 4:at] == r"\r\n" or text[at - 1] == " " != text[at]]
        end = breaks[-1] if breaks else room
        while text[end - 1] == "\\" or text[end] == " ":
            end -= 1
        yield text[:end]
        text = text[end:]
    yield text


def literal(text, opens='"', room=WIDTH - 9):
    """Lines of a source, of which each but the first stands within four spaces."""
    escaped = text.replace("\\", "\\\\").replace('"', '\\"').replace("\r", "\\r").replace("\n", "\\n")
    assert escaped.isascii() and escaped.isprintable()
    return opens + "\\\n    " + "\\\n    ".join(pieces(escaped, room)) + '"'


def constant(name, kind, value, comment=None):
    told = f"/// {comment}\n" if comment else ""
    return f"\n{told}pub(crate) static {name}: {kind} = {value};\n"


def exchange(event, answer):
    head, _, request = event.partition(b"\n")
    seconds, first = map(int, head.split()[1:3])
    told = "".join(f"    {member}: {value},\n" for member, value in (
        ("seconds", seconds), ("first", first), ("request", literal(request.decode(), 'b"')), ("reply", literal(answer.decode(), 'b"'))))
    return "Exchange {\n" + told + "}"


def exchanges(name, s, comment):
    told = ",\n".join(map(exchange, s.events, s.answers))
    told = "".join(f"    {line}\n" for line in f"{told},".split("\n"))
    return constant(name, f"[Exchange; {len(s.events)}]", f"[\n{told}]", comment)


def row_texts():
    return rows_of(laboratories().labs, "")


def worked_row_texts():
    return rows_of(beginning().labs, "WORKED_")


def rows_of(labs, begins):
    both = kept_rows.Rows(kept_rows.two(labs), Id)
    text = "//! The rows of two laboratories, by `tests/model/disked.py`. Each id is a number behind #.\n"
    # The rows of one stand in front of those of the other, in each table.
    counts = {table: len(kept) for table, kept in kept_rows.Rows([labs["brick"]]).tables.items()}
    for lab in ("brick", "aqua"):
        tables = {table: kept[:counts[table]] if lab == "brick" else kept[counts[table]:] for table, kept in both.tables.items()}
        text += constant(f"{begins}{lab.upper()}_ROWS", "&str", literal("; ".join(statements(tables))), f"Those of {lab}.").replace("pub(crate)", "pub")
    return text


class Id(int):
    """An id, which is printed behind #."""

    def __str__(self):
        return f"#{int(self)}"


def statements(tables):
    for table, kept in tables.items():
        names = ["id", *kept_rows.COLUMNS[table].split()]
        told = ", ".join(f"({', '.join(kept_rows.literal(row.get(name)) for name in names)})" for row in kept)
        if kept:
            yield f"INSERT INTO {table} ({', '.join(names)}) VALUES {told}"


def question_texts():
    text = "//! What is asked of the tables, by `tests/model/kept_rows.py`: of a laboratory, and how many rows.\n"
    for name, questions in (("QUESTIONS", kept_rows.QUESTIONS), ("COUNTS", kept_rows.COUNTS)):
        told = "".join(f"    {literal(one)},\n".replace("\n    ", "\n        ") for one in questions)
        text += constant(name, f"[&str; {len(questions)}]", "[\n" + told + "]")
    return text


def digest(told):
    return f'b"\\\n    {hashlib.sha256(told.encode()).hexdigest()}"'


def said(s, codes):
    return digest(kept_rows.all_told(s.labs, codes))


def event_texts():
    """What is asked by itself, over the laboratories as they begin."""
    text = "//! What is asked, each by itself, and its replies, by `tests/model/disked.py`.\nuse lab_tests_rows::Exchange;\n"
    text += constant("ROWS_BEFORE", "&[u8; 64]", said(laboratories(), kept_rows.CODES), "The digest of what the rows say as they are.")
    storage = reply_of(503, 100, laboratory.body(error="storage", number=63)).decode()
    text += constant("STORAGE_REPLY", "&[u8]", literal(storage, 'b"'), "The reply where the store refuses.")
    for name, part in STOPPED.items():
        s = played(part)
        text += constant(name, "Exchange", exchange(s.events[0], s.answers[0]))
        text += constant(f"ROWS_AFTER_{name}", "&[u8; 64]", said(s, kept_rows.CODES))
    return text + founding_texts()


def founding_texts():
    """A founding beside the laboratories as they begin, and a file in which there is none."""
    s = copy.deepcopy(laboratories())
    s.found(100, "cider", "Cider Lab", FOUNDERS)
    text = founding_asked(s) + constant("ROWS_AFTER_FOUNDING", "&[u8; 64]", said(s, kept_rows.CODES))
    return text + constant("NO_ROWS", "&[u8; 64]", said(Stream(), kept_rows.CODES), "The digest of what no rows say.")


def founding_asked(s):
    """The last event, which is a founding."""
    head, _, content = s.events.pop().partition(b"\n")
    s.answers.pop()
    text = constant("FOUNDING_FIRST", "u32", int(head.split()[3]), "The first of the eight random words of the founding.")
    return text + constant("FOUNDING", "&[u8]", literal(content.decode(), 'b"'), "Its body.")


def served_texts():
    """What two clients ask of a laboratory that was founded just before: a session is opened, and with its token the persons are read."""
    s = Stream()
    s.found(0, "aqua", "Aqua Lab", FOUNDERS)
    text = "//! What two clients ask, one after the other, and the replies, by `tests/model/disked.py`.\nuse lab_tests_rows::Exchange;\n"
    text += founding_asked(s)
    s.open(100, "ann")
    s.get(100, "ann", "/persons")
    return text + exchanges("SERVED", s, "An opening, and a reading with its token.")


def day_texts():
    """What is asked one after the other."""
    text = "//! What is asked in turn, and the replies, by `tests/model/disked.py`.\nuse lab_tests_rows::Exchange;\n"
    s = played(*DAY)
    text += exchanges("DAY", s, "All of it is asked of aqua.")
    text += constant("AQUA_BEFORE_DAY", "&[u8; 64]", said(laboratories(), ["aqua"]), "The digest of what the rows say of aqua before it.")
    text += constant("AQUA_AFTER_DAY", "&[u8; 64]", said(s, ["aqua"]), "After it.")
    text += constant("BRICK", "&[u8; 64]", said(s, ["brick"]), "Of brick, before it and after it.")
    return text


def worked_texts():
    """What is asked from one beginning, story by story."""
    text = "//! What is asked from one beginning, each story by itself, and the replies, by `tests/model/disked.py`.\nuse crate::exchanges::Exchange;\n"
    tokens = beginning().tokens
    for who in ("dan", "ann"):
        text += constant(f"TOKEN_OF_{who.upper()}", "u32", tokens["aqua", who], f"The first word of the token of {who}.").replace("(crate)", "")
    for name in WORKED:
        text += exchanges(name.upper(), worked(name), "A story: " + name.replace("_", " ") + ".").replace("(crate)", "")
    return text


SOURCES = {"lab_tests_rows/src/rows": row_texts, "lab_tests_rows/src/worked_rows": worked_row_texts,
           "lab_tests_rows/src/worked": worked_texts, "lab_tests_rows/src/crowd_texts": crowd_texts, "lab_tests_rows/src/questions": question_texts,
           "lab_tests_disks/src/events": event_texts, "lab_tests_memory/src/events": served_texts, "lab_tests_twins/src/day": day_texts}
