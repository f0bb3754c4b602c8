#!/usr/bin/env python3
"""Plays named cases through `labdesk replay`, and compares each answer whole, to the byte, with that of tests/model/laboratory.py, which
follows the rules apart from the program, in the form of docs/HTTP.md.

    tests/model/named_cases.py PROGRAM [NAME ..]   plays all cases, or these: a line for each, `ok ..` or `FAILED ..`
    tests/model/named_cases.py PROGRAM --some      plays all that begin with foundings alone, and every fourth of the others
    tests/model/named_cases.py --names             prints their names
    tests/model/named_cases.py --events NAME       prints a case as `labdesk replay` reads it

What a request should come to stands beside it, in `wants`: the number of a refusal, members of the reply, or its whole body; where
nothing stands, any reply that is no refusal. A case is built only where the laboratory in Python answers so. Behind each case all
is read that can be read of its laboratory. When all are played, each refusal that a reply can bear must have been seen, but for
`storage` and `memory`, which laboratories in memory don't give at will.
"""
import concurrent.futures
import copy
import functools
import itertools
import os
import random
import subprocess
import sys

sys.path.append(os.path.join(os.path.dirname(os.path.dirname(os.path.abspath(__file__))), "lib"))
import admitted  # noqa: E402
import cases_of_requests  # noqa: E402
import laboratory  # noqa: E402
from accounts import FROM_NOTHING, FROM_SETUP  # noqa: E402
from bodies import BODIES, members_of_the_body  # noqa: E402
from laboratory import sha, token_of  # noqa: E402
from report import Report  # noqa: E402
from streams import FOUNDERS, LEAD, NOTE, POSTED, STATUS, Stream, compact, lines, request_of, split  # noqa: E402

NEWCOMERS = [("dan", "Dan Day", ["analyst"]), ("eve", "Eve Ems", ["analyst", "reviewer"]), ("fay", "Fay Fox", ["reviewer"]),
             ("gus", "Gus Gray", ["manager"]), ("hal", "Hal Hill", ["inspector"])]
CARD = lines("GET /labs/aqua HTTP/1.1", "Host: d")
CASES = {}


# ---- with what a case begins


@functools.cache
def nothing():
    return Stream()


@functools.cache
def two_laboratories():
    """aqua and brick, founded by the same three."""
    s = Stream()
    s.found(0, "aqua", "Aqua Lab", FOUNDERS, words=1)
    s.found(0, "brick", "Brick Lab", FOUNDERS)
    return s


@functools.cache
def setup():
    """Beside them, in aqua: an analyst, one who reviews too, a reviewer, a manager and an inspector; a form; and a record with one
    row, which dan opened."""
    s = copy.deepcopy(two_laboratories())
    s.reader = "hal"
    s.open(10, "ann")
    s.open(10, "bob")
    for code, name, roles in NEWCOMERS:
        s.post(20, "ann", "/persons", code=code, name=name, roles=roles)
        first = s.post(20, "ann", "/issue", code=code)["half"]
        s.passwords["aqua", code] = first + s.post(20, "bob", "/confirm", code=code)["half"]
        s.open(20, code, wants={"due": True})
    for code, _, _ in NEWCOMERS:
        s.change(500, code, f"{code} password 1")
    s.post(600, "gus", "/forms", form="water", fields=[LEAD, NOTE])
    s.open(900, "dan")
    s.post(1000, "dan", "/records", form="water", sample="S1")
    s.post(1100, "dan", "/entries", record=1, key="lead", value="7.50", unit="mg/L")
    return s


@functools.cache
def all_are_in():
    """The same, where each of them has a session, but for cid."""
    s = copy.deepcopy(setup())
    for moment, who in enumerate(["ann", "bob", "eve", "fay", "gus", "hal"], 1150):
        s.open(moment, who)
    return s


@functools.cache
def founders():
    """aqua alone, where ann is also an analyst and a manager, and bob a reviewer, and both have come in; and a form."""
    s = Stream()
    s.reader = "ann"
    s.found(0, "aqua", "Aqua Lab", FOUNDERS)
    s.open(10, "ann")
    s.open(10, "bob")
    s.post(10, "bob", "/roles", code="ann", roles=["analyst", "manager", "administrator"])
    s.post(10, "ann", "/roles", code="bob", roles=["reviewer", "administrator"])
    s.post(10, "ann", "/forms", form="water", fields=[LEAD, NOTE])
    return s


@functools.cache
def as_before(start):
    """With what a case begins, as a file has it that was there before: what led to it isn't asked again, and each password has a verifier
    of the rounds of before."""
    s = copy.deepcopy(start())
    for lab in s.labs.values():
        for p in lab.persons:
            if p.password and p.password[0] == "chosen":
                salt = bytes.fromhex(p.password[1][0])
                p.password = ("chosen", laboratory.verifier(s.passwords[lab.code, p.code], salt, laboratory.OLD_ROUNDS), p.password[2])
    s.events, s.answers = [], []
    return s


def case(start):
    def note(play):
        CASES[play.__name__] = (start, play)
        return play
    return note


# ---- laboratories and sessions


@case(nothing)
def one_card_and_one_missing_laboratory(s):
    three = ('{"founders":[{"code":"ann","name":"Ann Ames","password":"correct horse 1"},{"code":"bob","name":"Bob Bell",'
             '"password":"correct horse 2"},{"code":"cid","name":"Cid Cole","password":"correct horse 3"}],"name":"%s"}')
    s.found(0, "aqua", "Aqua Lab", FOUNDERS, words=1)
    s.found(0, "brick", "Brick Lab", FOUNDERS, words=1)
    s.next_word = 1
    s.get(100, None, "")
    s.get(100, None, "", lab="zinc", wants=40)
    head = "Date: Thu, 01 Jan 1970 00:01:40 GMT\r\nContent-Type: application/json\r\nContent-Length: %d\r\nConnection: close\r\n\r\n"
    # This case by its bytes alone: what goes in, and what comes out.
    assert b"".join(s.events).decode() == (
        "found aqua 0 1 218\n" + three % "Aqua Lab" + "found brick 0 1 219\n" + three % "Brick Lab"
        + "call 100 9 36\nGET /labs/aqua HTTP/1.1\r\nHost: d\r\n\r\n" + "call 100 17 36\nGET /labs/zinc HTTP/1.1\r\nHost: d\r\n\r\n")
    assert b"".join(s.answers).decode() == (
        "founded aqua\nfounded brick\n" + "HTTP/1.1 200 OK\r\n" + head % 32 + '{"lab":"aqua","name":"Aqua Lab"}'
        + "HTTP/1.1 404 Not Found\r\n" + head % 35 + '{"error":"no_such_lab","number":40}')
    s.found(100, "aqua", "Another Lab", FOUNDERS, wants=64)


@case(two_laboratories)
def a_token_is_given_once_in_a_laboratory(s):
    told = '{"due":false,"session":1,"token":"0000000000000001000000000000000200000000000000030000000000000004"}'
    s.open(100, "ann", words=1, wants=told)
    s.open(100, "ann", words=1, wants=told, lab="brick")
    s.open(100, "ann", words=1, wants=21)
    assert b"HTTP/1.1 503 Service Unavailable\r\n" in s.answers[-1]


@case(two_laboratories)
def a_session_of_one_laboratory_is_none_of_another(s):
    s.open(100, "ann", words=11)
    s.tokens["brick", "ann of aqua"] = s.tokens["aqua", "ann"]
    s.get(100, "ann of aqua", "/persons", lab="brick", wants='{"error":"no_session","number":22}')
    assert b"HTTP/1.1 401 Unauthorized\r\n" in s.answers[-1] and b"\r\nWWW-Authenticate: LabSession\r\n\r\n" in s.answers[-1]
    # Its last moment is still that of its founding, and its trail has the founding alone.
    s.open(0, "bob", lab="brick")
    assert len(s.get(0, "bob", "/trail?from=1&to=100", lab="brick")["trail"]) == 2


@case(setup)
def each_laboratory_has_its_own_clock(s):
    s.get(1099, "dan", "/records/1", wants='{"error":"clock_behind","number":41}')
    s.get(1099, None, "", wants=41)
    s.open(1099, "bob", lab="brick")
    s.get(1100, "dan", "/records/1")


@case(setup)
def a_session_rests_for_nine_hundred_seconds(s):
    record_2_is_entered(s, 1250)
    s.sign(1300, "dan", 1, 1, "authorship", code="dan")
    s.sign(2200, "dan", 2, 1, "authorship")


@case(setup)
def and_not_for_a_second_more(s):
    record_2_is_entered(s, 1250)
    s.sign(1300, "dan", 1, 1, "authorship", code="dan")
    s.sign(2201, "dan", 2, 1, "authorship", wants=22)


@case(setup)
def a_session_ends_after_eight_hours(s):
    for moment in range(1100, 900 + 28800, 800):
        s.get(moment, "dan", "/records/1")
    s.get(900 + 28800, "dan", "/records/1")
    s.get(900 + 28801, "dan", "/records/1", wants=22)


@case(setup)
def a_closed_session_is_none(s):
    s.post(1200, "dan", "/close", wants={"session": 8})
    s.post(1200, "dan", "/close", wants=22)


# ---- persons and passwords


@case(setup)
def the_fifth_failed_password_locks_for_half_an_hour(s):
    for moment in (1200, 1201, 1202, 1203, 1300):
        s.open(moment, "dan", password="dan password 2", wants=20)
    s.get(1300, "dan", "/records/1", wants=22)
    s.open(1301, "dan", wants=20)
    s.open(3099, "dan", wants=20)
    s.open(3100, "dan", wants={"due": False})
    s.open(3100, "zed", password="dan password 1", wants=20)


@case(setup)
def five_more_lock_again(s):
    for moment in (1200, 1201, 1202, 1203, 1300, 3100, 3101, 3102, 3103, 3104):
        s.open(moment, "dan", password="dan password 2", wants=20)
    s.open(3105, "dan", wants=20)
    s.open(3105, "ann")
    s.post(3105, "ann", "/unlock", code="dan")
    s.open(3105, "dan")


@case(setup)
def a_password_is_due_after_ninety_days(s):
    s.open(86000, "hal")
    s.change(86399, "hal", "hal password 2")
    s.open(7862399, "hal", wants={"due": False})
    s.get(7862400, "hal", "/records?from=1&to=100", wants='{"error":"password_due","number":23}')
    s.post(7862400, "hal", "/password", old="hal password 2", new="hal password 2", wants=26)
    s.post(7862400, "hal", "/password", old="hal password 2", new="eleven here", wants=25)
    s.post(7862400, "hal", "/password", old="hal password 1", new="hal password 3", wants=20)
    s.change(7862400, "hal", "twelve here.")
    s.get(7862400, "hal", "/records?from=1&to=100")
    s.change(7862400, "hal", "é" * 64)
    s.post(7862400, "hal", "/password", old="é" * 64, new="é" * 64 + "1", wants=25)


@case(setup)
def a_password_of_the_next_day_is_due_a_day_later(s):
    s.open(86000, "hal")
    s.change(86400, "hal", "hal password 2")
    s.open(7862400, "hal", wants={"due": False})
    s.get(7862400, "hal", "/records?from=1&to=100")


@case(setup)
def a_one_time_password_takes_two_administrators(s):
    first, second = "00000000000000150000000000000016", "000000000000001f0000000000000020"
    s.open(1200, "ann")
    s.open(1200, "bob")
    s.post(1200, "ann", "/persons", code="ivy", name="Ivy Inn", roles=[])
    s.post(1200, "bob", "/confirm", code="ivy", wants=32)
    s.post(1200, "ann", "/issue", code="ivy", words=21, wants={"half": first})
    s.post(1201, "bob", "/issue", code="ivy", wants='{"error":"issue_open","number":30}')
    s.post(1202, "ann", "/confirm", code="ivy", wants='{"error":"same_person","number":31}')
    s.post(1203, "ann", "/confirm", code="ann", wants='{"error":"own_issue","number":29}')
    s.post(1204, "bob", "/confirm", code="ivy", words=31, wants={"half": second})
    s.open(1205, "ivy", password=first, wants=20)
    s.open(1206, "ivy", password=first + second, wants={"due": True})
    s.post(1207, "bob", "/confirm", code="ivy", wants='{"error":"no_issue","number":32}')
    s.open(1204 + 604800, "ivy", password=first + second, wants={"due": True})
    s.open(1205 + 604800, "ivy", password=first + second, wants=20)


@case(setup)
def a_laboratory_has_five_hundred_persons_and_each_code_once(s):
    s.open(1200, "ann")
    for number in range(492):
        s.post(1200, "ann", "/persons", code=f"p{number}", name=f"Person {number}", roles=["analyst"])
    s.post(1201, "ann", "/persons", code="last", name="The Last", roles=[], wants='{"error":"lab_full","number":28}')
    s.post(1202, "ann", "/persons", code="dan", name="Dan Day", roles=[], wants='{"error":"code_taken","number":27}')
    s.post(1203, "ann", "/retire", code="zed", wants='{"error":"no_such_person","number":33}')
    s.post(1204, "ann", "/retire", code="ann", wants=29)


@case(setup)
def who_is_retired_in_one_laboratory_stays_in_another(s):
    s.open(1200, "ann", lab="brick")
    s.open(1200, "bob", lab="brick")
    s.post(1200, "ann", "/persons", lab="brick", code="dan", name="Dan Day", roles=["analyst", "inspector"])
    first = s.post(1200, "ann", "/issue", lab="brick", code="dan")["half"]
    s.passwords["brick", "dan"] = first + s.post(1200, "bob", "/confirm", lab="brick", code="dan")["half"]
    s.open(1200, "dan", lab="brick")
    s.change(1200, "dan", "dan of brick", lab="brick")
    s.open(1200, "bob")
    s.post(1201, "bob", "/retire", code="dan")
    s.get(1202, "dan", "/records/1", wants=22)
    s.open(1202, "dan", wants=20)
    s.post(1202, "bob", "/persons", code="dan", name="Dan Day", roles=[], wants=27)
    s.post(1202, "bob", "/retire", code="dan", wants=33)
    s.get(1202, "dan", "/records?from=1&to=1", lab="brick")
    s.read_all("dan", "brick")


# ---- forms and values


@case(setup)
def which_texts_a_number_takes(s):
    def enter(value, wants=None, key="lead", unit="mg/L"):
        s.post(1200, "dan", "/entries", record=1, key=key, value=value, unit=unit, reason="again", wants=wants)
    for value in ("7.5", "7.50", "<0.05", "-0", "+7", "999999999999999", ">12", "<+0.5"):
        enter(value)
    for value in ("7.505", "7.", ".5", "<", "1234567890123456", "", " 7", "7 ", "7,5", "1e1", "<>7", "+-7", "--7", "٧"):
        enter(value, wants='{"error":"bad_value","number":8}')
    enter("-1", wants='{"error":"out_of_range","number":10}')
    enter("7.5", key="iron", wants='{"error":"no_such_field","number":7}')
    enter("7.5", unit="mg/l", wants='{"error":"wrong_unit","number":9}')
    enter("7.5", unit="", wants=9)
    # Of several faults the first is told.
    enter("x", key="iron", unit="mg/l", wants=7)
    enter("x", unit="mg/l", wants=8)
    enter("-1", unit="mg/l", wants=9)


@case(founders)
def which_texts_the_other_kinds_take(s):
    fields = [{"key": "colour", "label": "Colour", "required": False, "kind": "choice", "choices": ["none", "pale blue"]},
              {"key": "taken", "label": "Taken", "required": False, "kind": "date"},
              {"key": "clear", "label": "Clear", "required": False, "kind": "yesno"},
              {"key": "note", "label": "Note", "required": False, "kind": "text", "size": 4},
              {"key": "whole", "label": "Whole", "required": False, "kind": "number", "unit": "", "decimals": 0, "max": "10"},
              {"key": "span", "label": "Span", "required": False, "kind": "number", "unit": "", "decimals": 6, "min": "-1.5", "max": "+2.000001"}]
    s.post(10, "ann", "/forms", form="kinds", approval=True, fields=fields)
    s.post(10, "ann", "/records", form="kinds", sample="S1")
    for key, good, bad in (
        ("colour", ["none", "pale blue"], ["None", "pale", "", "pale blue "]),
        ("taken", ["1970-01-01", "0001-01-01", "9999-12-31", "1600-02-29", "2000-02-29", "2024-02-29", "2004-04-30"],
         ["1900-02-29", "2100-02-29", "2023-02-29", "2023-04-31", "2023-13-01", "2023-00-10", "2023-01-00", "0000-01-01", "2023-1-1",
          "2001-1-01", "20230101", "2001/01/01", "+001-01-01", "2001-01-01 ", "10000-01-01"]),
        ("clear", ["yes", "no"], ["Yes", "true", "", "yes "]),
        ("note", ["a\nb", "éa", "水a", "🜄", "    ", "\"\\,"], ["", "12345", "ééa", "水aa", "🜄a", "a\tb", "a\u007f", "a\r"]),
        ("whole", ["10", "-15", "<10", ">10"], ["1.0", "1."]),
        ("span", ["-1.5", "-1.500000", "2.000001", ">2.000001", "-0.000001"], ["0.0000001"]),
    ):
        for value in good:
            s.post(10, "ann", "/entries", record=1, key=key, value=value, unit="", reason="read so")
        for value in bad:
            s.post(10, "ann", "/entries", record=1, key=key, value=value, unit="", reason="read so", wants=8)
    s.post(10, "ann", "/entries", record=1, key="whole", value="11", unit="", reason="read so", wants=10)
    for value in ("-1.500001", "2.000002", "<-2", "999999999999999.999999"):
        s.post(10, "ann", "/entries", record=1, key="span", value=value, unit="", reason="read so", wants=10)
    s.post(10, "ann", "/entries", record=1, key="clear", value="yes", unit="%", reason="read so", wants=9)


@case(founders)
def what_makes_a_form_bad(s):
    def form(number, *fields):
        content = compact({"form": "soil", "fields": fields})
        s.refuse(10, request_of("aqua", "POST", "/forms", content, s.tokens["aqua", "ann"]), number)
    form(3)
    form(4, LEAD, LEAD)
    form(5, *[dict(NOTE, key=f"k{number}") for number in range(61)])
    form(6, dict(LEAD, decimals=7))
    for bounds in ({"min": "<1"}, {"max": ">1"}, {"min": "0.005"}, {"decimals": 0, "max": "1.5"}, {"max": "x"}, {"min": "1", "max": "0.99"}):
        form(6, NOTE, dict(LEAD, **bounds))
    for size in (0, 1001):
        form(6, LEAD, dict(NOTE, size=size))
    letters = "abcdefghijklmnopqrstu"
    choice = {"key": "one", "label": "One", "required": False, "kind": "choice"}
    for names in ("", letters, "abcb"):
        form(6, LEAD, dict(choice, choices=list(names)))
    # Of several the first in this order is told.
    form(4, *[dict(NOTE, key=f"k{number % 60}") for number in range(61)])
    form(5, *[dict(NOTE, key=f"k{number}", size=0) for number in range(61)])
    form(1, dict(LEAD, key="Lead"), dict(LEAD, key="Lead"))
    form(88, dict(LEAD, key="Lead"), dict(NOTE, size="200"))
    # Bounds, sizes and choices at their limits are none of these faults.
    for version, bounds in enumerate(({"decimals": 0}, {"decimals": 6, "min": "0.000001"}, {"min": "7.5", "max": "7.50"}, {"min": "-1", "max": "+1"}), 1):
        s.post(10, "ann", "/forms", form="soil", fields=[dict(LEAD, **bounds)], wants={"version": version})
    for version, (size, names) in enumerate(((1, "a"), (1000, letters[:20]), (200, "aA")), 5):
        fields = [dict(NOTE, size=size), dict(choice, choices=list(names))]
        s.post(10, "ann", "/forms", form="soil", fields=fields, wants={"version": version})
    s.post(10, "ann", "/forms", form="soil", fields=[dict(NOTE, key=f"k{number}") for number in range(60)])


@case(founders)
def a_form_has_ninety_nine_versions(s):
    for version in range(2, 100):
        s.post(10, "ann", "/forms", form="water", fields=[LEAD, NOTE], approval=version % 2 == 0, wants={"version": version})
    s.post(11, "ann", "/forms", form="water", fields=[LEAD, NOTE], wants=48)
    s.post(12, "ann", "/forms", form="water", fields=[LEAD, NOTE], approval=True, wants=28)
    s.post(13, "ann", "/forms", form="soil", fields=[LEAD], approval=True, wants={"version": 1})


@case(founders)
def what_is_drawn_around_each_bound_is_admitted_as_the_rules_say(s):
    """Texts, forms and values of tests/model/admitted.py, of which tests/pages_code gives more to the pages."""
    draw = random.Random(47)

    def ask(place, number, **members):
        s.refuse(10, request_of("aqua", "POST", place, compact(members), s.tokens["aqua", "ann"]), number)
    for rule, place, members in (("person", "/unlock", lambda text: {"code": text}), ("name", "/records", lambda text: {"form": "none", "sample": text}),
                                 ("key", "/records", lambda text: {"form": text, "sample": "S1"}),
                                 ("unit", "/entries", lambda text: {"record": 9, "key": "lead", "value": "7", "unit": text}),
                                 ("note", "/entries", lambda text: {"record": 9, "key": "lead", "value": "7", "unit": "", "reason": text})):
        for text in dict.fromkeys(admitted.drawn_text(draw, rule) for _ in range(150)):
            if admitted.admits(rule, text):
                s.post(10, "ann", place, wants=..., **members(text))
            else:
                ask(place, 1, **members(text))
    for number in range(300):
        fields, faults = admitted.drawn_form(draw)
        refused = admitted.number_of(faults)
        if refused is None:
            s.post(10, "ann", "/forms", form=f"f{number}", fields=fields, wants={"version": 1})
        else:
            ask("/forms", refused, form=f"f{number}", fields=fields)
    for number, kind in enumerate(("number", "number", "number", "text", "choice", "date", "yesno")):
        field = admitted.drawn_field(draw, kind)
        s.post(10, "ann", "/forms", form=f"v{number}", fields=[field], wants={"version": 1})
        record = s.post(10, "ann", "/records", form=f"v{number}", sample="S1")["record"]
        for value in dict.fromkeys(admitted.drawn_value(draw, field) for _ in range(190)):
            refused = admitted.flaw_of(field, value)
            s.post(10, "ann", "/entries", record=record, key=field["key"], value=value, unit=field.get("unit", ""), reason="drawn", wants=refused or ...)


# ---- records, entries, amendments and signatures


def record_2_is_entered(s, moment):
    s.post(moment, "dan", "/records", form="water", sample="S2", wants='{"record":2,"version":1}')
    s.post(moment, "dan", "/entries", record=2, key="lead", value="7.50", unit="mg/L", wants={"rows": 1})


def record_1_is_released(s):
    s.sign(1300, "dan", 1, 1, "authorship", code="dan", wants={"state": "signed"})
    s.open(1310, "eve")
    s.sign(1320, "eve", 1, 1, "review", code="eve", wants={"state": "released", "name": "Eve Ems", "moment": "1970-01-01T00:22:00Z"})


@case(setup)
def a_second_value_wants_a_reason_and_both_stay(s):
    second = {"record": 1, "key": "lead", "value": "7.5", "unit": "mg/L"}
    s.post(1200, "dan", "/entries", **second, wants='{"error":"reason_wanted","number":47}')
    s.post(1200, "dan", "/entries", **second, reason="misread scale", wants={"rows": 2, "version": 1})
    read = s.get(1200, "dan", "/records/1/versions/1", wants={"values": [{"key": "lead", "unit": "mg/L", "value": "7.5"}]})
    assert [(row["value"], row["reason"]) for row in read["rows"]] == [("7.50", ""), ("7.5", "misread scale")]


@case(setup)
def the_first_signing_takes_the_code_and_a_second_person_releases(s):
    s.sign(1300, "dan", 1, 1, "authorship", wants='{"error":"code_wanted","number":57}')
    record_1_is_released(s)
    record_2_is_entered(s, 1330)
    s.sign(1340, "dan", 2, 1, "authorship", wants={"state": "signed"})


@case(setup)
def a_signing_without_a_code_counts_no_failure(s):
    s.sign(1300, "dan", 1, 1, "authorship", password="dan password 2", wants=57)
    for _ in range(4):
        s.open(1300, "dan", password="dan password 2", wants=20)
    s.sign(1300, "dan", 1, 1, "authorship", code="dan")


@case(setup)
def another_code_counts_as_a_failed_password_of_the_signer(s):
    for _ in range(4):
        s.sign(1300, "dan", 1, 1, "authorship", code="eve", wants=20)
    s.sign(1300, "dan", 1, 1, "authorship", code="eve", password="eve password 1", wants=20)
    s.sign(1300, "dan", 1, 1, "authorship", code="dan", wants=22)
    s.open(1300, "eve")


@case(setup)
def the_password_of_another_session_takes_the_code_again(s):
    s.sign(1300, "dan", 1, 1, "authorship", code="dan")
    record_2_is_entered(s, 1310)
    s.change(1320, "dan", "dan password 2")
    s.sign(1330, "dan", 2, 1, "authorship", wants=57)
    s.sign(1330, "dan", 2, 1, "authorship", code="dan")


@case(setup)
def who_entered_a_row_signs_as_author_alone(s):
    s.open(1190, "eve")
    s.open(1190, "fay")
    s.sign(1200, "eve", 1, 1, "authorship", code="eve", wants='{"error":"not_author","number":55}')
    s.post(1210, "eve", "/entries", record=1, key="note", value="clear", unit="")
    s.sign(1220, "dan", 1, 1, "authorship", code="dan")
    s.sign(1230, "dan", 1, 1, "review", wants='{"error":"role_wanted","number":24,"rule":"P16"}')
    s.sign(1240, "eve", 1, 1, "review", code="eve", wants='{"error":"own_work","number":54}')
    s.sign(1250, "fay", 1, 1, "review", code="fay", wants={"state": "released"})


@case(setup)
def an_author_who_is_a_reviewer_too_does_not_review(s):
    s.open(1190, "eve")
    s.post(1200, "eve", "/entries", record=1, key="note", value="clear", unit="")
    s.sign(1210, "eve", 1, 1, "authorship", code="eve", wants={"state": "signed"})
    s.sign(1220, "eve", 1, 1, "review", wants=54)
    s.sign(1230, "eve", 1, 1, "rejection", reason="not so", wants=54)


@case(setup)
def what_is_released_is_amended_and_nothing_overwritten(s):
    record_1_is_released(s)
    same, other = ({"key": "lead", "value": value, "unit": "mg/L"} for value in ("7.50", "7.5"))
    s.post(1400, "dan", "/amendments", record=1, reason="one decimal is meant", altered=[], wants=48)
    s.post(1401, "dan", "/amendments", record=1, reason="one decimal is meant", altered=[same],
           wants='{"error":"not_altered","key":"lead","number":49}')
    s.post(1402, "dan", "/amendments", record=1, altered=[other], wants=47)
    s.post(1403, "dan", "/amendments", record=1, reason="one decimal is meant", altered=[other], wants={"version": 2})
    assert len(s.get(1404, "dan", "/records/1/versions/1")["signatures"]) == 2
    s.get(1405, "dan", "/records/1/versions/2", wants={"signatures": [], "state": "open", "altered": ["lead"]})
    s.post(1406, "dan", "/amendments", record=1, reason="once more", altered=[same], wants='{"error":"amendment_open","number":50}')
    # What is signed is what was read: the digest names it. A version is signed once by its author.
    stale, present = s.digest(1, 1), s.digest(1, 2)
    s.sign(1410, "dan", 1, 2, "authorship", digest=stale, wants='{"digest":"%s","error":"stale_digest","number":52}' % present)
    s.sign(1410, "dan", 1, 2, "authorship", wants={"state": "signed", "digest": present})
    s.sign(1410, "dan", 1, 2, "authorship", wants='{"error":"already_signed","number":53}')
    # Who reviewed the version before may review this one.
    s.sign(1420, "eve", 1, 2, "review", wants={"state": "released"})
    s.get(1450, "dan", "/records/1", wants={"current": 2})


@case(setup)
def what_is_open_is_not_amended(s):
    other = {"key": "lead", "value": "7.5", "unit": "mg/L"}
    s.post(1200, "dan", "/amendments", record=1, reason="one decimal is meant", altered=[other], wants=50)


@case(setup)
def a_later_version_alters_something(s):
    record_1_is_released(s)
    other, same = ({"key": "lead", "value": value, "unit": "mg/L"} for value in ("7.5", "7.50"))
    s.post(1400, "dan", "/amendments", record=1, reason="one decimal is meant", altered=[other])
    s.post(1400, "dan", "/entries", record=1, **same, wants=47)
    s.post(1400, "dan", "/entries", record=1, **same, reason="it was right", wants={"rows": 2, "version": 2})
    s.get(1400, "dan", "/records/1/versions/2", wants={"altered": []})
    s.sign(1400, "dan", 1, 2, "authorship", wants='{"error":"nothing_altered","number":48}')


@case(setup)
def one_form_and_sample_make_one_record(s):
    told = '{"error":"record_exists","number":43,"record":1}'
    s.post(1200, "dan", "/records", form="water", sample="S1", wants=told)
    s.open(1200, "gus")
    s.post(1200, "gus", "/forms", form="water", fields=[NOTE], wants={"version": 2})
    s.post(1200, "dan", "/records", form="water", sample="S1", wants=told)
    s.post(1200, "dan", "/records", form="water", sample="s1", wants={"record": 2})
    s.get(1200, "dan", "/records/2", wants={"form_version": 2})


@case(setup)
def what_is_not_there(s):
    s.post(1200, "dan", "/records", form="soil", sample="S1", wants='{"error":"no_such_form","number":42}')
    s.get(1200, "dan", "/forms/water/2", wants=42)
    s.post(1200, "dan", "/entries", record=9, key="lead", value="7.5", unit="mg/L", wants='{"error":"no_such_record","number":44}')
    s.get(1200, "dan", "/records/9", wants=44)
    s.get(1200, "dan", "/records/1/versions/2", wants='{"error":"no_such_version","number":45}')
    s.sign(1200, "dan", 1, 2, "authorship", digest=s.digest(1, 1), code="dan", wants=45)
    s.open(1200, "fay")
    s.sign(1200, "fay", 1, 1, "review", code="fay", wants='{"error":"not_signed","number":56}')
    s.post(1200, "dan", "/records", form="water", sample="S2")
    s.post(1200, "dan", "/entries", record=2, key="note", value="clear", unit="")
    s.sign(1200, "dan", 2, 1, "authorship", code="dan", wants='{"error":"entries_missing","number":51}')
    s.sign(1200, "dan", 1, 1, "authorship", code="dan")
    s.sign(1200, "fay", 1, 1, "rejection", code="fay", wants=47)
    s.post(1200, "dan", "/entries", record=1, key="note", value="clear", unit="", wants='{"error":"not_open","number":46}')
    s.get(1200, "dan", "/records?from=3&to=102", wants='{"records":[]}')
    s.get(1200, "fay", "/records?from=1000000000&to=1000000000", wants='{"records":[]}')


@case(two_laboratories)
def a_moment_past_the_last_is_none(s):
    s.events.append(b"call 253402300800 1 36\n" + CARD)
    s.status, s.told = 1, b"labdesk: bad_event\n"


@case(two_laboratories)
def the_last_moment_of_all(s):
    s.get(253402300799, None, "")
    assert b"\r\nDate: Fri, 31 Dec 9999 23:59:59 GMT\r\n" in s.answers[-1]


@case(setup)
def a_form_that_wants_an_approval_is_released_by_three(s):
    s.open(1190, "gus")
    s.open(1190, "eve")
    s.post(1200, "gus", "/forms", form="water", fields=[LEAD, NOTE], approval=True, wants='{"form":"water","version":2}')
    s.post(1200, "gus", "/forms", form="water", fields=[LEAD, NOTE], approval=True, wants=48)
    record_2_is_entered(s, 1200)
    s.sign(1204, "dan", 2, 1, "authorship", code="dan", wants={"state": "signed"})
    s.sign(1205, "gus", 2, 1, "approval", code="gus", wants=56)
    s.sign(1206, "eve", 2, 1, "review", code="eve", wants={"state": "reviewed"})
    s.post(1207, "dan", "/amendments", record=2, reason="one decimal", altered=[{"key": "lead", "value": "7.5", "unit": "mg/L"}], wants=50)
    s.post(1208, "dan", "/entries", record=2, key="note", value="clear", unit="", wants=46)
    s.sign(1209, "eve", 2, 1, "approval", wants='{"error":"role_wanted","number":24,"rule":"P23"}')
    s.open(1210, "ann")
    s.post(1211, "ann", "/roles", code="eve", roles=["manager", "analyst", "reviewer"],
           wants='{"code":"eve","roles":["analyst","reviewer","manager"]}')
    s.sign(1212, "eve", 2, 1, "approval", wants=54)
    s.sign(1213, "gus", 2, 1, "rejection", code="gus", wants=47)
    s.sign(1214, "gus", 2, 1, "approval", code="gus", wants={"state": "released"})
    s.sign(1215, "gus", 2, 1, "approval", wants=53)
    # Record 1 is of the form's first version, which wants none.
    s.sign(1220, "dan", 1, 1, "authorship")
    s.sign(1221, "gus", 1, 1, "approval", wants='{"error":"approval_not_wanted","number":58}')
    s.sign(1221, "gus", 1, 1, "rejection", reason="not our scale", wants={"state": "rejected"})


@case(setup)
def a_reviewed_version_is_rejected_by_a_third(s):
    s.open(1190, "gus")
    s.open(1190, "fay")
    s.post(1200, "gus", "/forms", form="water", fields=[LEAD, NOTE], approval=True)
    record_2_is_entered(s, 1200)
    s.sign(1210, "dan", 2, 1, "authorship", code="dan")
    s.sign(1210, "fay", 2, 1, "review", code="fay")
    s.sign(1210, "fay", 2, 1, "review", wants=53)
    s.sign(1210, "fay", 2, 1, "rejection", reason="on second thoughts", wants=54)
    s.sign(1210, "gus", 2, 1, "rejection", code="gus", reason="not our \"scale\"\n\\ at all é", wants={"state": "rejected"})
    s.post(1220, "dan", "/amendments", record=2, reason="our scale", altered=[{"key": "lead", "value": "7.51", "unit": "mg/L"}],
           wants={"version": 2})


@case(setup)
def a_version_has_the_text_of_which_its_digest_is_made(s):
    text = ("11:labrecord 2\n4:aqua\n1:1\n1:1\n5:water\n1:1\n2:no\n2:S1\n1:-\n0:\n3:dan\n20:1970-01-01T00:16:40Z\n1:1\n"
            "4:lead\n4:7.50\n4:mg/L\n3:dan\n20:1970-01-01T00:18:20Z\n0:\n")
    assert len(text) == 147
    digest = sha(text.encode())
    s.get(1200, "dan", "/records/1/versions/1", wants={"digest": digest, "format": 2, "approval": False})
    s.sign(1300, "dan", 1, 1, "authorship", digest=digest, code="dan", wants={
        "seal": sha(f"64:{digest}\n4:aqua\n3:dan\n7:Dan Day\n10:authorship\n20:1970-01-01T00:21:40Z\n0:\n".encode())})


# ---- a record's limits


@case(setup)
def a_version_has_two_hundred_rows(s):
    again = {"record": 1, "key": "lead", "unit": "mg/L"}
    for number in range(199):
        s.post(1200, "dan", "/entries", **again, value=f"{number % 7}.5", reason=f"reading {number}", wants={"rows": number + 2})
    s.post(1201, "dan", "/entries", **again, value="1", wants=47)
    s.post(1202, "dan", "/entries", **again, value="1", reason="one more", wants='{"error":"lab_full","number":28}')
    s.sign(1203, "dan", 1, 1, "authorship", code="dan", wants={"state": "signed"})


@case(setup)
def a_record_has_ninety_nine_versions(s):
    s.open(1190, "eve")
    for version in range(1, 100):
        if version > 1:
            altered = [{"key": "lead", "value": f"{version}.5", "unit": "mg/L"}]
            s.post(1200 + version, "dan", "/amendments", record=1, reason=f"reading {version}", altered=altered, wants={"version": version})
        s.sign(1200 + version, "dan", 1, version, "authorship", code="dan", wants={"state": "signed"})
        s.sign(1200 + version, "eve", 1, version, "review", code="eve", wants={"state": "released"})
    same, other = ({"key": "lead", "value": value, "unit": "mg/L"} for value in ("99.5", "7.5"))
    s.post(1400, "dan", "/amendments", record=1, reason="once more", altered=[same], wants='{"error":"not_altered","key":"lead","number":49}')
    s.post(1401, "dan", "/amendments", record=1, reason="once more", altered=[other], wants='{"error":"lab_full","number":28}')
    s.get(1402, "dan", "/records/1", wants={"current": 99})


# ---- the rules of each command, in the order in which they are looked at (docs/COMMANDS.md)


def any_of(s, moment, who, place, members, wants):
    """What is posted has members, and what is read has none."""
    if members is None:
        return s.get(moment, who, place, wants)
    return s.post(moment, who, place, wants, **members)


def every_command(s):
    """Each command in a session with what it may be asked of the laboratory: a place, the members of the body, and who may not ask
    it by which rule."""
    def sign(meaning):
        return {"record": 1, "version": 1, "digest": s.digest(1, 1), "meaning": meaning, "password": "dan password 1", "code": "dan"}
    dan, lead = {"code": "dan"}, {"key": "lead", "value": "7.5", "unit": "mg/L"}
    return [
        ("/close", {}, None, None), ("/password", {"old": "dan password 1", "new": "dan password 2"}, None, None),
        ("/persons", {"code": "ivy", "name": "Ivy Inn", "roles": ["analyst"]}, "gus", "P3"), ("/persons", None, "eve", "P4"),
        ("/issue", dan, "gus", "P5"), ("/confirm", dan, "gus", "P6"), ("/roles", {**dan, "roles": ["manager"]}, "gus", "P7"),
        ("/retire", dan, "gus", "P8"), ("/unlock", dan, "gus", "P9"),
        ("/forms", {"form": "water", "approval": True, "fields": [LEAD, NOTE]}, "ann", "P10"), ("/forms/water/1", None, "ann", "P11"),
        ("/records", {"form": "water", "sample": "S2"}, "fay", "P12"),
        ("/entries", {"record": 1, "key": "note", "value": "clear", "unit": ""}, "fay", "P13"),
        ("/amendments", {"record": 1, "reason": "misread", "altered": [lead]}, "fay", "P14"),
        ("/signatures", sign("authorship"), "fay", "P15"), ("/signatures", sign("review"), "dan", "P16"),
        ("/signatures", sign("rejection"), "dan", "P17"), ("/signatures", sign("approval"), "eve", "P23"),
        ("/records/1", None, "ann", "P18"), ("/records/1/versions/1", None, "ann", "P19"), ("/records?from=1&to=100", None, "ann", "P20"),
        ("/trail?from=1&to=100", None, "eve", "P21"), ("/copy?from=1&to=100", None, "dan", "P22"),
    ]


@case(all_are_in)
def the_clock_the_session_the_password_and_the_role_come_first(s):
    """In this order, of every command: whatever else would refuse it."""
    every_role = ["analyst", "reviewer", "manager", "administrator", "inspector"]
    s.post(1160, "ann", "/persons", code="ivy", name="Ivy Inn", roles=every_role)
    first = s.post(1161, "ann", "/issue", code="ivy")["half"]
    s.passwords["aqua", "ivy"] = first + s.post(1162, "bob", "/confirm", code="ivy")["half"]
    s.open(1163, "ivy", wants={"due": True})
    # A token that was never given.
    s.tokens["aqua", "stranger"] = 77
    s.get(1162, None, "", wants='{"error":"clock_behind","number":41}')
    s.open(1162, "dan", wants=41)
    moment = 1200
    for place, members, other, rule in every_command(s):
        any_of(s, 1162, "dan", place, members, wants=41)
        any_of(s, moment, None, place, members, wants=22)
        any_of(s, moment, "stranger", place, members, wants=22)
        if place not in ("/close", "/password"):
            any_of(s, moment + 1, "ivy", place, members, wants='{"error":"password_due","number":23}')
        if other is not None:
            any_of(s, moment + 2, other, place, members, wants={"number": 24, "rule": rule})
        moment += 3


@case(all_are_in)
def entries_of_each_kind_and_what_refuses_them(s):
    fields = [{"key": "amount", "label": "Amount", "required": True, "kind": "number", "unit": "%", "decimals": 0, "min": "-5", "max": "10"},
              {"key": "colour", "label": "Colour", "required": False, "kind": "choice", "choices": ["red", "blue green"]},
              {"key": "taken", "label": "Taken", "required": False, "kind": "date"},
              {"key": "clear", "label": "Clear", "required": False, "kind": "yesno"},
              {"key": "note", "label": "Note", "required": False, "kind": "text", "size": 5}]
    s.post(1200, "gus", "/forms", form="water", fields=[LEAD, NOTE], wants=48)
    s.get(1201, "gus", "/forms/soil/1", wants=42)
    s.get(1202, "gus", "/forms/water/2", wants=42)
    s.get(1203, "gus", "/forms/water/1", wants={"form": "water", "version": 1})
    s.post(1204, "gus", "/forms", form="soil", approval=True, fields=fields, wants={"version": 1})
    s.get(1205, "gus", "/forms/soil/1", wants={"form": "soil", "version": 1})
    s.post(1206, "dan", "/records", form="air", sample="S1", wants=42)
    s.post(1207, "dan", "/records", form="water", sample="S1", wants=43)
    s.post(1208, "dan", "/records", form="soil", sample="S1", wants={"record": 2})

    def enter(moment, key, value, unit, wants=None, record=2, reason=None):
        return s.post(moment, "dan", "/entries", record=record, key=key, value=value, unit=unit, reason=reason, wants=wants)
    enter(1209, "lead", "7.5", "mg/L", 44, record=3, reason="misread")
    enter(1210, "lead", "7.5", "mg/L", 7)
    for key, bad in (("amount", "1.5"), ("colour", "green"), ("taken", "1970-1-1"), ("taken", "2023-02-29"), ("clear", "maybe"),
                     ("note", "123456"), ("note", "")):
        enter(1211, key, bad, "", 8)
    enter(1212, "amount", "10", "", 9)
    enter(1213, "clear", "yes", "%", 9)
    enter(1214, "amount", "11", "%", 10)
    enter(1215, "amount", "-6", "%", 10)
    good = [("amount", "<-5", "%"), ("colour", "blue green", ""), ("taken", "2000-02-29", ""), ("clear", "no", ""), ("note", "a, b", "")]
    for rows, (key, value, unit) in enumerate(good, 1):
        enter(1216, key, value, unit, {"rows": rows})
    enter(1217, "clear", "no", "", 47)
    enter(1218, "clear", "no", "", {"rows": 6}, reason="once more")
    s.get(1219, "dan", "/records/2/versions/1", wants={"altered": ["amount", "colour", "taken", "clear", "note"], "state": "open"})
    s.get(1220, "dan", "/records/3", wants=44)
    s.get(1221, "dan", "/records/3/versions/1", wants=44)
    s.get(1222, "dan", "/records/2/versions/2", wants=45)
    assert len(s.get(1223, "dan", "/records?from=2&to=2")["records"]) == 1


@case(all_are_in)
def signatures_of_an_open_version_and_of_a_signed_one(s):
    digest = s.digest(1, 1)
    s.sign(1200, "dan", 1, 1, "authorship", wants=57)
    s.sign(1201, "dan", 1, 1, "authorship", password="dan password 2", code="dan", wants=20)
    s.sign(1202, "dan", 1, 1, "authorship", code="eve", wants=20)
    s.sign(1203, "dan", 2, 1, "authorship", digest=digest, code="dan", wants=44)
    s.sign(1204, "dan", 1, 2, "authorship", digest=digest, code="dan", wants=45)
    s.sign(1205, "gus", 1, 1, "approval", code="gus", wants=58)
    s.sign(1206, "fay", 1, 1, "review", code="fay", wants=56)
    s.sign(1207, "fay", 1, 1, "rejection", code="fay", wants=56)
    s.sign(1208, "dan", 1, 1, "authorship", code="dan", digest="0" * 64, wants='{"digest":"%s","error":"stale_digest","number":52}' % digest)
    s.sign(1209, "eve", 1, 1, "authorship", code="eve", wants=55)
    s.post(1210, "dan", "/records", form="water", sample="S2", wants={"record": 2})
    s.post(1211, "dan", "/entries", record=2, key="note", value="clear", unit="", wants={"rows": 1})
    s.sign(1212, "dan", 2, 1, "authorship", code="dan", wants=51)
    s.post(1213, "eve", "/entries", record=1, key="note", value="clear", unit="", wants={"rows": 2})
    s.sign(1214, "dan", 1, 1, "authorship", code="dan", wants={"state": "signed"})
    s.sign(1215, "dan", 1, 1, "authorship", wants=53)
    s.post(1216, "dan", "/entries", record=1, key="note", value="cloudy", unit="", reason="misread", wants=46)
    other = [{"key": "lead", "value": "7.5", "unit": "mg/L"}]
    s.post(1217, "dan", "/amendments", record=9, reason="misread", altered=other, wants=44)
    s.post(1218, "dan", "/amendments", record=1, reason="misread", altered=other, wants=50)
    s.sign(1219, "eve", 1, 1, "review", code="eve", wants=54)
    s.sign(1220, "eve", 1, 1, "rejection", code="eve", wants=54)
    s.sign(1221, "fay", 1, 1, "review", code="fay", digest="f" * 64, wants=52)
    s.sign(1222, "fay", 1, 1, "rejection", code="fay", wants=47)
    s.sign(1223, "fay", 1, 1, "rejection", code="fay", reason="the scale was off", wants={"state": "rejected"})


@case(all_are_in)
def what_is_rejected_is_amended(s):
    """Each refusal of an amendment, then a version of two values of which no value stands again."""
    s.sign(1210, "dan", 1, 1, "authorship", code="dan")
    s.sign(1220, "fay", 1, 1, "rejection", code="fay", reason="the scale was off", wants={"state": "rejected"})
    for meaning in ("review", "rejection"):
        s.sign(1224, "fay", 1, 1, meaning, wants=53)
    s.sign(1224, "dan", 1, 1, "authorship", wants=53)

    def amend(moment, reason, *altered, wants):
        members = [dict(zip(("key", "value", "unit"), one)) for one in altered]
        s.post(moment, "dan", "/amendments", record=1, reason=reason, altered=members, wants=wants)
    amend(1225, None, ("lead", "7.5", "mg/L"), wants=47)
    amend(1226, "misread", wants=48)
    amend(1227, "misread", ("iron", "7.5", "mg/L"), wants=7)
    amend(1228, "misread", ("lead", "7.505", "mg/L"), wants=8)
    amend(1229, "misread", ("lead", "7.5", "g/L"), wants=9)
    amend(1230, "misread", ("lead", "-7.5", "mg/L"), wants=10)
    amend(1231, "misread", ("lead", "7.50", "mg/L"), ("iron", "1", ""), wants='{"error":"not_altered","key":"lead","number":49}')
    amend(1231, "misread", ("note", "cloudy", ""), ("iron", "1", ""), wants=7)
    amend(1232, "misread", ("lead", "7.5", "mg/L"), ("note", "cloudy", ""), wants={"version": 2})
    s.sign(1233, "fay", 1, 1, "review", wants=53)
    s.post(1234, "dan", "/entries", record=1, key="lead", value="7.50", unit="mg/L", wants=47)
    s.post(1235, "dan", "/entries", record=1, key="lead", value="7.50", unit="mg/L", reason="it was right", wants={"rows": 3, "version": 2})
    s.get(1236, "dan", "/records/1/versions/2", wants={"altered": ["note"], "signatures": [], "state": "open"})
    s.get(1237, "dan", "/records/1", wants={"current": 2})
    s.sign(1238, "dan", 1, 2, "authorship", wants={"state": "signed"})


@case(all_are_in)
def a_version_whose_values_are_the_old_ones_again_alters_nothing(s):
    s.post(1200, "eve", "/entries", record=1, key="note", value="clear", unit="")
    s.sign(1210, "dan", 1, 1, "authorship", code="dan")
    s.sign(1220, "fay", 1, 1, "review", code="fay", wants={"state": "released"})
    altered = [{"key": "lead", "value": "7.5", "unit": "mg/L"}, {"key": "note", "value": "cloudy", "unit": ""}]
    s.post(1231, "dan", "/amendments", record=1, reason="misread", wants={"key": "note", "number": 49},
           altered=[{"key": "note", "value": "clear", "unit": ""}, {"key": "iron", "value": "1", "unit": ""}])
    s.post(1232, "dan", "/amendments", record=1, reason="misread", altered=altered, wants={"version": 2})
    s.post(1233, "dan", "/entries", record=1, key="lead", value="7.50", unit="mg/L", reason="it was right", wants={"rows": 3})
    s.post(1234, "dan", "/entries", record=1, key="note", value="clear", unit="", reason="it was right", wants={"rows": 4})
    s.sign(1235, "dan", 1, 2, "authorship", wants='{"error":"nothing_altered","number":48}')
    s.get(1236, "dan", "/records/1/versions/2", wants={"altered": [], "state": "open"})
    s.get(1237, "dan", "/records/1", wants={"current": 2})


@case(all_are_in)
def signatures_of_a_version_that_wants_an_approval(s):
    s.post(1200, "gus", "/forms", form="water", fields=[LEAD, NOTE], approval=True, wants={"version": 2})
    record_2_is_entered(s, 1201)
    s.sign(1203, "gus", 2, 1, "approval", code="gus", wants=56)
    s.sign(1204, "dan", 2, 1, "authorship", code="dan", wants={"state": "signed"})
    s.sign(1205, "gus", 2, 1, "approval", code="gus", wants=56)
    s.sign(1206, "fay", 2, 1, "review", code="fay", wants={"state": "reviewed"})
    s.post(1207, "dan", "/entries", record=2, key="note", value="clear", unit="", wants=46)
    other = {"key": "lead", "value": "7.51", "unit": "mg/L"}
    s.post(1208, "dan", "/amendments", record=2, reason="misread", altered=[other], wants=50)
    s.sign(1209, "eve", 2, 1, "review", code="eve", wants=53)
    s.sign(1210, "dan", 2, 1, "authorship", wants=53)
    s.sign(1211, "fay", 2, 1, "rejection", wants=54)
    s.sign(1212, "gus", 2, 1, "approval", code="gus", digest="f" * 64, wants=52)
    s.sign(1213, "gus", 2, 1, "rejection", code="gus", reason="not our scale", wants={"state": "rejected"})
    s.post(1214, "dan", "/amendments", record=2, reason="another scale", altered=[other], wants={"version": 2})
    s.sign(1215, "dan", 2, 2, "authorship", wants={"state": "signed"})
    s.sign(1216, "eve", 2, 2, "review", code="eve", wants={"state": "reviewed"})
    s.sign(1217, "gus", 2, 2, "approval", wants={"state": "released"})
    for who, meaning in (("dan", "authorship"), ("eve", "review"), ("gus", "rejection"), ("gus", "approval")):
        s.sign(1218, who, 2, 2, meaning, wants=53)


@case(all_are_in)
def of_several_refusals_of_a_signature_the_first_is_told(s):
    """The code, the password, the record, the version, whether an approval is wanted, the state, the digest, whose work it is, what
    is missing or altered, and the reason."""
    for who, meaning in (("dan", "authorship"), ("fay", "review"), ("fay", "rejection"), ("gus", "approval")):
        none, wrong = "0" * 64, f"{who} password 2"
        s.sign(1200, who, 9, 9, meaning, digest=none, password=wrong, wants=57)
        s.sign(1200, who, 9, 9, meaning, digest=none, password=wrong, code=who, wants=20)
        s.sign(1200, who, 9, 9, meaning, digest=none, code="ann", wants=20)
        s.sign(1200, who, 9, 9, meaning, digest=none, code=who, wants=44)
        s.sign(1200, who, 1, 9, meaning, digest=none, code=who, wants=45)
        s.sign(1200, who, 1, 1, meaning, digest=none, code=who, wants={"authorship": 52, "approval": 58}.get(meaning, 56))
    s.post(1201, "dan", "/records", form="water", sample="S2")
    s.post(1202, "dan", "/entries", record=2, key="note", value="clear", unit="")
    s.sign(1203, "eve", 2, 1, "authorship", code="eve", digest="0" * 64, wants=52)
    s.sign(1204, "eve", 2, 1, "authorship", code="eve", wants=55)
    s.post(1205, "eve", "/entries", record=1, key="note", value="clear", unit="")

    def enter(moment, key, value, unit, wants):
        s.post(moment, "dan", "/entries", record=1, key=key, value=value, unit=unit, wants=wants)
    enter(1206, "iron", "", "g/L", 7)
    enter(1207, "lead", "-7.505", "g/L", 8)
    enter(1208, "lead", "-7.5", "g/L", 9)
    enter(1209, "lead", "-7.5", "mg/L", 10)
    s.post(1210, "dan", "/amendments", record=1, altered=[], wants=50)
    s.sign(1211, "dan", 1, 1, "authorship", code="dan")
    enter(1212, "iron", "", "g/L", 46)
    s.sign(1213, "dan", 1, 1, "authorship", digest="0" * 64, wants=53)
    s.sign(1214, "eve", 1, 1, "rejection", code="eve", digest="0" * 64, wants=52)
    s.sign(1215, "eve", 1, 1, "rejection", code="eve", wants=54)
    s.sign(1216, "fay", 1, 1, "rejection", code="fay", wants=47)
    # It clears the failed passwords of fay, of which there are four.
    s.sign(1217, "fay", 1, 1, "rejection", code="fay", reason="not our scale", wants={"state": "rejected"})
    s.post(1218, "dan", "/amendments", record=1, altered=[], wants=47)
    s.post(1219, "dan", "/amendments", record=1, reason="misread", altered=[], wants=48)



# ---- requests


@case(two_laboratories)
def heads_that_are_read(s):
    fields = [f"A{number}: x" for number in range(63)]
    for request in (
        CARD,
        b"\r\n\r\n\r\n" + CARD,
        b"\r\r\n\n\r" + CARD,
        CARD.replace(b"\r\n", b"\n"),
        CARD + b"and what stands behind it",
        lines("GET /labs/aqua HTTP/1.0"),
        lines("GET /labs/aqua HTTP/1.0", "Host: d", "Host: d"),
        lines("GET /labs/aqua HTTP/1.1", "hOST:\t d \t"),
        lines("GET /labs/aqua HTTP/1.1", "Host:"),
        lines("GET /labs/aqua HTTP/1.1", "Host: d", *fields),
        lines("GET /labs/aqua HTTP/1.1", "Host: d", "A: " + "x" * (8192 - len(CARD) - 5)),
        b"\n" * (8192 - len(CARD)) + CARD,
        lines("GET /labs/aqua?from=0 HTTP/1.1", "Host: d"),
        lines("GET /labs/aqua HTTP/1.1", "Host: d", "Content-Length: 0005", rest=b"{{{{{"),
        lines("GET /labs/aqua HTTP/1.1", "Host: d", "Expect: 100-continue", "Content-Length: 1", rest=b"x"),
        lines("GET /labs/aqua HTTP/1.1", "Host: d", "Authorization: Basic x"),
    ):
        s.get(100, None, "", request=request)


@case(two_laboratories)
def heads_that_are_refused(s):
    fields = [f"A{number}: x" for number in range(64)]
    card = ["GET /labs/aqua HTTP/1.1", "Host: d"]
    for number, request in (
        # Its end doesn't come within 8,192 bytes, or it has more than 64 field lines.
        (81, lines(*card, "A: " + "x" * (8192 - len(CARD) - 4))),
        (81, b"\n" * (8193 - len(CARD)) + CARD),
        (81, b"x" * 8192),
        (81, lines(*card, *fields)),
        (81, "\r\n".join([*card, *fields, ""]).encode()),
        (80, "\r\n".join([*card, *fields]).encode()),
        # Cut short, or outside of the grammar.
        (80, b""), (80, b"\r\n\r\n"), (80, b"x" * 8191),
        (80, b"GET /labs/aqua HTTP/1.1\r\nHost: d"),
        (80, CARD[:-1]), (80, CARD[:-2]),
        (80, lines("GET /labs/aqua HTTP/1.2", "Host: d")), (80, lines("GET /labs/aqua HTTP/2", "Host: d")),
        (80, lines("GET  /labs/aqua HTTP/1.1", "Host: d")), (80, lines("GET /labs/aqua", "Host: d")),
        (80, lines(*card, "A : x")), (80, lines(*card, " A: x")), (80, lines(*card, "A: x\0")), (80, lines(*card, "A")),
        # Host, and what may stand once.
        (80, lines("GET /labs/aqua HTTP/1.1")), (80, lines(*card, "host: d")),
        (80, lines(*card, "Authorization: x", "authorization: x")), (80, lines(*card, "Content-Length: 0", "Content-Length: 0")),
        # The length, and the body. A coding comes before a length that is none.
        (82, lines(*card, "Transfer-Encoding: chunked")), (82, lines(*card, "transfer-encoding:", "Content-Length: x")),
        (80, lines(*card, "Content-Length: +5", rest=b"12345")), (80, lines(*card, "Content-Length:")),
        (80, lines(*card, "Content-Length: 5 5")), (80, lines("POST /labs/aqua HTTP/1.1", "Host: d", "Content-Length: x")),
        (83, lines("POST /labs/aqua/open HTTP/1.1", "Host: d")), (83, lines("POST /nowhere HTTP/1.1", "Host: d")),
        (84, lines(*card, "Content-Length: 65537")), (84, lines(*card, "Content-Length: " + "9" * 99)),
        (85, lines("POST /labs/aqua/open HTTP/1.1", "Host: d", "Content-Length: 10", rest=b"{    ")),
        (85, lines(*card, "Content-Length: 1")),
    ):
        s.refuse(100, request, number)


@case(two_laboratories)
def bodies_as_they_may_be_spelled(s):
    text = '{"code":"ann","password":"correct horse 1"}'
    for spelled in (
        text,
        text.ljust(65536),
        ' {\t"code" :\n"ann" ,\r"password": "correct horse 1" } ',
        '{"password":"correct horse 1","code":"ann"}',
        r'{"\u0063ode":"a\u006e\u006E","password":"correct\u0020horse 1"}',
        '{"code":{"a":[1,2.5e3,null]},"password":"","password":"correct horse 1","code":"ann"}',
        '{"code":' + "[" * 126 + "]" * 126 + ',"code":"ann","password":"correct horse 1"}',
    ):
        s.post_text(100, None, "/open", spelled, wants={"due": False})
    # What follows is none of it, or nested too deep, or no text at all.
    for bad in (
        b"", b"{", b"[]", b"null", b"7", b'"x"', text.encode() + b"x", text.encode() + b",", b"\xef\xbb\xbf" + text.encode(),
        text.encode().replace(b"ann", b"a\xff"), text.encode().replace(b"ann", b"a\nn"), text.replace("ann", r"\ud800").encode(),
        text.replace('"ann"', "'ann'").encode(), text.replace("}", ",}").encode(), text.replace(":", "=").encode(),
        b"[" * 200 + b"]" * 200, ('{"code":' + "[" * 127 + "]" * 127 + "," + text[1:]).encode(), ('{"code":1e999,' + text[1:]).encode(),
    ):
        s.refuse(100, lines("POST /labs/aqua/open HTTP/1.1", "Host: d", f"Content-Length: {len(bad)}", rest=bad), 88)


@case(founders)
def tokens_as_they_may_be_spelled(s):
    token = token_of(s.tokens["aqua", "ann"]).hex()
    for number, value in (
        (200, f"LabSession {token}"), (200, f"labsession {token}"), (200, f" LABSESSION {token}\t"),
        (22, f"LabSession  {token}"), (22, f"LabSession{token}"), (22, f"LabSession {token[:-1]}"), (22, f"LabSession {token}0"),
        (22, f"LabSession {token[:-1].upper()}A"), (22, f"Bearer {token}"), (22, token), (22, ""),
    ):
        s.tokens["aqua", "spelled"] = s.tokens["aqua", "ann"] if number == 200 else None
        request = lines("GET /labs/aqua/persons HTTP/1.1", "Host: d", f"Authorization: {value}")
        s.get(10, "spelled", "/persons", wants=None if number == 200 else number, request=request)


# Each place, with the methods that it has.
PLACES = {place: "POST" for place in POSTED} | {
    "": "GET", "/persons": "GET, POST", "/records": "GET, POST", "/trail": "GET", "/forms/water/1": "GET", "/records/1": "GET",
    "/records/1/versions/1": "GET", "/records/9?x": "GET"}


@case(founders)
def each_place_has_its_methods(s):
    for place, allow in PLACES.items():
        for method in ("GET", "POST", "HEAD", "PUT", "DELETE", "OPTIONS", "get"):
            if method not in allow.split(", "):
                s.refuse(10, request_of("aqua", method, place, "{}"), 87, allow)


@case(founders)
def what_is_no_place(s):
    for target in (
        "/", "*", "/labs", "/labs/", "/labs//", "/labs/AQUA", "/labs/4aqua", "/labs/aqua/", "/labs/abcdefghijklm", "/Labs/aqua",
        "//labs/aqua", "http://d/labs/aqua", "/labs/aqua/copies", "/labs/aqua/Open", "/labs/aqua/open/", "/labs/aq%75a",
        "/labs/aqua/records/0", "/labs/aqua/records/01", "/labs/aqua/records/+1", "/labs/aqua/records/1000000001",
        "/labs/aqua/records/1/", "/labs/aqua/records/1/versions", "/labs/aqua/records/1/versions/0", "/labs/aqua/records//versions/1",
        "/labs/aqua/records/99999999999999999999", "/labs/aqua/forms/water", "/labs/aqua/forms/Water/1", "/labs/aqua/forms/water/0",
        "/labs/aqua/forms//1", "/labs/aqua/forms/abcdefghijklmnopqrstuvwxy/1", "/labs/aqua#", "/labs/aqua/records/1#x",
    ):
        for method in ("GET", "POST", "PUT"):
            s.refuse(10, lines(f"{method} {target} HTTP/1.1", "Host: d", "Content-Length: 0"), 86)


@case(founders)
def queries_as_they_are_read(s):
    for place in ("/records", "/trail"):
        for query in ("?from=1&to=1", "?from=1&to=100", "?from=999999901&to=1000000000"):
            s.get(10, "ann", place + query)
        for query in (
            "", "?", "?from=1", "?to=1&from=1", "?from=1&to=101", "?from=2&to=1", "?from=0&to=1", "?from=01&to=1", "?from=1&to=01",
            "?from=1&to=1&", "?from=1&to=1&x=1", "?From=1&to=1", "?from=1;to=1", "?from=1&to=", "?from=&to=1", "?from=+1&to=1",
            "?from=1&to=1#", "?from=1&to=1?", "??from=1&to=1", "?from=1%20&to=1", "?from=999999999&to=1000000001", "?from=1&to=1&from=1",
        ):
            s.refuse(10, request_of("aqua", "GET", place + query, None, s.tokens["aqua", "ann"]), 88)
    # Elsewhere a query is passed over.
    s.post(10, "ann", "/records", form="water", sample="S2",
           request=request_of("aqua", "POST", "/records?x", compact({"form": "water", "sample": "S2"}), s.tokens["aqua", "ann"]))


@case(setup)
def of_several_refusals_the_first_is_told(s):
    def posted(number, target, content, *fields):
        s.refuse(1000, lines(f"POST {target} HTTP/1.1", *fields, f"Content-Length: {len(content)}", rest=content), number)
    many = [f"A{number}: x" for number in range(65)]
    posted(81, "/nowhere", b"{", *many)
    posted(80, "/nowhere", b"{", "Transfer-Encoding: x")
    posted(82, "/nowhere", b"{" * 70000, "Host: d", "Transfer-Encoding: x")
    posted(84, "/nowhere", b"{" * 70000, "Host: d")
    posted(86, "/labs/AQUA/trail", b"{", "Host: d")
    posted(86, "/labs/aqua/nowhere", b"{", "Host: d")
    posted(88, "/labs/zinc/open", b'{"code":""}', "Host: d")
    posted(1, "/labs/zinc/open", b'{"code":"","password":""}', "Host: d")
    posted(1, "/labs/aqua/forms", compact({"form": "", "fields": []}).encode(), "Host: d")
    s.refuse(1000, request_of("zinc", "POST", "/trail", "{"), 87, "GET")
    # The laboratory, its clock, the session, the role, and then the command's own.
    s.get(1000, None, "/records/9", lab="zinc", wants=40)
    s.get(1000, None, "/records/9", wants=41)
    s.open(1000, "zed", password="", wants=41)
    s.get(1200, None, "/records/9", wants=22)
    s.post(1200, "dan", "/persons", code="dan", name="Dan Day", roles=[], wants={"number": 24, "rule": "P3"})
    s.sign(1200, "dan", 1, 1, "review", password="dan password 2", wants={"number": 24, "rule": "P16"})
    s.post(1200, "dan", "/signatures", record=9, version=9, digest="0" * 64, meaning="authorship", password="", wants=57)
    s.post(1200, "dan", "/signatures", record=9, version=9, digest="0" * 64, meaning="authorship", password="", code="dan", wants=20)
    s.sign(1200, "dan", 1, 1, "authorship", digest="0" * 64, code="dan", wants=52)


# What each role may do: N analyst, R reviewer, M manager, A administrator, I inspector.
POLICY = {
    "P3": ("A", "/persons", {"code": "dan", "name": "Dan Day", "roles": []}), "P4": ("AMI", "/persons", None),
    "P5": ("A", "/issue", {"code": "zed"}), "P6": ("A", "/confirm", {"code": "zed"}), "P7": ("A", "/roles", {"code": "zed", "roles": []}),
    "P8": ("A", "/retire", {"code": "zed"}), "P9": ("A", "/unlock", {"code": "zed"}),
    "P10": ("M", "/forms", {"form": "water", "fields": [LEAD, NOTE]}), "P11": ("NRMI", "/forms/water/1", None),
    "P12": ("N", "/records", {"form": "soil", "sample": "S1"}),
    "P13": ("N", "/entries", {"record": 9, "key": "lead", "value": "7.5", "unit": "mg/L"}),
    "P14": ("N", "/amendments", {"record": 9, "altered": []}),
    **{rule: (roles, "/signatures", {"record": 1, "version": 1, "digest": "0" * 64, "meaning": meaning, "password": "guessed"})
       for rule, roles, meaning in (("P15", "N", "authorship"), ("P16", "R", "review"), ("P17", "RM", "rejection"), ("P23", "M", "approval"))},
    "P18": ("NRMI", "/records/1", None), "P19": ("NRMI", "/records/1/versions/1", None),
    "P20": ("NRMI", "/records?from=1&to=100", None), "P21": ("AMI", "/trail?from=1&to=100", None),
}


@case(setup)
def each_rule_is_open_to_its_roles(s):
    own = {"P3": 27, "P5": 33, "P6": 33, "P7": 33, "P8": 33, "P9": 33, "P10": 48, "P12": 42, "P13": 44, "P14": 44,
           "P15": 57, "P16": 57, "P17": 57, "P23": 57}
    for role, who in (("N", "dan"), ("R", "fay"), ("M", "gus"), ("A", "ann"), ("I", "hal"), ("", "eve")):
        s.open(1200, who)
        if who == "eve":
            s.post(1200, "ann", "/roles", code="eve", roles=[])
        for rule, (roles, place, members) in POLICY.items():
            wants = own.get(rule) if role and role in roles else {"number": 24, "rule": rule}
            if members is None:
                s.get(1200, who, place, wants)
            else:
                s.post(1200, who, place, wants, **members)
        s.post(1200, who, "/password", old="guessed", new="guessed", wants=20)
        if who != "ann":
            s.post(1200, who, "/close")


# ---- requests, by their bytes

CASES.update((name, (globals()[start], play)) for name, (start, play) in cases_of_requests.CASES.items())


# ---- bodies

for the_place in BODIES:
    CASES["members_of_the_body_of_" + the_place[1:]] = (founders, functools.partial(members_of_the_body, the_place))

# ---- foundings, passwords and accounts

for the_start, the_plays in ((nothing, FROM_NOTHING), (setup, FROM_SETUP)):
    for the_play in the_plays:
        case(the_start)(the_play)


# ---- a random day


@case(setup)
def a_random_day(s, requests=800):
    draw = random.Random("a random day")
    people, moment = ["ann", "dan", "eve", "fay", "gus", "hal"], 1200
    s.open(moment, "bob")
    for who in people:
        s.open(moment, who)
    for who in people[1:5]:
        s.post(moment, "ann", "/roles", code=who, roles=["analyst", "reviewer", "manager"])
    for _ in range(requests):
        moment += draw.choice([0, 0, 0, 1, 2, 5, 30]) + (1000 if draw.random() < 0.01 else 0)
        random_request(s, draw, moment, people)
    s.open(moment + 1800, "hal")


def random_request(s, draw, moment, people):
    """A request that somebody might send, or might not. Whatever it is answered will do."""
    lab, who, somebody = s.labs["aqua"], draw.choice(people), draw.choice([*people, "ivy"])
    record, key = draw.randint(1, len(lab.records) + 1), draw.choice(["lead", "lead", "note", "iron"])
    there = lab.records[record - 1].versions if record <= len(lab.records) else []
    version = draw.choice([len(there)] * 8 + [1, len(there) + 1])
    digest = s.digest(record, version) if 0 < version <= len(there) and draw.random() < 0.9 else "5a" * 32
    meaning = draw.choice(["authorship", "review", "rejection", "approval"])
    if there and draw.random() < 0.7:
        meaning = ["authorship", "review", "approval", "approval"][len(there[-1].signatures)]
    password = s.passwords["aqua", who] if draw.random() < 0.9 else "guessed at random"
    reason = draw.choice([None, "misread", "not our scale"])

    def value_of(key):
        value = draw.choice(["7.5", "7.50", "<0.05", "8.25", "9.1", "-1", "12"] if key == "lead" else ["clear", "a bit\nred", "é" * 101, ""])
        unit = "mg/L" if (key == "lead") == (draw.random() < 0.9) else ""
        return {"key": key, "value": value, "unit": unit}

    def code_given():
        return draw.choice([who, who, who, None, somebody])
    altered = [value_of(one) for one in draw.sample(["lead", "note", "iron"], draw.randint(0, 2))]
    fields = draw.choice([[LEAD, NOTE], [NOTE, LEAD], [LEAD], [dict(NOTE, size=5)]])
    give = draw.choices([
        lambda: s.open(moment, who, ..., password=password),
        lambda: s.post(moment, who, "/entries", ..., record=record, reason=reason, **value_of(key)),
        lambda: s.post(moment, who, "/records", ..., form=draw.choice(["water", "soil"]), sample=f"S{draw.randint(1, 30)}"),
        lambda: s.post(moment, who, "/signatures", ..., record=record, version=max(version, 1), digest=digest, meaning=meaning,
                       password=password, code=code_given(), reason=reason if meaning == "rejection" else None),
        lambda: s.post(moment, who, "/amendments", ..., record=record, reason=reason, altered=altered),
        lambda: s.post(moment, who, "/forms", ..., form=draw.choice(["water", "soil"]), fields=fields, approval=draw.random() < 0.4),
        lambda: s.post(moment, "ann", draw.choice(["/issue", "/unlock"]), ..., code=somebody),
        lambda: s.post(moment, draw.choice(["ann", "bob"]), "/confirm", ..., code=draw.choice(["ivy", "ann", "zed"])),
        lambda: s.post(moment, draw.choice(["ann", "gus"]), "/persons", ..., code=somebody, name="Ivy Inn", roles=["analyst"]),
        lambda: s.get(moment, who, draw.choice([f"/records/{record}", f"/records/{record}/versions/{max(version, 1)}", "/persons",
                                                "/forms/water/1", "/records?from=1&to=100", "/trail?from=1&to=100"]), ...),
        lambda: s.post(moment, who, "/close", ...),
    ], weights=[4, 40, 6, 80, 20, 3, 4, 2, 2, 12, 1])[0]
    if give().get("number") == 22 and draw.random() < 0.8:
        s.open(moment, who, ..., password=password)


# ---- the program


def stream_of(name, begun=lambda start: start()):
    """A case, from its start on; or from what `begun` makes of that."""
    start, play = CASES[name]
    s = copy.deepcopy(begun(start))
    play(s)
    if s.reader:
        s.read_all(s.reader)
    return s


def shown(data):
    """Bytes as they are told of: a line, and no more than a screen has room for."""
    text = data.decode(errors="backslashreplace").replace("\r\n", " / ").replace("\n", " / ")
    return text if len(text) < 1500 else text[:1000] + " .. " + text[-400:]


def difference(program, s):
    """What a program does otherwise than a stream wants; nothing where it does all of it."""
    ran = subprocess.run([program, "replay"], input=b"".join(s.events), capture_output=True)
    answers = list(split(ran.stdout))
    for number, (event, wanted, answer) in enumerate(itertools.zip_longest(s.events, s.answers, answers, fillvalue=b"nothing"), 1):
        if wanted != answer and (wanted, answer) != (b"nothing", b"nothing"):
            return f"event {number}, {shown(event)}: {shown(wanted)} is wanted, and it answers {shown(answer)}"
    if (ran.returncode, ran.stderr) != (s.status, s.told):
        return f"status {ran.returncode} and {shown(ran.stderr)}, where {s.status} and {shown(s.told)} are wanted"
    return None


def some():
    """The cases that begin with foundings alone, and every fourth of the others: each of these opens sessions with some forty passwords
    before it begins."""
    others = [name for name, (start, _) in CASES.items() if start in (setup, all_are_in)]
    return [name for name in CASES if name not in others] + others[::4]


def play(report, program, names):
    """A line for each case. Gives the numbers of the refusals that were seen."""
    seen = set()
    with concurrent.futures.ThreadPoolExecutor(os.cpu_count()) as pool:
        running = [(name, s, pool.submit(difference, program, s)) for name in names for s in [stream_of(name)]]
        for name, s, run in running:
            otherwise, what = run.result(), name.replace("_", " ")
            if report.say(otherwise is None, f"{what}: {otherwise}" if otherwise else f"{what}, {len(s.events)} events"):
                seen |= s.numbers
    return seen


def main(words):
    if words == ["--names"]:
        print("\n".join(CASES))
        return 0
    if words[:1] == ["--events"] and len(words) == 2:
        sys.stdout.buffer.write(b"".join(stream_of(words[1]).events))
        return 0
    if not words or words[0].startswith("-"):
        sys.exit(__doc__)
    names, report = some() if words[1:] == ["--some"] else words[1:], Report("cases")
    seen = play(report, words[0], names or CASES)
    if not names:
        missing = sorted(set(STATUS) - {63, 90} - seen)
        told = ", ".join(map(str, sorted(seen)))
        report.say(not missing, f"no case has seen the refusals {missing}" if missing else f"each refusal was seen: {told}")
    return report.status


if __name__ == "__main__":
    sys.exit(main(sys.argv[1:]))
