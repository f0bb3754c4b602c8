"""The members of the body of each command that is posted, and a case for each place: a good body, and that body with each member
absent, under another name, null, of another kind, given twice, not as its rule admits it, and with one that is unknown.
"""
import itertools
import json

from streams import LEAD, NOTE, compact, request_of

# The members of each body that is posted, with their kinds. Those with a ? may be absent.
BODIES = {
    "/open": "code:code password:text", "/close": "", "/password": "old:text new:text",
    "/persons": "code:code name:name roles:roles", "/issue": "code:code", "/confirm": "code:code",
    "/roles": "code:code roles:roles", "/retire": "code:code", "/unlock": "code:code",
    "/forms": "form:key fields:fields approval?:flag", "/records": "form:key sample:name",
    "/entries": "record:number key:key value:text unit:unit reason?:note",
    "/amendments": "record:number reason?:note altered:altered",
    "/signatures": "record:number version:number digest:digest meaning:meaning password:text code?:code reason?:note",
}
# Those of an element of `altered`, and of one of `fields` by its kind.
ALTERED = "key:key value:text unit:unit"
FIELDS = {kind: ("key:key label:name required:flag kind:kind " + more).strip() for kind, more in (
    ("number", "unit:unit decimals:decimals min?:bound max?:bound"), ("text", "size:size"), ("choice", "choices:choices"), ("date", ""),
    ("yesno", ""))}
# Of each kind the values that are refused, as JSON, by the number of the refusal.
NO_TEXT = ["7", "-1", "true", "[]", "[[]]", "{}", '["dan"]']
REFUSED = {
    "text": {88: NO_TEXT},
    "code": {88: NO_TEXT, 1: ['""', '"d"', '"Dan"', '"4dan"', '"-dan"', '"d_n"', '"dan "', '"d\\u0000n"', '"' + "d" * 17 + '"']},
    "key": {88: NO_TEXT, 1: ['""', '"Lead"', '"4lead"', '"_lead"', '"le-ad"', '"lead "', '"' + "k" * 25 + '"']},
    "name": {88: NO_TEXT, 1: ['""', '" Dan"', '"Dan "', r'"D\u0007n"', r'"D\nn"', '"D\u007fn"', '"' + "é" * 60 + 'x"']},
    "note": {88: NO_TEXT, 1: ['""', r'"a\tb"', r'"a\r\nb"', '"a\u007fb"', '"' + "é" * 500 + 'x"']},
    "unit": {88: NO_TEXT, 1: ['" "', '" mg"', '"mg "', r'"m\ng"', '"' + "é" * 10 + 'x"']},
    "number": {88: ['"1"', "true", "[]", "[[]]", "{}", "0", "-1", "-0", "1.0", "1e0", "1.5", "1000000001", "4294967297", "18446744073709551617"]},
    "digest": {88: [*NO_TEXT, '""', '"' + "a" * 63 + '"', '"' + "a" * 65 + '"', '"' + "A" * 64 + '"', '"' + "g" * 64 + '"']},
    "meaning": {88: [*NO_TEXT, '""', '"Review"', '"approve"', '"signed"']},
    "roles": {88: ['"analyst"', "7", "-1", "true", "{}", "[[]]", '["chief"]', '["Analyst"]', '["analyst","analyst"]', "[7]", "[null]", '[["analyst"]]']},
    "flag": {88: ['"true"', '"1"', "0", "1", "-1", "[]", "[[]]", "{}"]},
    "kind": {88: [*NO_TEXT, '""', '"Number"', '"numbers"', '"boolean"']},
    "decimals": {88: ['"2"', "true", "[[]]", "{}", "-1", "-0", "2.0", "2e0", "4294967296"], 6: ["7", "4294967295"]},
    "size": {88: ['"2"', "true", "[[]]", "{}", "-1", "0.0", "2.0", "4294967296"], 6: ["0", "1001", "4294967295"]},
    "bound": {88: ["0", "-1", "true", "[]", "[[]]", "{}"], 6: ['""', '"<0"', '">0"', '"1."', '".5"', '"0.005"', '"1234567890123456"', '"x"', '"1e1"']},
    "choices": {88: ['"red"', "-1", "true", "{}", "[[]]", "[7]", "[null]", '["red",7]'], 1: ['[""]', '["red"," blue"]', r'["r\ned"]'],
                6: ["[]", '["red","red"]', compact([f"c{number}" for number in range(21)])]},
    "fields": {88: ['"lead"', "7", "-1", "true", "{}", "[7]", "[[]]", "[null]", "[{}]"], 3: ["[]"], 4: [compact([NOTE, LEAD, NOTE])],
               5: [compact([dict(NOTE, key=f"k{number}") for number in range(61)])], 6: [compact([dict(LEAD, min="8", max="7")])]},
    "founders": {88: ['"ann"', "7", "-1", "true", "[]", "{}", "[[]]", "[7,7,7]", "[null,null,null]", "[{},{},{}]"]},
    "altered": {88: ['"lead"', "7", "-1", "true", "{}", "[7]", "[[]]", "[null]", "[{}]"],
                4: [compact([{"key": "lead", "value": value, "unit": ""} for value in "12"])]},
}


def members_of(told):
    """Name, kind and whether it may be absent, of each member."""
    return [(name.rstrip("?"), kind, name.endswith("?")) for name, _, kind in (one.partition(":") for one in told.split())]


def pairs_of(value):
    return [(name, compact(one)) for name, one in value.items()]


def text_of(pairs):
    return "{" + ",".join(f"{compact(name)}:{value}" for name, value in pairs) + "}"


def changes(told):
    """What may be otherwise in an object of these members: how its pairs are changed, and the number of the refusal; none where it
    is still one of its form."""
    yield lambda pairs: pairs, None
    yield lambda pairs: pairs[::-1], None
    for also in ('"x"', "1", "null", "{}"):
        yield lambda pairs, also=also: [*pairs, ("also", also)], 88
    for name, kind, optional in members_of(told):
        def put(value, name=name):
            return lambda pairs: [(one, value if one == name else old) for one, old in pairs]
        yield lambda pairs, name=name: [pair for pair in pairs if pair[0] != name], None if optional else 88
        yield lambda pairs, name=name: [(one.upper() if one == name else one, old) for one, old in pairs], 88
        yield put("null"), 88
        for number, values in REFUSED[kind].items():
            for value in values:
                yield put(value), number
        # Given twice, the last one counts; the first need not be of its kind.
        yield lambda pairs, name=name: [(name, "null"), *pairs], None
        yield lambda pairs, name=name: [(name, dict(pairs)[name]), *put("null", name)(pairs)], 88


def element(changed, list_name, index=0):
    """The change of a body whose list has an element that is changed so."""
    def change(pairs):
        elements = [text_of(pairs_of(one)) for one in json.loads(dict(pairs)[list_name])]
        elements[index] = text_of(changed(pairs_of(json.loads(elements[index]))))
        return [(name, "[" + ",".join(elements) + "]" if name == list_name else value) for name, value in pairs]
    return change


def all_changes(place):
    yield from changes(BODIES[place])
    if place == "/amendments":
        for change, number in changes(ALTERED):
            yield element(change, "altered", 1), number
    if place == "/forms":
        for index, told in enumerate(FIELDS.values()):
            for change, number in changes(told):
                yield element(change, "fields", index), number
            # What a field of another kind has.
            for name, value in {"unit": '""', "decimals": "2", "min": '"0"', "max": '"9"', "size": "1", "choices": '["red"]'}.items():
                if name not in [one for one, _, _ in members_of(told)]:
                    yield element(lambda pairs, name=name, value=value: [*pairs, (name, value)], "fields", index), 88
    if place == "/signatures":
        # A reason goes with a rejection alone, whatever it is.
        for meaning, reason in itertools.product(("authorship", "review", "approval"), ("why", "")):
            def change(pairs, meaning=meaning, reason=reason):
                return pairs_of(json.loads(text_of(pairs)) | {"meaning": meaning, "reason": reason})
            yield change, 88


# A good body of each place, fresh each time, with all its members, and who posts it.
KINDS = [dict(LEAD, max="9.99"), NOTE, {"key": "colour", "label": "Colour", "required": False, "kind": "choice", "choices": ["red", "blue"]},
         {"key": "taken", "label": "Taken", "required": True, "kind": "date"},
         {"key": "clear", "label": "Clear", "required": False, "kind": "yesno"}]


def record_entered(s, n):
    number = s.post(10, "ann", "/records", form="water", sample=f"Sample {n}")["record"]
    s.post(10, "ann", "/entries", record=number, key="lead", value="7.50", unit="mg/L")
    return number


def good_close(s, n):
    s.open(10, "ann")
    return "ann", {}


def good_password(s, n):
    old, s.passwords["aqua", "ann"] = s.passwords["aqua", "ann"], f"correct horse 1.{n}"
    return "ann", {"old": old, "new": s.passwords["aqua", "ann"]}


def good_confirm(s, n):
    s.post(10, "ann", "/issue", code="cid")
    return "bob", {"code": "cid"}


def good_retire(s, n):
    s.post(10, "ann", "/persons", code=f"p{n}", name="Who Leaves", roles=[])
    return "ann", {"code": f"p{n}"}


def good_amendment(s, n):
    number = record_entered(s, n)
    s.sign(10, "ann", number, 1, "authorship", code="ann")
    s.sign(10, "bob", number, 1, "review", code="bob")
    altered = [{"key": "lead", "value": "7.5", "unit": "mg/L"}, {"key": "note", "value": "clear", "unit": ""}]
    return "ann", {"record": number, "reason": "one decimal", "altered": altered}


def good_signature(s, n):
    number = record_entered(s, n)
    s.sign(10, "ann", number, 1, "authorship", code="ann")
    return "bob", {"record": number, "version": 1, "digest": s.digest(number, 1), "meaning": "rejection", "password": "correct horse 2",
                   "code": "bob", "reason": "not our scale"}


GOOD = {
    "/open": lambda s, n: (None, {"code": "cid", "password": "correct horse 3"}),
    "/close": good_close, "/password": good_password,
    "/persons": lambda s, n: ("ann", {"code": f"p{n}", "name": f"Person {n}", "roles": ["manager", "analyst"]}),
    "/issue": lambda s, n: ("ann", {"code": "cid"}), "/confirm": good_confirm,
    "/roles": lambda s, n: ("ann", {"code": "cid", "roles": ["inspector", "reviewer"]}),
    "/retire": good_retire, "/unlock": lambda s, n: ("ann", {"code": "cid"}),
    "/forms": lambda s, n: ("ann", {"form": f"form_{n}", "fields": KINDS, "approval": True}),
    "/records": lambda s, n: ("ann", {"form": "water", "sample": f"Sample {n}"}),
    "/entries": lambda s, n: ("ann", {"record": record_entered(s, n), "key": "lead", "value": "<0.05", "unit": "mg/L", "reason": "read\nagain"}),
    "/amendments": good_amendment, "/signatures": good_signature,
}


def members_of_the_body(place, s):
    who, good = GOOD[place](s, 0)
    for text in ("", "{", "[]", "null", "7", '"x"', "[{}]"):
        s.refuse(10, request_of("aqua", "POST", place, text, s.tokens.get(("aqua", who))), 88)
    for n, (change, number) in enumerate(all_changes(place), 1):
        text = text_of(change(pairs_of(good)))
        if number is not None:
            s.refuse(10, request_of("aqua", "POST", place, text, s.tokens.get(("aqua", who))), number)
            continue
        # Still of its form: it is done, but for a few that their command refuses later.
        later = {"/entries": 47, "/amendments": 47, "/signatures": 47}.get(place) if '"reason":' not in text else None
        s.post_text(10, who, place, text, wants=later)
        who, good = GOOD[place](s, n)
    if place == "/password":
        s.passwords["aqua", "ann"] = good["old"]
