"""What docs/NAMES.md and docs/FORMS.md admit, written apart from the program and from its pages, and texts, values and forms that are
drawn around each bound. tests/cases plays some of them at the program, and tests/pages_code many at the pages.
"""
import re

from laboratory import Refused, Thing, amount, read_value
from streams import LEAD, NOTE

CONTROLS, CONTROLS_BUT_LINES = "[\0-\x1f\x7f]", "[\0-\t\x0b-\x1f\x7f]"
CODES = {"lab": r"[a-z][a-z0-9-]{0,11}", "person": r"[a-z][a-z0-9-]{1,15}", "key": r"[a-z][a-z0-9_]{0,23}"}
# The most bytes of a text that may have any letters.
MOST = {"name": 120, "unit": 20, "note": 1000}
CHOICE = {"key": "colour", "label": "Colour", "required": False, "kind": "choice", "choices": ["red", "pale blue", "é"]}
DATE = {"key": "taken", "label": "Taken", "required": False, "kind": "date"}
YESNO = {"key": "clear", "label": "Clear", "required": False, "kind": "yesno"}
SPANS = ({}, {"min": "0"}, {"max": "50"}, {"min": "-1.5", "max": "+2.01"}, {"min": "7.5", "max": "7.50"}, {"max": "999999999999999"}, {"min": "-0"})
# Characters that are near a bound: of a control, of ASCII, of one, two, three and four bytes.
LETTERS = ["a", "z", "A", "Z", "0", "9", "-", "_", " ", "=", ",", '"', "\\", "~", "\x7f", "\x1f", "\t", "\n", "\r", "\0", "\x80", "\xa0", "é", "߿",
           "\u0800", "水", "\u2028", "\ufeff", "\uffff", "🜄", "\U0010ffff"]


def admits(rule, text):
    """Whether a text is one of a rule of docs/NAMES.md."""
    if rule in CODES:
        return bool(re.fullmatch(CODES[rule], text))
    if rule == "note":
        return 1 <= len(text.encode()) <= MOST["note"] and not re.search(CONTROLS_BUT_LINES, text)
    if rule == "unit" and text == "":
        return True
    return 1 <= len(text.encode()) <= MOST[rule] and not re.search(CONTROLS, text) and text[0] != " " and text[-1] != " "


def flaw_of(field, value):
    """The number of the refusal of a value, with the unit of its field, or None."""
    try:
        read_value(Thing(fields=[field]), field["key"], value, field.get("unit", ""))
    except Refused as refused:
        return refused.number
    return None


# ---- what is drawn


def drawn_text(draw, rule):
    """A text that the rule admits, or nearly so."""
    most = MOST.get(rule) or int(re.search(r",(\d+)\}", CODES[rule])[1]) + 1
    letters = "abcxyz0189" + {"key": "_"}.get(rule, "-")
    if rule in MOST and draw.random() < 0.6:
        letters = draw.choice(("é", "水a", "ab c", "🜄", "a\n b", " a"))
    bytes_wanted = draw.choice((0, 1, 2, 3, most - 1, most, most, most + 1, draw.randrange(most + 2)))
    text = ""
    while len(text.encode()) < bytes_wanted:
        text += draw.choice(letters)
    for _ in range(draw.choice((0, 0, 0, 1, 1, 2))):
        at = draw.choice((0, len(text), draw.randrange(len(text) + 1)))
        text = text[:at] + draw.choice(LETTERS) + text[at + draw.randrange(2):]
    return text


def drawn_field(draw, kind):
    if kind == "number":
        unbound = {name: one for name, one in LEAD.items() if name != "min"}
        return {**unbound, "unit": draw.choice(("mg/L", "", "%")), "decimals": draw.randrange(2, 7), **draw.choice(SPANS)}
    if kind == "text":
        return {**NOTE, "size": draw.choice((1, 2, 4, 5, 200, 1000))}
    return {"choice": CHOICE, "date": DATE, "yesno": YESNO}[kind]


def drawn_number(draw, field):
    near = [one for one in (field.get("min"), field.get("max")) if one is not None]
    if near and draw.random() < 0.3:
        amount_near = amount(draw.choice(near)) + draw.choice((-1_000_000, -10_000, -1, 0, 1, 10_000, 1_000_000))
        whole = f"{'-' if amount_near < 0 else ''}{abs(amount_near) // 10**6}.{abs(amount_near) % 10**6:06}"
        return draw.choice(("", "<", ">")) + draw.choice((whole, whole.rstrip("0").rstrip(".")))
    digits = "".join(draw.choice("0159") for _ in range(draw.choice((0, 1, 1, 2, 3, 14, 15, 16))))
    behind = "".join(draw.choice("0159") for _ in range(draw.randrange(8)))
    return (draw.choice(("", "", "", "<", ">", "<<", "≤")) + draw.choice(("", "", "", "-", "+", "--", "−")) + digits
            + draw.choice(("", ".", ".", ".", ",", "..", "e")) * draw.choice((0, 1)) + behind * draw.choice((0, 1)))


def drawn_day(draw):
    year = draw.choice(("0000", "0001", "1900", "1999", "2000", "2023", "2024", "2100", "9999", "10000", "999", str(draw.randrange(1, 9999)).zfill(4)))
    month, day = draw.choice((0, 1, 2, 2, 4, 12, 13)), draw.choice((0, 1, 28, 29, 30, 31, 32))
    sign = draw.choice("-----/.")
    return f"{year}{sign}{month:0{draw.choice((2, 2, 2, 1))}}{sign}{day:02}"


def drawn_value(draw, field):
    """A value that fits the field, or nearly so."""
    kind = field["kind"]
    if kind == "text":
        text = drawn_text(draw, "note")
        return text[:draw.choice((field["size"], field["size"] + 1, 1000))]
    made = {"number": lambda: drawn_number(draw, field), "date": lambda: drawn_day(draw),
            "choice": lambda: draw.choice((*CHOICE["choices"], "Red", "pale", "red ", "")),
            "yesno": lambda: draw.choice(("yes", "no", "Yes", "y", "", "yes ", "true"))}[kind]()
    if draw.random() < 0.1:
        at = draw.randrange(len(made) + 1)
        made = made[:at] + draw.choice(LETTERS) + made[at + draw.randrange(2):]
    return made


# Faults of a form's field: how it is spoiled, the name of the member that is to be told, and the word of the refusal.
FAULTS = [
    ({"key": "Lead"}, "key", "bad_name"), ({"key": "k" * 25}, "key", "bad_name"), ({"key": ""}, "key", "bad_name"),
    ({"label": ""}, "label", "bad_name"), ({"label": " Lead"}, "label", "bad_name"), ({"label": "é" * 60 + "x"}, "label", "bad_name"),
    ({"unit": "mg "}, "unit", "bad_name"), ({"unit": "é" * 10 + "x"}, "unit", "bad_name"),
    ({"choices": ["red", ""]}, "choices", "bad_name"), ({"choices": ["red", "blue "]}, "choices", "bad_name"),
    ({"decimals": 7}, "decimals", "bad_field"), ({"min": "<0"}, "min", "bad_field"), ({"min": "0.0000001"}, "min", "bad_field"),
    ({"min": ""}, "min", "bad_field"), ({"max": "1."}, "max", "bad_field"), ({"max": ".5"}, "max", "bad_field"), ({"max": "1e1"}, "max", "bad_field"),
    ({"max": "1234567890123456"}, "max", "bad_field"), ({"min": "8", "max": "7"}, "min", "bad_field"), ({"min": "-0", "max": "-1"}, "min", "bad_field"),
    ({"size": 0}, "size", "bad_field"), ({"size": 1001}, "size", "bad_field"), ({"choices": []}, "choices", "bad_field"),
    ({"choices": ["red", "red"]}, "choices", "bad_field"), ({"choices": [f"c{number}" for number in range(21)]}, "choices", "bad_field"),
    # These are at a bound, and no faults.
    ({"key": "k" * 24}, None, None), ({"label": "é" * 60}, None, None), ({"unit": "é" * 10}, None, None), ({"unit": ""}, None, None),
    ({"decimals": 6, "max": "0.000001"}, None, None), ({"min": "-1", "max": "+1"}, None, None), ({"min": "7.5", "max": "7.50"}, None, None),
    ({"min": "-0", "max": "0"}, None, None), ({"size": 1}, None, None), ({"size": 1000}, None, None), ({"choices": ["a", "A"]}, None, None),
    ({"choices": [f"c{number}" for number in range(20)]}, None, None), ({"max": "999999999999999.99"}, None, None),
]
# In this order a form's refusals are told.
ORDER = ["bad_name", "key_twice", "bad_field"]
NUMBERS = {"bad_name": 1, "key_twice": 4, "bad_field": 6}
KINDS = {"number": {**LEAD, "decimals": 6}, "text": NOTE, "choice": CHOICE, "date": DATE, "yesno": YESNO}


def drawn_form(draw):
    """The fields of a form, and its faults: each the place of a field, the name of a member and the word of its refusal."""
    kinds = [draw.choice(list(KINDS)) for _ in range(draw.randrange(1, 6))]
    fields = [{**KINDS[kind], "key": f"k{at}"} for at, kind in enumerate(kinds)]
    faults = []
    for at in sorted(draw.sample(range(len(fields)), draw.choice((0, 1, 1, min(2, len(fields)))))):
        fitting = [one for one in FAULTS if all(name in {**fields[at], "min": 0, "max": 0} if kinds[at] == "number" else name in fields[at] for name in one[0])]
        change, name, word = draw.choice(fitting)
        fields[at] = {**fields[at], **change}
        if word:
            faults.append([at, name, word])
    if len(fields) > 1 and draw.random() < 0.2:
        first, second = sorted(draw.sample(range(len(fields)), 2))
        if not any(at == second for at, _, _ in faults):
            fields[second] = {**fields[second], "key": fields[first]["key"]}
            faults += [[second, *one[1:]] for one in faults if one[:2] == [first, "key"]]
    keys = [field["key"] for field in fields]
    faults += [[at, "key", "key_twice"] for at, key in enumerate(keys) if key in keys[:at]]
    return fields, sorted(faults)


def number_of(faults):
    """The number of the refusal that a form of these faults meets, or None."""
    words = {word for _, _, word in faults}
    return next((NUMBERS[word] for word in ORDER if word in words), None)
