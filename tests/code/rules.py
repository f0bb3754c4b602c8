"""What the pages advise of texts, values and forms, beside what the server says of the same: the cases that tests/cases plays at the
program, and many that tests/model/admitted.py draws around each bound."""
import contextlib
import json
import random

import admitted
import bodies
import named_cases
import laboratory
from said import same, say

DRAWN = 12_000
NUMBERS = {8: "bad_value", 10: "out_of_range"}
# Cases of tests/cases in which values are read.
READING = ("which_texts_a_number_takes", "which_texts_the_other_kinds_take", "entries_of_each_kind_and_what_refuses_them",
           "what_is_drawn_around_each_bound_is_admitted_as_the_rules_say")
# The function that reads a text of a rule.
READERS = {"lab": "is_lab_code", "person": "is_person_code", "key": "is_key", "name": "is_name"}
# As tests/model/bodies.py calls these.
RULES = {"code": "person", "key": "key", "name": "name"}


def as_a_page_has(field):
    return {name: one for name, one in field.items() if one is not None}


@contextlib.contextmanager
def noted(read):
    """Notes each value that the model of the laboratory reads, and what it says."""
    whole = laboratory.read_value

    def note(form, key, value, unit):
        field = next((one for one in form.fields if one["key"] == key), None)
        if field:
            read.append((as_a_page_has(field), value, admitted.flaw_of(field, value)))
        return whole(form, key, value, unit)
    laboratory.read_value = note
    try:
        yield
    finally:
        laboratory.read_value = whole


def values_of_cases():
    read = []
    with laboratory.old_rounds(), noted(read):
        for name in READING:
            named_cases.stream_of(name)
    return read


def compare_values(node, what, told, least):
    there = node.call("rules", "flaw_of_value", [[field, value] for field, value, _ in told])
    differing = [(field["kind"], value, mine, NUMBERS.get(number)) for (field, value, number), mine in zip(told, there) if mine != NUMBERS.get(number)]
    same(f"{len(told):,} {what}: what the page advises is what the server says", differing[:4], [])
    say(len(told) >= least and {one[2] for one in told} >= {None, 8}, f"there are {least:,} of them or more, good ones and others")


def look_at_values(node, draw):
    compare_values(node, "values of the server's cases", values_of_cases(), 500)
    for kind in admitted.KINDS:
        fields = [admitted.drawn_field(draw, kind) for _ in range(DRAWN)]
        drawn = [(field, admitted.drawn_value(draw, field)) for field in fields]
        compare_values(node, f"drawn values of the kind {kind}", [(field, value, admitted.flaw_of(field, value)) for field, value in drawn], 10_000)


def look_at_texts(node, draw):
    for rule, reader in READERS.items():
        drawn = [admitted.drawn_text(draw, rule) for _ in range(DRAWN)]
        wanted = [admitted.admits(rule, text) for text in drawn]
        there = node.call("rules", reader, [[text] for text in drawn])
        same(f"{DRAWN:,} drawn texts, of which {sum(wanted):,} are of the rule {rule}", [one for one in zip(drawn, there, wanted) if one[1] != one[2]][:4], [])
        say(0.1 < sum(wanted) / DRAWN < 0.9, f"of the rule {rule} there are good ones and others")
    refused = [(READERS[RULES[kind]], json.loads(text)) for kind in RULES for text in bodies.REFUSED[kind][1]]
    there = node.call_all([("rules", reader, [[text]]) for reader, text in refused])
    same(f"{len(refused)} texts that the server's cases refuse", [one for one, [is_one] in zip(refused, there) if is_one], [])


def told(suspects):
    return sorted([one["at"], one["name"], one["word"]] for one in suspects)


def look_at_forms(node, draw):
    drawn = [admitted.drawn_form(draw) for _ in range(DRAWN)]
    there = node.call("rules", "suspects", [[fields] for fields, _ in drawn])
    differing = [(faults, told(mine), fields) for (fields, faults), mine in zip(drawn, there) if told(mine) != faults]
    same(f"{DRAWN:,} drawn forms: of each the page names each field and member that is at fault", differing[:2], [])
    words = {word for _, faults in drawn for _, _, word in faults}
    say(words == set(admitted.NUMBERS) and any(not faults for _, faults in drawn), f"there are forms of each fault and good ones: {sorted(words)}")
    fields = [(kind, name, {**dict(zip((one["kind"] for one in bodies.KINDS), bodies.KINDS))[kind], name: json.loads(value)}, word)
              for kind, name, rule in (("number", "unit", "unit"), ("number", "decimals", "decimals"), ("number", "min", "bound"), ("number", "max", "bound"),
                                       ("text", "size", "size"), ("choice", "choices", "choices"), ("date", "label", "name"), ("yesno", "key", "key"))
              for number, word in ((1, "bad_name"), (6, "bad_field")) for value in bodies.REFUSED[rule].get(number, [])]
    there = node.call("rules", "suspects", [[[field]] for _, _, field, _ in fields])
    # (a bound that is no number is at fault, whichever it is)
    same(f"{len(fields)} fields that the server's cases refuse", [(kind, name, word, told(mine)) for (kind, name, _, word), mine in zip(fields, there)
                                                                     if [0, name, word] not in told(mine)], [])


def look_at_rules(node):
    draw = random.Random(47)
    look_at_values(node, draw)
    look_at_texts(node, draw)
    look_at_forms(node, draw)
