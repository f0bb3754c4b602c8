"""Each command once, each by itself, over laboratories of which each may be asked."""
import copy
import functools

import named_cases
from streams import LEAD, NOTE


@functools.cache
def laboratories():
    """Record 1 is open; 2 is signed; 3 is released; 4 is reviewed, and its form wants an approval. Ivy has an open ask, and jon has none.
    Fay has failed four times."""
    s = copy.deepcopy(named_cases.all_are_in())
    s.post(1160, "gus", "/forms", form="soil", approval=True, fields=[LEAD, NOTE])
    for record, form in enumerate(["water", "water", "soil"], 2):
        s.post(1160, "dan", "/records", form=form, sample=f"S{record}")
        s.post(1160, "dan", "/entries", record=record, key="lead", value="7.50", unit="mg/L")
        s.sign(1160, "dan", record, 1, "authorship", code="dan")
    s.sign(1164, "eve", 3, 1, "review", code="eve")
    s.sign(1164, "eve", 4, 1, "review", code="eve")
    for code, name in (("ivy", "Ivy Inn"), ("jon", "Jon Jay")):
        s.post(1165, "ann", "/persons", code=code, name=name, roles=["analyst"])
    s.post(1165, "ann", "/issue", code="ivy")
    for moment in range(1166, 1170):
        s.open(moment, "fay", password="not of fay at all", wants=20)
    return s


def posted(who, place, **members):
    return lambda s, wants, words: s.post(1200, who, place, wants, words=words, **members)


def got(who, place):
    return lambda s, wants, words: s.get(1200, who, place, wants)


def signed(who, record, meaning, **members):
    return lambda s, wants, words: s.sign(1200, who, record, 1, meaning, wants, words=words, code=who, **members)


def locked(s, wants, words):
    s.open(1200, "fay", password="not of fay at all", wants=wants or 20, words=words)


DAN, LOWER = {"code": "dan"}, {"key": "lead", "value": "7.4", "unit": "mg/L"}
# What writes, and what reads.
WRITING = {
    "an opening": lambda s, wants, words: s.open(1200, "eve", wants, who="another", words=words),
    "an opening that locks": locked,
    "a closing": posted("eve", "/close"),
    "another password": posted("eve", "/password", old="eve password 1", new="eve password 2"),
    "an enrolment": posted("ann", "/persons", code="kim", name="Kim Kay", roles=["analyst"]),
    "an issue": posted("ann", "/issue", code="jon"),
    "a confirmation": posted("bob", "/confirm", code="ivy"),
    "other roles": posted("ann", "/roles", **DAN, roles=["manager"]),
    "a retirement": posted("ann", "/retire", **DAN),
    "an unlocking": posted("ann", "/unlock", code="fay"),
    "a form": posted("gus", "/forms", form="water", approval=True, fields=[LEAD, NOTE]),
    "a record": posted("dan", "/records", form="water", sample="S9"),
    "an entry": posted("dan", "/entries", record=1, key="note", value="clear", unit=""),
    "an amendment": posted("dan", "/amendments", record=3, reason="misread scale", altered=[LOWER]),
    "a signing": signed("dan", 1, "authorship"),
    "a review": signed("eve", 2, "review"),
    "a rejection": signed("eve", 2, "rejection", reason="not our scale"),
    "an approval": signed("gus", 4, "approval"),
}
READING = {
    "the card": got(None, ""),
    "the reading of persons": got("hal", "/persons"),
    "the reading of a form": got("gus", "/forms/water/1"),
    "the reading of a record": got("hal", "/records/3"),
    "the reading of a version": got("hal", "/records/3/versions/1"),
    "the reading of records": got("hal", "/records?from=1&to=100"),
    "the reading of the trail": got("hal", "/trail?from=1&to=100"),
    "a copy over HTTP": lambda s, wants, words: s.copy(1200, "hal", 1, 100, words=words),
}
COMMANDS = {**WRITING, **READING}
# What tries a password.
TRYING_PASSWORDS = ["an opening", "an opening that locks", "another password", "a signing", "a review", "a rejection", "an approval"]


def one(name):
    """A stream of that request alone."""
    s = copy.deepcopy(laboratories())
    s.events, s.answers = [], []
    COMMANDS[name](s, None, None)
    assert len(s.events) == 1
    return s


def twice(name):
    """A stream of that request, and of the same once more, with the same random words, whatever it comes to."""
    s = one(name)
    COMMANDS[name](s, ..., int(s.events[0].split(b" ", 3)[2]))
    return s
