"""A short hour of requests, in which each command is done at least once, and what each event of it is answered, as the laboratory of
tests/model/laboratory.py does it, where one of them is refused for memory: the others are answered as if it had never come.

    tests/model/hours.py             prints the hour as `labdesk replay` reads it
    tests/model/hours.py --answers   prints what its events are answered
"""
import json
import os
import sys

sys.path.insert(0, os.path.join(os.path.dirname(os.path.abspath(__file__)), "../../examples"))
import day as days  # noqa: E402
from laboratory import Machine, Refused, body, digest_of, found, refusal  # noqa: E402
from streams import FOUNDERS, STATUS, WORDS  # noqa: E402

MEMORY_LINE = b"refused 90 memory\n"
MEMORY_REPLY = (
    b"HTTP/1.1 503 Service Unavailable\r\nContent-Type: application/json\r\nContent-Length: 30\r\n"
    b'Connection: close\r\n\r\n{"error":"memory","number":90}'
)
FIELDS = [days.LEAD, days.COLOUR, days.TAKEN, days.CLEAR, days.NOTE]
# Each command with words that its body or its path is made of.
COMMANDS = [
    ("password", "correct horse 1", "correct horse 4"), ("enrol", "dan", "Dan Day", "analyst"), ("persons",), ("issue", "dan"),
    ("confirm", "dan"), ("roles", "dan", "analyst reviewer"), ("unlock", "dan"), ("retire", "dan"), ("form", "water", True, *FIELDS),
    ("read form", "water", 1), ("record", "water", "S1"), ("entry", 1, "lead", "7.52", "mg/L", "misread"),
    ("amend", 1, "as the scale has it", ("lead", "7.5", "mg/L"), ("note", "cold", "")),
    ("sign", 1, 1, "5a" * 32, "rejection", "correct horse 1", "ann", "no scale"), ("read record", 1), ("read version", 1, 1),
    ("records", 1, 100), ("trail", 1, 100), ("copy", 1, 100), ("close",),
]


class Founding:
    def __init__(self, lab, moment, words, name, founders):
        self.lab, self.moment, self.words, self.refused = lab, moment, words, MEMORY_LINE
        self.name, self.founders = name, founders

    def event(self):
        persons = [dict(zip(("code", "name", "password"), one)) for one in self.founders]
        content = days.compact({"founders": persons, "name": self.name})
        return f"found {self.lab} {self.moment} {self.words} {len(content)}\n".encode() + content

    def answer(self, labs):
        if self.lab in labs:
            return b"refused 64 lab_exists\n"
        labs[self.lab] = found(self.lab, self.moment, self.words, self.name, self.founders)
        return f"founded {self.lab}\n".encode()


class Asked:
    """A command in the session that was opened with these words, if with any."""

    def __init__(self, lab, moment, words, token, command, *args):
        self.lab, self.moment, self.words, self.token, self.refused = lab, moment, words, token, MEMORY_REPLY
        self.command, self.args = command, args

    def event(self):
        request = days.request_of(self.lab, self.command, self.args, self.token)
        return f"call {self.moment} {self.words} {len(request)}\n".encode() + request

    def answer(self, labs):
        status, text = 404, body(number=40, error="no_such_lab")
        if self.lab in labs:
            try:
                status, text = 200, Machine(labs[self.lab], self.moment, self.words).run(self.token, self.command, *self.args)[1]
            except Refused as fault:
                status, text = STATUS[fault.number], refusal(fault)[1]
        is_copy = self.command == "copy" and status == 200
        return days.reply_of(status, self.moment, text, media="text/csv" if is_copy else "application/json")


class Raw:
    """A request that asks nothing."""

    def __init__(self, moment, words, request, number, further=None):
        self.moment, self.words, self.request, self.refused = moment, words, request, MEMORY_REPLY
        text = body(number=number, error=WORDS[number])
        self.reply = days.reply_of(STATUS[number], moment, text, further)

    def event(self):
        return f"call {self.moment} {self.words} {len(self.request)}\n".encode() + self.request

    def answer(self, labs):
        return self.reply


class Hour:
    """The steps so far, a second after the other, the laboratories after them, and the words of who has a session."""

    def __init__(self):
        self.steps, self.labs, self.sessions = [], {}, {None: None}

    def tick(self):
        """The moment of the next step, and the first of its words."""
        return len(self.steps), 1 + 8 * len(self.steps)

    def add(self, step):
        self.steps.append(step)
        return step.answer(self.labs)

    def raw(self, request, number, further=None):
        self.add(Raw(*self.tick(), request, number, further))

    def ask(self, who, command, *args, refused=None, lab="aqua"):
        """A command in the session of somebody; `refused` is the number of the refusal that it should come to."""
        told = self.add(Asked(lab, *self.tick(), self.sessions[who], command, *args))
        is_copy = b"\r\nContent-Type: text/csv\r\n" in told
        assert (None if is_copy else json.loads(told.partition(b"\r\n\r\n")[2]).get("number")) == refused, told

    def open(self, code, password):
        self.sessions[code] = self.tick()[1]
        self.ask(None, "open", code, password)

    def sign(self, who, version, meaning, password, reason=None, digest=None, refused=None):
        """A signature under a version of the first record, as it is at that moment unless another digest is given."""
        lab = self.labs["aqua"]
        digest = digest or digest_of(lab, lab.records[0], lab.records[0].versions[version - 1])
        self.ask(who, "sign", 1, version, digest, meaning, password, who, reason, refused=refused)


def before_the_sessions(one):
    """A laboratory is founded, and again; each command is asked for in no session; and what asks nothing."""
    one.add(Founding("aqua", *one.tick(), "Aqua Lab", FOUNDERS))
    one.add(Founding("aqua", *one.tick(), "Aqua Lab", FOUNDERS))
    one.ask(None, "card")
    one.ask(None, "card", lab="brick", refused=40)
    for command in COMMANDS:
        one.ask(None, *command, refused=22)
    one.raw(b"GET /labs/aqua/keys HTTP/1.1\r\nHost: d\r\n\r\n", 86)
    one.raw(b"PUT /labs/aqua/trail HTTP/1.1\r\nHost: d\r\n\r\n", 87, "Allow: GET\r\n")
    one.raw(b"POST /labs/aqua/issue HTTP/1.1\r\nHost: d\r\nContent-Length: 1\r\n\r\n{", 88)
    one.raw(b"POST /labs/aqua/issue HTTP/1.1\r\nHost: d\r\n\r\n", 83)


def accounts(one):
    """Two administrators come in, enrol a third person and issue a password for her, and give each other roles."""
    one.open("ann", "correct horse 1")
    one.open("bob", "correct horse 2")
    one.ask("ann", "password", "correct horse 1", "correct horse 4")
    one.ask("ann", "enrol", "dan", "Dan Day", "analyst")
    one.ask("ann", "issue", "dan")
    one.ask("ann", "confirm", "dan", refused=31)
    one.ask("bob", "confirm", "dan")
    one.ask("ann", "unlock", "dan")
    one.ask("ann", "retire", "dan")
    one.ask("ann", "form", "water", False, *FIELDS, refused=24)
    one.ask("bob", "roles", "ann", "analyst manager administrator")
    one.ask("ann", "roles", "bob", "reviewer administrator")
    one.ask("ann", "persons")


def records(one):
    """A record is written, signed, reviewed and amended, and what stands is read. Refusals that tell more stand between."""
    one.ask("ann", "form", "water", False, *FIELDS)
    one.ask("ann", "read form", "water", 1)
    one.ask("ann", "record", "water", "S1")
    one.ask("ann", "record", "water", "S1", refused=43)
    one.ask("ann", "entry", 1, "lead", "7.52", "mg/L", None)
    one.ask("ann", "entry", 1, "taken", "2026-03-01", "", "as the label has it")
    one.sign("ann", 1, "authorship", "correct horse 4", digest="5a" * 32, refused=52)
    one.sign("ann", 1, "authorship", "correct horse 4")
    one.sign("bob", 1, "review", "correct horse 2")
    one.ask("ann", "amend", 1, "as the scale has it", ("note", "cold", ""), ("lead", "7.52", "mg/L"), refused=49)
    one.ask("ann", "amend", 1, "as the scale has it", ("note", "cold", ""), ("lead", "7.5", "mg/L"))
    one.sign("ann", 2, "authorship", "correct horse 4")
    one.sign("bob", 2, "rejection", "correct horse 2", "no scale")
    one.ask("bob", "read record", 1)
    one.ask("bob", "read version", 1, 2)
    one.ask("bob", "records", 1, 100)
    one.ask("bob", "trail", 1, 100)
    one.ask("ann", "copy", 1, 100)
    one.ask("bob", "close")


def hour():
    one = Hour()
    before_the_sessions(one)
    accounts(one)
    records(one)
    return one.steps


def halves():
    """The hour in two, each by itself: what comes before the sessions, and what comes in them. So a run has fewer passwords."""
    first, second = Hour(), Hour()
    before_the_sessions(first)
    second.add(Founding("aqua", *second.tick(), "Aqua Lab", FOUNDERS))
    accounts(second)
    records(second)
    return first.steps, second.steps


class StoredDay(days.Day):
    """The day of examples/, whose events are noted as steps."""

    def __init__(self):
        super().__init__()
        self.steps = []

    def found(self, time, lab, name, *founders, refused=None):
        self.steps.append(Founding(lab, days.seconds_at(time), self.next_word, name, founders))
        super().found(time, lab, name, *founders, refused=refused)

    def raw(self, time, request, refused, further=None):
        self.steps.append(Raw(days.seconds_at(time), self.next_word, request, refused, further))
        super().raw(time, request, refused, further)

    def ask(self, time, lab, who, command, *args, refused=None):
        token = None if command == "open" else self.sessions.get((lab, who))
        self.steps.append(Asked(lab, days.seconds_at(time), self.next_word, token, command, *args))
        return super().ask(time, lab, who, command, *args, refused=refused)


def stored_day():
    return days.whole_day(StoredDay()).steps


def answers(steps, refused=None):
    """What the steps are answered, where the one at that place is refused for memory."""
    labs = {}
    return [step.refused if place == refused else step.answer(labs) for place, step in enumerate(steps)]


def name_of(place, step):
    told = getattr(step, "command", type(step).__name__.lower())
    return f"event {place + 1}, {told}"


def main(words):
    steps = hour()
    told = answers(steps) if words == ["--answers"] else [step.event() for step in steps]
    sys.stdout.buffer.write(b"".join(told))


if __name__ == "__main__":
    main(sys.argv[1:])
