#!/usr/bin/env python3
"""Writes examples/day.events, a day of two laboratories from their founding on, as `labdesk replay` reads it.

    examples/day.py            writes examples/day.events
    examples/day.py --check    says whether the file is as it would be written
    examples/day.py --answers  prints what each of its events is answered, by the laboratory of tests/model/laboratory.py, which is no
                               part of the program and takes its hashes from Python's hashlib

What a request is sent for, and what it should come to, stands beside it below; the script stops where its laboratory answers
otherwise. A token is the first four words of the tick at which its session was opened, as 64 digits; a digest is that of the
version as its laboratory has it at that moment.
"""
import calendar
import copy
import email.utils
import http
import json
import os
import sys

HERE = os.path.dirname(os.path.abspath(__file__))
sys.path.insert(0, f"{HERE}/../tests/model")
from laboratory import Machine, Refused, body, digest_of, found, refusal, token_of  # noqa: E402

MIDNIGHT = calendar.timegm((2026, 3, 2, 0, 0, 0))
# The statuses of the refusals that this day has (docs/REFUSALS.md), and the words of those that no laboratory gives.
STATUSES = {8: 400, 10: 400, 20: 401, 22: 401, 23: 403, 24: 403, 27: 409, 29: 403, 30: 409, 31: 403, 40: 404, 41: 503, 43: 409,
            46: 409, 47: 400, 49: 409, 50: 409, 51: 409, 52: 409, 53: 409, 54: 403, 56: 409, 57: 403, 83: 411, 86: 404, 87: 405,
            88: 400}
WORDS = {40: "no_such_lab", 64: "lab_exists", 83: "length_wanted", 86: "no_route", 87: "method", 88: "bad_body"}
FURTHER_FIELDS = {401: "WWW-Authenticate: LabSession\r\n"}

# Where each command is posted, and the members of its body, in the order of its words below.
POSTED = {
    "open": ("/open", "code password"), "close": ("/close", ""), "password": ("/password", "old new"),
    "enrol": ("/persons", "code name roles"), "issue": ("/issue", "code"), "confirm": ("/confirm", "code"),
    "roles": ("/roles", "code roles"), "retire": ("/retire", "code"), "unlock": ("/unlock", "code"),
    "form": ("/forms", "form approval fields"), "record": ("/records", "form sample"),
    "entry": ("/entries", "record key value unit reason"), "amend": ("/amendments", "record reason altered"),
    "sign": ("/signatures", "record version digest meaning password code reason"),
}
READ = {
    "card": "", "persons": "/persons", "read form": "/forms/{}/{}", "read record": "/records/{}",
    "read version": "/records/{}/versions/{}", "records": "/records?from={}&to={}", "trail": "/trail?from={}&to={}",
    "copy": "/copy?from={}&to={}",
}


def seconds_at(time):
    """The moment of a time of the day, as `08:30` or `08:30:05`."""
    hours, minutes, seconds = (time.split(":") + ["0"])[:3]
    return MIDNIGHT + 3600 * int(hours) + 60 * int(minutes) + int(seconds)


def compact(value):
    return json.dumps(value, separators=(",", ":"), ensure_ascii=False).encode()


def members_of(command, args):
    """The body of a command that is posted, as JSON's members. A member that isn't given is left out."""
    args = list(args)
    if command in ("enrol", "roles"):
        args[-1] = args[-1].split()
    if command == "form":
        args[2:] = [[{name: value for name, value in field.items() if value is not None} for field in args[2:]]]
    if command == "amend":
        args[2:] = [[dict(zip(("key", "value", "unit"), one)) for one in args[2:]]]
    members = zip(POSTED[command][1].split(), args)
    return {name: value for name, value in members if value is not None}


def request_of(lab, command, args, token):
    """The bytes of the request for a command."""
    if command in READ:
        method, place, content = "GET", READ[command].format(*args), None
    else:
        method, place, content = "POST", POSTED[command][0], compact(members_of(command, args))
    fields = ["Host: localhost"]
    if token is not None:
        fields.append("Authorization: LabSession " + token_of(token).hex())
    if content is not None:
        fields.append(f"Content-Length: {len(content)}")
    head = "".join(one + "\r\n" for one in [f"{method} /labs/{lab}{place} HTTP/1.1", *fields, ""])
    return head.encode() + (content or b"")


def reply_of(status, moment, text, further=None, media="application/json"):
    """The bytes of a reply (docs/HTTP.md)."""
    content = text.encode()
    head = (f"HTTP/1.1 {status} {http.HTTPStatus(status).phrase}\r\nDate: {email.utils.formatdate(moment, usegmt=True)}\r\n"
            f"Content-Type: {media}\r\nContent-Length: {len(content)}\r\nConnection: close\r\n")
    return (head + (further or FURTHER_FIELDS.get(status, "")) + "\r\n").encode() + content


class Day:
    """The events so far, what each of them is answered, the laboratories, and the words of who has a session where."""

    def __init__(self):
        self.events, self.answers, self.labs, self.sessions, self.next_word = [], [], {}, {}, 1

    def words(self):
        """The first of the eight words of an event's tick. No two events share one."""
        first, self.next_word = self.next_word, self.next_word + 8
        return first

    def tick(self, time, request):
        """The moment and the words of a request."""
        return seconds_at(time), self.words()

    def found(self, time, lab, name, *founders, refused=None):
        """A founding, by three founders: code, name and password of each."""
        moment, words = seconds_at(time), self.words()
        persons = [dict(zip(("code", "name", "password"), one)) for one in founders]
        content = compact({"founders": persons, "name": name})
        self.events.append(f"found {lab} {moment} {words} {len(content)}\n".encode() + content)
        assert refused == (64 if lab in self.labs else None)
        if refused is None:
            self.labs[lab] = found(lab, moment, words, name, founders)
        answer = f"founded {lab}" if refused is None else f"refused {refused} {WORDS[refused]}"
        self.answers.append(answer.encode() + b"\n")

    def call(self, time, words, request, answer):
        self.events.append(f"call {seconds_at(time)} {words} {len(request)}\n".encode() + request)
        self.answers.append(answer)

    def raw(self, time, request, refused, further=None):
        """A request that asks nothing, or of no laboratory."""
        text = body(number=refused, error=WORDS[refused])
        self.call(time, self.words(), request, reply_of(STATUSES[refused], seconds_at(time), text, further))

    def ask(self, time, lab, who, command, *args, refused=None):
        """A command in the session of somebody, who may have none; gives the members of the reply, or the text of a copy. `refused`
        is the number of the refusal that it should come to."""
        token = self.sessions.get((lab, who))
        request = request_of(lab, command, args, None if command == "open" else token)
        moment, words = self.tick(time, request)
        after = copy.deepcopy(self.labs[lab])
        number = None
        try:
            text = Machine(after, moment, words).run(token, command, *args)[1]
        except Refused as fault:
            number, text = fault.number, refusal(fault)[1]
        assert number == refused, f"{time} {who} {command} {args}: {text}"
        self.labs[lab] = after
        if command == "open" and number is None:
            self.sessions[lab, who] = words
        status, is_copy = STATUSES[number] if number else 200, command == "copy" and number is None
        self.call(time, words, request, reply_of(status, moment, text, media="text/csv" if is_copy else "application/json"))
        return text if is_copy else json.loads(text)

    def sign(self, time, lab, who, record, version, meaning, password, code=None, reason=None, digest=None, refused=None):
        """A signature under a version as it is at that moment, unless another digest is given."""
        digest = digest or self.digest(lab, record, version)
        return self.ask(time, lab, who, "sign", record, version, digest, meaning, password, code, reason, refused=refused)

    def digest(self, lab, record, version):
        of = self.labs[lab].records[record - 1]
        return digest_of(self.labs[lab], of, of.versions[version - 1])


# ---- the day

LEAD = {"key": "lead", "label": "Lead", "required": True, "kind": "number", "unit": "mg/L", "decimals": 2, "min": "0", "max": "50"}
COLOUR = {"key": "colour", "label": "Colour", "required": False, "kind": "choice", "choices": ["none", "faint", "strong"]}
TAKEN = {"key": "taken", "label": "Taken on", "required": True, "kind": "date"}
CLEAR = {"key": "clear", "label": "Clear to the eye", "required": False, "kind": "yesno"}
NOTE = {"key": "note", "label": "Note", "required": False, "kind": "text", "size": 200}

NEWCOMERS = [("dan", "Dan Day", "analyst"), ("eve", "Eve Ems", "analyst reviewer"), ("fay", "Fay Fox", "reviewer"),
             ("gus", "Gus Gray", "manager"), ("hal", "Hal Hill", "inspector")]


def password_of(code):
    return f"the word of {code} alone"


def founding(day):
    # Two laboratories, each by three administrators of its own. A code is given once.
    day.found("07:00", "aqua", "Aqua Lab", ("ann", "Ann Ames", password_of("ann")), ("bob", "Bob Bell", password_of("bob")),
              ("cid", "Cid Cole", password_of("cid")))
    day.found("07:01", "brick", "Brick Lab", ("ann", "Anna Arp", "another ann altogether"), ("max", "Max Moss", password_of("max")),
              ("ned", "Ned Noll", password_of("ned")))
    day.found("07:02", "aqua", "Another Lab", ("eli", "Eli Eck", password_of("eli")), ("max", "Max Moss", password_of("max")),
              ("ned", "Ned Noll", password_of("ned")), refused=64)
    # Anybody may ask for a laboratory's card.
    day.ask("07:05", "aqua", None, "card")
    day.raw("07:05", b"GET /labs/zinc HTTP/1.1\r\nHost: localhost\r\n\r\n", 40)
    # What asks nothing: no such place, no such method at a place, a body that isn't of its form, a POST of no length.
    day.raw("07:06", b"GET /labs/aqua/keys HTTP/1.1\r\nHost: localhost\r\n\r\n", 86)
    day.raw("07:06", b"DELETE /labs/aqua/records HTTP/1.1\r\nHost: localhost\r\n\r\n", 87, "Allow: GET, POST\r\n")
    day.raw("07:06", b"POST /labs/aqua/open HTTP/1.1\r\nHost: localhost\r\nContent-Length: 1\r\n\r\n{", 88)
    day.raw("07:06", b"POST /labs/aqua/open HTTP/1.1\r\nHost: localhost\r\n\r\n", 83)


def enrolment(day):
    # Two administrators come in. A session of one laboratory isn't valid in another.
    day.ask("07:10", "aqua", "ann", "open", "ann", password_of("ann"))
    day.ask("07:10", "aqua", "bob", "open", "bob", "not the right password", refused=20)
    day.ask("07:11", "aqua", "bob", "open", "bob", password_of("bob"))
    day.ask("07:11", "brick", "max", "open", "max", password_of("max"))
    day.sessions["brick", "ann of aqua"] = day.sessions["aqua", "ann"]
    day.ask("07:12", "brick", "ann of aqua", "persons", refused=22)
    day.ask("07:12", "brick", "max", "persons")
    # Five persons are enrolled, each code once.
    for code, name, roles in NEWCOMERS:
        day.ask("07:15", "aqua", "ann", "enrol", code, name, roles)
    day.ask("07:16", "aqua", "ann", "enrol", "dan", "Dan Dorn", "analyst", refused=27)
    # A one-time word is in two halves: one administrator asks, and gets the first; another confirms, and gets the second.
    words = {}
    for code, _, _ in NEWCOMERS:
        first = day.ask("07:20", "aqua", "ann", "issue", code)["half"]
        if code == "dan":
            day.ask("07:20", "aqua", "bob", "issue", code, refused=30)
            day.ask("07:20", "aqua", "ann", "confirm", code, refused=31)
        words[code] = first + day.ask("07:20", "aqua", "bob", "confirm", code)["half"]
    # With the whole word they come in, and have to choose a password before all else.
    for code, _, _ in NEWCOMERS:
        assert day.ask("07:25", "aqua", code, "open", code, words[code])["due"]
    day.ask("07:26", "aqua", "dan", "records", 1, 10, refused=23)
    for code, _, _ in NEWCOMERS:
        day.ask("07:27", "aqua", code, "password", words[code], password_of(code))


def forms(day):
    # The manager makes two forms. What is written by the second is released by three persons. An analyst makes none.
    day.ask("07:30", "aqua", "gus", "form", "water", False, LEAD, NOTE)
    day.ask("07:31", "aqua", "gus", "form", "drinking", True, LEAD, COLOUR, TAKEN, CLEAR, NOTE)
    day.ask("07:31", "aqua", "dan", "form", "soil", False, LEAD, refused=24)
    day.ask("07:32", "aqua", "dan", "read form", "drinking", 1)


def first_record(day):
    # A record of a form and a sample is opened once.
    day.ask("07:35", "aqua", "dan", "record", "water", "S1")
    day.ask("07:35", "aqua", "eve", "record", "water", "S1", refused=43)
    # Values are read by their field; one that stands is replaced with a reason, and both stay.
    day.ask("07:36", "aqua", "dan", "entry", 1, "lead", "7.505", "mg/L", None, refused=8)
    day.ask("07:36", "aqua", "dan", "entry", 1, "lead", "75", "mg/L", None, refused=10)
    day.ask("07:37", "aqua", "dan", "entry", 1, "lead", "7.55", "mg/L", None)
    day.ask("07:38", "aqua", "dan", "entry", 1, "lead", "7.50", "mg/L", None, refused=47)
    day.ask("07:38", "aqua", "dan", "entry", 1, "lead", "7.50", "mg/L", "misread scale")
    assert day.ask("07:39", "aqua", "eve", "entry", 1, "note", "kept cool", "", None)["rows"] == 3
    # The author signs what the digest names. The first signature of a session takes the code beside the password.
    day.sign("07:40", "aqua", "dan", 1, 1, "authorship", password_of("dan"), refused=57)
    day.sign("07:40", "aqua", "dan", 1, 1, "authorship", password_of("dan"), "dan", digest="00" * 32, refused=52)
    assert day.sign("07:41", "aqua", "dan", 1, 1, "authorship", password_of("dan"), "dan")["state"] == "signed"
    day.ask("07:41", "aqua", "dan", "entry", 1, "note", "kept cold", "", "better said", refused=46)
    # Who entered a row doesn't review it; another person does, and so releases it. Her session has rested for more than a
    # quarter of an hour, so she comes in again.
    day.sign("07:42", "aqua", "eve", 1, 1, "review", password_of("eve"), "eve", refused=54)
    day.sign("07:43", "aqua", "fay", 1, 1, "review", password_of("fay"), "fay", refused=22)
    day.ask("07:43", "aqua", "fay", "open", "fay", password_of("fay"))
    assert day.sign("07:43", "aqua", "fay", 1, 1, "review", password_of("fay"), "fay")["state"] == "released"
    day.sign("07:43", "aqua", "fay", 1, 1, "review", password_of("fay"), refused=53)


def amendment(day):
    # What is released is amended by another version, with a reason and with values that differ.
    day.ask("07:45", "aqua", "dan", "amend", 1, "one decimal is meant", ("lead", "7.50", "mg/L"), refused=49)
    assert day.ask("07:46", "aqua", "dan", "amend", 1, "one decimal is meant", ("lead", "7.5", "mg/L"))["version"] == 2
    day.ask("07:46", "aqua", "dan", "amend", 1, "once more", ("lead", "7.6", "mg/L"), refused=50)
    day.sign("07:47", "aqua", "fay", 1, 2, "rejection", password_of("fay"), reason="too early", refused=56)
    day.sign("07:47", "aqua", "dan", 1, 2, "authorship", password_of("dan"))
    # It is rejected, which takes a reason, and amended again.
    day.sign("07:48", "aqua", "fay", 1, 2, "rejection", password_of("fay"), refused=47)
    assert day.sign("07:48", "aqua", "fay", 1, 2, "rejection", password_of("fay"), reason="the scale has two")["state"] == "rejected"
    day.ask("07:50", "aqua", "dan", "amend", 1, "as the scale has it", ("lead", "7.52", "mg/L"), ("note", "kept cold", ""))
    day.sign("07:51", "aqua", "dan", 1, 3, "authorship", password_of("dan"))
    assert day.sign("07:52", "aqua", "eve", 1, 3, "review", password_of("eve"), "eve")["state"] == "released"


def third_signature(day):
    # A record of the form that wants an approval: it is signed when nothing that is required is missing.
    day.ask("07:53", "aqua", "dan", "record", "drinking", "S1")
    day.ask("07:53", "aqua", "dan", "entry", 2, "lead", "<0.05", "mg/L", None)
    day.sign("07:54", "aqua", "dan", 2, 1, "authorship", password_of("dan"), refused=51)
    day.ask("07:54", "aqua", "dan", "entry", 2, "taken", "2026-03-01", "", None)
    day.ask("07:54", "aqua", "dan", "entry", 2, "colour", "none", "", None)
    day.ask("07:54", "aqua", "dan", "entry", 2, "clear", "yes", "", None)
    day.sign("07:55", "aqua", "dan", 2, 1, "authorship", password_of("dan"))
    # Three persons: the author, the reviewer, and the manager who approves.
    day.ask("07:55", "aqua", "gus", "open", "gus", password_of("gus"))
    day.sign("07:55", "aqua", "gus", 2, 1, "approval", password_of("gus"), "gus", refused=56)
    assert day.sign("07:56", "aqua", "eve", 2, 1, "review", password_of("eve"))["state"] == "reviewed"
    assert day.sign("07:57", "aqua", "gus", 2, 1, "approval", password_of("gus"), "gus")["state"] == "released"


def reading(day):
    # What stands can be read by those whose role allows it; persons and trail by the inspector too.
    day.ask("07:58", "aqua", "fay", "read record", 1)
    for version in (1, 2, 3):
        day.ask("07:58", "aqua", "fay", "read version", 1, version)
    day.ask("07:58", "aqua", "fay", "read version", 2, 1)
    day.ask("07:58", "aqua", "fay", "records", 1, 100)
    day.ask("07:58", "aqua", "fay", "trail", 1, 100, refused=24)
    day.ask("07:58", "aqua", "fay", "copy", 1, 100, refused=24)
    # The inspector comes in again too.
    day.ask("07:59", "aqua", "hal", "persons", refused=22)
    day.ask("07:59", "aqua", "hal", "open", "hal", password_of("hal"))
    day.ask("07:59", "aqua", "hal", "persons")
    day.ask("07:59", "aqua", "hal", "trail", 1, 100)
    # What is taken along is a copy, which anybody can check.
    assert day.ask("07:59", "aqua", "hal", "copy", 1, 100).count("\nversion,") == 4
    day.ask("07:59", "aqua", "hal", "copy", 2, 2)


def accounts(day):
    # The fifth failed password locks an account and closes its sessions; an administrator unlocks it.
    for second in range(5):
        day.ask(f"08:00:0{second}", "aqua", "hal twice", "open", "hal", "hal forgets it again", refused=20)
    day.ask("08:01", "aqua", "hal", "persons", refused=22)
    day.ask("08:01", "aqua", "hal twice", "open", "hal", password_of("hal"), refused=20)
    day.ask("08:02", "aqua", "ann", "open", "ann", password_of("ann"))
    day.ask("08:02", "aqua", "ann", "unlock", "hal")
    day.ask("08:03", "aqua", "hal", "open", "hal", password_of("hal"))
    # Roles are set anew, and a person is retired, whose code is never given again.
    day.ask("08:04", "aqua", "ann", "roles", "eve", "analyst reviewer manager")
    day.ask("08:05", "aqua", "ann", "retire", "fay")
    day.ask("08:05", "aqua", "fay", "records", 1, 10, refused=22)
    day.ask("08:06", "aqua", "ann", "enrol", "fay", "Fay Furth", "reviewer", refused=27)
    # The trail has all of it, and what was refused for a password.
    day.ask("08:07", "aqua", "hal", "trail", 1, 100)
    # The clock of one laboratory is behind; in the other one the same moment serves.
    day.ask("08:00", "aqua", "dan", "records", 1, 10, refused=41)
    day.ask("08:00", "brick", "max", "open", "max", password_of("max"))
    day.ask("08:00", "brick", "max", "trail", 1, 100)
    # The day ends.
    for lab, who in (("aqua", "dan"), ("aqua", "ann"), ("aqua", "hal"), ("brick", "max")):
        day.ask("08:08", lab, who, "close")
    day.ask("08:08", "aqua", "dan", "records", 1, 10, refused=22)


def whole_day(day=None):
    day = day or Day()
    for part in (founding, enrolment, forms, first_record, amendment, third_signature, reading, accounts):
        part(day)
    return day


def main(words):
    if words in (["-h"], ["--help"]):
        print(__doc__.strip())
        return
    if words not in ([], ["--check"], ["--answers"]):
        print("day.py: the arguments are '[--check | --answers]'; '--help' says more", file=sys.stderr)
        sys.exit(2)
    day, path = whole_day(), f"{HERE}/day.events"
    if words == ["--answers"]:
        sys.stdout.buffer.write(b"".join(day.answers))
    elif words == ["--check"]:
        if open(path, "rb").read() != b"".join(day.events):
            sys.exit("examples/day.events isn't as examples/day.py writes it")
        print(f"{len(day.events)} events")
    else:
        open(path, "wb").write(b"".join(day.events))


if __name__ == "__main__":
    main(sys.argv[1:])
