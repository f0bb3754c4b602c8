"""Streams of events for `labdesk replay`, and what each event must be answered: by the laboratory of tests/model/laboratory.py, which is
no part of the program, and by docs/HTTP.md.
"""
import email.utils
import functools
import json
import re

import laboratory
from laboratory import Machine, Refused, body, digest_of, found, token_of

# The refusals that a reply can bear, by their status.
STATUSES = {
    400: "1 bad_name 3 no_fields 4 key_twice 5 too_many_fields 6 bad_field 7 no_such_field 8 bad_value 9 wrong_unit 10 out_of_range "
         "25 bad_password 47 reason_wanted 80 bad_head 85 short_body 88 bad_body",
    401: "20 credentials 22 no_session",
    403: "23 password_due 24 role_wanted 29 own_issue 31 same_person 54 own_work 55 not_author 57 code_wanted",
    404: "33 no_such_person 40 no_such_lab 42 no_such_form 44 no_such_record 45 no_such_version 86 no_route",
    405: "87 method", 411: "83 length_wanted", 413: "84 body_too_long", 431: "81 head_too_long", 501: "82 transfer_coding",
    409: "26 same_password 27 code_taken 28 lab_full 30 issue_open 32 no_issue 43 record_exists 46 not_open 48 nothing_altered "
         "49 not_altered 50 amendment_open 51 entries_missing 52 stale_digest 53 already_signed 56 not_signed 58 approval_not_wanted",
    503: "21 random_repeated 41 clock_behind 63 storage 90 memory",
}
WORDS = {int(number): word for told in STATUSES.values() for number, word in re.findall(r"(\d+) (\w+)", told)}
STATUS = {int(number): status for status, told in STATUSES.items() for number in re.findall(r"\d+", told)}

PHRASES = {200: "OK", 400: "Bad Request", 401: "Unauthorized", 403: "Forbidden", 404: "Not Found", 405: "Method Not Allowed",
           409: "Conflict", 411: "Length Required", 413: "Payload Too Large", 431: "Request Header Fields Too Large",
           501: "Not Implemented", 503: "Service Unavailable"}

# What is posted where, as tests/model/laboratory.py names it, and the members of the body in the order of its words.
POSTED = {
    "/open": ("open", "code password"), "/close": ("close", ""), "/password": ("password", "old new"),
    "/persons": ("enrol", "code name roles"), "/issue": ("issue", "code"), "/confirm": ("confirm", "code"),
    "/roles": ("roles", "code roles"), "/retire": ("retire", "code"), "/unlock": ("unlock", "code"),
    "/forms": ("form", "form approval fields"), "/records": ("record", "form sample"),
    "/entries": ("entry", "record key value unit reason"), "/amendments": ("amend", "record reason altered"),
    "/signatures": ("sign", "record version digest meaning password code reason"),
}
GOT = {
    "": "card", "/persons": "persons", r"/forms/(\w+)/(\d+)": "read form", r"/records/(\d+)": "read record",
    r"/records/(\d+)/versions/(\d+)": "read version", r"/records\?from=(\d+)&to=(\d+)": "records",
    r"/trail\?from=(\d+)&to=(\d+)": "trail", r"/copy\?from=(\d+)&to=(\d+)": "copy",
}

# Who founds a laboratory, and two fields of a form.
FOUNDERS = [("ann", "Ann Ames", "correct horse 1"), ("bob", "Bob Bell", "correct horse 2"), ("cid", "Cid Cole", "correct horse 3")]
LEAD = {"key": "lead", "label": "Lead", "required": True, "kind": "number", "unit": "mg/L", "decimals": 2, "min": "0"}
NOTE = {"key": "note", "label": "Note", "required": False, "kind": "text", "size": 200}

# Many cases begin alike, and their passwords are hashed once.
laboratory.verifier = functools.lru_cache(None)(laboratory.verifier)
laboratory.verifies = functools.lru_cache(None)(laboratory.verifies)


def compact(value):
    return json.dumps(value, separators=(",", ":"), ensure_ascii=False)


def lines(*head, rest=b""):
    """The bytes of a request: the lines of its head, and what comes behind it."""
    return "".join(one + "\r\n" for one in (*head, "")).encode() + rest


def request_of(lab, method, place, content=None, token=None):
    head = [f"{method} /labs/{lab}{place} HTTP/1.1", "Host: d"]
    if token is not None:
        head.append("Authorization: LabSession " + token_of(token).hex())
    if content is not None:
        head.append(f"Content-Length: {len(content.encode())}")
    return lines(*head, rest=(content or "").encode())


def reply_of(status, moment, text, allow=None):
    further = {401: "WWW-Authenticate: LabSession\r\n", 405: f"Allow: {allow}\r\n"}.get(status, "")
    return (f"HTTP/1.1 {status} {PHRASES[status]}\r\nDate: {email.utils.formatdate(moment, usegmt=True)}\r\n"
            f"Content-Type: application/json\r\nContent-Length: {len(text.encode())}\r\nConnection: close\r\n{further}\r\n"
            f"{text}").encode()


def posted(place, members):
    """The command of a body, and its words."""
    command, names = POSTED[place]
    words = [members.get(name) for name in names.split()]
    if command in ("enrol", "roles"):
        words[-1] = " ".join(words[-1])
    if command == "form":
        code, approval, fields = words
        words = [code, bool(approval), *fields]
    if command == "amend":
        words[2:] = [(one["key"], one["value"], one["unit"]) for one in words[2]]
    return command, words


def got(place):
    for pattern, command in GOT.items():
        if match := re.fullmatch(pattern, place):
            return command, [int(word) if word.isdigit() else word for word in match.groups()]
    raise ValueError(place)


def split(answers):
    """The answers of a replay, one after the other."""
    at = 0
    while at < len(answers):
        end = answers.find(b"\n", at) + 1 or len(answers)
        if answers.startswith(b"HTTP/", at) and (length := re.search(rb"\r\nContent-Length: (\d+)\r\n.*?\r\n\r\n", answers[at:], re.S)):
            end = at + length.end() + int(length[1])
        yield answers[at:end]
        at = end


def is_wanted(members, text, wants):
    if wants is ...:
        return True
    if isinstance(wants, str):
        return text == wants
    wanted = {"number": wants} if isinstance(wants, int) else wants or {}
    return ("error" in members) == ("number" in wanted) and all(members.get(name) == value for name, value in wanted.items())


class Stream:
    """Events, each with its answer; the laboratories after them; whose passwords are which, and which words opened whose session.

    What a request should come to stands beside it in `wants`: the number of a refusal, members of the reply, its whole body as a
    text, or nothing, which is any reply that is no refusal; `...` is any answer at all. It is held against the laboratory here,
    before any program is asked."""

    def __init__(self):
        self.events, self.answers, self.numbers = [], [], set()
        self.labs, self.passwords, self.tokens, self.reader = {}, {}, {}, None
        self.next_word, self.status, self.told = 1_000, 0, b""

    def words(self):
        """The first of the eight words of a tick. No two events share one unless they say so."""
        self.next_word += 8
        return self.next_word

    def add(self, line, content, answer):
        self.events.append(line.encode() + b"\n" + content)
        self.answers.append(answer)

    def found(self, moment, lab, name, founders, words=None, wants=None):
        """A founding by three founders: code, name and password of each."""
        words = words or self.words()
        persons = [dict(zip(("code", "name", "password"), one)) for one in founders]
        content = compact({"founders": persons, "name": name}).encode()
        assert wants == (64 if lab in self.labs else None)
        if wants is None:
            self.labs[lab] = found(lab, moment, words, name, founders)
            self.passwords.update(((lab, code), password) for code, _, password in founders)
        answer = f"founded {lab}\n" if wants is None else f"refused {wants} lab_exists\n"
        self.add(f"found {lab} {moment} {words} {len(content)}", content, answer.encode())

    def call(self, moment, request, status, text, words=None, allow=None):
        self.add(f"call {moment} {words or self.words()} {len(request)}", request, reply_of(status, moment, text, allow))

    def refuse(self, moment, request, number, allow=None):
        """A request that is refused for its bytes."""
        self.numbers.add(number)
        self.call(moment, request, STATUS[number], body(error=WORDS[number], number=number), allow=allow)

    def ask(self, moment, lab, token, command, words, tick, request, wants):
        tick = tick or self.words()
        status = 200
        try:
            if lab not in self.labs:
                raise Refused(40)
            text = Machine(self.labs[lab], moment, tick).run(token, command, *words)[1]
        except Refused as fault:
            status = STATUS[fault.number]
            further = {laboratory.FURTHER[fault.number]: fault.tells} if fault.number in laboratory.FURTHER else {}
            text = body(error=WORDS[fault.number], number=fault.number, **further)
        members = json.loads(text)
        assert is_wanted(members, text, wants), f"{moment} {command} {words}: {text}, where {wants} is wanted"
        if "error" in members:
            self.numbers.add(members["number"])
        self.call(moment, request, status, text, tick)
        return members

    def get(self, moment, who, place, wants=None, lab="aqua", request=None):
        token = self.tokens.get((lab, who))
        request = request or request_of(lab, "GET", place, None, token)
        return self.ask(moment, lab, token, *got(place), None, request, wants)

    def copy(self, moment, who, first, last, lab="aqua", words=None, content=None):
        """A copy that is given."""
        words, token = words or self.words(), self.tokens[lab, who]
        text = Machine(self.labs[lab], moment, words).run(token, "copy", first, last)[1]
        request = request_of(lab, "GET", f"/copy?from={first}&to={last}", content, token)
        self.add(f"call {moment} {words} {len(request)}", request, reply_of(200, moment, text).replace(b"application/json", b"text/csv", 1))

    def post(self, moment, who, place, wants=None, lab="aqua", words=None, request=None, **members):
        """A body of these members. One that is none is left out."""
        members = {name: value for name, value in members.items() if value is not None}
        return self.post_text(moment, who, place, compact(members), wants, lab, words, request)

    def post_text(self, moment, who, place, text, wants=None, lab="aqua", words=None, request=None):
        """A body as it is written, which is one of its form."""
        token = None if place == "/open" else self.tokens.get((lab, who))
        request = request or request_of(lab, "POST", place, text, token)
        reply = self.ask(moment, lab, token, *posted(place, json.loads(text)), words, request, wants)
        return reply

    def open(self, moment, code, wants=None, password=None, who=None, lab="aqua", words=None, request=None):
        """Opens a session for somebody, with their own password unless another is given. It is named `who` from then on."""
        words = words or self.words()
        password = self.passwords[lab, code] if password is None else password
        reply = self.post(moment, None, "/open", wants, lab, words, request, code=code, password=password)
        if "token" in reply:
            self.tokens[lab, who or code] = words
        return reply

    def change(self, moment, who, new, code=None, lab="aqua"):
        """Changes the password of who has that session."""
        code = code or who
        reply = self.post(moment, who, "/password", lab=lab, old=self.passwords[lab, code], new=new)
        self.passwords[lab, code] = new
        return reply

    def digest(self, record, version, lab="aqua"):
        of = self.labs[lab].records[record - 1]
        return digest_of(self.labs[lab], of, of.versions[version - 1])

    def sign(self, moment, who, record, version, meaning, wants=None, lab="aqua", digest=None, password=None, **members):
        """A signature under a version as it is at that moment, with the signer's own password, unless others are given."""
        return self.post(moment, who, "/signatures", wants, lab, record=record, version=version,
                         digest=digest or self.digest(record, version, lab), meaning=meaning,
                         password=password or self.passwords[lab, who], **members)

    def read_all(self, code, lab="aqua"):
        """All that can be read of a laboratory, by somebody who may read it and comes in for it, at its last moment."""
        self.open(self.labs[lab].last, code, who="reader", lab=lab)
        self.read_each("reader", lab)

    def read_each(self, who, lab="aqua"):
        """The same in a session that is there."""
        kept = self.labs[lab]
        moment = kept.last
        self.get(moment, who, "/persons", lab=lab)
        for form in kept.forms:
            self.get(moment, who, f"/forms/{form.code}/{form.version}", lab=lab)
        for first in range(1, len(kept.records) + 1, 100):
            self.get(moment, who, f"/records?from={first}&to={first + 99}", lab=lab)
        for record in kept.records:
            self.get(moment, who, f"/records/{record.number}", lab=lab)
            for version in record.versions:
                self.get(moment, who, f"/records/{record.number}/versions/{version.number}", lab=lab)
        for first in range(1, len(kept.trail) + 1, 100):
            self.get(moment, who, f"/trail?from={first}&to={first + 99}", lab=lab)
