"""A laboratory as docs/LABORATORY.md, docs/PERSONS.md and docs/RECORDS.md describe it, written apart from the program: what each
command is answered, and what the laboratory is like afterwards. Hashes are those of Python's hashlib."""
import contextlib
import copy
import csv
import datetime
import functools
import hashlib
import io
import json
import re

# The rounds of a verifier as it is made, and those of one that was made before, which is tried in a tenth of the time.
ROUNDS, OLD_ROUNDS = 100_000, 10_000
ROLES = ["analyst", "reviewer", "manager", "administrator", "inspector"]
WORDS = {
    7: "no_such_field", 8: "bad_value", 9: "wrong_unit", 10: "out_of_range",
    20: "credentials", 21: "random_repeated", 22: "no_session", 23: "password_due", 24: "role_wanted",
    25: "bad_password", 26: "same_password", 27: "code_taken", 28: "lab_full", 29: "own_issue",
    30: "issue_open", 31: "same_person", 32: "no_issue", 33: "no_such_person",
    41: "clock_behind", 42: "no_such_form", 43: "record_exists", 44: "no_such_record",
    45: "no_such_version", 46: "not_open", 47: "reason_wanted", 48: "nothing_altered",
    49: "not_altered", 50: "amendment_open", 51: "entries_missing", 52: "stale_digest",
    53: "already_signed", 54: "own_work", 55: "not_author", 56: "not_signed", 57: "code_wanted",
    58: "approval_not_wanted",
}
# Each rule, and who may do it; none is anybody.
RULES = {
    "close": ("P1", None), "password": ("P2", None), "enrol": ("P3", "A"), "persons": ("P4", "AMI"),
    "issue": ("P5", "A"), "confirm": ("P6", "A"), "roles": ("P7", "A"), "retire": ("P8", "A"),
    "unlock": ("P9", "A"), "form": ("P10", "M"), "read form": ("P11", "NRMI"), "record": ("P12", "N"),
    "entry": ("P13", "N"), "amend": ("P14", "N"), "authorship": ("P15", "N"), "review": ("P16", "R"),
    "rejection": ("P17", "RM"), "read record": ("P18", "NRMI"), "read version": ("P19", "NRMI"),
    "records": ("P20", "NRMI"), "trail": ("P21", "AMI"), "copy": ("P22", "MI"), "approval": ("P23", "M"),
}
LETTERS = dict(zip("NRMAI", ROLES))
KIND_MEMBERS = {"number": ["unit", "decimals", "min", "max"], "text": ["size"], "choice": ["choices"], "date": [], "yesno": []}
FURTHER = {24: "rule", 43: "record", 49: "key", 52: "digest"}


class Refused(Exception):
    def __init__(self, number, tells="-"):
        self.number, self.tells = number, tells


class Thing:
    def __init__(self, **fields):
        self.__dict__.update(fields)


def words_of(first):
    """The eight words of a tick: those that are given, or the first one and those after it."""
    return list(first) if isinstance(first, tuple) else [(first + i) % 2**64 for i in range(8)]


def pair(words, at):
    return words[at].to_bytes(8, "big") + words[at + 1].to_bytes(8, "big")


def token_of(first):
    return b"".join(w.to_bytes(8, "big") for w in words_of(first)[:4])


def sha(data):
    return hashlib.sha256(data).hexdigest()


def verifier(password, salt, rounds=ROUNDS):
    made = hashlib.pbkdf2_hmac("sha256", password.encode(), salt, rounds)
    return (salt.hex(), rounds, made.hex())


@contextlib.contextmanager
def old_rounds():
    """Verifiers are made here as they were before: where a test begins in the middle and isn't about the rounds."""
    global verifier
    whole, verifier = verifier, functools.partial(verifier, rounds=OLD_ROUNDS)
    try:
        yield
    finally:
        verifier = whole


def verifies(kept, password):
    salt, rounds, made = kept
    return hashlib.pbkdf2_hmac("sha256", password.encode(), bytes.fromhex(salt), rounds).hex() == made


def printed(seconds):
    moment = datetime.datetime(1970, 1, 1) + datetime.timedelta(seconds=seconds)
    return moment.strftime("%Y-%m-%dT%H:%M:%SZ")


def item(text):
    return str(len(text.encode())).encode() + b":" + text.encode() + b"\n"


# ---- what is told of a laboratory, a line for each thing that it keeps

def line(*words):
    return "".join(f"{word}|" for word in words)


def dash(value):
    return "-" if value is None else value


def roles_text(roles):
    return "".join(role + " " for role in ROLES if role in roles)


def known(kept):
    return [kept[0], kept[1], kept[2]]


def person_line(p):
    if p.password is None:
        password = ["unset"]
    elif p.password[0] == "chosen":
        password = ["chosen", p.password[2]] + known(p.password[1])
    else:
        password = ["one-time", p.password[3]] + known(p.password[1]) + known(p.password[2])
    ask = ["no ask"] if p.ask is None else ["ask", p.ask[0], p.ask[1]] + known(p.ask[2])
    return line("person", p.code, p.name, roles_text(p.roles), "retired" if p.retired else "here",
                p.failures, dash(p.locked), *password, *ask)


def session_line(s):
    return line("session", s.number, s.person, s.token, s.opened, s.last,
                "closed" if s.closed else "open", "signed" if s.signed else "unsigned")


def field_words(f):
    kind = f["kind"]
    data = {"number": lambda: [f["unit"], f["decimals"], dash(f.get("min")), dash(f.get("max"))],
            "text": lambda: [f["size"]], "choice": lambda: f["choices"],
            "date": list, "yesno": list}[kind]()
    return [f["key"], f["label"], "required" if f["required"] else "optional", kind, *data]


def form_words(f):
    return [f.code, f.version, "approval" if f.approval else "no approval",
            *[word for field in f.fields for word in field_words(field)]]


def version_lines(record, v):
    at = f"{record.number}|{v.number}"
    amends = ["first"] if v.previous is None else ["amends", v.previous, v.reason]
    lines = [line("version", at, f"format {v.format} approval" if v.approval else f"format {v.format}", *amends, v.opener, v.opened)]
    for i, r in enumerate(v.rows):
        lines.append(line("row", at, i + 1, *row_words(r)))
    for i, s in enumerate(v.signatures):
        lines.append(line("signature", at, i + 1, *signature_words(s)))
    return lines


def row_words(r):
    return [r.key, r.value, r.unit, r.person, r.moment, dash(r.reason)]


def signature_words(s):
    return [s.person, s.name, s.meaning, s.reason, s.moment, s.digest, s.seal]


def trail_line(t):
    return line("trail", t.number, t.moment, dash(t.person), t.action, t.subject)


# ---- replies: a line for what is wanted of each, by hand, and the body, as JSON with its members in order


def body(**members):
    return json.dumps(members, sort_keys=True, separators=(",", ":"), ensure_ascii=False)


def told(shown, **members):
    return [shown, body(**members)]


def roles_list(roles):
    return [role for role in ROLES if role in roles]


def field_members(f):
    names = ["key", "kind", "label", "required", *KIND_MEMBERS[f["kind"]]]
    return {name: f[name] for name in names if f.get(name) is not None}


def row_members(r):
    return {"key": r.key, "moment": printed(r.moment), "person": r.person, "reason": r.reason or "", "unit": r.unit, "value": r.value}


def signature_members(one):
    return {"meaning": one.meaning, "moment": printed(one.moment), "name": one.name, "person": one.person,
            "reason": one.reason, "seal": one.seal}


def about(r):
    return {"form": r.form.code, "form_version": r.form.version, "record": r.number, "sample": r.sample}


# ---- what a laboratory keeps


def set_counts(lab, **counts):
    """Gives a laboratory so many sessions, records or rows of the trail, of which those that there are so far are a part."""
    lab.further = {name: count - len(getattr(lab, name)) for name, count in counts.items()}


def count_of(lab, name):
    return len(getattr(lab, name)) + getattr(lab, "further", {}).get(name, 0)


def lab_lines(lab):
    lines = [line("lab", lab.code, lab.name, lab.last, lab.strays, len(lab.persons), len(lab.sessions),
                  len(lab.forms), len(lab.records), len(lab.trail))]
    lines += [person_line(p) for p in lab.persons]
    lines += [session_line(s) for s in lab.sessions]
    lines += [line("form", *form_words(f)) for f in lab.forms]
    for r in lab.records:
        lines.append(line("record", r.number, r.sample, *form_words(r.form)))
        for v in r.versions:
            lines += version_lines(r, v)
    return lines + [trail_line(t) for t in lab.trail]


# ---- the rules

def found(code, moment, first, name, founders):
    words = words_of(first)
    persons = [Thing(code=c, name=n, roles={"administrator"}, retired=False, failures=0, locked=None,
                     password=("chosen", verifier(p, pair(words, 2 * i)), moment), ask=None)
               for i, (c, n, p) in enumerate(founders)]
    lab = Thing(code=code, name=name, last=moment, strays=0, persons=sorted(persons, key=lambda p: p.code.encode()),
                sessions=[], forms=[], records=[], trail=[])
    lab.trail.append(Thing(number=1, moment=moment, person=None, action="found", subject=code))
    return lab


def state_of(record, v):
    meanings = tuple(s.meaning for s in v.signatures)
    return {
        (): "open",
        ("authorship",): "signed",
        ("authorship", "review"): "reviewed" if record.form.approval else "released",
        ("authorship", "rejection"): "rejected",
        ("authorship", "review", "approval"): "released",
        ("authorship", "review", "rejection"): "rejected",
    }[meanings]


def text_of(lab, record, v):
    """The text of a version, in bytes. One of format 1 doesn't say whether an approval is wanted."""
    parts = [f"labrecord {v.format}", lab.code, str(record.number), str(v.number), record.form.code, str(record.form.version)]
    parts += ["yes" if v.approval else "no"] if v.format == 2 else []
    parts += [record.sample, v.previous or "-", v.reason or "", v.opener, printed(v.opened), str(len(v.rows))]
    for r in v.rows:
        parts += [r.key, r.value, r.unit, r.person, printed(r.moment), r.reason or ""]
    return b"".join(map(item, parts))


def digest_of(lab, record, v):
    return sha(text_of(lab, record, v))


def values_of(record, n):
    values = {}
    for v in record.versions[:n]:
        for r in v.rows:
            values[r.key] = r
    return values


def altered(record, n):
    old = {k: r.value for k, r in values_of(record, n - 1).items()} if n > 1 else {}
    new = {k: r.value for k, r in values_of(record, n).items()}
    return [f["key"] for f in record.form.fields if f["key"] in new and new[f["key"]] != old.get(f["key"])]


def amount(text):
    text = text.lstrip("<>")
    sign = -1 if text.startswith("-") else 1
    whole, _, rest = text.lstrip("+-").partition(".")
    return sign * int(whole + rest.ljust(6, "0"))


def is_date(text):
    try:
        datetime.date(*map(int, text.split("-")))
    except ValueError:
        return False
    return True


def read_value(form, key, value, unit):
    field = next((f for f in form.fields if f["key"] == key), None)
    if field is None:
        raise Refused(7)
    kind = field["kind"]
    if kind == "number":
        decimals = field["decimals"]
        rest = rf"(\.[0-9]{{1,{decimals}}})?" if decimals else ""
        good = re.fullmatch(rf"[<>]?[+-]?[0-9]{{1,15}}{rest}", value)
    elif kind == "text":
        good = 1 <= len(value.encode()) <= field["size"] and not re.search("[\0-\x09\x0b-\x1f\x7f]", value)
    elif kind == "choice":
        good = value in field["choices"]
    elif kind == "yesno":
        good = value in ("yes", "no")
    else:
        good = re.fullmatch(r"[0-9]{4}-[0-9]{2}-[0-9]{2}", value) and is_date(value)
    if not good:
        raise Refused(8)
    if unit != field.get("unit", ""):
        raise Refused(9)
    if kind == "number":
        if field.get("min") is not None and amount(value) < amount(field["min"]):
            raise Refused(10)
        if field.get("max") is not None and amount(value) > amount(field["max"]):
            raise Refused(10)


def is_locked(p, now):
    return p.locked is not None and now - p.locked < 1800


def is_due(p, now):
    if p.password is None or p.password[0] == "one-time":
        return True
    return now // 86400 - p.password[2] // 86400 > 90


def accepts(p, password, now):
    if p.password[0] == "chosen":
        return verifies(p.password[1], password)
    if now - p.password[3] > 604800 or len(password.encode()) != 64:
        return False
    return verifies(p.password[1], password[:32]) and verifies(p.password[2], password[32:])


class Machine:
    """One instruction at a tick, on a laboratory that it changes."""

    def __init__(self, lab, now, first):
        self.lab, self.now, self.words = lab, now, words_of(first)
        self.persons, self.sessions, self.records, self.rows = (count_of(lab, name) for name in ("persons", "sessions", "records", "trail"))

    def person(self, code):
        return next((p for p in self.lab.persons if p.code == code), None)

    def tell(self, person, action, subject):
        if self.rows < 1_000_000_000:
            self.rows += 1
            self.lab.trail.append(Thing(number=self.rows, moment=self.now, person=person, action=action, subject=str(subject)))

    def room(self):
        if self.rows >= 1_000_000_000:
            raise Refused(28)

    def close_sessions(self, code, but=None):
        for s in self.lab.sessions:
            if s.person == code and s.number != but:
                s.closed = True

    def try_password(self, p, good, occasion):
        """Counts a failed password; an accepted one is cleared by `accept` once nothing else refuses."""
        if p is None or p.retired or p.password is None:
            self.lab.strays = min(self.lab.strays + 1, 2**63 - 1)
            raise Refused(20)
        if is_locked(p, self.now):
            self.tell(p.code, "refuse", occasion)
            raise Refused(20)
        if good():
            return
        if p.locked is not None:
            p.locked, p.failures = None, 0
        p.failures += 1
        self.tell(p.code, "refuse", occasion)
        if p.failures == 5:
            p.locked = self.now
            self.close_sessions(p.code)
            self.tell(p.code, "lock", p.code)
        raise Refused(20)

    def accept(self, p):
        p.failures, p.locked = 0, None

    def run(self, token, command, *args):
        lab, now = self.lab, self.now
        if now < lab.last:
            raise Refused(41)
        if command == "card":
            return told(line("card", lab.code, lab.name), lab=lab.code, name=lab.name)
        if command == "open":
            return self.open(*args)
        s = None if token is None else next((s for s in lab.sessions if s.token == sha(token_of(token))), None)
        if s is None or s.closed or now - s.last > 900 or now - s.opened > 28800:
            raise Refused(22)
        s.last = lab.last = now
        p = self.person(s.person)
        rule, open_to = RULES[args[3] if command == "sign" else command]
        if command not in ("close", "password") and is_due(p, now):
            raise Refused(23)
        if open_to is not None and not any(LETTERS[x] in p.roles for x in open_to):
            raise Refused(24, rule)
        return getattr(self, "do_" + command.replace(" ", "_"))(p, s, *args)

    def open(self, code, password):
        p = self.person(code)
        try:
            self.try_password(p, lambda: accepts(p, password, self.now), "open")
        except Refused:
            self.lab.last = self.now
            raise
        token = b"".join(w.to_bytes(8, "big") for w in self.words[:4])
        if any(s.token == sha(token) for s in self.lab.sessions):
            raise Refused(21)
        if self.sessions >= 1_000_000_000:
            raise Refused(28)
        self.room()
        self.accept(p)
        number = self.sessions + 1
        self.lab.sessions.append(Thing(number=number, person=code, token=sha(token), opened=self.now, last=self.now,
                                       closed=False, signed=False))
        self.tell(code, "open", number)
        self.lab.last = self.now
        due = is_due(p, self.now)
        return told(line("opened", number, token.hex(), "due" if due else "not due"), session=number, token=token.hex(), due=due)

    def do_close(self, p, s):
        self.room()
        s.closed = True
        self.tell(p.code, "close", s.number)
        return told(line("closed", s.number), session=s.number)

    def do_password(self, p, s, old, new):
        self.try_password(p, lambda: accepts(p, old, self.now), "password")
        if not 12 <= len(new.encode()) <= 128:
            raise Refused(25)
        if new == old:
            raise Refused(26)
        self.room()
        self.accept(p)
        p.password = ("chosen", verifier(new, pair(self.words, 4)), self.now)
        s.signed = False
        self.close_sessions(p.code, s.number)
        self.tell(p.code, "password", p.code)
        return told(line("password changed", self.now), changed=printed(self.now))

    def do_enrol(self, p, s, code, name, roles):
        if self.person(code) is not None:
            raise Refused(27)
        if self.persons >= 500:
            raise Refused(28)
        self.room()
        one = Thing(code=code, name=name, roles=set(roles.split()), retired=False, failures=0, locked=None, password=None, ask=None)
        self.lab.persons.append(one)
        self.lab.persons.sort(key=lambda p: p.code.encode())
        self.tell(p.code, "enrol", (code + " " + roles_text(one.roles)).rstrip())
        return told(line("person done", code), code=code)

    def do_persons(self, p, s):
        return told("persons|", persons=[
            {"code": o.code, "locked": is_locked(o, self.now), "name": o.name, "retired": o.retired, "roles": roles_list(o.roles)}
            for o in self.lab.persons])

    def other(self, p, code):
        o = self.person(code)
        if o is None or o.retired:
            raise Refused(33)
        if o is p:
            raise Refused(29)
        return o

    def do_issue(self, p, s, code):
        o = self.other(p, code)
        if o.ask is not None and o.ask[0] != p.code and self.now - o.ask[1] <= 604800:
            raise Refused(30)
        self.room()
        half = pair(self.words, 0).hex()
        o.ask = (p.code, self.now, verifier(half, pair(self.words, 4)))
        self.tell(p.code, "issue", code)
        return told(line("half told", half), half=half)

    def do_confirm(self, p, s, code):
        o = self.other(p, code)
        if o.ask is None or self.now - o.ask[1] > 604800:
            raise Refused(32)
        if o.ask[0] == p.code:
            raise Refused(31)
        self.room()
        half = pair(self.words, 0).hex()
        o.password = ("one-time", o.ask[2], verifier(half, pair(self.words, 4)), self.now)
        o.ask = None
        self.close_sessions(code)
        self.tell(p.code, "confirm", code)
        return told(line("half told", half), half=half)

    def do_roles(self, p, s, code, roles):
        o = self.other(p, code)
        self.room()
        o.roles = set(roles.split())
        self.tell(p.code, "roles", (code + " " + roles_text(o.roles)).rstrip())
        return told(line("roles set", code, roles_text(o.roles)), code=code, roles=roles_list(o.roles))

    def do_retire(self, p, s, code):
        o = self.other(p, code)
        self.room()
        o.retired = True
        self.close_sessions(code)
        self.tell(p.code, "retire", code)
        return told(line("person done", code), code=code)

    def do_unlock(self, p, s, code):
        o = self.other(p, code)
        self.room()
        self.accept(o)
        self.tell(p.code, "unlock", code)
        return told(line("person done", code), code=code)

    def do_form(self, p, s, code, approval, *fields):
        last = next((f for f in reversed(self.lab.forms) if f.code == code), None)
        fields = copy.deepcopy(list(fields))
        if last is not None and last.fields == fields and last.approval == approval:
            raise Refused(48)
        version = 1 if last is None else last.version + 1
        if version > 99:
            raise Refused(28)
        self.room()
        self.lab.forms.append(Thing(code=code, version=version, approval=approval, fields=fields))
        self.lab.forms.sort(key=lambda f: (f.code.encode(), f.version))
        self.tell(p.code, "form", f"{code}/{version}")
        return told(line("form made", code, version), form=code, version=version)

    def do_read_form(self, p, s, code, version):
        f = next((f for f in self.lab.forms if f.code == code and f.version == version), None)
        if f is None:
            raise Refused(42)
        return told(line("form", *form_words(f)), approval=f.approval, fields=[field_members(one) for one in f.fields],
                    form=f.code, version=f.version)

    def do_record(self, p, s, form, sample):
        last = next((f for f in reversed(self.lab.forms) if f.code == form), None)
        if last is None:
            raise Refused(42)
        same = next((r for r in self.lab.records if r.form.code == form and r.sample == sample), None)
        if same is not None:
            raise Refused(43, same.number)
        if self.records >= 1_000_000:
            raise Refused(28)
        self.room()
        number = self.records + 1
        first = Thing(number=1, format=2, previous=None, reason=None, approval=last.approval, opener=p.code, opened=self.now, rows=[],
                      signatures=[])
        self.lab.records.append(Thing(number=number, form=last, sample=sample, versions=[first]))
        self.tell(p.code, "record", number)
        return told(line("record opened", number, 1), record=number, version=1)

    def record(self, number):
        r = next((r for r in self.lab.records if r.number == number), None)
        if r is None:
            raise Refused(44)
        return r

    def do_entry(self, p, s, number, key, value, unit, reason):
        r = self.record(number)
        v = r.versions[-1]
        if state_of(r, v) != "open":
            raise Refused(46)
        read_value(r.form, key, value, unit)
        if reason is None and key in values_of(r, v.number):
            raise Refused(47)
        if len(v.rows) >= 200:
            raise Refused(28)
        self.room()
        v.rows.append(Thing(key=key, value=value, unit=unit, person=p.code, moment=self.now, reason=reason))
        self.tell(p.code, "entry", f"{number}/{v.number}/{key}")
        digest = digest_of(self.lab, r, v)
        return told(line("entered", number, v.number, len(v.rows), digest), record=number, version=v.number, rows=len(v.rows),
                    digest=digest)

    def do_amend(self, p, s, number, reason, *items):
        r = self.record(number)
        v = r.versions[-1]
        if state_of(r, v) not in ("released", "rejected"):
            raise Refused(50)
        if reason is None:
            raise Refused(47)
        if not items:
            raise Refused(48)
        values = values_of(r, v.number)
        for key, value, unit in items:
            read_value(r.form, key, value, unit)
            if key in values and values[key].value == value:
                raise Refused(49, key)
        if v.number >= 99:
            raise Refused(28)
        self.room()
        rows = [Thing(key=k, value=t, unit=u, person=p.code, moment=self.now, reason=reason) for k, t, u in items]
        n = Thing(number=v.number + 1, format=2, previous=digest_of(self.lab, r, v), reason=reason, approval=r.form.approval,
                  opener=p.code, opened=self.now, rows=rows, signatures=[])
        r.versions.append(n)
        self.tell(p.code, "amend", f"{number}/{n.number}")
        digest = digest_of(self.lab, r, n)
        return told(line("amended", number, n.number, digest), record=number, version=n.number, digest=digest)

    def do_sign(self, p, s, number, version, digest, meaning, password, code, reason):
        if code is None and not s.signed:
            raise Refused(57)
        self.try_password(p, lambda: code in (None, p.code) and accepts(p, password, self.now), "sign")
        r = self.record(number)
        if not 1 <= version <= len(r.versions):
            raise Refused(45)
        v = r.versions[version - 1]
        if meaning == "approval" and not r.form.approval:
            raise Refused(58)
        state = state_of(r, v)
        if meaning == "authorship":
            if state != "open":
                raise Refused(53)
        elif state == "open":
            raise Refused(56)
        elif state in ("released", "rejected"):
            raise Refused(53)
        elif meaning == "review" and state == "reviewed":
            raise Refused(53)
        elif meaning == "approval" and state == "signed":
            raise Refused(56)
        now_digest = digest_of(self.lab, r, v)
        if digest != now_digest:
            raise Refused(52, now_digest)
        entered = any(row.person == p.code for row in v.rows)
        if meaning == "authorship":
            if not entered:
                raise Refused(55)
            values = values_of(r, version)
            if any(f["required"] and f["key"] not in values for f in r.form.fields):
                raise Refused(51)
            if version > 1 and not altered(r, version):
                raise Refused(48)
        else:
            if entered or (state == "reviewed" and v.signatures[1].person == p.code):
                raise Refused(54)
            if meaning == "rejection" and reason is None:
                raise Refused(47)
        self.room()
        why = reason if meaning == "rejection" else ""
        seal = sha(b"".join(map(item, [now_digest, self.lab.code, p.code, p.name, meaning, printed(self.now), why])))
        one = Thing(person=p.code, name=p.name, meaning=meaning, reason=why, moment=self.now, digest=now_digest, seal=seal)
        v.signatures.append(one)
        self.accept(p)
        s.signed = True
        self.tell(p.code, "sign", f"{number}/{version}/{meaning}")
        state = state_of(r, v)
        return told(line("signed", *signature_words(one), state), digest=now_digest, meaning=meaning, moment=printed(self.now),
                    name=p.name, seal=seal, state=state)

    def do_read_record(self, p, s, number):
        r = self.record(number)
        versions = [{"digest": digest_of(self.lab, r, v), "state": state_of(r, v), "version": v.number} for v in r.versions]
        return told(line("record", r.number, r.sample), current=r.versions[-1].number, versions=versions, **about(r))

    def do_read_version(self, p, s, number, version):
        r = self.record(number)
        if not 1 <= version <= len(r.versions):
            raise Refused(45)
        v = r.versions[version - 1]
        values = values_of(r, version)
        return told(
            line("version of", r.number, version), approval=r.form.approval, digest=digest_of(self.lab, r, v), format=v.format,
            moment=printed(v.opened), opener=v.opener, reason=v.reason or "", state=state_of(r, v), version=v.number,
            altered=altered(r, version), rows=[row_members(one) for one in v.rows],
            signatures=[signature_members(one) for one in v.signatures],
            values=[{"key": f["key"], "unit": values[f["key"]].unit, "value": values[f["key"]].value}
                    for f in r.form.fields if f["key"] in values], **about(r))

    def do_records(self, p, s, low, high):
        return told("records|", records=[
            {"current": r.versions[-1].number, "form": r.form.code, "record": r.number, "sample": r.sample,
             "state": state_of(r, r.versions[-1])} for r in self.lab.records if low <= r.number <= high])

    def do_trail(self, p, s, low, high):
        return told("trail|", trail=[
            {"action": t.action, "moment": printed(t.moment), "number": t.number, "person": t.person or "", "subject": str(t.subject)}
            for t in self.lab.trail if low <= t.number <= high])

    def do_copy(self, p, s, low, high):
        text = io.StringIO()
        csv.writer(text, lineterminator="\n").writerows(copy_rows(self.lab, low, high, p.code, self.now))
        return ["copied|", text.getvalue()]


# ---- the rows of a copy, by docs/COPIES.md

HEADER = "kind lab record version key value unit person name moment reason digest seal".split()


def copy_row(kind, lab, **fields):
    fields = {"kind": kind, "lab": lab.code, **fields}
    return [str(fields.get(name) or "") for name in HEADER]


def record_rows(lab, r):
    yield copy_row("record", lab, record=r.number, version=r.form.version, key=r.form.code, value=r.sample)
    for n, v in enumerate(r.versions, 1):
        yield copy_row("version", lab, record=r.number, version=n, key=v.format, value=state_of(r, v), person=v.opener,
                       name="approval" if v.approval else "", moment=printed(v.opened), reason=v.reason,
                       digest=digest_of(lab, r, v))
        for one in v.rows:
            yield copy_row("entry", lab, record=r.number, version=n, key=one.key, value=one.value, unit=one.unit, person=one.person,
                           moment=printed(one.moment), reason=one.reason)
        for one in v.signatures:
            yield copy_row("signature", lab, record=r.number, version=n, value=one.meaning, person=one.person, name=one.name,
                           moment=printed(one.moment), reason=one.reason, digest=one.digest, seal=one.seal)


def copy_rows(lab, first, last, person, moment):
    body = [one for r in lab.records if first <= r.number <= last for one in record_rows(lab, r)]
    counts = [str(sum(one[0] == kind for one in body)) for kind in ("record", "version", "entry", "signature")]
    yield HEADER
    yield copy_row("copy", lab, record=first, version=last, key="2", person=person, name=lab.name, moment=printed(moment))
    yield from body
    yield ["end", lab.code, *counts, *[""] * 7]


def refusal(refused):
    further = {FURTHER[refused.number]: refused.tells} if refused.number in FURTHER else {}
    return told(line("refused", refused.number, WORDS[refused.number], refused.tells), number=refused.number,
                error=WORDS[refused.number], **further)
