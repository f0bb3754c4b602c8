#!/usr/bin/env python3
"""A client of one laboratory, with nothing but Python's standard library. docs/CLIENT.md says why it does what it does.

    client.py URL LAB CODE records                            prints each record: number, form, sample, state
    client.py URL LAB CODE trail [AFTER]                      prints each row of the trail: number, moment, person, action, subject
    client.py URL LAB CODE released [AFTER]                   prints the versions that the trail's rows after AFTER released, with values
    client.py URL LAB CODE last records|trail                 prints the last number of a list
    client.py URL LAB CODE form FORM                          prints the newest version of a form, and its fields
    client.py URL LAB CODE record FORM SAMPLE                 opens a record, or finds the one that is there
    client.py URL LAB CODE enter RECORD KEY VALUE UNIT [WHY]  enters a value
    client.py URL LAB CODE sign RECORD VERSION MEANING [WHY]  shows a version, asks, and signs what was shown
    client.py URL LAB CODE copy FIRST LAST FILE               joins inspection copies of hundreds into one file

The script asks for the password at the terminal; without a terminal it reads it from the first line of standard input. The status is 0 if
the command was done, 1 if it was refused or certainly not done (for example, no server was reached), 2 if the command line is wrong, and
3 if nobody knows whether it was done. While the script waits, it prints a line on standard error.
"""
import contextlib
import getpass
import http.client
import json
import os
import re
import sys
import threading
import time
import urllib.parse

# Refused for these, a request changed nothing, and may be sent again as it was.
AGAIN = ("random_repeated", "short_body", "clock_behind")
# Refused for these, a request may have been done all the same.
UNSURE = ("storage", "memory")
PAGE, TRIES, PAUSE = 100, 4, 1.0
# The greatest number that anything has.
MOST = 1_000_000_000
# In seconds: how long a reply is waited for, until a connection and its TLS stand, and after how long a line says that the script waits.
PATIENCE, CONNECTING, QUIET = 120, 5, 10


class Refused(Exception):
    """A refusal: its status, its word and its number, and what it has besides."""

    def __init__(self, status, members):
        super().__init__(f"{status} {members}")
        self.status, self.word, self.members = status, members["error"], members


class Unknown(Exception):
    """The reply was lost, or was `storage` or `memory`: the command may have been done."""


class NotDone(Exception):
    """The command was certainly not done: no server was reached, or nginx refused the request without asking the server."""


def say(text):
    print(f"client.py: {text}", file=sys.stderr, flush=True)


def pause(attempt, why):
    """Waits before a request is sent again."""
    say(f"{why}: it is asked again after {PAUSE * (attempt + 1):g} s")
    time.sleep(PAUSE * (attempt + 1))


def connected(there):
    """A connection to a server. Until it stands, nothing of a request is sent."""
    kind = http.client.HTTPSConnection if there.scheme == "https" else http.client.HTTPConnection
    connection = kind(there.hostname, there.port, timeout=CONNECTING)
    try:
        connection.connect()
    except OSError as fault:
        connection.close()
        advice = "is the server running, and is its address right?"
        if there.scheme == "https" and not isinstance(fault, ConnectionRefusedError):
            advice = "is this the port of nginx, and does this machine know its certificate? The port of labdesk itself needs http://"
        raise NotDone(f"no connection to {there.scheme}://{there.netloc}: {fault or repr(fault)}; {advice}") from fault
    connection.sock.settimeout(PATIENCE)
    return connection


@contextlib.contextmanager
def saying_so():
    """While a reply is waited for, a line says so every few seconds."""
    is_over, begun = threading.Event(), time.monotonic()

    def watch():
        while not is_over.wait(QUIET):
            say(f"no reply for {time.monotonic() - begun:.0f} s; others may be served before, so {PATIENCE} s are waited for")

    threading.Thread(target=watch, daemon=True).start()
    try:
        yield
    finally:
        is_over.set()


def sent(url, method, path, token, body):
    """Sends a request once. Gives the status, the type and the bytes of the reply."""
    there = urllib.parse.urlsplit(url)
    fields = {} if token is None else {"Authorization": f"LabSession {token}"}
    text = None if body is None else json.dumps(body, ensure_ascii=False).encode()
    connection = connected(there)
    try:
        with saying_so():
            connection.request(method, there.path.rstrip("/") + path, text, fields)
            reply = connection.getresponse()
            return reply.status, reply.headers.get_content_type(), reply.read()
    except (OSError, http.client.HTTPException) as fault:
        raise Unknown(f"{method} {path}: {fault!r}") from fault
    finally:
        connection.close()


def not_the_laboratorys(method, place, status):
    """What a reply means that isn't the laboratory's: nginx gives a status of 400 to 499 without asking the server."""
    what = f"{method} {place}: status {status} isn't the laboratory's"
    if status == 429:
        return NotDone(f"{what}: nginx has too many requests just now; wait a minute, and ask once")
    return NotDone(f"{what}: is the address right?") if 400 <= status < 500 else Unknown(what)


def last_that(is_there):
    """The last number that is there, of numbers from 1 on without gaps, and 0 if there is no number: it is doubled, and then halved."""
    low, high = 0, 1
    while high <= MOST and is_there(high):
        low, high = high, 2 * high
    high = min(high, MOST + 1)
    while high - low > 1:
        middle = (low + high) // 2
        low, high = (middle, high) if is_there(middle) else (low, middle)
    return low


class Client:
    """A person's client. The password is a function, which is asked whenever a session has to be opened."""

    def __init__(self, url, lab, code, password):
        self.url, self.lab, self.code, self.password, self.token = url, lab, code, password, None
        self.is_reached = False

    # ---- requests

    def send_once(self, method, place, body, token):
        """Sends a request. Where the server was reached before, as before it is started anew, it is waited for."""
        for attempt in range(TRIES):
            try:
                replied = sent(self.url, method, f"/labs/{self.lab}{place}", token, body)
                self.is_reached = True
                return replied
            except NotDone as fault:
                if not self.is_reached or attempt == TRIES - 1:
                    raise
                pause(attempt, fault)
        return None

    def send(self, method, place, body=None, token=None):
        """Sends a request, and sends it again after a refusal that changed nothing."""
        for attempt in range(TRIES):
            status, media, data = self.send_once(method, place, body, token)
            if status == 200:
                return json.loads(data) if media == "application/json" else data
            if media != "application/json":
                raise not_the_laboratorys(method, place, status)
            members = json.loads(data)
            if members["error"] in UNSURE:
                raise Unknown(f"{method} {place}: {members['error']}")
            if members["error"] not in AGAIN or attempt == TRIES - 1:
                raise Refused(status, members)
            pause(attempt, f"{method} {place}: {members['error']}")
        return None

    def open(self):
        """Opens a session. A password that was refused isn't sent again: the fifth refusal locks the account."""
        reply = self.read("POST", "/open", {"code": self.code, "password": self.password()})
        self.token = reply["token"]
        return reply

    def ask(self, method, place, body=None):
        """Sends a request in the session. One is opened if it isn't there, or has ended: then nothing was done yet."""
        if self.token is None:
            self.open()
        try:
            return self.send(method, place, body, self.token)
        except Refused as refusal:
            if refusal.word != "no_session":
                raise
        self.open()
        return self.send(method, place, body, self.token)

    def read(self, method, place, body=None):
        """What may be sent any number of times: a reading, and an opening, of which an unknown session ends by itself."""
        for attempt in range(TRIES):
            try:
                return self.send(method, place, body) if place == "/open" else self.ask(method, place, body)
            except Unknown as fault:
                if attempt == TRIES - 1:
                    raise
                pause(attempt, fault)
        return None

    def do(self, place, body, done):
        """A command that changes something. Where it isn't known whether it was done, `done` reads what stands first: it gives what was
        done, or nothing where the command has to be sent again."""
        for attempt in range(TRIES):
            try:
                return self.ask("POST", place, body)
            except Unknown as fault:
                if attempt == TRIES - 1:
                    raise
                pause(attempt, fault)
                found = self.looked(done, fault)
                if found is not None:
                    return found
        return None

    def looked(self, done, fault):
        """What `done` finds. Where no server is reached any more, it stays unknown."""
        try:
            return done()
        except NotDone as still:
            raise Unknown(f"{fault}; then {still}") from still

    # ---- readings

    def pages(self, place, after=0):
        """The elements of a list after a number, a hundred numbers at a time. Numbers have no gaps, so a page that isn't full is the last."""
        first = after + 1
        while True:
            page = self.read("GET", f"{place}?from={first}&to={first + PAGE - 1}")[place[1:]]
            yield from page
            if len(page) < PAGE:
                return
            first += PAGE

    def last_number(self, place):
        """The last number of a list, and 0 if it is empty."""
        return last_that(lambda number: self.read("GET", f"{place}?from={number}&to={number}")[place[1:]])

    def form(self, code, version):
        """A version of a form, or nothing if there is no such version."""
        try:
            return self.read("GET", f"/forms/{code}/{version}")
        except Refused as refusal:
            if refusal.word != "no_such_form":
                raise
        return None

    def newest_form(self, code):
        """The newest version of a form, or nothing if there is no such form."""
        version = last_that(lambda number: self.form(code, number))
        return self.form(code, version) if version else None

    def released(self, after=0):
        """The row of the trail that released a version, and the version, for each row after that number."""
        for row in self.pages("/trail", after):
            if row["action"] == "sign":
                record, version, meaning = row["subject"].split("/")
                there = self.version(record, version)
                if there["state"] == "released" and there["signatures"][-1]["meaning"] == meaning:
                    yield row, there

    def version(self, record, version):
        return self.read("GET", f"/records/{record}/versions/{version}")

    def last_version(self, record):
        return self.version(record, self.read("GET", f"/records/{record}")["current"])

    # ---- commands

    def record(self, form, sample):
        """The number of the record of a form and a sample. To ask twice is harmless: the refusal has the number."""
        try:
            return self.do("/records", {"form": form, "sample": sample}, lambda: None)["record"]
        except Refused as refusal:
            if refusal.word == "record_exists":
                return refusal.members["record"]
            raise

    def enter(self, record, key, value, unit, reason=None):
        """Enters a value, once."""
        body = {"record": record, "key": key, "value": value, "unit": unit, **({"reason": reason} if reason else {})}
        wanted = {"person": self.code, "value": value, "unit": unit, "reason": reason or ""}

        def done():
            there = self.last_version(record)
            its = [row for row in there["rows"] if row["key"] == key]
            if its and all(its[-1][name] == text for name, text in wanted.items()):
                return {"digest": there["digest"], "record": record, "rows": len(there["rows"]), "version": there["version"]}
            return None

        return self.do("/entries", body, done)

    def amend(self, record, reason, altered):
        """Opens the next version of a record, once: `altered` has key, value and unit of each value."""
        elements = [dict(zip(("key", "value", "unit"), one)) for one in altered]

        def done():
            there = self.last_version(record)
            is_own = (there["opener"], there["reason"], there["state"]) == (self.code, reason, "open")
            return {name: there[name] for name in ("digest", "record", "version")} if is_own else None

        return self.do("/amendments", {"record": record, "reason": reason, "altered": elements}, done)

    def sign(self, record, version, meaning, password, agrees, reason=None):
        """Reads a version and, where the signer agrees to what was read, signs it under the digest that was read. If the version has
        changed meanwhile, it is read and shown anew. The code goes with each signature, for the first of a session needs it."""
        def done():
            there = self.version(record, version)
            own = [one for one in there["signatures"] if (one["person"], one["meaning"]) == (self.code, meaning)]
            return {**own[-1], "digest": there["digest"], "state": there["state"]} if own else None

        while True:
            there = self.version(record, version)
            if not agrees(there):
                return None
            body = {"record": record, "version": version, "digest": there["digest"], "meaning": meaning, "password": password(),
                    "code": self.code, **({"reason": reason} if reason else {})}
            try:
                return self.do("/signatures", body, done)
            except Refused as refusal:
                if refusal.word != "stale_digest":
                    raise

    def copies(self, first, last):
        """Copies of a hundred records each, until one isn't full."""
        while first <= last:
            copy = self.read("GET", f"/copy?from={first}&to={min(first + PAGE - 1, last)}")
            yield copy
            if records_of(copy) < PAGE:
                return
            first += PAGE


# ---- copies


def records_of(copy):
    """How many records a copy has, by its end row."""
    return int(copy.splitlines()[-1].split(b",")[2])


def joined(copies):
    """One copy out of copies of ranges that follow one another. The header, the copy row and the end row are lines of their own, and
    what stands between the copy row and the end row stays as it is. The joined copy row has the last number of the last range."""
    heads, parts, counts = [], [], [0, 0, 0, 0]
    for copy in copies:
        header, copy_row, rest = copy.split(b"\n", 2)
        rows, _, end_row = rest[:-1].rpartition(b"\n")
        heads.append((header, copy_row.split(b",", 4)))
        parts.append(rows + b"\n" if rows else b"")
        counts = [sum(pair) for pair in zip(counts, map(int, end_row.split(b",")[2:6]))]
    (header, (kind, lab, first, _, further)), (_, (_, _, _, last, _)) = heads[0], heads[-1]
    end = b",".join([b"end", lab, *(str(count).encode() for count in counts), *[b""] * 7])
    return b"\n".join([header, b",".join([kind, lab, first, last, further]), b"".join(parts) + end, b""])


def keep(data, path):
    """Writes a file whole, or not at all."""
    with open(f"{path}.part", "wb") as file:
        file.write(data)
        file.flush()
        os.fsync(file.fileno())
    os.replace(f"{path}.part", path)


# ---- a person at a terminal


def typed_password():
    return getpass.getpass("password: ") if sys.stdin.isatty() else sys.stdin.readline().rstrip("\n")


def asked_once(ask):
    """A function that asks when it is first called, and keeps the answer."""
    kept = []
    return lambda: kept[0] if kept else kept.append(ask()) or kept[0]


def is_agreed(version):
    """Shows a version, and asks whether it is signed."""
    for value in version["values"]:
        print(f"{value['key']} {value['value']} {value['unit']}".rstrip())
    print(f"version {version['version']} of record {version['record']}, {version['sample']}, is {version['state']}: sign it, yes or no?", flush=True)
    return sys.stdin.readline().strip() == "yes"


def run(client, command, words):
    """What a command prints."""
    if command == "records":
        for one in client.pages("/records"):
            print(one["record"], one["form"], one["sample"], one["state"])
    elif command == "trail":
        for one in client.pages("/trail", *map(int, words)):
            print(one["number"], one["moment"], one["person"] or "-", one["action"], one["subject"])
    elif command == "released":
        for row, one in client.released(*map(int, words)):
            values = ", ".join(f"{value['key']} {value['value']} {value['unit']}".rstrip() for value in one["values"])
            print(f"{row['number']} {one['record']}/{one['version']} {one['sample']}: {values}")
    elif command == "last":
        print(client.last_number(f"/{words[0]}"))
    elif command == "form":
        form = client.newest_form(*words)
        print(f"{words[0]} {form['version']}: {' '.join(field['key'] for field in form['fields'])}" if form else f"no form {words[0]}")
    elif command == "record":
        print("record", client.record(*words))
    elif command == "enter":
        there = client.enter(int(words[0]), *words[1:])
        print(f"record {there['record']}, version {there['version']}: {there['rows']} row{'s'[:there['rows'] != 1]}")
    elif command == "sign":
        record, version, meaning, *reason = words
        there = client.sign(int(record), int(version), meaning, client.password, is_agreed, *reason)
        print(there["state"] if there else "not signed")
    elif command == "copy":
        first, last, path = words
        copy = joined(client.copies(int(first), int(last)))
        keep(copy, path)
        print(f"{path}: {records_of(copy)} records")


WORDS = {"records": (0,), "trail": (0, 1), "released": (0, 1), "last": (1,), "form": (1,), "record": (2,), "enter": (4, 5), "sign": (3, 4), "copy": (3,)}


def main(words):
    if words in (["-h"], ["--help"]):
        print(__doc__.strip())
        return 0
    if len(words) < 4 or len(words) - 4 not in WORDS.get(words[3], ()) or not re.match("https?://[^/]", words[0]):
        say("the arguments are 'URL LAB CODE COMMAND ..'; '--help' lists the commands")
        return 2
    url, lab, code, command, *further = words
    client = Client(url, lab, code, asked_once(typed_password))
    try:
        run(client, command, further)
    except Refused as refusal:
        say(f"refused: {refusal}")
        return 1
    except NotDone as fault:
        say(f"not done: {fault}")
        return 1
    except Unknown as fault:
        say(f"not known whether it was done: {fault}")
        return 3
    finally:
        close(client)
    return 0


def close(client):
    """Closes the session. If that fails, the session ends by itself."""
    if client.token is not None:
        try:
            client.send("POST", "/close", {}, client.token)
        except (Refused, Unknown, NotDone):
            pass


if __name__ == "__main__":
    sys.exit(main(sys.argv[1:]))
