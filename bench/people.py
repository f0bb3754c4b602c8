#!/usr/bin/env python3
"""What somebody waits who reads, beside ten people who sign and beside eight strangers who guess: straight, and through nginx.

    bench/people.py [PROGRAM [SECONDS]]   prints a table for docs/PERFORMANCE.md; without a program, over the one that is proved

It starts `labdesk serve` over a new laboratory, and nginx before it with the site of packaging/nginx, as labdesk-pages does. A reader reads
a record ten times a second. Each who signs opens a record, enters a value, signs it, and rests for five seconds; each who guesses sends a
wrong password, and the next one at once. Through nginx all have addresses of their own, and those of the reader and of who signs are of a
known network. Each case lasts SECONDS, 30 where none are given. The figures are what the reader waits, from the request to the whole
reply. It wants a machine with nothing else to do.
"""
import collections
import contextlib
import datetime
import http.client
import importlib.machinery
import importlib.util
import json
import os
import pathlib
import ssl
import statistics
import sys
import tempfile
import threading
import time

TOP = pathlib.Path(__file__).resolve().parent.parent
sys.dont_write_bytecode = True
from children import proved_program  # noqa: E402

SIGNERS, GUESSERS = 10, 8
READS_EACH, RESTS = 0.1, 5
PATIENCE = 120
KNOWN = "geo $labdesk_network {\n    127.0.1.0/24 laboratory;\n}\n"


def script(name):
    """A script of this repository, as a module."""
    loader = importlib.machinery.SourceFileLoader("its", str(TOP / name))
    module = importlib.util.module_from_spec(importlib.util.spec_from_loader("its", loader))
    loader.exec_module(module)
    return module


class Client:
    """Somebody at an address, who asks the server itself, or nginx over a connection that is kept."""

    def __init__(self, port, address, token=None, tls=False):
        self.port, self.address, self.token, self.tls, self.there = port, address, token, tls, None

    def connected(self):
        if not self.tls:
            return http.client.HTTPConnection("127.0.0.1", self.port, timeout=PATIENCE, source_address=(self.address, 0))
        context = ssl.create_default_context()
        context.check_hostname, context.verify_mode = False, ssl.CERT_NONE
        return http.client.HTTPSConnection("127.0.0.1", self.port, timeout=PATIENCE, context=context, source_address=(self.address, 0))

    def send(self, place, **body):
        """The status and the reply, which is None where it isn't the laboratory's."""
        fields = {"Authorization": f"LabSession {self.token}"} if self.token else {}
        self.there = self.there or self.connected()
        try:
            self.there.request("POST" if body else "GET", f"/labs/aqua/{place}", json.dumps(body) if body else None, fields)
            reply = self.there.getresponse()
            text = reply.read()
        except (OSError, http.client.HTTPException):
            self.there.close()
            self.there = None
            raise
        return reply.status, json.loads(text) if reply.headers.get_content_type() == "application/json" else None

    def ask(self, place, **body):
        status, reply = self.send(place, **body)
        assert status == 200, (place, status, reply)
        return reply


# ---- the laboratory and its people


class Laboratory:
    """A laboratory with who signs, a reader and a record, at its server's port."""

    def __init__(self, pages, port, founders):
        self.pages, self.sample = pages, pages.Sample(port, founders)
        for code in ("ann", "bob"):
            self.sample.open(code)
        self.signers = [f"sign{number}" for number in range(SIGNERS)]
        for code, roles in (("gus", ["manager"]), ("ida", ["inspector"]), *((code, ["analyst"]) for code in self.signers)):
            self.sample.let_in(code, code.title(), roles)
        self.sample.ask("gus", "forms", form="water", approval=False, fields=[pages.LEAD])
        self.sample.ask("sign0", "records", form="water", sample="Read")

    def client(self, code, port, address, tls):
        return Client(port, address, self.sample.tokens.get(code), tls)


def sign(client, code, password):
    """A record from its opening to its author's signature."""
    record = client.ask("records", form="water", sample=f"{code} {time.monotonic_ns()}")["record"]
    client.ask("entries", record=record, key="lead", value="7.05", unit="mg/L")
    digest = client.ask(f"records/{record}/versions/1")["digest"]
    client.ask("signatures", record=record, version=1, digest=digest, meaning="authorship", code=code, password=password)


# ---- a case


class Case:
    """What the reader waited while others did something, and how often they did it."""

    def __init__(self, seconds):
        self.until = time.monotonic() + seconds
        self.waits, self.done, self.faults = [], collections.Counter(), []

    def read(self, client):
        while time.monotonic() < self.until:
            begun = time.perf_counter()
            client.ask("records/1")
            self.waits.append(time.perf_counter() - begun)
            time.sleep(READS_EACH)

    def sign(self, client, code, password, number):
        time.sleep(RESTS * number / SIGNERS)
        while time.monotonic() < self.until:
            sign(client, code, password)
            self.done["signatures"] += 1
            time.sleep(RESTS)

    def guess(self, client):
        while time.monotonic() < self.until:
            status, _ = client.send("open", code="nobody", password="not the right one")
            self.done["guesses turned away" if status == 429 else "guesses"] += 1

    def run(self, *each):
        """Calls each of these, with its words, in a thread of its own, and waits for them."""
        def call(work, *words):
            try:
                work(*words)
            except Exception as fault:
                self.faults.append(fault)

        workers = [threading.Thread(target=call, args=one) for one in each]
        for one in workers:
            one.start()
        for one in workers:
            one.join()
        if self.faults:
            raise self.faults[0]
        return self

    def row(self, what):
        waits = sorted(1000 * one for one in self.waits)
        figures = statistics.median(waits), waits[int(0.95 * (len(waits) - 1))], waits[-1]
        done = ", ".join(f"{count} {word}" for word, count in sorted(self.done.items())) or "nothing"
        return f"| {what} | {len(waits)} | {' | '.join(f'{one:.0f} ms' for one in figures)} | {done} |"


def measure(laboratory, port, tls, seconds):
    """The rows of the table of one way to the server."""
    way = "through nginx" if tls else "straight"
    passwords = laboratory.sample.passwords

    def reading(case):
        return case.read, laboratory.client("ida", port, "127.0.1.1", tls)

    def signing(case):
        return [(case.sign, laboratory.client(code, port, f"127.0.1.{10 + number}", tls), code, passwords[code], number)
                for number, code in enumerate(laboratory.signers)]

    def guessing(case):
        return [(case.guess, Client(port, f"127.0.0.{10 + number}", None, tls)) for number in range(GUESSERS)]

    for what, others in (("alone", lambda case: []), (f"beside {SIGNERS} who sign", signing), (f"beside {GUESSERS} who guess", guessing)):
        case = Case(seconds)
        print(case.run(reading(case), *others(case)).row(f"{way}, {what}"), flush=True)


def main(words):
    program, seconds = words[0] if words else proved_program(), int(words[1]) if len(words) > 1 else 30
    pages = script("labdesk-pages")
    with tempfile.TemporaryDirectory() as name, contextlib.ExitStack() as stack:
        room = pathlib.Path(name)
        (room / "keys").mkdir(mode=0o700)
        (room / "keys/known.geo").write_text(KNOWN)
        file, founders = pages.found_sample(room, os.path.abspath(program))
        _, server_port = stack.enter_context(pages.server_over(file, os.path.abspath(program)))
        _, port = stack.enter_context(pages.nginx_before(room, server_port))
        laboratory = Laboratory(pages, server_port, founders)
        print("| A reader | Readings | Median | 95 of 100 within | Longest | Beside it |\n|---|---|---|---|---|---|")
        for where, tls in ((server_port, False), (port, True)):
            measure(laboratory, where, tls, seconds)
    print(f"\n{seconds} s each; {datetime.date.today()}, load {os.getloadavg()[0]:.1f}")


if __name__ == "__main__":
    main(sys.argv[1:])
