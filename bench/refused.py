#!/usr/bin/env python3
"""Times the replies to openings that are refused, by the reason, and to one that is taken: what a guesser can learn by a clock.

    bench/refused.py [PROGRAM [ROUNDS]]   prints a table for docs/PERFORMANCE.md; without a program, over the one that is proved

A laboratory is founded and served over a file on this machine. In each round each of the openings is asked for once, in turn. The
figures are the least and the middle one of all rounds, on the wall, from the connection to the end of the reply.
"""
import datetime
import http.client
import json
import os
import pathlib
import statistics
import subprocess
import sys
import tempfile
import time

TOP = pathlib.Path(__file__).resolve().parent.parent
sys.path.insert(0, str(TOP / "tests/model"))
from children import proved_program  # noqa: E402
from streams import FOUNDERS, compact  # noqa: E402

WRONG = "not the right one"
OPENINGS = {
    "nobody has the code": ("nobody", WRONG),
    "the person has no password yet": ("new", WRONG),
    "the person is retired": ("gone", WRONG),
    "the account is locked; the password is right": ("cid", FOUNDERS[2][2]),
    "a one-time password, of another length": ("once", WRONG),
    "a one-time password, of 64 characters": ("once", "0" * 64),
    "a chosen password": ("bob", WRONG),
    "(a chosen password, and it is right)": ("bob", FOUNDERS[1][2]),
}


class Lab:
    def __init__(self, address):
        self.address, self.tokens = address, {}

    def ask(self, who, place, **body):
        client = http.client.HTTPConnection(self.address)
        headers = {"Authorization": f"LabSession {self.tokens[who]}"} if who else {}
        client.request("POST", f"/labs/aqua/{place}", compact(body), headers)
        reply = client.getresponse()
        return reply.status, json.loads(reply.read())

    def open(self, code, password):
        status, reply = self.ask(None, "open", code=code, password=password)
        if status == 200:
            self.tokens[code] = reply["token"]
        return status

    def begin(self):
        """Somebody of each kind. Each command has to be taken."""
        for code, _, password in FOUNDERS[:2]:
            assert self.open(code, password) == 200
        for code in ("new", "gone", "once"):
            assert self.ask("ann", "persons", code=code, name=code, roles=["analyst"])[0] == 200
        assert self.ask("ann", "retire", code="gone")[0] == 200
        assert self.ask("ann", "issue", code="once")[0] == 200
        assert self.ask("bob", "confirm", code="once")[0] == 200
        for _ in range(5):
            assert self.open("cid", WRONG) == 401

    def round(self, times):
        for what, (code, password) in OPENINGS.items():
            begun = time.perf_counter()
            status = self.open(code, password)
            times[what].append(time.perf_counter() - begun)
            assert (status == 200) == what.startswith("("), (what, status)
        # (or the fifth failure of who has a one-time password would lock)
        assert self.ask("ann", "unlock", code="once")[0] == 200


def main(words):
    program, rounds = words[0] if words else proved_program(), int(words[1]) if len(words) > 1 else 200
    with tempfile.TemporaryDirectory() as room:
        file = f"{room}/laboratories"
        body = compact({"founders": [dict(zip(("code", "name", "password"), one)) for one in FOUNDERS], "name": "Aqua Lab"})
        subprocess.run([program, "found", "--file", file, "--lab", "aqua"], input=body.encode(), check=True, stdout=subprocess.DEVNULL)
        with subprocess.Popen([program, "serve", "--file", file, "--port", "0"], stdout=subprocess.PIPE, text=True) as server:
            try:
                lab = Lab(server.stdout.readline().split()[1])
                lab.begin()
                times = {what: [] for what in OPENINGS}
                for _ in range(rounds):
                    lab.round(times)
            finally:
                server.kill()
    print("| Refused, because | Least | Median |\n|---|---|---|")
    for what, each in times.items():
        print(f"| {what} | {1000 * min(each):.1f} ms | {1000 * statistics.median(each):.1f} ms |")
    print(f"\n{rounds} rounds; {datetime.date.today()}, load {os.getloadavg()[0]:.1f}")


if __name__ == "__main__":
    main(sys.argv[1:])
