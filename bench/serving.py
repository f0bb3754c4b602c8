"""`labdesk serve` over a file, requests to it, and foundings."""
import email.utils
import json
import pathlib
import re
import socket
import subprocess
import sys
import time

TOP = pathlib.Path(__file__).resolve().parent.parent
sys.path.insert(0, str(TOP / "tests/model"))
from streams import FOUNDERS, compact  # noqa: E402


class Request:
    """A request to a laboratory in somebody's session, and what it was answered."""

    def __init__(self, who, place, members=None, lab="aqua"):
        self.who, self.place, self.members, self.lab, self.moment, self.reply = who, place, members, lab, None, None

    def bytes(self, token):
        content = b"" if self.members is None else compact(self.members).encode()
        head = [f"{'GET' if self.members is None else 'POST'} /labs/{self.lab}{self.place} HTTP/1.1", "Host: localhost"]
        head += [f"Authorization: LabSession {token}"] if token else []
        head += [f"Content-Length: {len(content)}"] if content else []
        return "".join(line + "\r\n" for line in [*head, ""]).encode() + content

    def replied(self, data):
        head, _, self.body = data.partition(b"\r\n\r\n")
        assert head.startswith(b"HTTP/1.1 200 "), data[:1000]
        date = re.search(rb"\r\nDate: (.*?)\r\n", head)[1].decode()
        self.moment = int(email.utils.parsedate_to_datetime(date).timestamp())
        self.reply = json.loads(self.body) if b"\r\nContent-Type: application/json\r\n" in head else None


class Server:
    """labdesk serve over a file, at a port that is free; started by further words where there are some."""

    def __init__(self, program, file, before=()):
        self.process = subprocess.Popen([*before, program, "serve", "--file", file, "--port", "0"], stdout=subprocess.PIPE)
        line = self.process.stdout.readline().decode()
        assert line.startswith("listening 127.0.0.1:"), line
        self.port, self.tokens = int(line.rpartition(":")[2]), {}

    def __enter__(self):
        return self

    def __exit__(self, *_):
        self.process.terminate()
        self.process.wait()
        self.process.stdout.close()

    def ask(self, one):
        """The seconds until the whole reply is there."""
        begun = time.perf_counter()
        with socket.create_connection(("127.0.0.1", self.port), timeout=600) as client:
            client.sendall(one.bytes(self.tokens.get(one.who)))
            told = b"".join(iter(lambda: client.recv(65_536), b""))
        seconds = time.perf_counter() - begun
        one.replied(told)
        return seconds

    def spent(self):
        """The processor's seconds so far, by the clock that Linux has for a process's number."""
        return time.clock_gettime((~self.process.pid << 3) | 2)


def found(program, file, lab):
    persons = [dict(zip(("code", "name", "password"), one)) for one in FOUNDERS]
    content = compact({"founders": persons, "name": f"{lab.title()} Lab"}).encode()
    told = subprocess.run([program, "found", "--file", file, "--lab", lab], input=content, stdout=subprocess.PIPE, check=True).stdout
    assert told == f"founded {lab}\n".encode(), told
