"""What the test of the pages starts and asks: a laboratory in a file, labdesk-pages over it, and the server itself."""
import contextlib
import ctypes
import json
import pathlib
import re
import signal
import subprocess
import sys
import tempfile

TOP = pathlib.Path(__file__).resolve().parent.parent.parent
sys.path.append(f"{TOP}/tests/lib")
import asking  # noqa: E402
import served  # noqa: E402
from report import Report  # noqa: E402

PATIENCE = 120
report = Report("pages")
say, same = report.say, report.same


class Stop(Exception):
    """The day can't go on."""


class Refused(Exception):
    """The server refused; `word` says as what."""

    def __init__(self, reply):
        super().__init__(str(reply))
        self.word = reply.get("error")


class Asker:
    """Somebody's session at the server itself, beside those of the pages; or nobody's."""

    def __init__(self, port, lab, code=None, password=None):
        self.port, self.lab, self.token = port, lab, None
        if code:
            self.token = self.post("open", code=code, password=password)["token"]

    def send(self, method, place, members=None):
        """The body of the reply."""
        path = f"/labs/{self.lab}" + (f"/{place}" if place else "")
        status, body = asking.parted(served.Port(self.port).answer(asking.request_of(method, path, members, self.token)))
        if status != 200:
            raise Refused(json.loads(body))
        return body

    def get(self, place=""):
        return json.loads(self.send("GET", place))

    def post(self, place, **members):
        return json.loads(self.send("POST", place, members))

    def copy(self, first, last):
        return self.send("GET", f"copy?from={first}&to={last}")


def labdesk(program, words, given=b""):
    """The status, and what is printed."""
    ran = subprocess.run([program, *map(str, words)], input=given, capture_output=True, timeout=PATIENCE)
    return ran.returncode, ran.stdout.decode() + ran.stderr.decode()


def found(program, file, lab, name, founders):
    """Founds a laboratory: code, printed name and password of each founder."""
    persons = [dict(zip(("code", "name", "password"), one)) for one in founders]
    body = json.dumps({"founders": persons, "name": name}).encode()
    there = labdesk(program, ["found", "--file", file, "--lab", lab], body)
    if there != (0, f"founded {lab}\n"):
        raise Stop(f"{lab} isn't founded: {there}")


def ends_with_this():
    """In a child: it is told to end where this process is killed."""
    ctypes.CDLL(None).prctl(1, signal.SIGTERM)


class Served:
    """labdesk-pages over a file, or over its own sample laboratory; what it printed, and its two addresses."""

    def __init__(self, program, file=None):
        words = [str(TOP / "labdesk-pages"), "--labdesk", program, *([str(file)] if file else [])]
        self.process = subprocess.Popen(words, stdout=subprocess.PIPE, stderr=subprocess.STDOUT, text=True, start_new_session=True,
                                        preexec_fn=ends_with_this)
        self.printed = ""
        while not self.printed.endswith("ends both.\n"):
            line = self.process.stdout.readline()
            if not line:
                raise Stop(f"labdesk-pages ended: {self.printed!r}")
            self.printed += line
        self.address = re.search(r"^pages (https://\S+)$", self.printed, re.M)[1]
        self.port = int(re.search(r"^server 127\.0\.0\.1:(\d+)$", self.printed, re.M)[1])
        self.tls = int(re.search(r":(\d+)/", self.address)[1])
        self.room = self.own_room()

    def own_room(self):
        """The folder of what it runs: the one whose site has its port."""
        for room in pathlib.Path(tempfile.gettempdir()).glob("labdesk-pages.*"):
            with contextlib.suppress(OSError):
                if f"127.0.0.1:{self.tls} " in (room / "site").read_text():
                    return room
        raise Stop("labdesk-pages has no folder")

    def log(self):
        """What nginx logged of requests."""
        return self.room / "log/koghdise.log"

    def stop(self, by=signal.SIGINT):
        """Ends it, and gives its status and what it still printed."""
        if self.process.poll() is None:
            self.process.send_signal(by)
        try:
            printed, _ = self.process.communicate(timeout=PATIENCE)
        except subprocess.TimeoutExpired:
            self.process.kill()
            printed, _ = self.process.communicate()
        return self.process.returncode, printed


@contextlib.contextmanager
def serving(program, file=None):
    served = Served(program, file)
    try:
        yield served
    finally:
        served.stop()


def password_of(code):
    return f"the word of {code} alone"


def let_in(asker, confirmer, code, name, roles):
    """Enrols a person, and gives the person a password of their own, by the server itself."""
    asker.post("persons", code=code, name=name, roles=roles)
    word = asker.post("issue", code=code)["half"] + confirmer.post("confirm", code=code)["half"]
    Asker(asker.port, asker.lab, code, word).post("password", old=word, new=password_of(code))


def program_of(words):
    """The path of the program that is given, or of the proved one."""
    return served.program_of(report, words)
