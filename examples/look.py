#!/usr/bin/env python3
"""A short day of one laboratory, printed for people, and what a model in Python replies to each of its requests.

    examples/look.py                    writes docs/look.svg, a picture of the day's second half, as the model plays it
    examples/look.py --check            says whether the picture is as it would be written
    examples/look.py --play             what examples/look.sh does: plays the day over a program that is built without its proof
    examples/look.py --play PROGRAM     the same over this program

To play it, a file of the laboratory is made, and `labdesk serve` answers over it: the day's requests go to its port, one after the
other. The model is tests/model/laboratory.py, which isn't part of the program. It gets the moment that a reply is dated, and the token
of an opening; everything else of each reply has to be, byte for byte, what the model replies. The moment has to be that of the
request, too. `labdesk check` then reads the copy that the server gave, and the same copy with one figure changed, and has to print what
examples/check_copy.py prints of them. If something differs, the status is 1.

The file is the model's: nobody founds the laboratory by the program here. Its three verifiers have 10,000 rounds of PBKDF2, as in a
file that was moved from an older program, and not today's 100,000. A program that is built to be tried takes some five seconds for
each of the five passwords of the day so; with 100,000 rounds it would take most of a minute for each, and for three more of a founding.
"""
import bz2
import calendar
import contextlib
import email.utils
import glob
import html
import os
import random
import re
import shutil
import signal
import socket
import subprocess
import sys
import tempfile
import time

import day
from day import HERE, LEAD, Day, password_of
import laboratory
import kept_rows

TOP = os.path.dirname(HERE)
FOUNDERS = [("dan", "Dan Day"), ("fay", "Fay Fox"), ("gus", "Gus Gray")]
# How long the reply to a request may take, in seconds.
PATIENCE = 120
# The runs of a program that is built to be tried, in their order, each with the words of its command line.
SERVED, COPY, ALTERED = "1-served", "2-copy", "3-altered"
# So many times as long as packing the sources takes the whole of a look.
WHOLE = 1050


# ---- the day


class Look(Day):
    """A day that is told to people too, as the model plays it."""

    def __init__(self, tell):
        super().__init__()
        self.tell, self.who = tell, None

    def say(self, text):
        self.tell("")
        for line in text.split("\n"):
            self.tell(line)

    def ask(self, time, lab, who, command, *args, refused=None):
        self.who = args[0] if command == "open" else who
        return super().ask(time, lab, who, command, *args, refused=refused)

    def call(self, time, words, request, answer):
        super().call(time, words, request, answer)
        method, place = request.decode().split(" ")[:2]
        head, _, content = answer.decode().partition("\r\n\r\n")
        place = re.sub("^/labs/[a-z]+", "", place)
        self.tell(f"  {self.who:4} {method:4} {place:20} {head.split()[1]}  {shortened(content)}")

    def found_at(self, moment):
        """The laboratory as it was founded then, with verifiers of 10,000 rounds."""
        founders = [(code, name, password_of(code)) for code, name in FOUNDERS]
        with laboratory.old_rounds():
            self.labs["aqua"] = laboratory.found("aqua", moment, self.words(), "Aqua Lab", founders)

    def take_copy(self, copy):
        """Does what is to be done with the copy before the last requests."""
        self.copy = copy


def shortened(text):
    """The first line of a reply, its long hexadecimal numbers by their first digits, and of a signature's reply no more than fits."""
    text = re.sub("([0-9a-f]{4})[0-9a-f]{28,}", r"\1..", text.split("\n")[0])
    return re.sub('"moment":.*"seal":"[^"]*"', " .. ", text)


def play(look):
    """The day, from the founding on."""
    look.say("Dan, Fay and Gus have founded a laboratory, and are its administrators. Dan and Fay open sessions. Each gives the\n"
             "other roles to work in; nobody gives roles to oneself.")
    for code in ("dan", "fay"):
        look.ask("08:01", "aqua", code, "open", code, password_of(code))
    look.ask("08:02", "aqua", "dan", "roles", "dan", "analyst", refused=29)
    look.ask("08:02", "aqua", "dan", "roles", "fay", "reviewer manager administrator")
    look.ask("08:02", "aqua", "fay", "roles", "dan", "analyst reviewer")

    look.say("Fay, the manager, makes a form. Dan, the analyst, may not. He opens a record of a sample and enters what was measured.\n"
             "A correction needs a reason, and both values stay.")
    look.ask("08:03", "aqua", "dan", "form", "water", False, LEAD, refused=24)
    look.ask("08:03", "aqua", "fay", "form", "water", False, LEAD)
    look.ask("08:04", "aqua", "dan", "record", "water", "S1")
    look.ask("08:05", "aqua", "dan", "entry", 1, "lead", "7.05", "mg/L", None)
    look.ask("08:06", "aqua", "dan", "entry", 1, "lead", "7.50", "mg/L", None, refused=47)
    look.ask("08:06", "aqua", "dan", "entry", 1, "lead", "7.50", "mg/L", "misread scale")

    look.say("Dan signs as the author. He is a reviewer too, but nobody reviews one's own work. Fay reviews it, and so the version is\n"
             "released. What is released can't be changed.")
    assert look.sign("08:07", "aqua", "dan", 1, 1, "authorship", password_of("dan"), "dan")["state"] == "signed"
    look.sign("08:08", "aqua", "dan", 1, 1, "review", password_of("dan"), refused=54)
    assert look.sign("08:09", "aqua", "fay", 1, 1, "review", password_of("fay"), "fay")["state"] == "released"
    look.ask("08:10", "aqua", "dan", "entry", 1, "lead", "7.05", "mg/L", "better so", refused=46)

    look.say("Fay takes an inspection copy of the record, with both entries and both signatures.")
    copy = look.ask("08:11", "aqua", "fay", "copy", 1, 100).encode()
    for line in copy.decode().splitlines()[1:]:
        look.tell(f"    {shortened(line)}")
    look.take_copy(copy)
    for code in ("dan", "fay"):
        look.ask("08:12", "aqua", code, "close")


def as_the_model_plays_it():
    """The day, and its lines."""
    lines = []
    look = Look(lines.append)
    look.found_at(day.seconds_at("08:00"))
    play(look)
    return look, lines


def altered_of(copy):
    altered = copy.replace(b",7.50,", b",7.05,")
    assert altered != copy
    return altered


def checked(copy):
    """What a check of a copy prints, by examples/check_copy.py."""
    return subprocess.run([sys.executable, f"{HERE}/check_copy.py"], input=copy, stdout=subprocess.PIPE).stdout


def tell_checks(look, good, bad):
    assert good == b"good 1 1 2 2\n" and bad.startswith(b"bad digest ")
    look.say("Anybody can check the copy, anywhere. Where one figure was changed, the copy is no longer good.")
    for line in (good, bad):
        look.tell(f"  labdesk check: {line.decode().strip()}")


# ---- over a server


class Different(Exception):
    """A reply, or what was printed, isn't as it has to be."""


class Served(Look):
    """The day as a server answers it. Each reply is held against the model's."""

    def __init__(self, tell, server):
        super().__init__(tell)
        self.server, self.reply = server, b""
        self.found_at(int(time.time()))

    def tick(self, hour, request):
        """Sends the request. Its moment is the one that the reply is dated, and the first words are those of a token."""
        before = int(time.time())
        with self.server.connection() as connection:
            connection.sendall(request)
            self.reply = b"".join(iter(lambda: connection.recv(65536), b""))
        date = re.search(rb"\r\nDate: ([^\r]*)\r\n", self.reply)
        moment = calendar.timegm(email.utils.parsedate(date[1].decode()) or time.gmtime(0)) if date else 0
        if not before - 1 <= moment <= int(time.time()):
            raise Different(f"a reply isn't dated as its request was sent:\n{self.reply.decode(errors='replace')}")
        token = re.search(rb'"token":"([0-9a-f]{64})"', self.reply)
        drawn = token[1] if token else b"0" * 64
        self.server.note_reply()
        return moment, tuple(int(drawn[at:at + 16], 16) for at in range(0, 64, 16)) + (0,) * 4

    def call(self, hour, words, request, answer):
        if answer != self.reply:
            raise Different(f"a reply isn't the model's, which is\n{answer.decode()}\n\nThe server's is\n{self.reply.decode(errors='replace')}")
        super().call(hour, words, request, answer)

    def take_copy(self, copy):
        self.server.take_copy(copy, altered_of(copy))


def free_port():
    """A port that nobody has, and that the system gives to nobody by itself (ip_local_port_range): the program may have to be built before
    it listens."""
    while True:
        port = random.randrange(20_000, 32_000)
        with socket.socket() as one, contextlib.suppress(OSError):
            one.bind(("127.0.0.1", port))
            return port


class Server:
    """A program that serves the laboratory of a file at a port, and then checks two copies."""

    def __init__(self, room):
        self.room, self.port, self.child, self.first, self.begun, self.spoken = room, free_port(), None, None, time.monotonic(), 0.0
        # (it ends by itself after the day's last request)
        self.words = ["serve", "--file", "laboratories", "--port", str(self.port), "--count", str(len(as_the_model_plays_it()[0].answers))]

    def start(self, words, folder):
        self.said = open(f"{self.room}/said", "wb")
        self.child = subprocess.Popen(words, cwd=folder, stdin=subprocess.DEVNULL, stdout=self.said, stderr=self.said)

    def wait(self):
        """Makes the first connection once the server is there, which may have to be built before."""
        while self.first is None:
            try:
                self.first = self.connection()
            except ConnectionRefusedError:
                if self.child.poll() is not None:
                    raise Different(f"no server: the command ended with status {self.child.returncode}\n{self.output()}") from None
                self.note_wait()
                time.sleep(0.1)

    def connection(self):
        """The first connection, or another one: the server counts them."""
        first, self.first = self.first, None
        return first or socket.create_connection(("127.0.0.1", self.port), timeout=PATIENCE)

    def note_wait(self):
        """Is called while there is no server."""

    def note_reply(self):
        """Is called after each reply."""

    def output(self):
        with contextlib.suppress(FileNotFoundError), open(f"{self.room}/said", errors="replace") as file:
            return file.read()
        return ""

    def end(self):
        if self.child is not None and self.child.poll() is None:
            self.child.terminate()
            self.child.wait()


class Proved(Server):
    """A program that is there."""

    def __init__(self, room, program):
        super().__init__(room)
        self.program, self.copies = os.path.abspath(program), []

    def begin(self):
        self.start([self.program, *self.words], self.room)

    def take_copy(self, *copies):
        self.copies = copies

    def checks(self):
        """What `labdesk check` prints of both copies, once the server has ended by itself."""
        if self.child.wait(PATIENCE) or self.output() != f"listening 127.0.0.1:{self.port}\n":
            raise Different(f"the server ended with status {self.child.returncode}\n{self.output()}")
        printed = [subprocess.run([self.program, "check"], input=copy, stdout=subprocess.PIPE).stdout for copy in self.copies]
        if printed != list(map(checked, self.copies)):
            raise Different(f"labdesk check prints {printed} of the two copies, and examples/check_copy.py doesn't")
        return printed


class Tried(Server):
    """A program that `rt try` builds, without its proof. It is built once and run three times: to serve, and to check each copy. rt takes
    the input of a run when that run begins, so the copies are put there before the last request is sent."""

    def begin(self):
        self.runs, self.listening = f"{self.room}/runs", None
        os.mkdir(self.runs)
        for name, words in (SERVED, self.words), (COPY, ["check"]), (ALTERED, ["check"]):
            self.put(f"{name}.args", "".join(f"{word}\n" for word in words).encode())
            self.put(name, b"")
            self.put(f"{name}.stdout", b"")
        self.put(f"{SERVED}.stdout", f"listening 127.0.0.1:{self.port}\n".encode())
        self.about = WHOLE * packing()
        progress(f"The program is being built, without its proof. By the pace of this machine the whole takes about {self.about:.0f} seconds.")
        self.begun = time.monotonic()
        data = f"laboratories={self.room}/laboratories"
        self.start(["rt", "try", "--seconds", "900", "--data", data, "--cases", self.runs], f"{TOP}/crates/lab_program")

    def put(self, name, data):
        with open(f"{self.runs}/{name}", "wb") as file:
            file.write(data)

    def wait(self):
        super().wait()
        self.listening = time.monotonic()
        progress(f"  It was built in {self.listening - self.begun:.0f} seconds.")

    def note_wait(self):
        now = time.monotonic() - self.begun
        if now - self.spoken >= 15:
            self.spoken = now
            progress(f"  {now:.0f} of about {max(self.about, now + 10):.0f} seconds")

    def note_reply(self):
        """The first reply is that of the first of five passwords."""
        if self.listening is not None:
            one, self.listening = time.monotonic() - self.listening, None
            progress(f"  A password takes {one:.1f} seconds, so about {4 * one + 8:.0f} are left.")

    def take_copy(self, *copies):
        self.printed = [checked(copy) for copy in copies]
        for name, copy, printed in zip((COPY, ALTERED), copies, self.printed):
            self.put(name, copy)
            self.put(f"{name}.stdout", printed)

    def checks(self):
        """What the program printed of both copies: rt has compared it with what it has to be."""
        self.child.wait()
        for name, status in (SERVED, 0), (COPY, 0), (ALTERED, 1):
            if f"case={name} run=ended status={status} runners=1 output=expected " not in self.output():
                raise Different(f"rt try ended with status {self.child.returncode}, and the run {name} isn't as it has to be\n{self.output()}")
        return self.printed


def packing():
    """How long it takes to pack the sources of the program, in seconds: that says how fast this machine is just now. It is the mean of the
    processor's time and the clock's, since other work slows down a short packing more than a long building."""
    times = []
    for _ in range(4):
        begun = time.monotonic() + time.process_time()
        for path in glob.glob(f"{TOP}/crates/*/src/*.rt"):
            with open(path, "rb") as file:
                bz2.compress(file.read())
        times.append((time.monotonic() + time.process_time() - begun) / 2)
    return min(times)


def progress(line):
    print(line, file=sys.stderr, flush=True)


def served_day(program):
    """Plays the day over a program that is there, or else over one that is built to be tried."""
    with tempfile.TemporaryDirectory(prefix="look-") as room:
        server = Proved(room, program) if program else Tried(room)
        try:
            look = Served(lambda line: print(line, flush=True), server)
            kept_rows.write(f"{room}/laboratories", look.labs.values())
            server.begin()
            server.wait()
            play(look)
            tell_checks(look, *server.checks())
        except OSError as fault:
            raise Different(f"{fault}\n{server.output()}") from fault
        finally:
            server.end()
    print(f"\nEach of these {len(look.answers)} replies was compared, byte for byte, with the one of a model in Python.")
    if not program:
        print("This program was NOT proved. ./labdesk makes the proved one; ./check makes it too, and tests everything.")


def played(program):
    if program is None and shutil.which("rt") is None:
        progress("look.sh: no command rt on the path: the Rattle kit builds the program")
        return 1
    for number in (signal.SIGTERM, signal.SIGHUP):
        signal.signal(number, lambda number, _: sys.exit(128 + number))
    try:
        served_day(program)
    except Different as fault:
        progress(f"look.sh: {fault}")
        return 1
    except KeyboardInterrupt:
        return 130
    return 0


# ---- the picture

PICTURE = f"{TOP}/docs/look.svg"
FIRST = "Dan signs as the author."
COLOURS = [(r"  \w+ +(GET|POST) .* 200  |  labdesk check: good ", "#0a5d2a"), (r"  \w+ +(GET|POST) .* [45]\d\d  |  labdesk check: bad ", "#a31515"),
           (r"  ", "#333")]


def drawn(line, at):
    """A line of text: what is said in bold, what is answered in the colour of its status."""
    style = next((f'fill="{colour}"' for pattern, colour in COLOURS if re.match(pattern, line)), 'font-weight="bold"')
    return f'<text x="16" y="{at}" xml:space="preserve" {style}>{html.escape(line)}</text>\n'


def picture():
    """The lines of the day from FIRST on, as the model plays it, as SVG."""
    look, lines = as_the_model_plays_it()
    copy = look.copy
    tell_checks(look, checked(copy), checked(altered_of(copy)))
    shown = lines[next(at for at, line in enumerate(lines) if line.startswith(FIRST)):]
    height, width = 18 * len(shown) + 24, 8 * max(map(len, shown)) + 32
    return (f'<svg xmlns="http://www.w3.org/2000/svg" viewBox="0 0 {width} {height}" width="{width}" height="{height}" font-family="monospace" '
            f'font-size="13">\n<title>What examples/look.sh prints, in its second half</title>\n<rect width="100%" height="100%" fill="#fdfdfb" '
            f'stroke="#999"/>\n{"".join(drawn(line, 18 * at + 26) for at, line in enumerate(shown))}</svg>\n')


def main(words):
    if words in (["-h"], ["--help"]):
        print(__doc__.strip())
    elif words[:1] == ["--play"] and len(words) <= 2:
        return played(words[1] if words[1:] else None)
    elif words == ["--check"]:
        with open(PICTURE) as file:
            if file.read() != picture():
                sys.exit("docs/look.svg isn't as examples/look.py writes it")
    elif not words:
        with open(PICTURE, "w") as file:
            file.write(picture())
    else:
        progress("look.py: the arguments are '[--check | --play [PROGRAM]]'; '--help' says more")
        return 2
    return 0


if __name__ == "__main__":
    sys.exit(main(sys.argv[1:]))
