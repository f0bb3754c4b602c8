"""Runs the commands of a document as a reader pastes them: a laboratory is founded and served by the README's own two commands, and one
bash runs the fenced blocks in their order.

A block is what stands between ```sh and ```, with the kind and the text of the block behind it, where that is what is printed. What
differs from run to run is known by its form: a moment, a Date, 64 digits of a token, a digest or a seal, 32 digits of half a one-time
password. Where the document has one digest twice, so must the run, and where it has two, two.
"""
import contextlib
import json
import os
import pathlib
import pty
import re
import select
import shutil
import signal
import socket
import subprocess
import tempfile
import time

TOP = pathlib.Path(__file__).resolve().parents[2]
# How long anything may take on a machine that has much else to do.
PATIENCE = 300
TOOLS = "bash curl jq".split()
PRINTED = ("json", "http", "csv", "text")


class Stop(Exception):
    """Why no more of a document can be run."""


# ---- documents


def text_of(path):
    return (TOP / path).read_text(encoding="utf-8")


def blocks_of(page):
    """The fenced blocks of commands, each with the kind and the text of what it prints; none where nothing stands behind it."""
    fences = [(found[1], found[2], found.start(), found.end()) for found in re.finditer(r"^```(\w*)\n(.*?)^```$", page, re.M | re.S)]
    blocks = []
    for at, (kind, text, _, end) in enumerate(fences):
        if kind != "sh":
            continue
        behind = fences[at + 1] if at + 1 < len(fences) else None
        is_printed = behind and behind[0] in PRINTED and not page[end:behind[2]].strip()
        blocks.append((text, *(behind[:2] if is_printed else (None, ""))))
    return blocks


def own_laboratory():
    """The README's commands for a laboratory of one's own: those up to the founding, and the one that serves."""
    lines = [line.strip() for line in text_of("README.md").splitlines()]
    at = next((at for at, line in enumerate(lines) if line.startswith("./labdesk-found ")), None)
    serving = next((line for line in lines if line.startswith("./labdesk serve ")), None)
    if at is None or serving is None:
        raise Stop("the README has no ./labdesk-found and ./labdesk serve, each on a line of its own")
    first = at
    while lines[first - 1] and not lines[first - 1].startswith("```"):
        first -= 1
    return "\n".join(lines[first:at + 1]), serving


# ---- what is printed, whatever the day


class Varying:
    """Texts in which values that differ from run to run are named by where they came first."""

    def __init__(self):
        self.known = {}

    def named(self, found):
        return f"<{len(found[0])} digits, {self.known.setdefault(found[0], len(self.known))}>"

    def text(self, text):
        text = re.sub(r"\d{4}-\d\d-\d\dT\d\d:\d\d:\d\dZ", "<moment>", text.replace("\r\n", "\n"))
        text = re.sub(r"\w{3}, \d\d \w{3} \d{4} \d\d:\d\d:\d\d GMT", "<date>", text)
        return re.sub(r"(?<![0-9a-f])(?:(?!0{64})[0-9a-f]{64}|[0-9a-f]{32})(?![0-9a-f])", self.named, text).strip()


def values_in(text):
    """The values of JSON that stand one behind the other, with their members in order."""
    reader, values, at = json.JSONDecoder(object_pairs_hook=lambda pairs: ["members", *pairs]), [], 0
    text = text.strip()
    while at < len(text):
        value, end = reader.raw_decode(text, at)
        values.append(value)
        at = end + len(text[end:]) - len(text[end:].lstrip())
    return values


class Compared:
    """A document and a run of it, block by block."""

    def __init__(self):
        self.wanted, self.there = Varying(), Varying()

    def differs(self, kind, wanted, there):
        """Whether this was printed otherwise than it stands in the document."""
        if kind == "json":
            try:
                wanted, there = (json.dumps(values_in(one)) for one in (wanted, there))
            except ValueError:
                return True
        return self.wanted.text(wanted) != self.there.text(there)


# ---- a laboratory


def free_port():
    with socket.socket() as one:
        one.bind(("127.0.0.1", 0))
        return one.getsockname()[1]


class Room:
    """A folder with the program, in which a reader of the README stands."""

    def __init__(self, name, program):
        self.path, self.port, self.server = pathlib.Path(name), free_port(), None
        (self.path / "home").mkdir()
        (self.path / "labdesk").write_text(f'#!/bin/sh\nexec {program} "$@"\n')
        (self.path / "labdesk").chmod(0o755)
        shutil.copy(TOP / "labdesk-found", self.path)
        for folder in ("examples", "packaging"):
            (self.path / folder).symlink_to(TOP / folder)

    def environment(self):
        kept = {name: value for name, value in os.environ.items() if not name.lower().endswith("_proxy")}
        return {**kept, "HOME": str(self.path / "home"), "LC_ALL": "C.UTF-8", "PYTHONDONTWRITEBYTECODE": "1"}

    def at_port(self, text):
        """A text with the room's port in place of the documents'."""
        return re.sub(r"(:|--port )8080\b", rf"\g<1>{self.port}", text)

    def found(self, commands, name, founders):
        """Runs the commands at a terminal, and types the laboratory's name and code, name and password of each founder."""
        answers = [("its name: ", name)]
        for code, printed, password in founders:
            answers += [("code: ", code), ("signatures: ", printed), ("(not shown): ", password), ("again: ", password)]
        process, end = pty.fork()
        if process == 0:
            os.chdir(self.path)
            os.execvpe("bash", ["bash", "-ec", commands], self.environment())
        printed = self.typed(end, answers)
        status = os.waitstatus_to_exitcode(os.waitpid(process, 0)[1])
        if status or answers:
            raise Stop(f"the founding ended with {status}: {printed[-400:]!r}")
        return printed

    def typed(self, end, answers):
        """What is printed at a terminal, until it ends; each answer is typed once its question is the last that was printed."""
        printed, at, until = "", 0, time.monotonic() + PATIENCE
        while select.select([end], [], [], max(0, until - time.monotonic()))[0]:
            try:
                part = os.read(end, 65536)
            except OSError:
                break
            if not part:
                break
            printed += part.decode(errors="replace")
            if answers and printed[at:].endswith(answers[0][0]):
                at = len(printed)
                # (who asks for a password throws away what was typed before)
                time.sleep(0.1)
                os.write(end, answers.pop(0)[1].encode() + b"\n")
        return printed

    def serve(self, command, **further):
        """Runs the README's command that serves, at the room's port, with what its environment has besides."""
        words, environment = ["bash", "-c", f"exec {self.at_port(command)}"], {**self.environment(), **further}
        self.server = subprocess.Popen(words, cwd=self.path, env=environment, stdout=subprocess.PIPE, stderr=subprocess.PIPE, text=True)
        line = self.server.stdout.readline()
        if not line.startswith("listening "):
            raise Stop(f"the server: {line!r} {self.server.stderr.read()!r}")

    def close(self):
        if self.server is not None and self.server.poll() is None:
            self.server.send_signal(signal.SIGTERM)
            self.server.communicate(timeout=PATIENCE)
        self.server = None


@contextlib.contextmanager
def laboratory(program, name, founders):
    """A room in which the README's two commands were run."""
    founding, serving = own_laboratory()
    with tempfile.TemporaryDirectory() as folder:
        room = Room(folder, program)
        try:
            room.found(founding, name, founders)
            room.serve(serving)
            yield room
        finally:
            room.close()


class Shell:
    """A bash that runs blocks, one after the other, as if they were pasted."""

    def __init__(self, room):
        self.room, self.count = room, 0
        driver = 'while IFS= read -r block; do . "$block" </dev/null >"$block.printed" 2>"$block.told"; echo $?; done'
        self.process = subprocess.Popen(["bash", "-c", driver], cwd=room.path, env=room.environment(), stdin=subprocess.PIPE,
                                        stdout=subprocess.PIPE, text=True)

    def run(self, text):
        """The status of a block's last command, and what it printed, with what it told behind."""
        self.count += 1
        block = self.room.path / f"block{self.count}"
        block.write_text(self.room.at_port(text))
        self.process.stdin.write(f"{block}\n")
        self.process.stdin.flush()
        if not select.select([self.process.stdout], [], [], PATIENCE)[0]:
            raise Stop(f"nothing more after {PATIENCE} s: {text}")
        status = self.process.stdout.readline()
        if not status:
            raise Stop(f"the shell ended: {text}")
        return int(status), *((self.room.path / f"{block.name}.{end}").read_text(errors="replace") for end in ("printed", "told"))

    def close(self):
        self.process.stdin.close()
        self.process.wait(PATIENCE)


def run_blocks(shell, blocks):
    """Runs blocks in their order. Gives what of each is otherwise than in the document, or nothing; the first line of a block names it."""
    compared = Compared()
    for text, kind, wanted in blocks:
        status, printed, told = shell.run(text)
        what = next(line for line in text.splitlines() if line.strip())
        if status or told.strip():
            yield f"{what}: status {status}, {told.strip()!r:.400} is told"
        elif compared.differs(kind, shell.room.at_port(wanted), printed):
            yield f"{what}: it prints {printed!r:.600}, and {wanted!r:.600} is wanted"
        else:
            yield None


def program_of(words):
    """The path of the program that is given, or of the proved one; nothing where it can't be had."""
    if words:
        return os.path.abspath(words[0])
    ran = subprocess.run([TOP / "tools/program", "lab_program"], stdout=subprocess.PIPE, text=True)
    return ran.stdout.strip() if ran.returncode == 0 else None
