"""The program of a script of tests/, and `labdesk serve` over a file, as one server that is started, asked and stopped."""
import http.client
import os
import re
import shutil
import signal
import socket
import ssl
import subprocess
import sys

TOP = os.path.dirname(os.path.dirname(os.path.dirname(os.path.abspath(__file__))))
# How long anything may take on a machine that has much else to do.
PATIENCE = 300


def want_commands(report, *commands):
    """Where one of the commands isn't on the path, a line says so, and the script ends."""
    missing = [command for command in commands if shutil.which(command) is None]
    for command in missing:
        report.say(False, f"no command {command} on the path")
    if missing:
        sys.exit(1)


def program_of(report, words, *commands, crate="lab_program"):
    """The path of a crate's program: the first of the words, or the proved one, which is built if it isn't there. Where there is none, or one
    of the commands isn't on the path, a line says so, and the script ends."""
    want_commands(report, *commands)
    ran = words[0] if words else subprocess.run([f"{TOP}/tools/program", crate], stdout=subprocess.PIPE, text=True).stdout.strip()
    if not os.access(ran, os.X_OK):
        report.say(False, "the program isn't there")
        sys.exit(1)
    return os.path.abspath(ran)


def site_client(port, address="127.0.0.1", patience=PATIENCE, **how):
    """A client of a site, as one of nginx, of which any certificate is taken."""
    return http.client.HTTPSConnection(address, port, timeout=patience, context=ssl._create_unverified_context(), **how)


def received(client):
    """All that comes until the other end closes the connection, or breaks it off."""
    parts = []
    try:
        while part := client.recv(65536):
            parts.append(part)
    except ConnectionResetError:
        pass
    return b"".join(parts)


class Port:
    """A port of this machine, at which a server listens: `port`."""

    def __init__(self, port):
        self.port = port

    def connect(self, patience=PATIENCE):
        return socket.create_connection(("127.0.0.1", self.port), timeout=patience)

    def answer(self, request, is_last=True, patience=PATIENCE):
        """All that is answered on a connection of its own to these bytes, after which nothing comes, or the client waits. A server may
        close it before it has read them all."""
        with self.connect(patience) as client:
            try:
                client.sendall(request)
                if is_last:
                    client.shutdown(socket.SHUT_WR)
            except OSError:
                pass
            return received(client)


class Server(Port):
    """labdesk serve over a file, at a port that is free: `port`; where it doesn't listen that is none, and `line` is what it printed. It
    ends by itself after `count` connections, if that is said. Other words may stand in place of the file's. Where a server is held before
    it listens, its line is read once it is let go, by `listen`."""

    def __init__(self, program, file, *further, count=None, words=None, environment=None, is_held=False, **how):
        super().__init__(None)
        words = words or [program, "serve", "--file", str(file), "--port", "0", *([] if count is None else ["--count", str(count)]), *further]
        self.process = subprocess.Popen(words, stdout=subprocess.PIPE, stderr=subprocess.PIPE, env=environment, **how)
        self.line = b""
        if not is_held:
            self.listen()

    def listen(self):
        """Reads the server's line. Returns whether it listens."""
        self.line = self.process.stdout.readline()
        listening = re.fullmatch(rb"listening 127\.0\.0\.1:(\d+)\n", self.line)
        self.port = int(listening[1]) if listening else None
        return self.port is not None

    def stop(self):
        """Stops it as systemd does. Returns what `ended` does."""
        self.process.send_signal(signal.SIGTERM)
        return self.ended()

    def ended(self, patience=PATIENCE):
        """The status, and what was written after the first line, and told."""
        try:
            written, told = self.process.communicate(timeout=patience)
        except subprocess.TimeoutExpired:
            self.process.kill()
            written, told = self.process.communicate()
        return self.process.returncode, written, told

    def close(self):
        """Ends it, whatever it does, also where it was stopped by a signal."""
        if self.process.poll() is None:
            self.process.kill()
            self.process.communicate()

    def __enter__(self):
        return self

    def __exit__(self, *_):
        self.close()
