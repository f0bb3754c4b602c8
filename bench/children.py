"""Runs a command, and returns what it took: the processor's seconds, and its greatest memory, as Linux gives it of a process that runs."""
import contextlib
import os
import re
import subprocess
import threading

TOP = os.path.dirname(os.path.dirname(os.path.abspath(__file__)))
EVERY = 0.002
MEGABYTE = 1_000_000


def proved_program():
    """The path of labdesk, which is proved and built where it isn't."""
    made = subprocess.run([f"{TOP}/tools/program", "lab_program"], stdout=subprocess.PIPE, check=True, text=True)
    return made.stdout.strip()


class Took:
    def __init__(self, seconds, memory):
        self.seconds, self.memory = seconds, memory


class Watch(threading.Thread):
    """Looks every few milliseconds at the most memory that a process had. (The figure that `wait4` has is no use for small ones: it
    begins with that of the process which started the command.)"""

    def __init__(self, process):
        super().__init__()
        self.process, self.most, self.ended = process, 0, threading.Event()

    def run(self):
        with contextlib.suppress(OSError):  # it has ended
            while not self.ended.is_set():
                with open(f"/proc/{self.process.pid}/status") as status:
                    if found := re.search(r"VmHWM:\s+(\d+) kB", status.read()):
                        self.most = int(found[1]) * 1024 / MEGABYTE
                self.ended.wait(EVERY)


def took(words, given="/dev/null", written=None):
    """What a command took that read this file, and wrote to that one or to nobody."""
    with open(given, "rb") as source, open(written or "/dev/null", "wb") as target:
        process = subprocess.Popen(words, stdin=source, stdout=target)
        watch = Watch(process)
        watch.start()
        _, status, used = os.wait4(process.pid, 0)
        process.returncode = os.waitstatus_to_exitcode(status)
        watch.ended.set()
        watch.join()
    assert process.returncode == 0, (words, process.returncode)
    return Took(used.ru_utime + used.ru_stime, watch.most)


def compiled(source, room, *words):
    """A C program, compiled into a folder."""
    made = str(room / source.removesuffix(".c"))
    subprocess.run(["gcc", "-O2", "-o", made, f"{TOP}/bench/{source}", *words], check=True)
    return made


def best(words, given="/dev/null", written=None, runs=3):
    """The least time of some runs, and the most memory of any."""
    every = [took(words, given, written) for _ in range(runs)]
    return Took(min(one.seconds for one in every), max(one.memory for one in every))
