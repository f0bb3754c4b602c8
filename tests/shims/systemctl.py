#!/usr/bin/python3
"""Answers in place of systemctl on a machine of tests/second: starts units as their files and drop-ins say, with the user, the conditions and
the restarts that they name. What shuts a unit in isn't done here: tests/packaging has systemd run the units."""
import os
import pathlib
import pwd
import re
import shlex
import signal
import subprocess
import sys
import time

PLACES = ("/etc/systemd/system", "/lib/systemd/system")
WANTED = pathlib.Path("/etc/systemd/system/multi-user.target.wants")
RUN = pathlib.Path("/run/units")


class Unit:
    """What the files of a unit say: each key with its values, in their order."""

    def __init__(self, name):
        name = name if re.search(r"\.(service|timer)$", name) else f"{name}.service"
        self.name, self.number = name, re.sub(r"^.*@|\.\w+$", "", name)
        general = re.sub(r"@.*\.", "@.", name)
        files = [next(path for path in (pathlib.Path(place, general) for place in PLACES) if path.exists())]
        for folder in (general, name):
            files += sorted(pathlib.Path("/etc/systemd/system", f"{folder}.d").glob("*.conf"))
        self.values = {}
        for file in files:
            for key, value in re.findall(r"^(\w+)=(.*)$", file.read_text(), re.M):
                there = self.values.setdefault(key, [])
                there.append(value.replace("%i", self.number)) if value else there.clear()
        self.state, self.group = RUN / name, RUN / f"{name}.group"

    def get(self, key, default=None):
        return (self.values.get(key) or [default])[-1]

    def environment(self):
        there = dict(os.environ)
        for file in self.values.get("EnvironmentFile", []):
            there.update(line.split("=", 1) for line in pathlib.Path(file).read_text().splitlines() if "=" in line)
        return there

    def run(self, line, **further):
        """Runs a line of a unit: its status."""
        whole = line.startswith("+")
        about = self.environment()
        words = [re.sub(r"\$\{(\w+)\}", lambda found: about[found[1]], word) for word in shlex.split(line.lstrip("+-"))]
        user = None if whole else self.get("User")
        own = ["setpriv", f"--reuid={user}", f"--regid={user}", "--init-groups"] if user else []
        about["HOME"] = pwd.getpwnam(user or "root").pw_dir
        with open("/run/journal", "ab") as journal:
            return subprocess.run([*own, *words], env=about, stdin=subprocess.DEVNULL, stdout=journal, stderr=journal, **further).returncode

    def run_each(self, key):
        return next((status for status in map(self.run, self.values.get(key, [])) if status), 0)

    def says(self, state):
        self.state.write_text(state)

    def make_folders(self):
        for base, key in (("/run", "RuntimeDirectory"), ("/var/lib", "StateDirectory")):
            for name in self.values.get(key, []):
                path = pathlib.Path(base, name)
                path.mkdir(parents=True, exist_ok=True)
                for one in (path, *path.rglob("*")):
                    os.chown(one, *pwd.getpwnam(self.get("User"))[2:4])

    def once(self):
        """Starts it, and waits for its end: 'skipped', 'failed' or 'ended'."""
        if not all(os.path.exists(path) for path in self.values.get("ConditionPathExists", [])):
            return "skipped"
        for want in self.values.get("Wants", []):
            if want.startswith("koghdise"):
                other = Unit(want)
                other.says(other.once())
        self.make_folders()
        status = self.run_each("ExecCondition")
        if status:
            return "skipped" if status < 255 else "failed"
        self.says("running")
        status = self.run_each("ExecStart")
        good = status == 0 or str(status) in self.get("SuccessExitStatus", "").split()
        if good:
            self.run_each("ExecStartPost")
        self.run_each("ExecStopPost")
        return "ended" if good else "failed"

    def keep(self):
        """Starts it over and over, as Restart=always wants it."""
        while True:
            came = self.once()
            self.says(came)
            if came == "skipped":
                return
            time.sleep(0.5)

    def start(self):
        if self.name.endswith(".timer"):
            self.says("running")
        elif self.get("Type") == "oneshot":
            came = self.once()
            self.says(came)
            return 1 if came == "failed" else 0
        elif not self.group.exists():
            child = os.fork()
            if child == 0:
                os.setsid()
                with open("/dev/null", "rb+", buffering=0) as null:
                    for number in range(3):
                        os.dup2(null.fileno(), number)
                self.group.write_text(str(os.getpid()))
                self.keep()
                self.group.unlink()
                os._exit(0)
            wait_for(lambda: self.state.exists() and self.state.read_text() in ("running", "skipped", "failed"))
        return 0

    def stop(self):
        if self.group.exists():
            group = int(self.group.read_text())
            os.killpg(group, signal.SIGKILL)
            self.group.unlink(missing_ok=True)
            wait_for(lambda: not alive(group))
        self.says("stopped")
        return 0


def wait_for(there):
    while not there():
        time.sleep(0.02)


def alive(group):
    """Whether a process of this group is there."""
    for path in pathlib.Path("/proc").glob("[0-9]*/stat"):
        try:
            words = path.read_text().rpartition(")")[2].split()
        except OSError:
            continue
        if int(words[2]) == group and words[0] != "Z":
            return True
    return False


def nginx():
    running = pathlib.Path("/run/nginx.pid")
    there = running.exists() and running.read_text().strip()
    return subprocess.run(["nginx", *(["-s", "reload"] if there else [])]).returncode


def enable(units, verb):
    WANTED.mkdir(parents=True, exist_ok=True)
    for name in units:
        path = WANTED / Unit(name).name
        path.touch() if verb == "enable" else path.unlink(missing_ok=True)


def boot():
    """Starts what is enabled: nginx where it has a site, and each unit."""
    RUN.mkdir()
    for name in sorted(path.name for path in WANTED.glob("koghdise*")):
        Unit(name).start()


def main():
    words = [word for word in sys.argv[1:] if not word.startswith("--")]
    verb, units = words[0], words[1:]
    if verb in ("daemon-reload", "boot"):
        return boot() if verb == "boot" else 0
    if units == ["nginx"]:
        return nginx()
    if verb == "is-active":
        states = [Unit(name).state for name in units]
        active = ["active" if path.exists() and path.read_text() == "running" else "inactive" for path in states]
        print("\n".join(active))
        return 0 if set(active) == {"active"} else 3
    if verb == "kill":
        return 0
    if verb in ("enable", "disable"):
        enable(units, verb)
        if "--now" not in sys.argv:
            return 0
        verb = {"enable": "start", "disable": "stop"}[verb]
    status = 0
    for name in units:
        if verb in ("stop", "restart"):
            status |= Unit(name).stop()
        if verb in ("start", "restart"):
            status |= Unit(name).start()
    return status


if __name__ == "__main__":
    sys.exit(main())
