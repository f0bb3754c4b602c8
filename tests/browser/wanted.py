"""What a test in a browser wants of this machine."""
import importlib.util
import os
import pathlib
import shutil
import sys

sys.path.append(str(pathlib.Path(__file__).resolve().parent.parent / "lib"))
from report import Report  # noqa: E402

DEBIAN = "/usr/bin/python3"
SITE = {"nginx": "nginx-light", "openssl": "openssl"}
COMMANDS = {"chromium": "chromium", "chromedriver": "chromium-driver", **SITE}
FIREFOX = {"firefox-esr": "firefox-esr", **SITE}


def prepare(name, commands=COMMANDS, modules=("selenium",)):
    """Names what is missing, and ends then. Another Python than Debian's doesn't have Debian's selenium: Debian's own goes on then."""
    # (nginx lies where only root looks)
    os.environ["PATH"] = f"{os.environ.get('PATH', os.defpath)}:/usr/sbin:/sbin"
    missing = [f"no command {command} on the path: the Debian package {package} has it"
               for command, package in commands.items() if not shutil.which(command)]
    if any(importlib.util.find_spec(module) is None for module in modules):
        if os.path.realpath(sys.executable) != os.path.realpath(DEBIAN) and os.access(DEBIAN, os.X_OK):
            os.execv(DEBIAN, [DEBIAN, *sys.argv])
        missing.append("no module selenium of Python: the Debian package python3-selenium has it")
    for line in missing:
        Report(name).say(False, line)
    if missing:
        sys.exit(1)
    # The browser and its driver are reached on this machine.
    for variable in [one for one in os.environ if one.lower().endswith("_proxy")]:
        del os.environ[variable]
