"""The modules of the pages under node, without a browser: a folder with them, calls of their functions, and scripts over them."""
import contextlib
import json
import shutil
import subprocess
import tempfile

from said import PAGES, TOP

CALLED = TOP / "tests/code/called.mjs"
PATIENCE = 600


class Node:
    def __init__(self, folder):
        self.folder = folder

    def call(self, module, name, calls):
        """What a function gives for each list of words."""
        return self.call_all([(module, name, calls)])[0]

    def call_all(self, jobs):
        told = "".join(json.dumps(job) + "\n" for job in jobs)
        ran = subprocess.run(["node", CALLED, self.folder], input=told, capture_output=True, text=True, timeout=PATIENCE)
        if ran.returncode:
            raise RuntimeError(ran.stderr.strip()[-600:])
        return [json.loads(line) for line in ran.stdout.splitlines()]

    def run(self, script, given=None):
        """The lines that a script of tests/code prints, which is told the folder."""
        words = ["node", TOP / "tests/code" / script, self.folder]
        ran = subprocess.run(words, input=json.dumps(given), capture_output=True, text=True, timeout=PATIENCE)
        return ran.stdout.splitlines(), ran.stderr.strip()


@contextlib.contextmanager
def modules_for_node():
    """(node takes a file as a module where its package says so, which the pages have no need of)"""
    with tempfile.TemporaryDirectory(prefix="labdesk-pages-code.") as folder:
        for page in PAGES.glob("*.js"):
            shutil.copy(page, folder)
        with open(f"{folder}/package.json", "w") as package:
            package.write('{ "type": "module" }\n')
        yield Node(folder)
