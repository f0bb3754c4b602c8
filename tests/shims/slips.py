"""The slips of tests/shims/slips.json: what is sent by mistake, under each heading of docs/COMMANDS.md, and what is answered. A slip has
what is wrong, by whom it is sent, what is sent, and the status and the word of the answer. tests/commands sends each one, and writes
docs/SLIPS.md, whose tables are made here.
"""
import json
import os
import re

TOP = os.path.dirname(os.path.dirname(os.path.dirname(os.path.abspath(__file__))))
DATA, PAGE = "tests/shims/slips.json", "docs/SLIPS.md"
HEADER = "| Slip | By | What is sent | Answer |\n|---|---|---|---|\n"
# What a page may be altered by: in place of the first such text stands another one.
ALTERED = {
    "another status": (r"\| 400 ", "| 401 "),
    "a row less": (r"^\| a member is missing .*\n", ""),
    "another heading": (r"^## Read the card$", "## Read a card"),
    "a row more at the end": (r"\Z", "| a slip | nobody | `{}` | 400 `bad_body` |\n"),
}


def of_commands():
    """The slips of each heading, in the order of the page."""
    with open(f"{TOP}/{DATA}", encoding="utf-8") as file:
        return json.load(file)


def written_page(page):
    """The page with the tables that the data has: its head stays as it is."""
    head = page[:page.index("\n## ") + 1]
    return head + "\n".join(section(name, slips) for name, slips in of_commands().items())


def section(name, slips):
    return f"## {name}\n\n{HEADER}" + "".join(row(*slip) for slip in slips)


def row(slip, who, sent, answer):
    status, word = answer.split()
    return f"| {slip} | {who} | `{sent}` | {status} `{word}` |\n"


def text_of_page():
    with open(f"{TOP}/{PAGE}", encoding="utf-8") as file:
        return file.read()


def write():
    page = written_page(text_of_page())
    with open(f"{TOP}/{PAGE}", "w", encoding="utf-8") as file:
        file.write(page)


def page_differs(page):
    """What is otherwise of a page than the data has it, line by line."""
    there, wanted = page.splitlines(), written_page(page).splitlines()
    there += [None] * (len(wanted) - len(there))
    wanted += [None] * (len(there) - len(wanted))
    for line, (one, other) in enumerate(zip(there, wanted), 1):
        if one != other:
            yield f"{PAGE}:{line}: {one!r}, and {DATA} has {other!r} (`tests/commands --write-slips` writes the page)"
            return


def altered_pass(page):
    """Alterations of the page that nobody would see."""
    for what, (pattern, text) in ALTERED.items():
        altered, count = re.subn(pattern, text, page, count=1, flags=re.M)
        if not count or not any(page_differs(altered)):
            yield f"{PAGE} with {what}"
