"""The fenced blocks of a page of docs/: commands, which are run in their order by one bash, and what they have to print; questions in SQL,
and what they have to be answered."""
import os
import re
import sqlite3
import subprocess

TOP = os.path.dirname(os.path.dirname(os.path.dirname(os.path.abspath(__file__))))
PATIENCE = 300


def text_of(page):
    with open(f"{TOP}/{page}", encoding="utf-8") as file:
        return file.read()


def commands_of(page):
    """Each block of commands: its section, its text, and the lines that the block behind it wants, where `..` is any text."""
    section, found = "", []
    for heading, language, text in re.findall(r"^##+ ([^\n]*)$|^```(\w+)\n(.*?)^```$", page, re.M | re.S):
        section = heading or section
        if language == "sh":
            found.append((section, text, []))
        elif language == "text":
            found[-1][2].extend(text.splitlines())
    return found


def others_of(page):
    """The languages of blocks that are neither commands, nor what they print, nor questions."""
    return sorted(set(re.findall(r"^```(\w+)$", page, re.M)) - {"sh", "text", "sql"})


def cells(line):
    """The cells of a row of a table, of which `\\|` is a letter."""
    return [cell.strip().replace("\\|", "|") for cell in re.split(r"(?<!\\)\|", line.strip())[1:-1]]


def questions_of(page):
    """Each question with its text, its columns, and the rows that it is answered."""
    for title, text, table in re.findall(r"^\*\*(.*?)\*\*.*\n\n```sql\n((?:[^`\n].*\n)+)```\n\n((?:\|.*\n)+)", page, re.M):
        lines = table.splitlines()
        yield title, text, cells(lines[0]), [cells(line) for line in lines[2:]]


def lacking(wanted, there):
    """The first line that is wanted and isn't there, after those before it."""
    lines = iter(there.splitlines())
    for line in wanted:
        pattern = ".*".join(map(re.escape, line.split("..")))
        if not any(re.fullmatch(pattern, one) for one in lines):
            return line
    return None


def run(blocks, room, environment):
    """Runs blocks in a room, and gives what each of them printed, up to the first that failed, and the status of that."""
    driver = ["set -eu -o pipefail", "exec 2>&1 </dev/null", "trap 'kill $(jobs -p) 2>/dev/null || true' EXIT"]
    for number, (_, text, _) in enumerate(blocks):
        path = os.path.join(room, f".block{number}")
        with open(path, "w", encoding="utf-8") as file:
            file.write(text)
        driver += [f"printf '\\n=block {number}=\\n'", f". {path}"]
    ran = subprocess.run(["bash", "-c", "\n".join(driver)], cwd=room, env=environment, stdout=subprocess.PIPE, timeout=PATIENCE)
    printed = ran.stdout.decode("utf-8", "replace")
    return re.split(r"\n=block \d+=\n", printed)[1:], ran.returncode


def check_commands(page, room, environment, say):
    """Says of each block of commands whether it printed what it has to."""
    blocks = commands_of(page)
    printed, status = run(blocks, room, environment)
    for number, (section, text, wanted) in enumerate(blocks):
        what = f"{section}, {len(text.splitlines())} lines: {text.splitlines()[0]}"
        if number >= len(printed):
            say(False, f"{what}: it wasn't run")
        elif number == len(printed) - 1 and status:
            say(False, f"{what}: it ended with status {status}: {printed[number][-600:]!r}")
        else:
            line = lacking(wanted, printed[number])
            say(line is None, what if line is None else f"{what}: no line {line!r} in {printed[number][-600:]!r}")
    return len(blocks)


def answers(file, text):
    """The columns and the rows of a question to a file that nothing is written into."""
    base = sqlite3.connect(f"file:{file}?mode=ro", uri=True)
    try:
        cursor = base.execute(text)
        return [column[0] for column in cursor.description], [["" if one is None else str(one) for one in row] for row in cursor]
    finally:
        base.close()
