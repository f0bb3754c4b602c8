"""The numbers of pages/limits.js: those of the documents, each at one place alone, and those that the texts on the screen say."""
import re

from modules import COMMENT, texts
from said import PAGES, TOP, same, say

# Of each constant of a document: the document, and what stands there around it.
TIED = {
    "MOST_OF_NAME": ("NAMES", r"\| `Name` \|[^|]*\| 1 to ([\d,]+) \|"), "MOST_OF_NOTE": ("NAMES", r"\| `Note` \|[^|]*\| 1 to ([\d,]+) \|"),
    "MOST_OF_UNIT": ("NAMES", r"\| `Unit` \|[^|]*\| 0 to ([\d,]+) \|"),
    "LEAST_OF_PASSWORD": ("PERSONS", r"\*\*A chosen password\*\* has (\d+) to"), "MOST_OF_PASSWORD": ("PERSONS", r"\*\*A chosen password\*\* has \d+ to (\d+) bytes"),
    "GREATEST_NUMBER": ("NAMES", r"are numbered from 1 to ([\d,]+)\."), "AT_ONCE": ("COMMANDS", r"at least `from` and at most (\d+) above it"),
    "MOST_VERSIONS": ("RECORDS", r"(\d+) versions of a record"), "MOST_DIGITS": ("FORMS", r"1 to (\d+) digits"), "MOST_DECIMALS": ("FORMS", r"decimals, 0 to (\d+)"),
    "MOST_CHOICES": ("FORMS", r"1 to (\d+) different `Name`s"), "IDLE_SECONDS": ("PERSONS", r"no longer than ([\d,]+) seconds (?:\([^)]*\) )?after its last request"),
    "LONGEST_SECONDS": ("PERSONS", r"no longer than ([\d,]+) seconds (?:\([^)]*\) )?after its opening"), "MOST_SAMPLES": ("PAGES", r"up to (\d+) samples"),
    "WARNING_SECONDS": ("PAGES", r"(Two) minutes before the end a warning"),
}
PATTERNS = {"LAB_CODE": "LabCode", "PERSON_CODE": "PersonCode", "KEY": "Key"}
# What a page counts otherwise than the document: one less, and in minutes.
COUNTED = {"AT_ONCE": lambda number: number + 1, "WARNING_SECONDS": lambda number: number * 60}
# Numbers that say what they are wherever they stand.
TELLING = {"IDLE_SECONDS", "LONGEST_SECONDS", "GREATEST_NUMBER", "AT_ONCE", "MOST_VERSIONS", "MOST_OF_PASSWORD", "MOST_OF_NAME"}
# What else the texts on the screen say: each number with its document.
SAID_ELSEWHERE = {"60": ("FORMS", r"1 to 60 fields"), "500": ("RECORDS", r"at most 500 persons"), "200": ("RECORDS", r"200 rows of a version"),
                  "65,536": ("COMMANDS", r"at most 65,536 bytes"), "90": ("PERSONS", r"more than 90 days back"), "64": ("PERSONS", r"64 characters")}
EXAMPLES = re.compile(r"\d{4}-\d{2}(?:-\d{2})?|\bU\+\w+|SHA-256|\bP\d+|[<>]?\d+\.\d+|\b[A-Z]\d+\b")
LITERAL = re.compile(r"'((?:[^'\\\n]|\\.)*)'|\"((?:[^\"\\\n]|\\.)*)\"|`((?:[^`\\]|\\.)*)`")


def plain(word):
    return 2 if word == "Two" else int(word.replace(",", ""))


def document(name):
    return (TOP / f"docs/{name}.md").read_text()


def look_at_documents(limits):
    wrong = []
    for name, (where, pattern) in TIED.items():
        found = {COUNTED.get(name, int)(plain(one)) for one in re.findall(pattern, document(where))}
        if found != {limits.get(name)}:
            wrong.append((name, limits.get(name), where, found))
    same(f"{len(TIED)} numbers of limits.js are those of the documents", wrong, [])
    wrong = []
    for name, kind in PATTERNS.items():
        least, most, letters = re.search(rf"\| `{kind}` \|[^|]*\| (\d+) to (\d+) \| (.*?); the first a letter \|", document("NAMES")).groups()
        there = "[a-z][" + "".join("-" if one == "-" else one.replace("` to `", "-") for one in re.findall(r"`([^,]*?)`(?:,|$)", letters)) + "]"
        pattern = f"{there}{{{int(least) - 1},{int(most) - 1}}}"
        # (in brackets a letter's place says nothing)
        if pattern.replace("0-9-", "0-9-") != limits[name]:
            wrong.append((name, limits[name], pattern))
    same("the codes' patterns are those of docs/NAMES.md", wrong, [])
    same("limits.js has nothing else", sorted(limits), sorted({*TIED, *PATTERNS}))


def look_for_numbers(limits):
    numbers = {limits[name] for name in TELLING}
    twice = []
    for name, text in texts().items():
        if name in ("limits", "texts"):
            continue
        bare = LITERAL.sub("", re.sub(r".*MILLISECONDS.*", "", COMMENT.sub("", text)))
        twice += [(name, one) for one in re.findall(r"(?<![\w.])\d[\d_]*(?![\w.])", bare) if int(one.replace("_", "")) in numbers]
    same("no other module has one of these numbers", twice, [])
    patterns = [(name, one) for name, text in texts().items() if name != "limits" for one in re.findall(r"\[a-z\]\[[^\]]*\]\{[^}]*\}", text)]
    same("nor a pattern of a code", patterns, [])


def look_at_texts(limits):
    """Each number that a text on the screen says is a limit."""
    admitted = {f"{value:,}" for value in limits.values() if isinstance(value, int)} | {str(value) for value in limits.values()}
    admitted |= {str(limits["IDLE_SECONDS"] // 60), str(limits["LONGEST_SECONDS"] // 3600), *SAID_ELSEWHERE}
    admitted |= set("0123456789") | {str(int(one) + 1) for name in PATTERNS for one in re.findall(r"(\d+)\}", limits[name])}
    said = set()
    for found in LITERAL.finditer((PAGES / "texts.js").read_text()):
        text = re.sub(r"\$\{[^}]*\}", "", next(one for one in found.groups() if one is not None))
        said |= {one for one in re.findall(r"(?<![\w.])\d[\d,]*(?!\w)", EXAMPLES.sub("", text))}
    unknown = sorted(one.rstrip(",") for one in said if one.rstrip(",") not in admitted)
    say(len(said) > 10, f"the texts on the screen say {len(said)} numbers")
    same("each of them is a limit", unknown, [])
    lacking = [(number, where) for number, (where, pattern) in SAID_ELSEWHERE.items() if not re.search(pattern, document(where))]
    same("and those that no module needs are the documents', too", lacking, [])


def look_at_limits(node):
    [[limits]] = node.call_all([("limits", None, [])])
    look_at_documents(limits)
    look_for_numbers(limits)
    look_at_texts(limits)
