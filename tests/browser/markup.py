"""A laboratory whose every text is markup, script, a very long word, right-to-left, emoji or a formula: nothing runs, nothing breaks."""
from room import Asker, Refused, found, let_in, password_of, same, say
from screen import NARROW, WIDE, entry_row
from seeing import compare_form, compare_persons, compare_records, compare_trail, compare_version

LAB = "wild"
LONG = "W" * 120
TEXTS = (
    '<img src=x onerror="alert(1)"><b>bold</b>',
    "<script>alert(2)</script><style>*{display:none}</style>",
    '"></td></table></main><h1 onmouseover=alert(3)>',
    LONG,
    "\u05e9\u05dc\u05d5\u05dd \u202edlrow olleh",
    "\U0001f469\u200d\U0001f52c\U0001f9ea\U0001f4a7 \u00fc\u00df\u4e2d\u6587",
    '=HYPERLINK("https://example.org";"x")',
    "@SUM(1+1)*cmd|' /C calc'!A0",
    "\u200b\u200b",
    "Z" + "\u0300\u0317\u0489" * 15,
    "${alert(4)} {{7*7}} &lt;b&gt;&amp;",
    "javascript:alert(5)",
)
NOTES = tuple(text + "\n" + text for text in TEXTS) + ("N" * 1000, "\n\n\n", " blanks at both ends ")
FIELDS = [{"key": f"text{at}", "label": text, "required": False, "kind": "text", "size": 1000} for at, text in enumerate(TEXTS)]
FIELDS += [{"key": "choice", "label": TEXTS[0], "required": False, "kind": "choice", "choices": list(TEXTS)},
           {"key": "number", "label": LONG, "required": True, "kind": "number", "unit": "<b>%\u202e</b>", "decimals": 2}]
ANN, BOB, CID = (("ann", TEXTS[0], "correct horse 1"), ("bob", LONG, "correct horse 2"), ("cid", TEXTS[4], "correct horse 3"))


class Wild:
    """The laboratory, filled by the server itself, and each person's session there."""

    def __init__(self, port):
        self.port, self.records = port, []
        self.ann, self.bob = (Asker(port, LAB, code, password) for code, _, password in (ANN, BOB))
        people = (("dan", TEXTS[1], ["analyst"]), ("fay", TEXTS[2], ["reviewer"]), ("gus", TEXTS[5], ["manager"]),
                  ("hal", TEXTS[6], ["inspector"]), ("eve", TEXTS[9], []), ("ida", TEXTS[8], []), ("jon", TEXTS[11], []))
        for code, name, roles in people:
            let_in(self.ann, self.bob, code, name, roles)
        self.dan, self.fay, self.gus, self.hal = (Asker(port, LAB, code, password_of(code)) for code in ("dan", "fay", "gus", "hal"))

    def sign(self, who, code, record, meaning, **further):
        version = who.get(f"records/{record}")["versions"][-1]
        who.post("signatures", record=record, version=version["version"], digest=version["digest"], meaning=meaning, code=code,
                 password=password_of(code), **further)

    def fill(self):
        self.gus.post("forms", form="wild", approval=False, fields=FIELDS)
        changed = [{**FIELDS[0], "label": TEXTS[10]}, *FIELDS[1:]]
        for at, sample in enumerate(TEXTS):
            number = self.dan.post("records", form="wild", sample=sample)["record"]
            self.dan.post("entries", record=number, key=f"text{at}", value=NOTES[at], unit="")
        for at, note in enumerate(NOTES):
            self.dan.post("entries", record=1, key=f"text{at % len(TEXTS)}", value=note[::-1], unit="", reason=NOTES[at])
        self.dan.post("entries", record=1, key="choice", value=TEXTS[3], unit="")
        self.dan.post("entries", record=1, key="number", value="<0.05", unit="<b>%\u202e</b>")
        self.sign(self.dan, "dan", 1, "authorship")
        self.sign(self.fay, "fay", 1, "rejection", reason=NOTES[0])
        self.dan.post("amendments", record=1, reason=NOTES[1], altered=[{"key": "choice", "value": TEXTS[4], "unit": ""}])
        self.gus.post("forms", form="wild", approval=True, fields=changed)


def fits(screen, what):
    """No page is wider than its window: wide, at 200 per cent, and narrow."""
    over = {}
    for name, size in (("wide", WIDE), ("at 200 per cent", (WIDE[0] // 2, WIDE[1] // 2)), ("narrow", NARROW)):
        screen.size(*size)
        over[name] = screen.overflow()
    screen.size(*WIDE)
    say(not any(over.values()), f"{what} fits its window {'' if not any(over.values()) else over}".rstrip())


def sign_in(screen, code, password=None):
    screen.load()
    screen.open_session(lab=LAB, code=code, password=password or password_of(code))


# Of each text of the laboratory that has a character that isn't seen, or that turns the order: how many, and how many marks are seen.
UNSEEN = """
const hidden = /[\\u00ad\\u200b\\u200e\\u200f\\u202a-\\u202e\\u2066-\\u2069\\ufeff]/gu;
const before = (one) => getComputedStyle(one, "::before").content.replace("attr(data-code)", one.dataset.code ?? "");
const is_mark = (one) => /U\\+/.test(before(one)) && one.getClientRects().length > 0;
return [...document.querySelectorAll("bdi")].map((one) => [one, (one.textContent.match(hidden) ?? []).length])
    .filter(([one, count]) => count > 0 && one.checkVisibility())
    .map(([one, count]) => [count, [...one.querySelectorAll("*")].filter(is_mark).length]);
"""


def shows_what_is_not_seen(screen, what):
    """A character that isn't seen has a mark, so that who signs sees that it is there."""
    there = screen.run(UNSEEN)
    good = bool(there) and all(marks >= count for count, marks in there)
    say(good, f"{what}: {len(there)} texts have characters that aren't seen, each with its mark {'' if good else there}".rstrip())


def as_inspector(screen, wild):
    sign_in(screen, "hal")
    same("the laboratory's name is a text", screen.part("lab"), f"{wild.hal.get()['name']} ({LAB})")
    compare_records(screen, wild.hal, "samples that are markup")
    fits(screen, "their list")
    for record, version in ((4, 1), (1, 1), (1, 2)):
        screen.run("location.hash = arguments[0]", f"#/records/{record}/versions/{version}")
        screen.wait(lambda: screen.all(f'article[data-record="{record}"][data-version="{version}"]'), "the version is shown")
        screen.settle()
        compare_version(screen, wild.hal, record, version, "values, reasons and names that are markup")
        fits(screen, f"version {version} of record {record}")
    shows_what_is_not_seen(screen, "a version")
    screen.do("paper")
    fits(screen, "all versions for paper")
    screen.go("#/persons")
    compare_persons(screen, wild.hal, "printed names that are markup")
    shows_what_is_not_seen(screen, "printed names")
    fits(screen, "their list")
    screen.go("#/trail")
    compare_trail(screen, wild.hal, "the trail beside them", 1, 100)
    fits(screen, "the trail")
    screen.go("#/copies")
    screen.do("take_an_inspection_copy")
    same("the copy of these texts is good", screen.parts("verdict"), [verdict_of(wild)])
    fits(screen, "the copies")


def verdict_of(wild):
    """What the copy's own end row says."""
    end = wild.hal.copy(1, 100).decode().splitlines()[-1].split(",")
    return "good " + " ".join(end[2:6])


def as_manager(screen, wild):
    sign_in(screen, "gus")
    for version in (1, 2):
        screen.run("location.hash = arguments[0]", f"#/forms/wild/{version}")
        screen.settle()
        screen.wait(lambda: screen.place() == f"#/forms/wild/{version}", "the form is shown")
        screen.settle()
        compare_form(screen, wild.hal, "wild", version, "labels, choices and units that are markup")
        fits(screen, f"version {version} of the form")
    screen.go("#/making/wild/2")
    fits(screen, "the editor, folded")
    for folded in screen.all('[data-do="fold_field"][aria-expanded="false"]'):
        screen.click(folded)
    labels = [one.get_attribute("value") for one in screen.all('[name="label"]')]
    same("the editor has the labels", labels, [one["label"] for one in wild.gus.get("forms/wild/2")["fields"]])
    fits(screen, "the editor")


def as_analyst(screen, wild):
    sign_in(screen, "dan")
    fits(screen, "an analyst's list")
    screen.go("#/records/2")
    fits(screen, "the entering")
    screen.fill(entry_row(screen, "choice"), value=TEXTS[2])
    screen.fill(entry_row(screen, "text7"), value=TEXTS[5] + TEXTS[0])
    screen.do("enter_a_value")
    compare_version(screen, wild.hal, 2, 1, "texts that are markup, entered by the page")
    screen.do("authorship")
    fits(screen, "the signing")
    screen.go("#/records/2/versions/1")


def as_administrator(screen, wild):
    sign_in(screen, "ann", ANN[2])
    screen.go("#/persons")
    screen.go("#/persons/fay")
    same("a person's name is a text", screen.part("name"), TEXTS[2])
    fits(screen, "a person's page")
    screen.do("ask_for_a_one_time_password")
    fits(screen, "half of a one-time password")


def look_at_hostile(screen, program, port):
    wild = Wild(port)
    try:
        wild.fill()
    except Refused as fault:
        say(False, f"the laboratory of hostile texts isn't filled: {fault}")
        return
    as_inspector(screen, wild)
    as_manager(screen, wild)
    as_analyst(screen, wild)
    as_administrator(screen, wild)


def found_wild(program, file):
    found(program, file, LAB, "<h1 onclick=alert(6)>\u202e\U0001f4a7" + "L" * 60, [ANN, BOB, CID])
