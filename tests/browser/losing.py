"""Nothing that a person did is lost, done twice or hidden: late and lost replies, two managers, Back, and what is shown once."""
import time

from faults import break_fetch, come_late, fault, no_more_faults
from room import Asker, Refused, Stop, found, let_in, password_of, same, say
from screen import WIDE, entry_row
from selenium.common.exceptions import WebDriverException

LAB = "calm"
FOUNDERS = [(code, f"{code.title()} Calm", f"correct horse {code}") for code in ("ann", "bob", "cid")]
PEOPLE = (("dan", ["analyst"]), ("eve", ["analyst", "reviewer"]), ("gus", ["manager"]), ("gil", ["manager"]), ("hal", ["inspector"]),
          ("jon", ["analyst"]), ("ned", []))
LEAD = {"key": "lead", "label": "Lead", "required": True, "kind": "number", "unit": "mg/L", "decimals": 2, "min": "0", "max": "50"}
NOTE = {"key": "note", "label": "Note", "required": False, "kind": "text", "size": 1000}
# More than the newest five hundred, of which the first few wait.
RECORDS = 512
TELEPHONE = (390, 844)


def found_calm(program, file):
    found(program, file, LAB, "Calm Lab", FOUNDERS)


class Calm:
    """The laboratory, filled by the server itself; a session of each person there, and the screen."""

    def __init__(self, screen, port, people=PEOPLE, records=RECORDS):
        self.screen, self.port, self.records = screen, port, records
        self.of = {code: Asker(port, LAB, code, password) for code, _, password in FOUNDERS}
        for code, roles in people:
            let_in(self.of["ann"], self.of["bob"], code, f"{code.title()} Calm", roles)
            self.of[code] = Asker(port, LAB, code, password_of(code))

    def fill(self):
        self.of["gus"].post("forms", form="water", approval=False, fields=[LEAD, NOTE])
        for number in range(1, self.records + 1):
            self.of["dan"].post("records", form="water", sample=f"Well {number}")
        for record, code in ((1, "dan"), (2, "eve"), (3, "dan"), (4, "dan")):
            self.of[code].post("entries", record=record, key="lead", value="7.5", unit="mg/L")
        for record, code in ((1, "dan"), (2, "eve"), (3, "dan")):
            self.sign(code, record, "authorship")

    def sign(self, code, record, meaning):
        version = self.of[code].get(f"records/{record}")["versions"][-1]
        self.of[code].post("signatures", record=record, version=version["version"], digest=version["digest"], meaning=meaning, code=code,
                           password=password_of(code))

    def come(self, code):
        self.screen.load()
        password = next((one[2] for one in FOUNDERS if one[0] == code), password_of(code))
        self.screen.open_session(lab=LAB, code=code, password=password)
        break_fetch(self.screen)

    def go(self, place):
        """To a place by its address."""
        self.screen.run("location.hash = arguments[0]", place)
        self.screen.wait(lambda: self.screen.place() == place, f"the place is {place}")
        self.screen.settle()

    def values(self, record, version=1):
        rows = self.of["hal"].get(f"records/{record}/versions/{version}")["rows"]
        return [(row["key"], row["value"]) for row in rows]

    def said(self):
        return self.screen.run("return document.getElementById('said').innerText")

    def rows_of_trail(self, action, subject):
        """How many rows of the trail are of an action and a subject."""
        first, count = 1, 0
        while rows := self.of["hal"].get(f"trail?from={first}&to={first + 99}")["trail"]:
            count += sum(row["action"] == action and row["subject"] == subject for row in rows)
            first += 100
        return count


def press_enter(calm, key, **typed):
    """Fills the row of a field, and clicks the button that enters all, but waits for nothing."""
    row = entry_row(calm.screen, key)
    calm.screen.fill(row, **typed)
    calm.screen.click(calm.screen.one('[data-do="enter_a_value"]'))
    return row


# ---- late replies


def late_signature(calm):
    """A signature whose reply comes once the person types elsewhere leads nowhere."""
    screen = calm.screen
    calm.go("#/records/4/versions/1/authorship")
    screen.fill(code="dan", password=password_of("dan"))
    fault(screen, "late", "POST", "/signatures")
    screen.click(screen.one('[data-do="sign_a_version"]'))
    screen.click(screen.one('a[href="#/records"]'))
    screen.settle()
    calm.go("#/records/5")
    screen.fill(entry_row(screen, "note"), value="typed meanwhile")
    come_late(screen)
    screen.wait(lambda: "record 4" in calm.said().lower() or screen.place() != "#/records/5", "the reply is there")
    screen.settle()
    there = screen.place(), [one.get_attribute("value") for one in screen.all('[data-key="note"] [name="value"]')]
    same("a late reply to a signature leads nowhere, and what is typed is there", there, ("#/records/5", ["typed meanwhile"]))
    same("the title is that of the page that is shown", screen.run("return document.title"), "Well 5 · water · Koghdise")
    say("record 4" in calm.said().lower() and "signed" in calm.said(), f"what was done is said: {calm.said()!r}")
    screen.fill(entry_row(screen, "note"), value="")


def late_heading(calm):
    """A page that is read once the person has left it gives no title."""
    screen = calm.screen
    fault(screen, "late", "GET", "/records/1/versions/1")
    screen.run("location.hash = '#/records/1/paper'")
    screen.wait(lambda: screen.run("return Boolean(window.go_on)"), "a reply is held")
    screen.click(screen.one('a[href="#/forms"]'))
    screen.settle()
    come_late(screen)
    screen.settle()
    same("a page that was left gives no title", screen.run("return document.title"), "Test forms · Koghdise")


def late_refusal(calm):
    """Of what was sent from a page that was left, a refusal is said, too."""
    screen = calm.screen
    calm.go("#/opening")
    screen.fill(form="water", sample="Well 1")
    fault(screen, "late", "POST", "/records")
    screen.click(screen.one('[data-do="open_a_record"]'))
    screen.click(screen.one('a[href="#/forms"]'))
    screen.settle()
    come_late(screen)
    screen.wait(calm.said, "the line says something")
    there = screen.place(), "refused" in calm.said().lower()
    same(f"a late refusal is said on the page that is shown: {calm.said()!r}", there, ("#/forms", True))


def slow_entry(calm):
    """A button that waits says so, and the line below after a second and after ten; a reply doesn't take the focus from what is typed."""
    screen = calm.screen
    calm.go("#/records/6")
    fault(screen, "late", "POST", "/entries")
    press_enter(calm, "lead", value="6.5")
    sender = screen.one('[data-do="enter_a_value"]')
    screen.wait(lambda: sender.text != "Enter all", "the button says that it waits")
    begun = time.monotonic()
    screen.wait(lambda: calm.said(), "the line says it", 5)
    say(True, f"a button that waits says {sender.text!r}, and the line below {calm.said()!r}")
    first = calm.said()
    screen.wait(lambda: calm.said() != first, "the line says it again", 20)
    say(time.monotonic() - begun > 5, f"after ten seconds it says {calm.said()!r}")
    note = screen.one('[data-key="note"] [name="value"]')
    note.send_keys("half a no")
    come_late(screen)
    screen.settle()
    screen.press("te")
    there = screen.run("return arguments[0].textContent", sender), note.get_attribute("value"), calm.values(6)
    same("the reply takes nothing from who types on", there, ("Enter all", "half a note", [("lead", "6.5")]))
    note.clear()


# ---- lost replies


def lost_entry(calm):
    """An entry whose reply is lost: the page looks, and says whether it was done."""
    screen = calm.screen
    calm.go("#/records/7")
    fault(screen, "lost", "POST", "/entries")
    press_enter(calm, "lead", value="12.5")
    screen.settle()
    there = screen.refusal(), screen.parts("standing")[:1], calm.values(7)
    same("an entry whose reply is lost is told as done", there, (None, ["12.5 mg/L"], [("lead", "12.5")]))
    say("is done" in calm.said(), f"in words: {calm.said()!r}")
    fault(screen, "unsent", "POST", "/entries")
    row = press_enter(calm, "note", value="never came")
    screen.settle()
    there = screen.refusal(), screen.one('[name="value"]', row).get_attribute("value"), len(calm.values(7))
    same("an entry that never came is told as not done, and is still there", there, ("not_done", "never came", 1))
    screen.do("enter_a_value")
    same("and is entered when it is sent again", calm.values(7), [("lead", "12.5"), ("note", "never came")])


def unknown_entry(calm):
    """Where the page can't look, another press looks, and sends nothing."""
    screen = calm.screen
    calm.go("#/records/8")
    for command in ("look", "enter_a_value"):
        fault(screen, "lost", "POST", "/entries")
        fault(screen, "unsent", "GET", "/records/8", 9)
        count = len(calm.values(8))
        press_enter(calm, "lead", value=f"8.{count}", **({"reason": "again"} if count else {}))
        screen.settle()
        same("an entry is told as not known where the page can't look", screen.refusal(), "not_known")
        no_more_faults(screen)
        screen.do(command)
        there = screen.refusal(), screen.parts("standing")[:1], len(calm.values(8))
        same(f"once it can, {command} finds it done, and it was done once", there, (None, [f"8.{count} mg/L"], count + 1))


def lost_reading(calm):
    """An entry that was done, of which only the reading afterwards fails: the page reads alone."""
    screen = calm.screen
    calm.go("#/records/9")
    fault(screen, "unsent", "GET", "/records/9", 9)
    row = press_enter(calm, "lead", value="9.5")
    screen.settle()
    there = screen.all("[data-refusal]", row), "is entered" in calm.said(), len(screen.all('[data-do="read_alone"]'))
    same("an entry of which only the reading fails is told as done", there, ([], True, 1))
    no_more_faults(screen)
    screen.do("read_alone")
    there = screen.refusal(), screen.parts("standing")[:1], calm.values(9)
    same("the page reads alone then", there, (None, ["9.5 mg/L"], [("lead", "9.5")]))


def lost_then_unsent(calm, what, place, do, is_done, again=None):
    """A write of which no reply came: told as not done where it never came, and as done where it was; it is done once."""
    screen = calm.screen
    fault(screen, "unsent", "POST", place)
    do()
    screen.settle()
    same(f"{what} that never came is told as not done", (screen.refusal(), is_done()), ("not_done", 0))
    fault(screen, "lost", "POST", place)
    (again or do)()
    screen.settle()
    same(f"{what} whose reply is lost is told as done", (screen.refusal(), is_done()), (None, 1))


def lost_writes_of_analyst(calm):
    screen, hal = calm.screen, calm.of["hal"]

    def open_one():
        screen.fill(form="water", sample="H3")
        screen.click(screen.one('[data-do="open_a_record"]'))

    def count_of_sample():
        return sum(one["sample"] == "H3" for one in hal.get(f"records?from={calm.records}&to={calm.records + 50}")["records"])
    calm.go("#/opening")
    lost_then_unsent(calm, "an opening", "/records", open_one, count_of_sample)
    same("and leads to the record", screen.place(), f"#/records/{calm.records + 1}")

    def sign():
        if screen.all('[name="code"]'):
            screen.fill(code="dan")
        screen.fill(password=password_of("dan"))
        screen.click(screen.one('[data-do="sign_a_version"]'))
    calm.of["dan"].post("entries", record=10, key="lead", value="1", unit="mg/L")
    calm.go("#/records/10/versions/1/authorship")
    lost_then_unsent(calm, "a signature", "/signatures", sign, lambda: len(hal.get("records/10/versions/1")["signatures"]))
    same("and leads to the record", screen.place(), "#/records/10")

    def amend():
        screen.fill(value_lead="2", reason="misread scale")
        screen.click(screen.one('[data-do="amend_a_record"]'))
    calm.sign("eve", 10, "review")
    calm.go("#/records/10/amending")
    lost_then_unsent(calm, "an amendment", "/amendments", amend, lambda: hal.get("records/10")["current"] - 1)


def lost_writes_of_others(calm):
    screen, hal = calm.screen, calm.of["hal"]

    def reject():
        screen.fill(reason="take it again", password=password_of("eve"))
        if screen.all('[name="code"]'):
            screen.fill(code="eve")
        screen.click(screen.one('[data-do="sign_a_version"]'))
    calm.go("#/records/3/versions/1/rejection")
    lost_then_unsent(calm, "a rejection", "/signatures", reject, lambda: len(hal.get("records/3/versions/1")["signatures"]) - 1)


def lost_writes_of_manager(calm):
    screen = calm.screen

    def make():
        screen.fill(form="soil")
        screen.fill(screen.one('fieldset[data-at="1"]'), key="lead", label="Lead")
        screen.click(screen.one('[data-do="make_a_form"]'))
    calm.go("#/making")
    lost_then_unsent(calm, "a form", "/forms", make, lambda: calm.rows_of_trail("form", "soil/1"))


def lost_enrolment(calm):
    screen = calm.screen

    def enrol():
        screen.fill(code="kim", name="Kim Calm")
        screen.click(screen.one('[data-do="enrol_a_person"]'))
    calm.go("#/enrolling")
    lost_then_unsent(calm, "an enrolment", "/persons", enrol, lambda: calm.rows_of_trail("enrol", "kim"))


def lost_roles(calm):
    screen = calm.screen

    def set_roles():
        box = screen.one('[name="roles"][data-word="reviewer"]')
        if not box.is_selected():
            box.click()
        screen.click(screen.one('[data-do="set_a_persons_roles"]'))
    calm.go("#/persons/dan")
    lost_then_unsent(calm, "a setting of roles", "/roles", set_roles, lambda: calm.rows_of_trail("roles", "dan analyst reviewer"))


def lost_half(calm):
    """Half of a one-time password whose reply is lost is lost: that is told, and what to do."""
    screen, before = calm.screen, calm.rows_of_trail("issue", "gil")
    calm.go("#/persons/gil")
    for what, wanted, asked in (("unsent", "not_done", 0), ("lost", "first_half_lost", 1)):
        fault(screen, what, "POST", "/issue")
        screen.do("ask_for_a_one_time_password")
        same(f"an ask for a one-time password that is {what} is told", (screen.refusal(), calm.rows_of_trail("issue", "gil") - before), (wanted, asked))


# ---- what is typed, and what is shown once


def asks(calm, what, leave, lost):
    """Something that leads away asks first; who stays has what would be lost."""
    screen = calm.screen
    place, before = screen.place(), lost()
    leave()
    screen.click(screen.one('dialog[open] [data-do="stay"]'))
    screen.wait(lambda: not screen.all("dialog[open]") and screen.place() == place, f"{what} leads back to {place} for who stays")
    same(f"{what} asks first, and who stays has it", lost(), before)


def value_of(calm, name):
    return lambda: [one.get_attribute("value") for one in calm.screen.all(f'[name="{name}"]')]


def guarded_of_analyst(calm):
    screen = calm.screen
    calm.go("#/records")
    calm.go("#/records/11")
    screen.fill(entry_row(screen, "note"), value="typed")
    there = value_of(calm, "value")
    asks(calm, "Back, where something is typed,", lambda: screen.run("history.back()"), there)
    screen.press("more")
    say("more" in there()[-1], f"and who stays types on: {there()[-1]!r}")
    screen.run("history.back()")
    screen.click(screen.one('dialog[open] [data-do="leave"]'))
    screen.wait(lambda: screen.place() == "#/records", "who leaves goes back")
    screen.settle()
    calm.go("#/records/11")
    screen.fill(entry_row(screen, "note"), value="typed")
    asks(calm, "signing out", lambda: screen.one('[data-do="close_the_session"]').click(), there)
    asks(calm, "another address", lambda: screen.run("location.hash = '#/records/12'"), there)
    screen.fill(entry_row(screen, "note"), value="")
    calm.go("#/opening")
    screen.fill(sample="H9")
    asks(calm, "a link, where a sample is typed,", lambda: screen.one('a[href="#/records"]').click(), value_of(calm, "sample"))
    screen.fill(sample="")


def guarded_of_reviewer(calm):
    screen = calm.screen
    calm.go("#/records/1/versions/1/rejection")
    screen.fill(reason="take it again")
    reason = value_of(calm, "reason")
    asks(calm, "a link, where a rejection's reason is typed,", lambda: screen.one('a[href="#/records"]').click(), reason)
    screen.do("read_again")
    same("and another reading keeps the reason", reason(), ["take it again"])
    screen.fill(reason="")


def guarded_of_administrator(calm):
    screen = calm.screen
    calm.go("#/enrolling")
    screen.fill(code="lou")
    asks(calm, "a link, where a person is typed,", lambda: screen.one('a[href="#/persons"]').click(), value_of(calm, "code"))
    screen.fill(code="")
    calm.go("#/persons/jon")
    box = screen.one('[name="roles"][data-word="manager"]')
    box.click()
    asks(calm, "a link, where roles are changed,", lambda: screen.one('a[href="#/trail"]').click(), box.is_selected)
    box.click()


def half_is_kept(calm):
    """Half of a one-time password stays until it is hidden: links, a reload and signing out don't take it away."""
    screen = calm.screen

    def half():
        return screen.parts("half")
    calm.go("#/persons/jon")
    screen.do("ask_for_a_one_time_password")
    reload = "const one = new Event('beforeunload', { cancelable: true }); dispatchEvent(one); return one.defaultPrevented;"
    say(screen.run(reload), "a reload, where a half is shown, asks first")
    asks(calm, "a link, where a half is shown,", lambda: screen.one('a[href="#/persons"]').click(), half)
    asks(calm, "signing out, where a half is shown,", lambda: screen.one('[data-do="close_the_session"]').click(), half)
    screen.do("hide_half")


def second_ask(calm):
    """Another ask, and other commands, leave the half that is shown; once it is hidden, another ask says first what it does."""
    screen, before = calm.screen, calm.rows_of_trail("issue", "hal")

    def asked():
        return calm.rows_of_trail("issue", "hal") - before
    calm.go("#/persons/hal")
    screen.do("ask_for_a_one_time_password")
    shown = screen.parts("half")
    screen.do("ask_for_a_one_time_password")
    same("a second ask leaves the half that is shown", (screen.parts("half"), screen.refusal(), asked()), (shown, "half_shown", 1))
    screen.one('[name="roles"][data-word="reviewer"]').click()
    screen.do("set_a_persons_roles")
    screen.do("unlock_a_person")
    screen.do("unlock_a_person_surely")
    same("other commands leave it, too", screen.parts("half"), shown)
    screen.do("hide_half")
    screen.do("ask_for_a_one_time_password")
    same("once it is hidden, another ask says first that it makes the half worthless",
         (screen.parts("half"), screen.refusal(), asked()), ([], "asked_already", 1))
    screen.do("ask_for_a_one_time_password")
    same("and the next one asks", (len(screen.parts("half")), asked()), (1, 2))
    screen.do("hide_half")


# ---- two managers


def two_managers(calm):
    """A version that somebody made meanwhile isn't undone unseen."""
    screen, gil = calm.screen, calm.of["gil"]
    calm.go("#/making/water/1")
    screen.fill(screen.one('fieldset[data-at="2"]'), label="Remark")
    gil.post("forms", form="water", approval=False, fields=[{**LEAD, "max": "40"}, NOTE])
    screen.do("make_a_form")
    compared = screen.part("compared")
    there = screen.refusal(), calm.rows_of_trail("form", "water/3"), "40" in compared and "50" in compared
    same("of two managers the second is told before the first one's limit is undone", there, ("form_grew", 0, True))
    screen.do("make_a_form")
    screen.wait(lambda: screen.place() == "#/forms/water/3", "who wants it sends it again")
    screen.settle()
    calm.go("#/making")
    screen.fill(form="water")
    screen.fill(screen.one('fieldset[data-at="1"]'), key="tin", label="Tin")
    screen.do("make_a_form")
    same("a form that is there already isn't made anew unseen", (screen.refusal(), calm.rows_of_trail("form", "water/4")), ("form_grew", 0))
    say("legal limits" in screen.text(), "beside the bounds stands what they are for")


# ---- what is in sight


BOXES = """
const box = (one) => one.getBoundingClientRect();
const [said, focused] = [box(document.getElementById("said")), box(document.activeElement)];
return { said: said.height / innerHeight, covered: focused.bottom > said.top + 1 && focused.top < said.bottom, focused: document.activeElement.tagName };
"""


def long_note(calm):
    """What is said is short, covers nothing that has the focus, and can be closed."""
    screen = calm.screen
    calm.go("#/records/13")
    screen.size(*TELEPHONE)
    screen.fill(entry_row(screen, "note"), value="word " * 193 + "end")
    screen.do("enter_a_value")
    there, said = screen.run(BOXES), calm.said()
    good = there["said"] <= 0.3 and "word" not in said and not there["covered"]
    say(good, f"of a note of 968 bytes the line says {said:.90}, {there['said']:.0%} of a telephone, and covers nothing that has the focus")
    close = screen.all("#said button")
    if close:
        screen.click(close[0])
    same("it can be closed", (len(close), calm.said()), (1, ""))
    screen.size(*WIDE)


def out_of_range(calm):
    screen = calm.screen
    calm.go("#/records/14")
    press_enter(calm, "lead", value="77")
    screen.settle()
    text = screen.one("[data-refusal]").text
    same("what is said of a value out of range is true of a record, which keeps its form",
         (screen.refusal(), "version 1" in text and "another name" in text), ("out_of_range", True))
    screen.fill(entry_row(screen, "lead"), value="")


def ending_in_sight(calm):
    """The warning before a session's end is in sight wherever the page is scrolled to."""
    screen = calm.screen
    calm.go("#/records/14")
    screen.run("const real = Date.now.bind(Date); window.ahead = 800_000; Date.now = () => real() + window.ahead;")
    ending = screen.one("#ending")
    screen.run("scrollTo(0, document.documentElement.scrollHeight)")
    top, bottom, height = screen.run("const { top, bottom } = arguments[0].getBoundingClientRect(); return [top, bottom, innerHeight];", ending)
    say(screen.run("return scrollY") > 100 and 0 <= top < bottom <= height, f"the warning is in sight, from {top:.0f} to {bottom:.0f} of {height}")
    screen.run("window.ahead = 0")


BACK = "window.went = false; addEventListener('popstate', () => { window.went = true; }, { once: true }); history.back();"


def go_back(screen):
    """Back, to a place of these pages."""
    screen.run(BACK)
    screen.wait(lambda: screen.run("return window.went"), "Back is done")
    screen.settle()


def back_after_signing(calm):
    """Where nothing is to be signed there is no form, as after Back."""
    screen = calm.screen
    calm.of["dan"].post("entries", record=15, key="lead", value="1", unit="mg/L")
    calm.go("#/records/15")
    screen.do("authorship")
    if screen.all('[name="code"]'):
        screen.fill(code="dan")
    screen.fill(password=password_of("dan"))
    screen.do("sign_a_version")
    screen.wait(lambda: screen.place() == "#/records/15", "it is signed")
    screen.settle()
    go_back(screen)
    same("Back after a signature shows no form to sign", (len(screen.all('[name="password"]')), "authorship" in screen.place()), (0, False))
    calm.go("#/records/15/versions/1/authorship")
    same("and its address has none, either", screen.all('[name="password"]'), [])


NUMBERS = "return [...document.querySelectorAll('[data-part=waiting] tr[data-record]')].map((one) => Number(one.dataset.record));"


def waiting_counts_all(calm):
    """What waits is looked for among all records, the oldest first, without the person's own work."""
    screen = calm.screen
    calm.go("#/day")
    there = screen.run(NUMBERS)
    waits = [one["record"] for first in range(1, calm.records + 1, 100) for one in calm.of["hal"].get(f"records?from={first}&to={first + 99}")["records"]
             if one["state"] == "signed" and one["record"] != 2]
    same(f"what waits among {calm.records} records, the oldest first, without the own work", there, waits)
    say("own work" in screen.part("counts") and "All" in screen.part("counts"), f"in words: {screen.part('counts')!r}")


PARTS = {
    "dan": (late_signature, late_heading, late_refusal, slow_entry, lost_entry, unknown_entry, lost_reading, lost_writes_of_analyst,
            guarded_of_analyst, long_note, out_of_range, back_after_signing, ending_in_sight),
    "eve": (waiting_counts_all, guarded_of_reviewer, lost_writes_of_others),
    "gus": (lost_writes_of_manager, two_managers),
    "ann": (guarded_of_administrator, half_is_kept, second_ask, lost_half, lost_roles, lost_enrolment),
}


def play(calm, parts):
    """Each part by its person. One that stops doesn't stop the others."""
    for code, own in parts.items():
        calm.come(code)
        for part in own:
            try:
                part(calm)
            except (Stop, Refused, WebDriverException) as fault_of_page:
                say(False, f"{part.__name__} stopped: {str(fault_of_page).splitlines()[0]}")
                calm.come(code)


def look_at_losing(screen, port):
    calm = Calm(screen, port)
    calm.fill()
    play(calm, PARTS)
    return calm
