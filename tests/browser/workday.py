"""A laboratory's day by clicking and typing: each person's part, one after the other."""
import datetime
import re

from room import Asker, password_of, same, say
from seeing import RECORDS, VERSION, compare_form, compare_persons, compare_records, compare_trail, compare_version, seen
from screen import HOURS_AHEAD, entry_row
from selenium.webdriver.common.keys import Keys

LAB, NAME = "aqua", "Aqua Lab"
FOUNDERS = [("ann", "Ann Ames", "correct horse 1"), ("bob", "Bob Bell", "correct horse 2"), ("cid", "Cid Cole", "correct horse 3")]
PEOPLE = (("dan", "Dan Day", ["analyst"]), ("eve", "Eve Ems", ["analyst", "reviewer"]), ("fay", "Fay Fox", ["reviewer"]),
          ("gus", "Gus Gray", ["manager"]), ("hal", "Hal Hill", ["inspector"]))
ONE_TIME = "[0-9a-f]{32}"


class Day:
    """The screen, the server beside it, and what has happened by now. `reader` is an administrator's, later an inspector's, session."""

    def __init__(self, screen, port, picture=lambda name: None):
        self.screen, self.port, self.picture = screen, port, picture
        self.passwords = {code: password for code, _, password in FOUNDERS}
        self.halves = {}
        self.reader = Asker(port, LAB, "cid", self.passwords["cid"])
        self.inspector = None

    def asker(self, code):
        return Asker(self.port, LAB, code, self.passwords[code])

    def last_row(self):
        """The last row of the trail: action, person, subject."""
        row = self.reader.get("trail?from=1&to=100")["trail"][-1:]
        first = 101
        while len(more := self.reader.get(f"trail?from={first}&to={first + 99}")["trail"]):
            row, first = more[-1:], first + 100
        return row[0]["action"], row[0]["person"], row[0]["subject"]

    # ---- coming and going

    def sign_in(self, code, password=None):
        self.screen.open_session(lab=LAB, code=code, password=password or self.passwords[code])

    def come(self, code):
        """Signs in, and looks at what the head says of the person."""
        self.sign_in(code)
        name, roles = next((one["name"], one["roles"]) for one in self.reader.get("persons")["persons"] if one["code"] == code)
        there = self.screen.part("roles") if roles else ""
        say(code in self.screen.part("person") and all(role in there.lower() for role in roles) and there.count(",") == len(roles) - 1,
            f"{name} is signed in as {there}")
        same(f"{code}'s session is open", self.last_row()[:2], ("open", code))

    def leave(self, code):
        self.screen.do("close_the_session")
        self.screen.one('[data-do="open_a_session"]')
        # (the page forgets a session before the server has closed it)
        self.screen.wait(lambda: self.last_row()[:2] == ("close", code), f"{code}'s session is closed")
        same(f"{code}'s session is closed", self.last_row()[:2], ("close", code))

    def refused(self, what, word, name=None):
        """A refusal is seen, with its word, beside the field that it is about."""
        shown = self.screen.one('[role="alert"][data-refusal]')
        beside = self.screen.run("return arguments[0].closest('.field, [data-field]')?.querySelector('[name]')?.name ?? null", shown)
        focus = self.screen.run("return document.activeElement.name || null")
        there = shown.get_attribute("data-refusal"), beside, focus if name else None
        same(f"{what} is refused as {word}{f' beside {name}' if name else ''}", there, (word, name, name))
        say(len(shown.text) > 40, f"and in words: {shown.text!r}")

    # ---- the first hour

    def first_session(self):
        screen = self.screen
        screen.fill(lab="zinc")
        screen.fill(code="ann")
        screen.settle()
        self.refused_card()
        screen.fill(lab=LAB)
        screen.fill(code="ann", password="not the right one")
        screen.wait(lambda: screen.parts("lab_name") == [NAME], "the card's name is shown")
        same("the card shows the laboratory's printed name", screen.part("lab_name"), self.reader.get()["name"])
        self.picture("sign-in")
        screen.do("open_a_session")
        self.refused("a wrong password", "credentials", "password")
        same("the server counts it", self.last_row(), ("refuse", "ann", "open"))
        self.come("ann")

    def refused_card(self):
        self.screen.wait(lambda: self.screen.refusal() is not None, "the unknown laboratory is refused")
        same("a laboratory that isn't there is refused", self.screen.refusal(), "no_such_lab")

    def enrol(self, code, name, roles):
        screen = self.screen
        screen.go("#/persons")
        screen.go("#/enrolling")
        screen.fill(code=code, name=name)
        for role in roles:
            screen.one(f'[name="roles"][data-word="{role}"]').click()
        screen.do("enrol_a_person")
        screen.wait(lambda: screen.place() == f"#/persons/{code}", "the person's page is shown")

    def half(self, code, command, picture=None):
        """Asks for, or confirms, a one-time password, reads the half that is shown once, and hides it."""
        screen = self.screen
        if screen.place() != f"#/persons/{code}":
            screen.go("#/persons")
            screen.go(f"#/persons/{code}")
        screen.do(command)
        half = screen.part("half").replace("\n", "").replace(" ", "")
        say(re.fullmatch(ONE_TIME, half), f"half of {code}'s one-time password is shown, 32 digits")
        if picture:
            self.picture(picture)
        screen.do("hide_half")
        return half

    def let_people_in(self):
        """Ann enrols all, and asks for their one-time passwords; bob confirms."""
        screen = self.screen
        for code, name, roles in PEOPLE:
            self.enrol(code, name, roles)
            self.halves[code] = self.half(code, "ask_for_a_one_time_password", "one-time-password" if code == "hal" else None)
        say(screen.parts("half") == [], "a half that is hidden isn't shown any more")
        screen.do("confirm_a_one_time_password")
        self.refused("who asked confirms, which", "same_person")
        screen.go("#/persons")
        compare_persons(screen, self.reader, "the persons")
        self.picture("persons")
        self.leave("ann")
        self.come("bob")
        for code, _, _ in PEOPLE:
            self.halves[code] += self.half(code, "confirm_a_one_time_password")
        self.leave("bob")

    def due_password(self, code):
        """The first session leads straight to another password."""
        screen = self.screen
        self.sign_in(code, self.halves[code])
        leads = screen.all('[data-do="change_the_password"]') and not screen.all("#links a")
        say(leads, f"{code}'s one-time password leads straight to its change")
        screen.fill(new="short", again="short")
        screen.do("change_the_password")
        self.refused("a short password", "bad_password", "new")
        screen.fill(new=password_of(code), again=password_of(code) + "s")
        screen.do("change_the_password")
        self.refused("a password that is typed in two ways", "again_differs", "again")
        screen.fill(new=password_of(code), again=password_of(code))
        screen.do("change_the_password")
        screen.wait(lambda: screen.all("#links a"), "the pages are there after the change")
        self.passwords[code] = password_of(code)
        same(f"{code} has another password", self.last_row(), ("password", code, code))

    def change_by_server(self, code):
        word = self.halves[code]
        Asker(self.port, LAB, code, word).post("password", old=word, new=password_of(code))
        self.passwords[code] = password_of(code)

    def morning(self):
        self.first_session()
        self.let_people_in()
        self.due_password("dan")
        self.leave("dan")
        for code in ("eve", "fay", "gus", "hal"):
            self.change_by_server(code)
        self.inspector = self.asker("hal")

    # ---- the manager's forms

    def field(self, at, **values):
        """Fills the editor of a field of a form."""
        screen = self.screen
        if len(screen.all("fieldset[data-at]")) < at:
            screen.do("add_field")
        editor = screen.one(f'fieldset[data-at="{at}"]')
        screen.fill(editor, kind=values.pop("kind"))
        screen.fill(editor, **values)

    def make_forms(self):
        screen = self.screen
        self.come("gus")
        screen.go("#/forms")
        screen.go("#/making")
        screen.fill(form="water")
        self.field(1, kind="number", key="lead", label="Lead", required=True, unit="mg/L", decimals="2", min="50", max="0")
        self.field(2, kind="text", key="note", label="Note", size="200")
        screen.do("make_a_form")
        self.refused("a least amount above the greatest", "bad_field", "min")
        self.field(1, kind="number", key="lead", label="Lead", required=True, unit="mg/L", decimals="2", min="0", max="50")
        screen.do("make_a_form")
        screen.wait(lambda: screen.place() == "#/forms/water/1", "the form is shown")
        screen.settle()
        compare_form(screen, self.inspector, "water", 1, "a form that was made")
        self.make_drinking()
        self.make_next_water()
        self.leave("gus")

    def make_drinking(self):
        screen = self.screen
        screen.go("#/forms")
        screen.go("#/making")
        screen.fill(form="drinking", approval=True)
        self.field(1, kind="number", key="lead", label="Lead", required=True, unit="mg/L", decimals="2", min="0", max="50")
        self.field(2, kind="choice", key="colour", label="Colour", choices="none\nfaint\nstrong")
        self.field(3, kind="date", key="taken", label="Taken on", required=True)
        self.field(4, kind="yesno", key="clear", label="Clear to the eye")
        self.field(5, kind="text", key="note", label="Note", size="200")
        self.picture("making-a-form")
        screen.do("make_a_form")
        screen.wait(lambda: screen.place() == "#/forms/drinking/1", "the form is shown")
        screen.settle()
        compare_form(screen, self.inspector, "drinking", 1, "a form with each kind of field")
        fields = self.inspector.get("forms/drinking/1")
        there = fields["approval"], [one["kind"] for one in fields["fields"]]
        same("it requires an approval, and has each kind", there, (True, ["number", "choice", "date", "yesno", "text"]))

    def make_next_water(self):
        """The next version of a form is compared with the one before."""
        screen = self.screen
        screen.go("#/forms")
        screen.one('[data-form-code="water"] button').click()
        screen.wait(lambda: screen.place() == "#/forms/water/1", "the form is shown")
        screen.settle()
        screen.go("#/making/water/1")
        screen.do("make_a_form")
        self.refused("a form like the present one", "nothing_altered")
        screen.fill(screen.one('fieldset[data-at="1"]'), max="40")
        screen.do("make_a_form")
        screen.wait(lambda: screen.place() == "#/forms/water/2", "the next version is shown")
        screen.settle()
        compare_form(screen, self.inspector, "water", 2, "its next version")
        compared = screen.one('[data-part="compared"]').text
        say("lead" in compared and "50" in compared and "40" in compared, f"beside the version before: {compared!r}")
        self.picture("form")

    # ---- the analyst's records

    def open_record(self, form, sample):
        screen = self.screen
        screen.go("#/records")
        screen.go("#/opening")
        screen.fill(form=form, sample=sample)
        screen.do("open_a_record")

    def enter(self, key, value, reason=None):
        screen = self.screen
        screen.fill(entry_row(screen, key), value=value, **({"reason": reason} if reason is not None else {}))
        screen.do("enter_a_value")

    def number(self):
        return int(re.search(r"\d+", self.screen.place())[0])

    def enter_values(self):
        screen = self.screen
        self.come("dan")
        self.open_record("water", "Well 1")
        screen.wait(lambda: screen.place() == "#/records/1", "the record is shown")
        screen.settle()
        entry = entry_row(screen, "lead")
        hint = entry.text
        say("mg/L" in hint and "0" in hint and "40" in hint and "2" in hint and not screen.all('[name="reason"]', entry),
            f"unit, decimals and range stand beside a number, and no reason is asked for: {hint!r}")
        for value, word in (("7.505", "bad_value"), ("41", "out_of_range")):
            self.enter("lead", value)
            self.refused(f"{value} mg/L", word, "value")
        self.enter("lead", "7.05")
        compare_version(screen, self.inspector, 1, 1, "a value")
        self.look_at_moment()
        self.enter("lead", "7.50", "")
        self.refused("another value without a reason", "reason_wanted", "reason")
        self.enter("lead", "7.50", "misread scale")
        self.enter("note", "kept cool,\nin the dark")
        compare_version(screen, self.inspector, 1, 1, "a value in place of another")
        struck = seen(screen, VERSION)["overwritten"]
        same("the value that was overwritten is struck through", struck, [["lead", ["7.05 mg/L"]]])
        self.picture("entering")

    def look_at_moment(self):
        """A moment is in UTC, which is said, and beside it stands the time of the person's own clock."""
        moment = datetime.datetime.fromisoformat(self.inspector.get("records/1/versions/1")["rows"][0]["moment"].replace("Z", "+00:00"))
        there = moment.astimezone(datetime.timezone(datetime.timedelta(hours=HOURS_AHEAD)))
        shown = self.screen.one('tr[data-entry="1"]').text
        good = f"{moment:%Y-%m-%d %H:%M:%S} UTC" in shown and f"{there:%Y-%m-%d %H:%M}" in shown
        say(good, f"a moment is in UTC, with the local time beside it: {shown!r}")

    def open_again(self):
        """A record of a form and a sample is opened once."""
        screen = self.screen
        self.open_record("water", "Well 1")
        self.refused("a second record of a form and a sample", "record_exists", "sample")
        screen.one('[data-refusal] a[href="#/records/1"]').click()
        screen.wait(lambda: screen.place() == "#/records/1", "the refusal leads to the record that is there")
        screen.settle()

    def sign(self, code, record, meaning, state, first=True, reason=None, picture=None, version=None):
        """Signs what is on the screen: the digest that is shown is the version's."""
        screen = self.screen
        if screen.place() != f"#/records/{record}":
            self.to_record(record)
        screen.do(meaning)
        shown = screen.one('[data-part="signed_digest"]').text
        version = version or self.inspector.get(f"records/{record}")["current"]
        wanted = self.inspector.get(f"records/{record}/versions/{version}")["digest"]
        same(f"what {code} signs: the digest of record {record}, version {version}", shown, wanted)
        compare_version(screen, self.inspector, record, version, f"what {code} signs")
        statement = screen.part("statement")
        say(len(statement) > 20, f"the meaning of {meaning}: {statement!r}")
        when = "at the first signature of" if first else "no more in"
        same(f"the code is asked for {when} the session", bool(screen.all('[name="code"]')), first)
        if reason is not None:
            screen.fill(reason=reason)
        if first:
            screen.fill(code=code)
        if picture:
            self.picture(picture)
        screen.fill(password=self.passwords[code])
        screen.do("sign_a_version")
        screen.wait(lambda: screen.place() == f"#/records/{record}", "the record is shown again")
        screen.settle()
        compare_version(screen, self.inspector, record, version, f"signed by {code}")
        there = seen(screen, VERSION)["state"], self.last_row()
        same("the state after it, and its row of the trail", there, (state, ("sign", code, f"{record}/{version}/{meaning}")))

    def to_record(self, record):
        screen = self.screen
        screen.go("#/records")
        screen.go(f"#/records/{record}")

    def sign_wrongly(self):
        """A signature without a code, with a wrong password, and under what has become another digest."""
        screen = self.screen
        screen.do("authorship")
        screen.fill(password=self.passwords["dan"])
        screen.do("sign_a_version")
        self.refused("the first signature without a code", "code_wanted", "code")
        screen.fill(code="dan", password="not the right one")
        screen.do("sign_a_version")
        self.refused("a signature by a wrong password", "credentials", "password")
        self.asker("dan").post("entries", record=1, key="note", value="kept cool", unit="", reason="it was light")
        screen.fill(password=self.passwords["dan"])
        screen.do("sign_a_version")
        self.refused("a signature under what has become another text", "stale_digest")
        screen.go("#/records/1/versions/1")
        same("nothing is signed", seen(screen, VERSION)["signatures"], [])
        screen.go("#/records")
        screen.go("#/records/1")

    def analyst(self):
        screen = self.screen
        self.enter_values()
        self.open_again()
        self.sign_wrongly()
        self.sign("dan", 1, "authorship", "signed", picture="signing")
        self.open_record("drinking", "Tap, hall")
        screen.settle()
        for key, value in (("lead", "<0.05"), ("colour", "none"), ("taken", "2026-11-02"), ("clear", "yes")):
            self.enter(key, value)
        compare_version(screen, self.inspector, 2, 1, "a value of each kind")
        self.sign("dan", 2, "authorship", "signed", first=False)
        self.open_record("water", "Well 2")
        screen.settle()
        self.enter("lead", "11.2")
        self.sign("dan", 3, "authorship", "signed", first=False)
        self.filter_records()
        self.leave("dan")

    def filter_records(self):
        screen = self.screen
        self.open_record("water", "Well 3, open")
        screen.wait(lambda: screen.place() == "#/records/4", "the record is shown")
        screen.settle()
        self.leave_what_is_typed()
        compare_records(screen, self.inspector, "the list")
        filters = screen.one('form[data-form="filter"]')
        for name, value, numbers in (("state", "open", [4]), ("form", "water", [4]), ("sample", "well 3", [4]), ("state", "", [4])):
            screen.fill(filters, **{name: value})
            same(f"filtered by {name} {value!r}", [one["record"] for one in seen(screen, RECORDS)], numbers)
        screen.fill(filters, sample="", form="")
        compare_records(screen, self.inspector, "without a filter")
        self.picture("records")

    def leave_what_is_typed(self):
        """A link doesn't lead away from what is typed and not sent, unless the person says so."""
        screen = self.screen
        row = entry_row(screen, "lead")
        screen.fill(row, value="1")
        screen.one('a[href="#/records"]').click()
        screen.do("stay")
        there = screen.place(), screen.one('[name="value"]', row).get_attribute("value")
        same("a link asks before what is typed is lost; who stays has it", there, ("#/records/4", "1"))
        screen.one('a[href="#/records"]').click()
        screen.do("leave")
        screen.wait(lambda: screen.place() == "#/records", "who leaves goes on")
        screen.settle()

    # ---- the second and the third person

    def reviewer(self):
        screen = self.screen
        self.come("fay")
        same("the day is what a reviewer sees first", screen.place(), "#/day")
        compare_records(screen, self.inspector, "what waits", ("signed",))
        screen.go("#/records/1")
        self.sign("fay", 1, "review", "released")
        screen.go("#/day")
        screen.go("#/records/2")
        self.sign("fay", 2, "review", "reviewed", first=False)
        screen.go("#/day")
        screen.go("#/records/3")
        screen.do("rejection")
        screen.fill(password=self.passwords["fay"])
        screen.do("sign_a_version")
        self.refused("a rejection without a reason", "reason_wanted", "reason")
        screen.go("#/records/3/versions/1")
        screen.go("#/records")
        self.sign("fay", 3, "rejection", "rejected", first=False, reason="take it again")
        self.leave("fay")

    def amend(self):
        """A released record is amended: the old value stands beside the new one."""
        screen = self.screen
        self.come("dan")
        same("the day is what an analyst sees first", screen.place(), "#/day")
        self.picture("my-day")
        self.to_record(1)
        screen.do("amend")
        standing = [one.text for one in screen.all('[data-part="standing"]')]
        say("7.50 mg/L" in standing, f"each value that stands is beside the field for another one: {standing}")
        screen.fill(value_lead="7.50", reason="one decimal is meant")
        screen.do("amend_a_record")
        self.refused("the value that stands", "not_altered", "value_lead")
        screen.fill(value_lead="7.5")
        self.picture("amending")
        screen.do("amend_a_record")
        screen.wait(lambda: screen.place() == "#/records/1", "the record is shown")
        screen.settle()
        compare_version(screen, self.inspector, 1, 2, "an amendment")
        self.sign("dan", 1, "authorship", "signed")
        self.leave("dan")
        self.come("fay")
        screen.go("#/records/1")
        compare_version(screen, self.inspector, 1, 2, "an amendment beside the version before")
        same("what it alters is marked", seen(screen, VERSION)["altered"], ["lead"])
        self.picture("version")
        self.sign("fay", 1, "review", "released")
        self.leave("fay")

    def manager(self):
        screen = self.screen
        self.come("gus")
        same("the day is what a manager sees first", screen.place(), "#/day")
        self.picture("waiting")
        screen.go("#/records/2")
        self.sign("gus", 2, "approval", "released")
        self.leave("gus")

    # ---- accounts

    def twice(self, command, code):
        """Clicks what is asked twice: the first click does nothing yet."""
        screen = self.screen
        before = self.last_row()
        screen.do(command)
        there = self.last_row(), len(screen.all(f'[data-do="{command}_surely"]'))
        same(f"{command} of {code} is asked once more before it is done", there, (before, 1))
        screen.do(f"{command}_surely")
        screen.wait(lambda: self.last_row() != before, f"{command} is done")
        screen.settle()

    def lock_and_unlock(self):
        screen = self.screen
        for _ in range(5):
            screen.open_session(lab=LAB, code="hal", password="not the right one")
        same("five wrong passwords lock", self.last_row(), ("lock", "hal", "hal"))
        self.sign_in("hal")
        self.refused("the right password of who is locked", "credentials", "password")
        self.inspector = self.asker("gus")
        self.come("ann")
        compare_persons(screen, self.reader, "one who is locked")
        screen.go("#/persons/hal")
        self.twice("unlock_a_person", "hal")
        same("the lock is ended", self.last_row(), ("unlock", "ann", "hal"))
        screen.go("#/persons")
        compare_persons(screen, self.reader, "one who was unlocked")
        self.inspector = self.asker("hal")

    def roles_and_retirement(self):
        screen = self.screen
        screen.go("#/persons/eve")
        screen.one('[name="roles"][data-word="manager"]').click()
        screen.do("set_a_persons_roles")
        roles = next(one["roles"] for one in self.reader.get("persons")["persons"] if one["code"] == "eve")
        same("eve's roles", roles, ["analyst", "reviewer", "manager"])
        self.twice("retire_a_person", "eve")
        same("eve is retired", self.last_row(), ("retire", "ann", "eve"))
        screen.go("#/persons")
        compare_persons(screen, self.reader, "one who is retired")
        screen.go("#/enrolling")
        screen.fill(code="eve", name="Eve Ems")
        screen.do("enrol_a_person")
        self.refused("a code that somebody had", "code_taken", "code")
        screen.one('a[href="#/persons"]').click()
        screen.do("leave")
        self.leave("ann")

    # ---- the session

    def by_keyboard(self):
        """Signs in, and enters a value, without a mouse."""
        screen = self.screen
        screen.load()
        screen.tab_to('[name="lab"]')
        screen.press(LAB, Keys.TAB, "dan", Keys.TAB, self.passwords["dan"], Keys.ENTER)
        screen.wait(lambda: screen.place() == "#/day", "dan is signed in by the keyboard alone")
        screen.settle()
        screen.tab_to('a[href="#/records/4"]')
        screen.press(Keys.ENTER)
        screen.wait(lambda: screen.place() == "#/records/4", "the record is opened by the keyboard alone")
        screen.settle()
        screen.tab_to('[data-key="lead"] [name="value"]')
        screen.press("3.1", Keys.ENTER, Keys.ENTER)
        screen.settle()
        compare_version(screen, self.inspector, 4, 1, "a value, by the keyboard alone")

    def session_ends(self):
        """A session that ended on the server: the person signs in again, and what was typed is entered."""
        screen = self.screen
        screen.fill(entry_row(screen, "note"), value="typed before the end")
        another = "another word of dan"
        self.asker("dan").post("password", old=self.passwords["dan"], new=another)
        self.passwords["dan"] = another
        screen.one('[data-do="enter_a_value"]').click()
        dialog = screen.one("dialog[open]")
        self.picture("session-ended")
        screen.fill(dialog, password="not the right one")
        screen.one('[data-do="open_a_session_again"]', dialog).click()
        screen.wait(lambda: screen.refusal() == "credentials", "the wrong password is refused")
        screen.fill(dialog, password=another)
        screen.one('[data-do="open_a_session_again"]', dialog).click()
        screen.wait(lambda: not screen.all("dialog[open]"), "the dialog is gone")
        screen.settle()
        compare_version(screen, self.inspector, 4, 1, "a value that was typed before the session ended")
        same("it was entered once", [row[0] for row in seen(screen, VERSION)["rows"]], ["3.1 mg/L", "typed before the end"])

    def time_passes(self):
        """The countdown, the warning before the end, and the end, by a clock that is put ahead."""
        screen = self.screen
        left = screen.one("#left").text
        say(re.search(r"\b1[45]\b|1[45]:", left), f"how long the session lives is in the head: {left!r}")
        screen.wait(lambda: screen.one("#left").text != left, "it counts down")
        screen.run("const real = Date.now.bind(Date); window.ahead = 0; Date.now = () => real() + window.ahead;")
        row = entry_row(screen, "lead")
        screen.fill(row, value="3.2", reason="read again")
        screen.run("window.ahead = 800_000")
        ending = screen.one("#ending")
        say(ending.get_attribute("role") == "alert" and len(ending.text) > 20, f"two minutes before its end a warning is there: {ending.text!r}")
        screen.do("go_on")
        screen.wait(lambda: not screen.all("#ending"), "going on takes the warning away")
        screen.run("window.ahead = 1_800_000")
        dialog = screen.one("dialog[open]")
        screen.fill(dialog, password=self.passwords["dan"])
        screen.one('[data-do="open_a_session_again"]', dialog).click()
        screen.wait(lambda: not screen.all("dialog[open]"), "the dialog is gone")
        value, reason = (screen.one(f'[name="{name}"]', row).get_attribute("value") for name in ("value", "reason"))
        same("at its end the person signs in again, and what was typed is there", (value, reason), ("3.2", "read again"))
        screen.do("enter_a_value")
        compare_version(screen, self.inspector, 4, 1, "and is entered")
        screen.driver.refresh()
        screen.one('[data-do="open_a_session"]')
        there = screen.all("#left"), self.last_row()[0]
        same("a page that is loaded anew has no session; that of before ends by itself", there, ([], "entry"))
        self.come("dan")
        self.leave("dan")

    # ---- nothing is kept

    def nothing_is_kept(self, log):
        screen = self.screen
        there = screen.run("return [{ ...localStorage }, sessionStorage.length, document.cookie, location.href, JSON.stringify(history.state), window.name]")
        there.append(screen.driver.execute_async_script("indexedDB.databases().then((all) => arguments[arguments.length - 1](all.length))"))
        same("nothing but the laboratory's code is in storage, in a cookie or in the address", there,
             [{"koghdise lab": LAB}, 0, "", f"{self.screen.address}?lab={LAB}", "null", "", 0])
        requests = log.read_text()
        say(len(requests) > 1000 and not re.search(r"[0-9a-f]{64}", requests), "no line of nginx's log has a token or a digest")

    def trail(self):
        screen = self.screen
        self.come("hal")
        screen.go("#/trail")
        last = self.count_of_trail()
        first = max(1, last - 99)
        compare_trail(screen, self.inspector, "the newest rows", first, last)
        self.picture("trail")
        screen.fill(screen.one('form[data-form="read_the_trail"]'), **{"from": "1", "to": "60"})
        screen.do("read_the_trail")
        compare_trail(screen, self.inspector, "a range", 1, 60)
        filters = screen.one('form[data-form="filter"]')
        screen.fill(filters, action="enrol")
        compare_trail(screen, self.inspector, "one action of it", 1, 60, lambda row: row["action"] == "enrol")
        screen.fill(filters, action="", person="bob")
        compare_trail(screen, self.inspector, "one person's of it", 1, 60, lambda row: row["person"] == "bob")

    def count_of_trail(self):
        count = 0
        while rows := self.inspector.get(f"trail?from={count + 1}&to={count + 100}")["trail"]:
            count += len(rows)
        return count
