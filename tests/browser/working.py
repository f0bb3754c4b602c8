"""A person's work, as it waits: the day that is shown first, and from one record that waits to the next."""
import time

from faults import break_fetch, fault, no_more_faults
from room import Asker, found, let_in, password_of, same, say
from screen import entry_row

LAB = "busy"
FOUNDERS = [(code, f"{code.title()} Busy", f"correct horse {code}") for code in ("ann", "bob", "cid")]
PEOPLE = (("dan", ["analyst"]), ("eve", ["analyst", "reviewer"]), ("fay", ["reviewer"]), ("gus", ["manager"]), ("hal", ["inspector"]))
LEAD = {"key": "lead", "label": "Lead", "required": True, "kind": "number", "unit": "mg/L", "decimals": 2}
NOTE = {"key": "note", "label": "Note", "required": False, "kind": "text", "size": 100}
COLOUR = {"key": "colour", "label": "Colour", "required": True, "kind": "text", "size": 100}
# Records that wait for a review, one that is rejected meanwhile, three that wait for an approval, and how many there are in all.
WAITING, MEANWHILE, APPROVED, COUNT = range(201, 213), 206, (213, 214, 215), 215
REASON = "the bottle was open"


def found_busy(program, file):
    found(program, file, LAB, "Busy Lab", FOUNDERS)


class Busy:
    """The laboratory, filled by the server itself; a session of each person there, and the screen."""

    def __init__(self, screen, port):
        self.screen = screen
        self.of = {code: Asker(port, LAB, code, password) for code, _, password in FOUNDERS}
        for code, roles in PEOPLE:
            let_in(self.of["ann"], self.of["bob"], code, f"{code.title()} Busy", roles)
            self.of[code] = Asker(port, LAB, code, password_of(code))

    def sign(self, code, record, meaning, **further):
        version = self.of[code].get(f"records/{record}")["versions"][-1]
        self.of[code].post("signatures", record=record, version=version["version"], digest=version["digest"], meaning=meaning, code=code,
                           password=password_of(code), **further)

    def enter(self, code, record, key="lead", value="7.5"):
        self.of[code].post("entries", record=record, key=key, value=value, unit="mg/L" if key == "lead" else "")

    def fill(self):
        """Of dan: 1 is rejected, 2 is open and has all values, 3 lacks one, 4 has none; 5 is eve's, and dan entered something there."""
        for form, approval in (("water", False), ("drinking", True)):
            self.of["gus"].post("forms", form=form, approval=approval, fields=[LEAD, COLOUR, NOTE])
        for number in range(1, COUNT + 1):
            form = "drinking" if number in APPROVED else "water"
            self.of["dan" if number < 5 else "eve"].post("records", form=form, sample=f"Well {number}")
        for number in (1, 2, 6, *WAITING, *APPROVED):
            for key, value in (("lead", "7.5"), ("colour", "none")):
                self.enter("dan" if number < 5 or number == 201 else "eve", number, key, value)
        self.enter("dan", 3)
        self.enter("dan", 5, "note", "kept cool")
        self.sign("dan", 1, "authorship")
        for number in (6, *reversed(WAITING), *APPROVED):
            self.sign("dan" if number == 201 else "eve", number, "authorship")
        for number in (1, 6):
            self.sign("fay", number, "rejection", reason=REASON if number == 1 else "not this one")
        for number in APPROVED:
            self.sign("fay", number, "review")

    def by_age(self, *records):
        """Records in the order in which something was done with them last."""
        def age(record):
            version = self.of["hal"].get(f"records/{record}/versions/1")
            return max(one["moment"] for one in (version, *version["rows"], *version["signatures"])), record
        return sorted(records, key=age)

    def come(self, code, place="#/"):
        """Signs in, at a place."""
        self.screen.load()
        self.screen.run("location.hash = arguments[0]", place)
        self.screen.settle()
        self.screen.run(COUNTED)
        self.screen.open_session(lab=LAB, code=code, password=password_of(code))
        break_fetch(self.screen)

    def go(self, place):
        """To a place by its address."""
        self.screen.run("location.hash = arguments[0]", place)
        self.screen.wait(lambda: self.screen.place() == place, f"the place is {place}")
        self.screen.settle()

    def said(self):
        return self.screen.run("return document.getElementById('said').innerText")


ROWS = """
return [...document.querySelectorAll(`[data-part="${arguments[0]}"] tr[data-record]`)].map((one) => Number(one.dataset.record));
"""
# How many requests are under way at once, at most, and how many were sent.
COUNTED = """
const real = window.fetch;
window.counted = { most: 0, now: 0, all: 0 };
window.fetch = async (...words) => {
    window.counted.now += 1;
    window.counted.all += 1;
    window.counted.most = Math.max(window.counted.most, window.counted.now);
    try {
        return await real(...words);
    } finally {
        window.counted.now -= 1;
    }
};
"""


def rows_of(busy, part):
    return busy.screen.run(ROWS, part)


def row_of(busy, part, record):
    return busy.screen.one(f'[data-part="{part}"] tr[data-record="{record}"]').text


def day_of_analyst(busy):
    """What is open, and what was rejected and why, of all records, the oldest first, and nothing of others."""
    screen = busy.screen
    same("the day is what is shown first", screen.place(), "#/day")
    same("an analyst's day has what was rejected, and what is open, the oldest first", (rows_of(busy, "rejected"), rows_of(busy, "open")),
         ([1], busy.by_age(2, 3, 4, 5)))
    say(REASON in row_of(busy, "rejected", 1) and "fay" in row_of(busy, "rejected", 1), f"with why, and who rejected it: {row_of(busy, 'rejected', 1)!r}")
    same("of an open one, what is to be done", [screen.one(f'[data-part="open"] tr[data-record="{one}"] [data-do]').get_attribute("data-do") for one in (2, 3, 4)],
         ["authorship", "enter", "enter"])
    say("Colour" in row_of(busy, "open", 3), f"and which required value it lacks: {row_of(busy, 'open', 3)!r}")
    say(f"All {COUNT} " in screen.part("counts"), f"it says that all are looked at: {screen.part('counts')!r}")
    same("what waits for others isn't shown to an analyst", screen.all('[data-part="waiting"]'), [])


def own_entry_shows(busy):
    """What the person entered meanwhile shows when the day is shown again."""
    screen = busy.screen
    screen.go("#/records/3")
    screen.fill(entry_row(screen, "colour"), value="faint")
    screen.do("enter_a_value")
    screen.run("history.back()")
    screen.wait(lambda: screen.place() == "#/day", "Back leads to the day")
    time.sleep(0.2)
    screen.settle()
    same("Back leads to the row that was left", screen.run("return document.activeElement.textContent"), "Well 3")
    same("a value that was entered shows in the day", rows_of(busy, "open"), busy.by_age(2, 3, 4, 5))
    same("and the version can be signed", screen.one('[data-part="open"] tr[data-record="3"] [data-do]').get_attribute("data-do"), "authorship")


def six_at_a_time(busy):
    """What is read in the background is read by six reads at a time, at most."""
    counted = busy.screen.run("return window.counted")
    say(counted["all"] > 150 and 1 < counted["most"] <= 6, f"of {counted['all']} reads at most {counted['most']} are under way at a time")
    same("own work isn't what waits, and is counted", (rows_of(busy, "waiting"), "11 others are your own work" in busy.screen.part("counts")), ([201], True))
    opened = [one for one in range(5, 201) if one != 6]
    same("of many open ones the oldest are shown", rows_of(busy, "open"), busy.by_age(*opened)[:12])
    busy.screen.click(busy.screen.one('[data-part="open"] [data-do="show_more"]'))
    same("and all, at a press", rows_of(busy, "open"), busy.by_age(*opened))


def read_in_part(busy):
    """Where a read fails, the rest can be looked at later."""
    screen = busy.screen
    fault(screen, "unsent", "GET", "records?from=101", 99)
    show_anew(screen)
    screen.settle()
    there = screen.refusal(), len(screen.all('[data-do="look_on"]'))
    same("a read that fails is told, and what is left can be looked at", there, ("no_reply", 1))
    say(f"of {COUNT} records are searched so far" in screen.part("counts"), f"it says how far it is: {screen.part('counts')!r}")
    no_more_faults(screen)
    fault(screen, "too_often", "GET", "records?from=101")
    screen.do("look_on")
    there = screen.refusal(), f"All {COUNT} " in screen.part("counts"), screen.all('[data-do="look_on"]')
    same("and then all are looked at, where too many asked at once, too", there, (None, True, []))


def show_anew(screen):
    screen.run("document.querySelector('#links a[href=\"#/day\"]').click()")


def stopped(busy):
    screen = busy.screen
    fault(screen, "late", "GET", "records?from=101")
    show_anew(screen)
    screen.wait(lambda: screen.run("return Boolean(window.go_on)"), "a reply is held")
    screen.click(screen.one('[data-do="stop"]'))
    screen.run("window.go_on(); window.go_on = null;")
    screen.settle()
    say(len(rows_of(busy, "open")) > 0, f"the day can be stopped: {screen.part('counts')!r}")


# ---- from one that waits to the next

CLICKS = "window.clicks = 0; addEventListener('click', ({ isTrusted, detail }) => { if (isTrusted && detail) window.clicks += 1; }, { capture: true });"
FOCUS = "return [document.activeElement.name ?? document.activeElement.tagName, scrollY];"


def reviews(busy):
    """Ten reviews: ten passwords, eleven clicks, and the password has the focus, while the page shows its top."""
    screen, hal = busy.screen, busy.of["hal"]
    order, places, focus = busy.by_age(*WAITING[1:]), [], []
    same("what waits, the oldest first", rows_of(busy, "waiting"), order)
    order.remove(MEANWHILE)
    screen.run(CLICKS)
    screen.click(screen.one('[data-part="waiting"] [data-do="review"]'))
    screen.settle()
    for at in range(len(order)):
        places.append(screen.place())
        screen.wait(lambda: screen.run(FOCUS)[0] in ("code", "password"), "a field to type in has the focus")
        focus.append(screen.run(FOCUS))
        if at == 0:
            busy.sign("gus", MEANWHILE, "rejection", reason="not this one")
            screen.press("fay", screen.keys.TAB)
        screen.press(password_of("fay"))
        screen.one('[data-do="sign_and_next"]').click()
        screen.wait(lambda: screen.place() != places[-1], "the next place is there")
        screen.settle()
    same("from one that waits to the next, but for one that waits no more", places, [f"#/records/{one}/versions/1/review/next" for one in order])
    same("the code has the focus at first, then the password, and the page shows its top", focus, [["code", 0]] + [["password", 0]] * (len(order) - 1))
    same("after the last one the day is shown", (screen.place(), rows_of(busy, "waiting")), ("#/day", []))
    say("the last one" in busy.said(), f"and it is said: {busy.said()!r}")
    states = [one["state"] for one in hal.get(f"records?from={WAITING[1]}&to={WAITING[-1]}")["records"] if one["record"] != MEANWHILE]
    same("ten reviews take ten passwords and eleven clicks", (screen.run("return window.clicks"), states), (11, ["released"] * 10))


def by_address(busy):
    """Who comes by an address, and has seen no list yet, is led on to the one that waits for longest. A late reply leads nowhere."""
    screen, order = busy.screen, busy.by_age(*APPROVED)
    busy.come("gus", f"#/records/{order[2]}/versions/1/approval")
    screen.fill(code="gus", password=password_of("gus"))
    screen.do("sign_and_next")
    screen.wait(lambda: screen.place().endswith("/next"), "the next one is there")
    screen.settle()
    same("who comes by an address is led on, too", screen.place(), f"#/records/{order[0]}/versions/1/approval/next")
    say("2 wait" in busy.said(), f"and how many wait is said: {busy.said()!r}")


def late(busy):
    screen, record = busy.screen, WAITING[0]
    busy.go(f"#/records/{record}/versions/1/review/next")
    screen.fill(code="eve", password=password_of("eve"))
    fault(screen, "late", "POST", "/signatures")
    screen.click(screen.one('[data-do="sign_and_next"]'))
    screen.wait(lambda: screen.run("return Boolean(window.go_on)"), "a reply is held")
    busy.go("#/records/7")
    screen.fill(entry_row(screen, "note"), value="typed meanwhile")
    screen.run("window.go_on(); window.go_on = null;")
    screen.wait(lambda: f"record {record}" in busy.said(), "the reply is there")
    time.sleep(0.5)
    screen.settle()
    there = screen.place(), screen.one('[name="value"]', entry_row(screen, "note")).get_attribute("value")
    same("a late reply to a signature leads to no next one", there, ("#/records/7", "typed meanwhile"))
    screen.fill(entry_row(screen, "note"), value="")


def left_alone(busy):
    """One may be left as it is; after the last one the first comes again. Enter signs, and leads on."""
    screen, order, places = busy.screen, busy.by_age(*APPROVED)[:2], []
    busy.go("#/day")
    screen.click(screen.one('[data-part="waiting"] [data-do="approval"]'))
    screen.settle()
    for _ in range(3):
        places.append(screen.place())
        screen.do("leave_it")
    same("one may be left as it is", places, [f"#/records/{one}/versions/1/approval/next" for one in (*order, order[0])])
    first = screen.place()
    screen.do("rejection")
    same("and from there it may be rejected, on the way, too", (screen.place(), screen.run(FOCUS)), (first.replace("approval", "rejection"), ["reason", 0]))
    screen.run("history.back()")
    screen.wait(lambda: screen.place() == first, "Back leads to the approval")
    time.sleep(0.2)
    screen.settle()
    screen.press(password_of("gus"), screen.keys.ENTER)
    screen.wait(lambda: screen.place() != first, "Enter signs")
    screen.settle()
    same("Enter signs, and leads on", screen.place(), f"#/records/{order[0]}/versions/1/approval/next")
    fault(screen, "unsent", "GET", "/records?from", 9)
    screen.press(password_of("gus"), screen.keys.ENTER)
    screen.wait(lambda: screen.place() == "#/day", "the day is shown")
    screen.settle()
    no_more_faults(screen)
    state = busy.of["hal"].get(f"records/{order[0]}")["versions"][-1]["state"]
    same("where the next one can't be looked for, the day is shown, and it is signed", (state, "could not be found" in busy.said()), ("released", True))


PARTS = {"dan": (day_of_analyst, read_in_part, stopped, own_entry_shows), "eve": (six_at_a_time, late), "fay": (reviews,), "gus": (by_address, left_alone)}


def look_at_working(screen, port):
    from losing import play
    busy = Busy(screen, port)
    busy.fill()
    play(busy, PARTS)
    return busy
