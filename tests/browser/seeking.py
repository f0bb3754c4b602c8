"""Records and rows of the trail are found again: by looking through all, by a filter that stands in the address, by day and person."""
import re
import time

from faults import fault
from room import password_of, same, say
from seeing import RECORDS, TRAIL, seen
from working import COUNT, LAB

FILTER = 'form[data-form="filter"]'


def numbers(screen):
    return [one["record"] for one in seen(screen, RECORDS)]


def worked_at(busy):
    """Of each record its row of the list, and who did something in its last version, and on which days."""
    hal, known = busy.of["hal"], []
    for first in range(1, COUNT + 1, 100):
        for row in hal.get(f"records?from={first}&to={first + 99}")["records"]:
            version = hal.get(f"records/{row['record']}/versions/{row['current']}")
            deeds = [{**version, "person": version["opener"]}, *version["rows"], *version["signatures"]]
            known.append({**row, "persons": {one["person"] for one in deeds}, "days": {one["moment"][:10] for one in deeds}})
    return known[::-1]


def count_requests(screen):
    """How many requests were sent since the last look."""
    return screen.run("const { all } = window.counted; window.counted.all = 0; return all;")


def looked_through(busy):
    """All records are read in the background, by six reads at a time at most; it can be stopped, and what was read is kept."""
    screen, every = busy.screen, list(range(COUNT, 0, -1))
    busy.go("#/records")
    same("at first the newest hundred records are there", numbers(screen), every[:100])
    fault(screen, "late", "GET", "/records?from")
    screen.click(screen.one('[data-do="look_through"]'))
    screen.wait(lambda: screen.run("return Boolean(window.go_on)"), "a reply is held")
    say(f"of {COUNT} records" in screen.part("how_far"), f"it says how far it is: {screen.part('how_far')!r}")
    screen.click(screen.one('[data-do="stop"]'))
    screen.run("window.go_on(); window.go_on = null;")
    screen.settle()
    say(100 <= len(numbers(screen)) < COUNT or numbers(screen) == every, f"it can be stopped: {screen.part('counts')!r}")
    if screen.all('[data-do="look_through"]'):
        screen.do("look_through")
    same("all records are looked through", numbers(screen), every)
    count_requests(screen)
    busy.go("#/forms")
    count_requests(screen)
    busy.go("#/records")
    there = numbers(screen), count_requests(screen)
    same("what was read is kept for the session", (there[0], there[1] <= 3), (every, True))


def filters(busy):
    """By sample, form, state, person and day, and what passes is what the server's replies say."""
    screen, known = busy.screen, worked_at(busy)
    day = min(known[0]["days"])
    cases = (
        ({"state": "rejected"}, lambda one: one["state"] == "rejected"), ({"form": "drinking"}, lambda one: one["form"] == "drinking"),
        ({"sample": "ELL 20"}, lambda one: "ell 20" in one["sample"].lower()), ({"person": "dan"}, lambda one: "dan" in one["persons"]),
        ({"person": "fay", "state": "reviewed"}, lambda one: "fay" in one["persons"] and one["state"] == "reviewed"),
        ({"day": day, "sample": "Well 2"}, lambda one: day in one["days"] and "Well 2" in one["sample"]),
        ({"day": day[:7], "person": "dan"}, lambda one: any(at.startswith(day[:7]) for at in one["days"]) and "dan" in one["persons"]),
        ({"day": "2001-01-01"}, lambda one: False))
    for wanted, passes in cases:
        form = screen.one(FILTER)
        screen.fill(form, **{"state": "", "form": "", "sample": "", "person": "", "day": "", **wanted})
        screen.settle()
        same(f"filtered by {wanted}", numbers(screen), [one["record"] for one in known if passes(one)])
        same("and the filter stands in the address", sorted(re.split("[?&]", screen.place())[1:]),
             sorted(f"{name}={value.replace(' ', '+')}" for name, value in wanted.items()))
    screen.fill(screen.one(FILTER), day="02.11.2026")
    say("2026-11-02" in screen.part("advice"), f"of a day in another spelling it is said what to type: {screen.part('advice')!r}")


def typed(screen):
    return screen.run("return Object.fromEntries([...document.querySelector(arguments[0]).elements].map((one) => [one.name, one.value]))", FILTER)


def comes_back(busy):
    """The filter is there after Back, with the row that was left, and after a reload."""
    screen = busy.screen
    busy.go("#/records")
    screen.fill(screen.one(FILTER), sample="Well 2", person="dan")
    screen.settle()
    place, there = screen.place(), numbers(screen)
    screen.click(screen.one('tr[data-record="201"] a'))
    screen.settle()
    screen.run("history.back()")
    screen.wait(lambda: screen.place() == place, "Back leads to the list")
    time.sleep(0.2)
    screen.settle()
    wanted = {"state": "", "form": "", "sample": "Well 2", "person": "dan", "day": ""}
    focus = screen.run("return document.activeElement.textContent")
    same("after Back the filter is there, and the focus is at the record that was left", (typed(screen), numbers(screen), focus), (wanted, there, "Well 201"))
    screen.driver.refresh()
    screen.settle()
    screen.open_session(lab=LAB, code="hal", password=password_of("hal"))
    same("after a reload, too, among what is loaded", (screen.place(), typed(screen), numbers(screen)), (place, wanted, [201]))
    screen.do("look_through")
    same("and among all once they are looked through", numbers(screen), there)
    screen.go("#/records")
    same("the link to the list leads to all of it", (screen.place(), len(numbers(screen))), ("#/records", COUNT))


def hostile_address(busy):
    """What an address has that no filter has: nothing runs, and nothing is hidden without a word."""
    screen = busy.screen
    busy.go("#/records?sample=%3Cimg%20src=x%20onerror=alert(1)%3E&state=none&other=%ff")
    there = typed(screen)["sample"], typed(screen)["state"], numbers(screen)
    same("a text that is markup stays a text, and a state that is none is left out", there, ("<img src=x onerror=alert(1)>", "", []))
    busy.go("#/trail?day=yesterday&person=%3Cb%3E")
    same("in the trail, too", (typed(screen)["person"], seen(screen, TRAIL)), ("<b>", []))


def written_is_read_again(busy):
    """What the person signed meanwhile is read again, also far down the list."""
    screen = busy.screen
    busy.go("#/records")
    screen.do("look_through")
    screen.fill(screen.one(FILTER), state="open", sample="Well 2")
    before = numbers(screen)
    screen.click(screen.one('tr[data-record="2"] a'))
    screen.settle()
    screen.do("authorship")
    screen.fill(code="dan", password=password_of("dan"))
    screen.do("sign_a_version")
    screen.go("#/records")
    screen.fill(screen.one(FILTER), state="open", sample="Well 2")
    same("a record that was signed meanwhile is kept no more as open", numbers(screen), [one for one in before if one != 2])


# ---- the trail

# From now on the rows of the trail are told as of days that go by, fifty rows a day.
DAYS = """
const real = window.fetch;
window.fetch = async (place, about) => {
    const reply = await real(place, about);
    if (!place.includes("/trail?")) return reply;
    const body = await reply.json();
    for (const row of body.trail) row.moment = `2026-0${1 + Math.floor(row.number / 250)}-${10 + Math.floor((row.number % 250) / 50)}T10:00:00Z`;
    return new Response(JSON.stringify(body), { status: 200 });
};
"""
FIRST = """
const done = arguments[arguments.length - 1];
import("/pages/numbers.js").then(async ({ first_number }) => {
    const wrong = [];
    for (let last = 0; last < 70; last += 1) {
        for (let first = 1; first <= last + 1; first += 1) {
            if (await first_number(last, async (number) => number < first) !== first) wrong.push([last, first]);
        }
    }
    done(wrong);
});
"""


def day_of(number):
    return f"2026-0{1 + number // 250}-{10 + number % 250 // 50}"


def trail_of_day(busy):
    """The rows of a day or a month, found by few reads; the day, the person and the action stand in the address."""
    screen, hal = busy.screen, busy.of["hal"]
    rows = [row for first in (1, 101, 201, 301, 401) for row in hal.get(f"trail?from={first}&to={first + 99}")["trail"]]
    same("the first number of what goes on is found", screen.driver.execute_async_script(FIRST), [])
    screen.run(DAYS)
    busy.go("#/trail")
    form = screen.one('form[data-form="read_a_day"]')
    count_requests(screen)
    for day in ("2026-01-11", "2026-02", "2026-01-10", "2025-12-31"):
        screen.fill(form, day=day)
        screen.do("read_a_day", form)
        say(count_requests(screen) <= 30, f"few reads find the rows of {day}")
        wanted = [row["number"] for row in rows if day_of(row["number"]).startswith(day)][::-1]
        # (rows that came since are of later days)
        same(f"the rows of {day}", [row[0] for row in seen(screen, TRAIL) if row[0] <= len(rows)], wanted)
        same("and the day stands in the address", screen.place(), f"#/trail?day={day}")
    screen.fill(form, day="11.1.2026")
    screen.do("read_a_day", form)
    same("a day in another spelling is refused, with what to type", (screen.refusal(), "2026-01-11" in screen.one("[data-refusal]").text), ("no_day", True))
    screen.fill(form, day="2026-02")
    screen.do("read_a_day", form)
    screen.fill(screen.one(FILTER), person="dan", action="entry")
    place = screen.place()
    same("with a person and an action", place, "#/trail?day=2026-02&person=dan&action=entry")
    wanted = [row["number"] for row in rows if day_of(row["number"]).startswith("2026-02") and (row["person"], row["action"]) == ("dan", "entry")][::-1]
    there = [row[0] for row in seen(screen, TRAIL)]
    same(f"{len(wanted)} rows of it", there, wanted)
    trail_comes_back(busy, place, there, len(rows))


def trail_comes_back(busy, place, there, count):
    screen = busy.screen
    busy.go("#/records")
    screen.run("history.back()")
    screen.wait(lambda: screen.place() == place, "Back leads to the trail")
    time.sleep(0.2)
    screen.settle()
    same("after Back they are there", [row[0] for row in seen(screen, TRAIL)], there)
    screen.fill(screen.one(FILTER), person="", action="")
    screen.do("look_through")
    rows = [int(row.get_attribute("data-row")) for row in screen.all("tr[data-row]")]
    same(f"all rows are looked through, and the newest ones shown: {screen.part('counts')!r}",
         (rows == list(range(rows[0], rows[0] - 36, -1)), rows[0] >= count), (True, True))
    same("and the others at a press", [row[0] for row in seen(screen, TRAIL)], list(range(rows[0], 0, -1)))


PARTS = {"hal": (looked_through, filters, comes_back, hostile_address), "gus": (trail_of_day,), "dan": (written_is_read_again,)}


def look_at_seeking(busy):
    from losing import play
    play(busy, PARTS)
