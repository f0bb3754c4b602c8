"""What somebody at a bench sees: the sample first, messages that say what to type, and each control by its name."""
from losing import LEAD, play, press_enter
from room import same, say
from screen import entry_row

# Where the head of a record stands, and whether it is in sight at the foot of the page.
HEAD = """
scrollTo(0, document.documentElement.scrollHeight);
const heading = document.querySelector("main h1");
const { top, bottom } = heading.getBoundingClientRect();
return [heading.innerText, top >= 0 && bottom <= innerHeight, scrollY > 50, document.title];
"""
PAPER = """
const head = document.querySelector("main .record-head");
return head ? [getComputedStyle(head).position, head.checkVisibility(), head.innerText] : null;
"""


def sample_first(calm):
    """The sample is the heading and the title, and stays in sight; lists have it first; each sheet of paper has it."""
    screen = calm.screen
    screen.size(1000, 500)
    for place, act in (("#/records/20", ""), ("#/records/4/versions/1/authorship", " – Sign as the author")):
        calm.go(place)
        name = f"Well {place.split('/')[2]} · water{act}"
        text, is_seen, is_scrolled, title = screen.run(HEAD)
        same(f"the heading of {place}, at the foot of the page, too", (text, is_seen, is_scrolled), (name, True, True))
        same("and the title", title, f"{name} · Koghdise")
    screen.size(1280, 900)
    calm.go("#/records")
    row = screen.one("tbody tr > :first-child a")
    number = screen.run("return arguments[0].closest('tr').dataset.record", row)
    wanted = next(one["sample"] for one in calm.of["hal"].get(f"records?from={number}&to={number}")["records"])
    same("in the list the sample leads to its record", (row.text, screen.run("return arguments[0].hash", row)), (wanted, f"#/records/{number}"))
    calm.go("#/records/20")
    with screen.on_paper():
        there = screen.run(PAPER)
    wanted = there and there[0] == "fixed" and there[1] and "Well 20 · water" in there[2] and "version 1" in there[2].lower()
    say(wanted, f"each sheet of paper has sample, record and version: {there}")


# What somebody types, and a piece of what is said of it.
NUMBERS = (("7.05 ", "Type 7.05"), ("7,05", "Type 7.05"), ("< 0.05", "Type <0.05"), ("<0,05", "Type <0.05"), ("nd", "<0.05"),
           ("\u22640.05", "<"), (".5", "Type 0.5"), ("1e-3", "without e"), ("1 000", "Type 1000"), ("1,000", "1000 or 1.000"),
           ("0.055", "at most 2"), ("\u22121", "Type -1"), ("1.1 2.2 3.3", "several"), ("7.05 mg/L", "alone"), ("77", "above 50"), ("-1", "below 0"))
DAYS = (("02.11.2026", "Type 2026-11-02"), ("2026/11/2", "Type 2026-11-02"), ("02/11/2026", "2026-11-02 or 2026-02-11"), ("31.2.2026", "no such day"),
        ("yesterday", "year-month-day"))
ADVICE = """
const [field, value] = arguments;
field.value = value;
field.dispatchEvent(new Event("input", { bubbles: true }));
field.dispatchEvent(new Event("change", { bubbles: true }));
return field.closest("[data-key]").querySelector("[data-part=advice]").textContent;
"""
TAKEN = {"key": "taken", "label": "Taken on", "required": False, "kind": "date"}


def slips_of_values(calm):
    """Each usual slip has words of its own, before it is sent and after."""
    screen = calm.screen
    calm.of["gus"].post("forms", form="bench", approval=False, fields=[LEAD, TAKEN])
    number = calm.of["dan"].post("records", form="bench", sample="Bench 1")["record"]
    calm.go(f"#/records/{number}")
    for key, slips in (("lead", NUMBERS), ("taken", DAYS)):
        field = screen.one('[name="value"]', entry_row(screen, key))
        said = [screen.run(ADVICE, field, value) for value, _ in slips]
        lacking = [(value, piece, text) for (value, piece), text in zip(slips, said) if piece not in text]
        same(f"of {len(slips)} slips in {key} each is told with what to type", lacking, [])
        screen.run(ADVICE, field, "")
    row = press_enter(calm, "lead", value="7,05")
    screen.settle()
    there = screen.refusal(), "Type 7.05" in screen.one("[data-refusal]").text, screen.run("return document.title")
    same("a refusal says it, too, and the title that there is one", there, ("bad_value", True, "Error: Bench 1 \u00b7 bench \u00b7 Koghdise"))
    screen.fill(row, value="")


def told_at_once(calm):
    """The control that has the focus, and all that are told to be wrong."""
    return calm.screen.run("return [document.activeElement.name, [...document.querySelectorAll('[aria-invalid]')].map((one) => one.name)]")


def slips_at_once(calm):
    screen = calm.screen
    calm.go("#/opening")
    screen.fill(form="Water", sample="Well 77 ")
    screen.do("open_a_record")
    same("of an opening all slips are told at once, and the first has the focus", told_at_once(calm), ["form", ["form", "sample"]])
    say("Type water" in screen.text() and "Type Well 77" in screen.text(), "each with what to type")
    screen.fill(form="", sample="")


def slips_of_form(calm):
    screen = calm.screen
    calm.go("#/making")
    screen.fill(form="Lead")
    screen.fill(screen.one('fieldset[data-at="1"]'), key="Lead", label="Lead", min="9", max="8")
    screen.do("make_a_form")
    same("of a form all slips are told at once", told_at_once(calm), ["form", ["form", "key", "min"]])
    screen.run("document.querySelector('main form[data-keep]').reset()")


def bad_copy(calm):
    """Of a bad copy the record and its version are named."""
    screen, path = calm.screen, calm.screen.room / "bad.csv"
    copy = calm.of["hal"].copy(1, 3)
    path.write_bytes(copy.replace(b",7.5,mg/L,eve", b",7.4,mg/L,eve", 1))
    calm.go("#/checking")
    screen.fill(copy=path)
    screen.do("check_a_copy")
    text = screen.one("[data-verdict]").text
    say("record 2, Well 2, version 1" in text, f"of a bad copy the record is named: {text!r}")


def access(calm):
    """Unit and 'required' are told to a screen reader, and the first cell of a row is its header."""
    screen = calm.screen
    calm.go("#/records/20")
    nodes = screen.driver.execute_cdp_cmd("Accessibility.getFullAXTree", {})["nodes"]
    told = [(node["name"]["value"], any(one["name"] == "required" and one["value"]["value"] for one in node.get("properties", [])))
            for node in nodes if node.get("role", {}).get("value") == "textbox" and node.get("name", {}).get("value", "").startswith("Lead")]
    same("a screen reader tells of a control its label, that it is required, and its unit", told, [("Lead required mg/L", True)])
    heads = [node["name"]["value"] for node in nodes if node.get("role", {}).get("value") == "rowheader"]
    say("Lead required" in heads, f"a row of a table has a header: {heads}")
    low = screen.low_contrasts()
    say(not low, f"each text is well seen, in light and in dark colours {low[:3] or ''}".rstrip())
    dark = screen.run("return matchMedia('(prefers-color-scheme: dark)').matches")
    screen.driver.execute_cdp_cmd("Emulation.setEmulatedMedia", {"features": [{"name": "prefers-color-scheme", "value": "dark"}]})
    background = screen.run("return getComputedStyle(document.body).backgroundColor")
    screen.driver.execute_cdp_cmd("Emulation.setEmulatedMedia", {"features": []})
    say(not dark and background != "rgb(255, 255, 255)", f"who prefers dark colours has them: {background}")


def help_of_pages(calm):
    """A button at the head says what the page is for; another view's help isn't left open."""
    screen = calm.screen
    shown = []
    for place in ("#/day", "#/records/4", "#/records/4/versions/1/authorship", "#/opening", "#/grid/water", "#/forms/water/1", "#/password"):
        calm.go(place)
        closed = screen.all("#help")
        opener = screen.one('#head [data-do="help"]')
        opener.click()
        shown.append((screen.one("#help").text, len(closed), opener.get_attribute("aria-expanded")))
    texts = {text for text, _, _ in shown}
    same("each page has a help of its own, which is closed until it is asked for", (len(texts), {one[1:] for one in shown}), (len(shown), {(0, "true")}))
    say(all(len(text) > 80 for text in texts), f"in sentences: {shown[0][0]!r}")
    opener.click()
    same("and is closed again by the same button", (screen.all("#help"), opener.get_attribute("aria-expanded")), ([], "false"))


SHOWN_OF_INTEGRITY = """
const is_seen = (one) => one.checkVisibility() && one.getClientRects().length > 0;
return ["[data-part=digest]", "[data-part=seal]", "article .key"].map((selector) => [...document.querySelectorAll(selector)].some(is_seen));
"""


def integrity(calm):
    """Digest, seals and keys are out of sight until they are asked for, but where one signs and on paper."""
    screen = calm.screen
    calm.go("#/records/1")
    same("of a record neither digest nor seal nor key is seen", screen.run(SHOWN_OF_INTEGRITY), [False, False, False])
    screen.run("dispatchEvent(new Event('beforeprint'))")
    same("on paper they are there", screen.run(SHOWN_OF_INTEGRITY), [True, True, True])
    screen.run("dispatchEvent(new Event('afterprint'))")
    same("and are folded again afterwards", screen.run(SHOWN_OF_INTEGRITY), [False, False, False])
    screen.one('[data-part="integrity"] summary').click()
    same("who opens them sees them", screen.run(SHOWN_OF_INTEGRITY), [True, True, True])
    calm.go("#/records/1/paper")
    same("so does who prints all versions", screen.run(SHOWN_OF_INTEGRITY), [True, True, True])
    number = calm.of["dan"].post("records", form="water", sample="To be signed")["record"]
    calm.of["dan"].post("entries", record=number, key="lead", value="1", unit="mg/L")
    calm.go(f"#/records/{number}/versions/1/authorship")
    same("and who signs", screen.run(SHOWN_OF_INTEGRITY), [True, False, True])


COLOUR = {"key": "colour", "label": "Colour", "required": True, "kind": "choice", "choices": ["none", "faint", "strong"]}
CLEAR = {"key": "clear", "label": "Clear to the eye", "required": False, "kind": "yesno"}
SMELL = {"key": "smell", "label": "Smell", "required": False, "kind": "choice", "choices": list("abcdef")}
# The roles of what one chooses by, as a screen reader has them.
CHOICES = {"radiogroup", "radio", "combobox"}


def chosen(calm, key):
    return calm.screen.run("return document.querySelector(`main [data-key=${arguments[0]}] [name=value]`).value", key)


def few_choices(calm):
    """Few choices are radio buttons, by the mouse and by the keyboard; many are a list."""
    screen = calm.screen
    calm.of["gus"].post("forms", form="choices", approval=False, fields=[COLOUR, CLEAR, SMELL, LEAD])
    number = calm.of["dan"].post("records", form="choices", sample="Choice 1")["record"]
    calm.go(f"#/records/{number}")
    nodes = screen.driver.execute_cdp_cmd("Accessibility.getFullAXTree", {})["nodes"]
    told = [(node["role"]["value"], node["name"]["value"]) for node in nodes if not node["ignored"] and node.get("role", {}).get("value") in CHOICES]
    wanted = [("radiogroup", "Colour required"), ("radio", "none"), ("radio", "faint"), ("radio", "strong"), ("radiogroup", "Clear to the eye"),
              ("radio", "yes"), ("radio", "no"), ("combobox", "Smell")]
    same("few choices are radio buttons in a group with its name; six are a list", sorted(told), sorted(wanted))
    screen.tab_to('[data-key="colour"] input')
    screen.press(screen.keys.ARROW_DOWN)
    screen.press(screen.keys.ARROW_DOWN)
    by_arrows = chosen(calm, "colour")
    screen.press(screen.keys.DELETE)
    emptied = chosen(calm, "colour")
    screen.press("f", screen.keys.ENTER)
    screen.press("n", screen.keys.ENTER)
    same("arrows, letters and Delete choose, and Enter goes to the next row", (by_arrows, emptied, chosen(calm, "colour"), chosen(calm, "clear")),
         ("strong", "", "faint", "no"))
    there = screen.run("return document.activeElement.closest('[data-key]').dataset.key"), screen.part("typed")[:2], calm.values(number)
    same("and nothing is sent by that", there, ("smell", "2 ", []))
    screen.do("clear", screen.one('.entering [data-key="clear"]'))
    asks_and_stays(calm, chosen)
    screen.do("enter_a_value")
    same("what is chosen is entered", calm.values(number), [("colour", "faint")])
    calm.go("#/grid/choices")
    screen.fill(screen.one('tr[data-at="1"]'), sample="Choice 2")
    group = screen.one('tr[data-at="1"] [data-key="clear"] [name="value"]')
    screen.put(group, "yes")
    screen.press(screen.keys.ENTER)
    same("in a grid, too, Enter goes down the column", screen.run("return document.activeElement.closest('tr').dataset.at"), "2")
    screen.run("document.querySelector('main form[data-keep]').reset()")


def asks_and_stays(calm, read):
    """Who leaves what is chosen is asked first."""
    screen = calm.screen
    screen.one('a[href="#/records"]').click()
    screen.do("stay")
    focus = screen.run("return document.activeElement.closest('[data-key]')?.dataset.key")
    same("what is chosen isn't left without a question", (read(calm, "colour"), focus), ("faint", "colour"))


def choices_amended(calm):
    """Few choices of an amendment have a legend."""
    screen = calm.screen
    number = calm.of["dan"].post("records", form="choices", sample="Choice 3")["record"]
    for key, value, unit in (("colour", "none", ""), ("lead", "1", "mg/L")):
        calm.of["dan"].post("entries", record=number, key=key, value=value, unit=unit)
    calm.sign("dan", number, "authorship")
    calm.sign("eve", number, "review")
    calm.go(f"#/records/{number}/amending")
    same("few choices of an amendment have a legend", screen.one('[data-key="colour"] legend').text, "New result of Colour")
    screen.fill(value_colour="faint", reason="looked again")
    screen.do("amend_a_record")
    screen.wait(lambda: screen.place() == f"#/records/{number}", "the record is shown")
    same("and what is chosen is sent", calm.values(number, 2), [("colour", "faint")])


def no_role(calm):
    """Who has no role is told what to do, and need not sign in again once there is one."""
    screen = calm.screen
    same("who has no role comes to a page that says so", screen.place(), "#/no-role")
    text = screen.one("main").text
    say("administrator" in text and "ned" in text, f"and what to do: {text!r}")
    screen.do("look_for_role")
    say("no role" in calm.said(), f"as long as there is none that is said: {calm.said()!r}")
    calm.of["ann"].post("roles", code="ned", roles=["analyst"])
    screen.do("look_for_role")
    screen.wait(lambda: screen.place() == "#/day", "the day is shown")
    screen.settle()
    say("analyst" in screen.part("roles"), "and then the pages are there")


PARTS = {"dan": (access, sample_first, slips_of_values, slips_at_once, bad_copy, help_of_pages, integrity, few_choices, choices_amended), "gus": (slips_of_form,),
         "ned": (no_role,)}


def look_at_bench(calm):
    play(calm, PARTS)
