"""Entry by rows and in a grid: what is typed goes down and is sent at once, a column is pasted, near names are asked about."""
import time

from faults import come_late, fault, no_more_faults
from losing import play
from room import same, say
from screen import WIDE, entry_row

METALS = ("lead", "copper", "zinc", "cadmium", "nickel", "iron", "manganese", "arsenic")
AMOUNT = {"kind": "number", "unit": "mg/L", "decimals": 2, "min": "0", "max": "50"}
FIELDS = [{"key": metal, "label": metal.title(), "required": metal == "lead", **AMOUNT} for metal in METALS]
FIELDS += [{"key": "colour", "label": "Colour", "required": False, "kind": "choice", "choices": ["none", "faint"]},
           {"key": "note", "label": "Note", "required": False, "kind": "text", "size": 200}]
KEYS = [one["key"] for one in FIELDS]
# A usual window, and how much of it the rows may take: what was just done is said at its foot.
DESK, MOST = (1366, 768), 600
# Of the table and its button: top and bottom, how far the page is scrolled, and where the line below begins.
BOXES = """
const box = (selector) => document.querySelector(selector).getBoundingClientRect();
return [box(".entering table").top, box('[data-do="enter_a_value"]').bottom, scrollY, box("#said").top];
"""
COUNTED = """
window.clicks = 0;
addEventListener("click", (event) => { window.clicks += event.detail > 0 ? 1 : 0; }, { capture: true });
"""
NEAR = """
const done = arguments[arguments.length - 1];
import("/pages/near.js").then(({ is_near }) => done(arguments[0].filter(([one, other, wanted]) => is_near(one, other) !== wanted)));
"""
COLUMNS = """
const done = arguments[arguments.length - 1];
import("/pages/pasting.js").then(({ column_of }) => done(arguments[0].map((text) => JSON.stringify(column_of(text)))));
"""


def opened(calm, sample, form="metals"):
    """Opens a record beside the page, and shows it."""
    number = calm.of["dan"].post("records", form=form, sample=sample)["record"]
    calm.go(f"#/records/{number}")
    return number


def focused(calm):
    """Key and name of the control that has the focus."""
    return calm.screen.run("""const one = document.activeElement;
        return [one.closest('[data-key]')?.dataset.key ?? '', one.getAttribute('name') ?? one.dataset.do ?? ''];""")


def outcomes(calm):
    """What each row says of itself, by its key, where it says something."""
    return dict(calm.screen.run("""return [...document.querySelectorAll(".entering tr[data-key]")].map((row) => [row.dataset.key,
        row.querySelector("[data-refusal]")?.dataset.refusal ?? row.querySelector("[data-outcome]")?.dataset.outcome]).filter(([, word]) => word)"""))


def typed(calm):
    """What is typed and not entered, by its key."""
    return dict(calm.screen.run("""return [...document.querySelectorAll('.entering [name="value"]')]
        .filter((one) => one.value && !one.closest("[hidden]")).map((one) => [one.closest("tr").dataset.key, one.value])"""))


def press_all(calm):
    """Enters all, and waits for nothing."""
    calm.screen.click(calm.screen.one('[data-do="enter_a_value"]'))


# ---- rows


def ten_in_sight(calm):
    screen = calm.screen
    calm.of["gus"].post("forms", form="metals", approval=False, fields=FIELDS)
    screen.size(*DESK)
    opened(calm, "Row 1")
    top, bottom, scrolled, said = screen.run(BOXES)
    good = len(screen.all(".entering tr[data-key]")) == 10 and bottom - top < MOST and scrolled == 0 and bottom < said
    what = f"ten rows and their button take {bottom - top:.0f} of {DESK[1]} pixels, and end at {bottom:.0f} without scrolling"
    say(good, f"{what}, above the line at {said:.0f}")
    screen.size(*WIDE)


def enter_goes_down(calm):
    """Enter goes to the next row and sends nothing; behind the last row it enters all, in order."""
    screen = calm.screen
    number = opened(calm, "Row 2")
    screen.click(screen.one('[data-key="lead"] [name="value"]'))
    went = []
    for at in range(9):
        screen.press(f"{at}.5" if at < 8 else "f", screen.keys.ENTER)
        went.append(focused(calm)[0])
    same("Enter goes down, row by row", went, KEYS[1:])
    screen.press("kept cool", screen.keys.SHIFT + screen.keys.ENTER + screen.keys.NULL, "in the dark")
    same("and sends nothing", (calm.values(number), screen.part("typed")[:2]), ([], "10"))
    same("what is typed is told as not entered", set(outcomes(calm).values()), {"typed"})
    screen.press(screen.keys.ENTER)
    screen.settle()
    wanted = [(key, f"{at}.5") for at, key in enumerate(METALS)] + [("colour", "faint"), ("note", "kept cool\nin the dark")]
    same("behind the last row it enters all, in the order of the rows; Shift and Enter began a line", calm.values(number), wanted)
    same("each row says that it is entered, and nothing is typed any more", (outcomes(calm), typed(calm)), (dict.fromkeys(KEYS, "entered"), {}))
    same("the focus is where the version is signed", focused(calm), ["", "authorship"])


def rows_say(calm):
    """Each row says what came of its value; what is refused stays typed, and hinders no other row."""
    screen = calm.screen
    number = opened(calm, "Row 3")
    for key, value in (("lead", "1"), ("copper", "7,05"), ("zinc", "77"), ("cadmium", "4")):
        screen.fill(entry_row(screen, key), value=value)
    press_all(calm)
    screen.settle()
    same("rows are entered beside refused ones", calm.values(number), [("lead", "1"), ("cadmium", "4")])
    wanted = {"lead": "entered", "copper": "bad_value", "zinc": "out_of_range", "cadmium": "entered"}
    same("each row says which", (outcomes(calm), typed(calm)), (wanted, {"copper": "7,05", "zinc": "77"}))
    same("the focus is in the first refused one", focused(calm), ["copper", "value"])
    say("Type 7.05" in screen.one('[data-key="copper"]').text and "2 results are entered, 2 are refused" in calm.said(), f"in words: {calm.said()!r}")
    for key, value in (("copper", "7.05"), ("zinc", "")):
        screen.fill(entry_row(screen, key), value=value)
    press_all(calm)
    screen.settle()
    same("what was mended is entered then", calm.values(number)[2:], [("copper", "7.05")])


def lost_in_rows(calm):
    """A row whose reply is lost is looked up. Where that can't be, the rows below aren't sent, and the next press only looks."""
    screen = calm.screen
    number = opened(calm, "Row 4")
    fault(screen, "lost", "POST", "/entries")
    for at, key in enumerate(METALS[:3]):
        screen.fill(entry_row(screen, key), value=str(at))
    press_all(calm)
    screen.settle()
    same("a lost reply is looked up, and the rows below are entered", (calm.values(number), set(outcomes(calm).values())),
         ([(key, str(at)) for at, key in enumerate(METALS[:3])], {"entered"}))
    fault(screen, "lost", "POST", "/entries")
    fault(screen, "unsent", "GET", f"/records/{number}", 9)
    for at, key in enumerate(METALS[3:6]):
        screen.fill(entry_row(screen, key), value=str(at))
    press_all(calm)
    screen.settle()
    there = outcomes(calm)
    same("where it can't be, the row says that it isn't known, and those below wait", [there.get(key) for key in METALS[3:6]],
         ["not_known", "typed", "typed"])
    no_more_faults(screen)
    press_all(calm)
    screen.settle()
    same("the next press only looks", (calm.values(number)[3:], outcomes(calm)["cadmium"]), ([("cadmium", "0")], "entered"))
    press_all(calm)
    screen.settle()
    same("the one behind it enters what waits, and nothing twice", calm.values(number)[3:], [("cadmium", "0"), ("nickel", "1"), ("iron", "2")])


def corrected(calm):
    """A value in the place of another needs its reason."""
    screen = calm.screen
    number = opened(calm, "Row 5")
    screen.fill(entry_row(screen, "lead"), value="1.5")
    press_all(calm)
    screen.settle()
    same("where a value stands, no control is open, and who entered it is said",
         (screen.all('[data-key="lead"] [name="value"]'), screen.part("person", screen.one('.entering [data-key="lead"]'))), ([], "dan"))
    screen.do("replace", screen.one('.entering [data-key="lead"]'))
    screen.press("2.5", screen.keys.ENTER)
    same("Enter goes to the reason of another value", focused(calm), ["lead", "reason"])
    screen.press(screen.keys.CONTROL + screen.keys.ENTER)
    screen.settle()
    there = outcomes(calm)["lead"], focused(calm), len(calm.values(number))
    same("without a reason it is refused there", there, ("reason_wanted", ["lead", "reason"], 1))
    screen.press("misread scale", screen.keys.CONTROL + screen.keys.ENTER)
    screen.settle()
    same("with one it is entered", (calm.values(number), outcomes(calm)["lead"]), ([("lead", "1.5"), ("lead", "2.5")], "entered"))


def left_while_sent(calm):
    """What is typed beside rows that are being sent is kept; who leaves has the rows that are sent entered."""
    screen = calm.screen
    number = opened(calm, "Row 6")
    fault(screen, "late", "POST", "/entries")
    for key in METALS[:2]:
        screen.fill(entry_row(screen, key), value="3")
    press_all(calm)
    screen.fill(entry_row(screen, "note"), value="typed meanwhile")
    screen.one('a[href="#/records"]').click()
    asked = len(screen.all('dialog[open] [data-do="stay"]'))
    screen.click(screen.one('dialog[open] [data-do="leave"]'))
    screen.wait(lambda: screen.place() == "#/records", "who leaves goes on")
    come_late(screen)
    screen.wait(lambda: "entered" in calm.said(), "it is said")
    same("what is typed beside rows that are sent isn't left without a question", asked, 1)
    same(f"and those rows are entered, which is said elsewhere: {calm.said()!r}", calm.values(number), [("lead", "3"), ("copper", "3")])
    screen.settle()


# ---- a column


def copied(calm, text):
    """Puts a text on the clipboard, as somebody would, by a text that is cut."""
    screen = calm.screen
    note = screen.one('[data-key="note"] [name="value"]')
    screen.run("arguments[0].value = arguments[1]", note, text)
    note.send_keys(screen.keys.CONTROL, "a", "x", screen.keys.NULL)


def pasted(calm, key):
    calm.screen.one('[name="value"]', entry_row(calm.screen, key)).send_keys(calm.screen.keys.CONTROL, "v", calm.screen.keys.NULL)


def column_fills(calm):
    screen = calm.screen
    number = opened(calm, "Row 7")
    screen.fill(entry_row(screen, "nickel"), value="5")
    press_all(calm)
    screen.settle()
    screen.fill(entry_row(screen, "zinc"), value="9.9")
    copied(calm, "1.5\n2,5\n\n4.5\n5\n6.5\n7.5\n8.5\nfaint\nno note\nleft")
    pasted(calm, "lead")
    wanted = {"lead": "1.5", "copper": "2,5", "zinc": "9.9", "cadmium": "4.5", "iron": "6.5", "manganese": "7.5", "arsenic": "8.5", "colour": "faint",
              "note": "no note"}
    same("a column fills the rows below, but for an empty cell and for what stands already", typed(calm), wanted)
    same("nothing of it is sent", calm.values(number), [("nickel", "5")])
    text = calm.said()
    say(all(piece in text for piece in ("8 results are pasted", "1 is not accepted", "1 line had no row")), f"what is to be looked at is said: {text!r}")
    screen.do("take_back")
    same("it can be taken back", (typed(calm), focused(calm)[0]), ({"zinc": "9.9"}, "lead"))
    copied(calm, "1.5\n2.5")
    pasted(calm, "lead")
    press_all(calm)
    screen.settle()
    same("and is entered once the person enters all", calm.values(number)[1:], [("lead", "1.5"), ("copper", "2.5"), ("zinc", "9.9")])


def column_is_none(calm):
    """One line, several columns and lines of a text fill no rows."""
    screen = calm.screen
    opened(calm, "Row 8")
    copied(calm, "1.5")
    pasted(calm, "lead")
    same("one line is pasted as it is", typed(calm), {"lead": "1.5"})
    screen.fill(entry_row(screen, "lead"), value="")
    copied(calm, "Lead\t1.5\nCopper\t2.5")
    pasted(calm, "lead")
    same(f"of several columns nothing is pasted: {calm.said()!r}", (typed(calm), "several columns" in calm.said()), ({}, True))
    copied(calm, "first\nsecond")
    pasted(calm, "note")
    same("a text keeps its lines", typed(calm), {"note": "first\nsecond"})
    screen.fill(entry_row(screen, "note"), value="")
    copied(calm, "red\nkept cool")
    pasted(calm, "colour")
    there = typed(calm), screen.part("advice", screen.one('.entering [data-key="colour"]'))
    same("a choice that isn't there isn't chosen, and that is said", there, ({"note": "kept cool"}, "red is not one of the choices."))
    screen.fill(entry_row(screen, "note"), value="")
    texts = ["1", "1\n", "1\n2", "1\r\n2\r\n", "1\r2\n\n", "a\tb\nc", ""]
    wanted = ["null", "null", '{"is_wide":false,"cells":["1","2"]}', '{"is_wide":false,"cells":["1","2"]}', '{"is_wide":false,"cells":["1","2",""]}',
              '{"is_wide":true,"cells":["a\\tb","c"]}', "null"]
    same("what a column is", screen.driver.execute_async_script(COLUMNS, texts), wanted)


# ---- one sample after another


def five_samples(calm):
    """Five samples of one result, opened and entered in six clicks."""
    screen = calm.screen
    calm.of["gus"].post("forms", form="single", approval=False, fields=FIELDS[:1])
    calm.go("#/records")
    screen.run(COUNTED)
    screen.click(screen.one('[data-do="open_another"], a[href="#/opening"]'))
    screen.settle()
    same("the focus of an opening is in the form's code", focused(calm), ["", "form"])
    screen.press("single", screen.keys.TAB)
    records = []
    for number in range(5):
        if number:
            screen.click(screen.one('[data-do="open_another"]'))
            screen.settle()
        there = focused(calm)
        screen.press(f"Row {number} of five", screen.keys.ENTER)
        screen.wait(lambda: "/opening" not in screen.place(), "the record is shown")
        screen.settle()
        there = there, focused(calm)
        same(f"the focus of opening {number + 1} is in the sample, and then in the first field", there, (["", "sample"], ["lead", "value"]))
        screen.press(f"{number}.5", screen.keys.ENTER)
        screen.settle()
        records.append(int(screen.place().rpartition("/")[2]))
    values = [calm.values(record) for record in records]
    same("five samples of one result are entered in six clicks or fewer", (values, screen.run("return window.clicks <= 6")),
         ([[("lead", f"{number}.5")] for number in range(5)], True))
    calm.go(f"#/records/{records[0]}")
    same("who comes to a record by a list is at its heading", screen.run("return document.activeElement.tagName"), "H1")


def count_of(calm, sample):
    """How many records of a sample there are among the newest."""
    first, count = 1, 0
    while rows := calm.of["hal"].get(f"records?from={first}&to={first + 99}")["records"]:
        count += sum(one["sample"] == sample for one in rows)
        first += 100
    return count


def near_names(calm):
    """An opening can't be taken back: where a near name is known the page asks first."""
    screen = calm.screen
    calm.go("#/opening")
    screen.fill(form="single", sample="row 0 of  five")
    screen.do("open_a_record")
    same("a near name is asked about before it is opened", (screen.refusal(), count_of(calm, "row 0 of  five")), ("near_name", 0))
    say("Row 0 of five" in screen.one("[data-refusal]").text, f"in words: {screen.one('[data-refusal]').text!r}")
    screen.fill(sample="Rov 1 of five")
    screen.do("open_a_record")
    same("of one letter, too", (screen.refusal(), count_of(calm, "Rov 1 of five")), ("near_name", 0))
    screen.do("open_surely")
    screen.wait(lambda: "/opening" not in screen.place(), "the record is shown")
    screen.settle()
    same("who wants it opens it all the same", count_of(calm, "Rov 1 of five"), 1)
    calm.go("#/opening/single")
    screen.fill(sample="Row 7 of five")
    screen.do("open_a_record")
    screen.wait(lambda: "/opening" not in screen.place(), "the record is shown")
    screen.settle()
    same("another number is no near name", count_of(calm, "Row 7 of five"), 1)
    calm.go("#/opening/single")
    screen.fill(sample="Row 0 of fve")
    screen.do("open_a_record")
    screen.click(screen.one('[data-refusal] a'))
    screen.wait(lambda: "/opening" not in screen.place(), "the near record is shown without a question")
    screen.settle()
    cases = [["Well 1", "Wel 1", True], ["Well 1", "well 1", True], ["H3", "H 3", True], ["Well\u200b1", "Well1", True], ["Tap", "Taps", True],
             ["Well 1", "Well 2", False], ["Well 1", "Well 11", False], ["Well A", "Well B", False], ["12A", "12B", False], ["Tap", "Tip 2", False]]
    same(f"{len(cases)} pairs of names are near or not", screen.driver.execute_async_script(NEAR, cases), [])


def known_at_once(calm):
    """Who opens a record first of all has the newest ones known, and their forms offered."""
    screen = calm.screen
    calm.come("dan")
    calm.go("#/opening")
    offered = screen.run("return [...document.querySelectorAll('datalist option')].map((one) => one.value)")
    screen.fill(form="single", sample="Row 0 of fivee")
    screen.do("open_a_record")
    same("who opens a record first of all is asked, too, and forms are offered", (screen.refusal(), "single" in offered), ("near_name", True))
    screen.fill(form="", sample="")


# ---- many samples of a form


def grid_text(samples):
    """A block as a spreadsheet copies it: a sample with its values in each row."""
    return "\n".join("\t".join((sample, *(f"{at}.{place}" for place in range(1, 4)))) for at, sample in enumerate(samples))


def block_pasted(calm, text):
    """Pastes a block into the first sample."""
    screen = calm.screen
    first = screen.all('[data-part="grid"] [name="sample"]')[0]
    screen.run("""const [one, text] = arguments; const held = new DataTransfer(); held.setData("text", text);
        one.dispatchEvent(new ClipboardEvent("paste", { clipboardData: held, bubbles: true, cancelable: true }));""", first, text)


def records_of(calm, form, samples):
    """The numbers of the records of these samples; 0 of one that isn't opened."""
    first, there = 1, {}
    while rows := calm.of["hal"].get(f"records?from={first}&to={first + 99}")["records"]:
        there |= {one["sample"]: one["record"] for one in rows if one["form"] == form}
        first += 100
    return [there.get(sample, 0) for sample in samples]


def values_of_grid(calm, form, samples):
    return [[value for _, value in calm.values(record)] if record else None for record in records_of(calm, form, samples)]


def grid_is_entered(calm):
    """Samples down and fields across are opened and entered in order; a stop is gone on with, and nothing is entered twice."""
    screen = calm.screen
    calm.of["gus"].post("forms", form="three", approval=False, fields=FIELDS[:3])
    samples = [f"Grid {number}" for number in range(7)]
    wanted = [[f"{at}.{place}" for place in range(1, 4)] for at in range(7)]
    calm.go("#/grid/three")
    same("the focus of a grid is in its first sample", focused(calm), ["", "sample"])
    block_pasted(calm, grid_text(samples))
    there = screen.part("typed")[:2], records_of(calm, "three", samples)
    same("a block fills the rows and the columns, and nothing is sent", there, ("21", [0] * 7))
    fault(screen, "lost", "POST", "/entries")
    press_all(calm)
    screen.settle()
    same("each sample is opened, and its values are entered, also where a reply is lost", values_of_grid(calm, "three", samples), wanted)
    say("7 records are created, 21 results are entered." in calm.said(), f"it is said: {calm.said()!r}")
    calm.go("#/records")
    calm.go("#/grid/three")
    block_pasted(calm, grid_text(samples))
    press_all(calm)
    screen.settle()
    there = values_of_grid(calm, "three", samples), "0 results are entered" in calm.said()
    same("what is pasted again isn't entered twice", there, (wanted, True))


def grid_goes_on(calm):
    screen = calm.screen
    samples = [f"Grid {number}" for number in range(10, 14)]
    wanted = [[f"{at}.{place}" for place in range(1, 4)] for at in range(4)]
    calm.go("#/records")
    calm.go("#/grid/three")
    block_pasted(calm, grid_text(samples))
    fault(screen, "late", "POST", "/entries")
    press_all(calm)
    screen.wait(lambda: screen.run("return Boolean(window.go_on)"), "a reply is held")
    fault(screen, "unsent", "POST", "/entries", 1)
    come_late(screen)
    screen.settle()
    there = screen.refusal(), values_of_grid(calm, "three", samples)
    same("a cell that never came stops it, and is told", there, ("not_done", [["0.1"], None, None, None]))
    fault(screen, "lost", "POST", "/records")
    fault(screen, "unsent", "GET", "/records", 9)
    press_all(calm)
    screen.settle()
    there = screen.refusal(), values_of_grid(calm, "three", samples)
    same("so does an opening of which nothing is known", there, ("not_known", [wanted[0], [], None, None]))
    no_more_faults(screen)
    press_all(calm)
    screen.settle()
    same("the next press only looks", values_of_grid(calm, "three", samples), [wanted[0], [], None, None])
    press_all(calm)
    screen.settle()
    same("the one behind it goes on, and nothing is entered twice", values_of_grid(calm, "three", samples), wanted)
    same("and nothing is left", (screen.part("typed"), screen.refusal()), ("", None))


def grid_says(calm):
    """A refused cell hinders no other; another value, a near name and another version of the form are told."""
    screen, dan = calm.screen, calm.of["dan"]
    dan.post("entries", record=dan.post("records", form="three", sample="Grid 20")["record"], key="lead", value="5", unit="mg/L")
    calm.go("#/records")
    calm.go("#/grid/three")
    block_pasted(calm, "Grid 20\t5\t7,05\t3\nGrid 21\t77\t1\nGrit 21\t1\n\t4\nGrid 24\nGrid 20\t6")
    press_all(calm)
    screen.settle()
    told = screen.run("return [...document.querySelectorAll('[data-refusal]')].map((one) => one.dataset.refusal)")
    same("each row says what came of it", told, ["bad_value", "out_of_range", "near_name", "no_sample", "stands_already"])
    samples = ["Grid 20", "Grid 21", "Grit 21", "Grid 24"]
    same("what fits is entered", values_of_grid(calm, "three", samples), [["5", "3"], ["1"], None, None])
    screen.do("open_surely")
    screen.settle()
    same("a near name is opened once the person says so", values_of_grid(calm, "three", samples)[2], ["1"])
    screen.run("arguments[0].click()", screen.one("[data-refusal] a"))
    same("a link asks before what is typed is left", len(screen.all('dialog[open] [data-do="stay"]')), 1)
    screen.click(screen.one('dialog[open] [data-do="leave"]'))
    screen.wait(lambda: "/grid" not in screen.place(), "who leaves goes on")
    screen.settle()
    dan.post("records", form="three", sample="Grid 30")
    calm.of["gus"].post("forms", form="three", approval=True, fields=FIELDS[:3])
    calm.come("dan")
    calm.go("#/grid/three")
    block_pasted(calm, "Grid 30\t1")
    press_all(calm)
    screen.settle()
    there = screen.refusal(), values_of_grid(calm, "three", ["Grid 30"])
    same("a record by another version of the form isn't filled in here", there, ("other_form", [[]]))
    screen.run("document.querySelector('main form[data-keep]').reset()")


def grid_by_keys(calm):
    """Enter goes down a column, and to the top of the next one; each cell has a name."""
    screen = calm.screen
    calm.go("#/records")
    calm.go("#/grid/single")
    for number in range(6):
        screen.press(f"Keys {number}", screen.keys.ENTER)
    rows = len(screen.all('[data-part="grid"] tr[data-at]'))
    screen.press(screen.keys.ENTER)
    same("below the last sample another row begins, and behind an empty one the next column", (rows, focused(calm)), (7, ["lead", "value"]))
    for number in range(7):
        screen.press(*([f"{number}.5"] if number < 6 else []), screen.keys.ENTER)
    same("behind the last cell is the button", focused(calm), ["", "enter_a_value"])
    names = [name for role, name in screen.controls() if role == "textbox"]
    say("Sample 1" in names and "Lead required mg/L up to 2 decimals, 0 to 50 2" in names, f"each cell has a name: {names[:3]}")
    for name, size in (("wide", WIDE), ("narrow", (390, 844)), ("at 400 per cent", (320, 256))):
        screen.size(*size)
        same(f"the grid fits its window, {name}", screen.overflow(), 0)
    screen.size(*WIDE)
    low = screen.low_contrasts()
    say(not low, f"each text of it is well seen {low[:3] or ''}".rstrip())
    screen.press(screen.keys.ENTER)
    screen.settle()
    samples = [f"Keys {number}" for number in range(6)]
    same("and Enter on it enters all", values_of_grid(calm, "single", samples), [[f"{number}.5"] for number in range(6)])


PARTS = {"dan": (ten_in_sight, enter_goes_down, rows_say, lost_in_rows, corrected, left_while_sent, column_fills, column_is_none, five_samples,
                 near_names, known_at_once, grid_is_entered, grid_goes_on, grid_says, grid_by_keys)}


def look_at_entering(calm):
    play(calm, PARTS)
