"""Much and long: records of 99 versions and of 200 entries, a form of 60 fields, 500 people, a trail of 69,000 rows, 100,000 records."""
from losing import LAB, LEAD, NOTE, play
from paper import A4
from pdf import texts_of_pages
from room import password_of, same, say
from screen import WIDE

PATIENCE = 120
DESK = (1366, 768)
# Replies that a server gives over such a laboratory, each made of its number. What is asked of other places goes to the server.
MADE = """
const [versions, entries, records, rows, persons] = arguments;
const two = (number) => String(number).padStart(2, "0");
const at = (number) => `2026-0${1 + Math.floor(number / 28) % 9}-${two(1 + number % 28)}T10:00:00Z`;
const state_of = (version) => (version < versions ? "released" : "open");
const entry = (version, number) => ({ key: number % 2 ? "note" : "lead", moment: at(version), person: "dan", reason: version > 1 ? "misread" : "",
    unit: number % 2 ? "" : "mg/L", value: number % 2 ? `note ${version} ${number}` : `${version}.${number % 100}` });
const version_of = (version) => {
    const own = Array.from({ length: version === 1 ? entries : 2 }, (_, number) => entry(version, number));
    const last = (key) => own.findLast((row) => row.key === key);
    const signed = (meaning, person) => ({ meaning, moment: at(version), name: `${person} of ${version}`, person, reason: "", seal: String(version).repeat(64).slice(0, 64) });
    return { altered: ["lead", "note"], approval: false, digest: String(version).repeat(64).slice(0, 64), form: "water", form_version: 1, format: 2,
        moment: at(version), opener: "dan", reason: version > 1 ? "misread scale" : "", record: 41, rows: own, sample: "Well 41",
        signatures: version < versions ? [signed("authorship", "dan"), signed("review", "eve")] : [], state: state_of(version),
        values: ["lead", "note"].map((key) => ({ key, unit: last(key).unit, value: last(key).value })), version };
};
const numbers = (place, count) => {
    const [from, to] = [...place.matchAll(/=(\\d+)/g)].map((one) => Number(one[1]));
    return Array.from({ length: Math.max(0, Math.min(to, count) - from + 1) }, (_, number) => from + number);
};
const ROLES = ["analyst", "reviewer", "manager"];
const MAKERS = [
    [/\\/records\\/41$/, () => ({ record: 41, current: versions, form: "water", form_version: 1, sample: "Well 41",
        versions: Array.from({ length: versions }, (_, number) => ({ version: number + 1, state: state_of(number + 1), digest: "0".repeat(64) })) })],
    [/\\/records\\/41\\/versions\\/(\\d+)$/, (place, version) => version_of(Number(version))],
    [/\\/records\\?/, (place) => records && { records: numbers(place, records).map((record) => ({ record, current: 1, form: "water", sample: `Well ${record}`, state: "released" })) }],
    [/\\/trail\\?/, (place) => rows && { trail: numbers(place, rows).map((number) => ({ number, moment: at(Math.floor(number / 300)), person: number % 10 ? "dan" : "eve",
        action: number % 2 ? "entry" : "record", subject: `${number}/1` })) }],
    [/\\/persons$/, () => persons && { persons: Array.from({ length: persons }, (_, number) => ({ code: `p${number}`, locked: false, name: `Person ${number}`,
        retired: false, roles: [ROLES[number % 3]] })) }],
];
const real = window.fetch;
window.made = { now: 0, most: 0, all: 0, held: null, most_elements: 0 };
window.fetch = async (place, about) => {
    const found = about.method === "GET" && MAKERS.map(([pattern, make]) => [pattern.exec(place), make]).find(([match]) => match);
    const reply = found && found[1](place, found[0][1]);
    if (!reply) return real(place, about);
    window.made.all += 1;
    window.made.now += 1;
    window.made.most = Math.max(window.made.most, window.made.now);
    const number = Number(found[0][1]);
    if (window.hold?.(number)) await new Promise((go_on) => { (window.made.held ??= []).push(go_on); });
    else await new Promise((go_on) => { setTimeout(go_on); });
    window.made.now -= 1;
    window.made.most_elements = Math.max(window.made.most_elements, document.querySelectorAll("main *").length);
    return new Response(JSON.stringify(reply), { status: 200 });
};
"""
HEIGHT = "return document.documentElement.scrollHeight / innerHeight"
ROWS = "return document.querySelectorAll('main tbody tr').length"


def make(calm, versions=99, entries=2, records=0, rows=0, persons=0):
    """From now on, until the page is loaded anew, the replies are made."""
    calm.screen.run(MADE, versions, entries, records, rows, persons)


def come(calm):
    """The inspector signs in anew, at a page that reads few records."""
    screen = calm.screen
    screen.load()
    screen.run("location.hash = '#/forms'")
    screen.settle()
    screen.open_session(lab=LAB, code="hal", password=password_of("hal"))


def short(calm, what):
    """A page isn't longer than three windows."""
    screen = calm.screen
    screen.size(*DESK)
    height = screen.run(HEIGHT)
    screen.size(*WIDE)
    say(height <= 3, f"{what}: {height:.1f} windows of {DESK[0]}x{DESK[1]}")


# ---- records


def many_versions(calm):
    """Of 99 versions the last two are shown first; the others are read by six reads at a time, and shown at a press."""
    screen = calm.screen
    make(calm)
    screen.run("window.hold = (version) => version < 98")
    screen.run("location.hash = '#/records/41'")
    screen.wait(lambda: screen.all('article[data-version="99"]') and screen.run("return window.made.held?.length === 6"), "the last version is shown", PATIENCE)
    there = screen.parts("value")[:1], screen.parts("value_before")[:1], screen.run("return window.made.now")
    same("the last version and the one before are shown while six others are read", there, (["99.0 mg/L"], ["98.0 mg/L"], 6))
    screen.run("window.hold = null; for (const go_on of window.made.held) go_on();")
    screen.settle()
    there = screen.run("const { most, all } = window.made; return [most, all]")
    same("the others are read once, by six reads at a time", there, [6, 100])
    links = screen.all(".versions a")
    same("of the row of versions the last two are seen", [one.text for one in links], ["Version 98", "Version 99"])
    overwritten = [len(screen.all('[data-part="overwritten"]', row)) for row in screen.all('article tr[data-key]')]
    same("of what was overwritten the newest three", overwritten, [3, 3])
    short(calm, "a record of 99 versions, folded")
    for unfold in screen.all('[data-do="unfold"]'):
        screen.click(unfold)
    overwritten = [len(screen.all('[data-part="overwritten"]', row)) for row in screen.all('article tr[data-key]')]
    same("a press shows all", (len(screen.all(".versions a")), overwritten), (99, [98, 98]))
    screen.do("read_again")
    same("another reading reads the record and its last version", screen.run("return window.made.all"), 102)


def left_meanwhile(calm):
    """A record that is left reads no more of its versions."""
    screen = calm.screen
    come(calm)
    make(calm)
    screen.run("window.hold = (version) => version < 98")
    screen.run("location.hash = '#/records/41'")
    screen.wait(lambda: screen.run("return window.made.held?.length === 6"), "older versions are read", PATIENCE)
    screen.click(screen.one('a[href="#/forms"]'))
    screen.run("window.hold = null; for (const go_on of window.made.held) go_on();")
    screen.settle()
    screen.wait(lambda: screen.run("return window.made.now") == 0, "what was under way is there", PATIENCE)
    same("a record that was left reads no more of its versions", (screen.run("return window.made.all"), screen.one("main h1").text), (9, "Test forms"))


def many_entries(calm):
    """Of 200 entries the newest twelve are seen, and the others at a press; on paper are all."""
    screen = calm.screen
    come(calm)
    make(calm, versions=1, entries=200)
    calm.go("#/records/41")
    same("of 200 entries the newest twelve are seen", len(screen.all("tr[data-entry]")), 12)
    short(calm, "a record of 200 entries")
    with screen.on_paper():
        there = len(screen.all("tr[data-entry]")), len(screen.all('[data-part="overwritten"]')), len(screen.all('[data-do="unfold"]'))
    same("on paper are all of them, and no button", there, (200, 198, 0))
    screen.click(screen.all('[data-do="unfold"]')[-1])
    same("and at a press", len(screen.all("tr[data-entry]")), 200)


def paper_of_versions(calm):
    """On paper each version has what it overwrote, and each sheet says of what it is, and whether that is released."""
    screen, count = calm.screen, 9
    come(calm)
    make(calm, versions=count, entries=6)
    calm.go("#/records/41/paper")
    with screen.on_paper():
        there = [len(screen.all('[data-part="overwritten"]', one)) for one in screen.all("article")]
        marks = [len(screen.all(".unreleased", one)) for one in screen.all("article")]
        size = screen.run("return getComputedStyle(document.querySelector('.unreleased')).fontSize")
    same("each version has what was overwritten in it", there, [4] + [0] * (count - 1))
    same("and says in large letters where it isn't released", (marks, float(size[:-2]) > 30), ([0] * (count - 1) + [1], True))
    pages = texts_of_pages(screen.printed(*A4))
    say(count <= len(pages) <= 2 * count, f"{count} versions are {len(pages)} sheets")
    lacking = [at for at, text in enumerate(pages) if not all(one in text for one in ("Well 41", "Record 41", f"versions 1 to {count}"))]
    same("each sheet has sample, record and versions", lacking, [])
    numbers = ["".join(text.split()) for text in pages]
    same("and its number among all", [at for at, text in enumerate(numbers) if f"{at + 1}/{len(pages)}" not in text], [])
    unreleased = ["NOT RELEASED" in text for text in pages]
    same("those of the open version say that it isn't released", unreleased, sorted(unreleased))
    say(unreleased[-1] and not unreleased[0], "and those of released ones don't")
    calm.go(f"#/records/41/versions/{count}")
    pages = texts_of_pages(screen.printed(*A4))
    say(all("NOT RELEASED" in text and "Well 41" in text for text in pages), f"a page of one version says it on each of its {len(pages)} sheets")
    calm.go("#/records/41/versions/1")
    pages = texts_of_pages(screen.printed(*A4))
    say(not any("NOT RELEASED" in text for text in pages) and "Koghdise" in pages[0] and "Version 1" in pages[0],
        f"and a released one doesn't, and begins on its first sheet, of {len(pages)}")


# ---- forms

FIELDS = [{**LEAD, "key": f"lead_{number}", "label": f"Lead {number}", "required": False} for number in range(1, 59)] + [NOTE]


def sixty_fields(calm):
    """An editor of many fields shows each in a line; one is inserted where it is wanted, and what is wrong is opened."""
    screen, gus = calm.screen, calm.of["gus"]
    gus.post("forms", form="sixty", approval=False, fields=FIELDS)
    calm.go("#/making/sixty/1")
    same("of many fields none is open", (len(screen.all("fieldset[data-at]")), len(screen.all('fieldset [name="key"]'))), (59, 0))
    second = screen.one('fieldset[data-at="2"]')
    line = screen.one('[data-do="fold_field"]', second).text
    say("lead_2" in line and "Lead 2" in line and "mg/L" in line, f"each says what it is: {line!r}")
    height = screen.run(HEIGHT)
    say(height < 7, f"the editor is {height:.1f} windows high")
    screen.do("insert_below", second)
    third = screen.one('fieldset[data-at="3"]')
    same("a field is inserted below another one, and has the focus", screen.run("return arguments[0].contains(document.activeElement)", third), True)
    screen.fill(third, kind="text", key="Colour", label="Colour", size="100")
    screen.do("fold_field", third)
    screen.one('a[href="#/forms"]').click()
    screen.click(screen.one('dialog[open] [data-do="stay"]'))
    same("what is typed in a folded field isn't left without a question", len(screen.all('[name="key"]', third)), 1)
    if screen.all('[name="key"]', third):
        screen.do("fold_field", third)
    screen.do("make_a_form")
    same("a field that is wrong is opened", (screen.refusal(), len(screen.all('[name="key"]', third))), ("bad_name", 1))
    screen.fill(third, key="colour")
    screen.do("make_a_form")
    screen.wait(lambda: screen.place() == "#/forms/sixty/2", "the next version is there", PATIENCE)
    screen.settle()
    keys = [one["key"] for one in gus.get("forms/sixty/2")["fields"]]
    same("the field stands where it was inserted", (keys[:4], len(keys)), (["lead_1", "lead_2", "colour", "lead_3"], 60))


# ---- lists


def many_records(calm):
    """A list of 100,000 records shows a part of them, and more at a press; also while all are looked through."""
    screen, count = calm.screen, 100_000
    come(calm)
    make(calm, records=count)
    calm.go("#/records")
    same("of the newest hundred a part is shown", screen.run(ROWS), 36)
    short(calm, f"a list of {count:,} records")
    screen.do("show_more")
    same("and the others at a press", screen.run(ROWS), 100)
    calm.go("#/forms")
    calm.go("#/records")
    screen.run("window.made.most_elements = 0")
    screen.click(screen.one('[data-do="look_through"]'))
    screen.wait(lambda: f"All {count} records" in screen.part("counts"), "all records are looked through", 600)
    screen.settle()
    same("when all are looked through", screen.run(ROWS), 36)
    say(screen.run("return window.made.most_elements") < 3000, "few elements are made meanwhile")
    screen.fill(screen.one('form[data-form="filter"]'), sample="well 9999")
    same("and a filter finds among all", screen.run(ROWS), 11)
    screen.fill(screen.one('form[data-form="filter"]'), sample="")
    calm.go("#/records")
    screen.size(390, 844)
    calm.go("#/forms")
    calm.go("#/records")
    say(screen.run(HEIGHT) <= 3, f"on a telephone the list is {screen.run(HEIGHT):.1f} windows high")
    screen.size(*WIDE)


def long_trail(calm):
    """A trail of 69,000 rows is filtered without an element for each; its reading can be stopped, and gone on with."""
    screen, count = calm.screen, 69_000
    come(calm)
    make(calm, rows=count)
    calm.go("#/trail")
    same("of the newest rows a part is shown", screen.run(ROWS), 36)
    short(calm, f"a trail of {count:,} rows")
    screen.run("window.made.most_elements = 0; window.hold = () => window.made.all > 100;")
    screen.click(screen.one('[data-do="look_through"]'))
    screen.wait(lambda: screen.run("return window.made.held?.length === 6"), "many rows are read", PATIENCE)
    screen.click(screen.one('[data-do="stop"]'))
    screen.run("window.hold = null; for (const go_on of window.made.held) go_on();")
    screen.settle()
    screen.wait(lambda: screen.run("return window.made.now") == 0, "what was under way is there", PATIENCE)
    there = screen.run("return window.made.all")
    say(there < 150, f"the reading can be stopped, after {there} reads")
    screen.click(screen.one('[data-do="go_on"]'))
    screen.wait(lambda: not screen.all('[data-do="stop"]') and not screen.all('[data-do="go_on"]'), "all rows are read", 600)
    screen.settle()
    filters = screen.one('form[data-form="filter"]')
    screen.fill(filters, person="eve")
    say(f"{count // 10} of {count}" in screen.part("counts"), f"the filter counts among all: {screen.part('counts')!r}")
    there = screen.run(ROWS), screen.run("return window.made.most_elements") < 3000
    same("and few elements are made", there, (36, True))


def many_people(calm):
    """A list of 500 people shows a part of them; the filter looks among all."""
    screen = calm.screen
    come(calm)
    make(calm, persons=500)
    calm.go("#/persons")
    same("of 500 people a part is shown", screen.run(ROWS), 36)
    short(calm, "500 people")
    screen.fill(screen.one('form[data-form="filter"]'), has="person 499")
    same("the filter finds among all", screen.run(ROWS), 1)
    screen.fill(screen.one('form[data-form="filter"]'), has="")
    screen.do("show_more")
    screen.do("show_more")
    same("all are shown at two presses", (screen.run(ROWS), len(screen.all('[data-do="show_more"]'))), (500, 0))


PARTS = {"hal": (many_versions, left_meanwhile, many_entries, paper_of_versions, many_records, long_trail, many_people), "gus": (sixty_fields,)}


def look_at_long(calm):
    play(calm, PARTS)
