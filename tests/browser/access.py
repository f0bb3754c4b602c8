"""Whether everybody can work with the pages: each screen by WCAG 2.2 AA, in three widths and at 400 per cent, in light and in dark colours.
What a screen reader is told comes from the browser's own tree, colours from computed styles, and the rest from pressing the tabulator."""
import re

from room import Asker, Stop, found, let_in, password_of, same, say
from screen import entry_row
from selenium.common.exceptions import WebDriverException

LAB = "open"
FOUNDERS = [(code, f"{code.title()} Open", f"correct horse {code}") for code in ("ann", "bob", "cid")]
ALL = ["analyst", "reviewer", "manager", "administrator", "inspector"]
# Width, height and device pixels of a window: a desk, a telephone, the narrowest one, and 1280 by 1024 at 400 per cent.
WINDOWS = {"1366": (1366, 768, 1), "390": (390, 844, 1), "320": (320, 640, 1), "400 per cent": (320, 256, 4)}
# Where the tabulator is pressed through a screen, and where colours are looked at in both schemes: a narrow window lays tables out as lists.
WALKED = {"1366": "dark", "400 per cent": "light"}
COLOURED = ("1366", "320")
FIELDS = [
    {"key": "lead", "label": "Lead", "required": True, "kind": "number", "unit": "mg/L", "decimals": 2, "min": "0", "max": "50"},
    {"key": "colour", "label": "Colour", "required": False, "kind": "choice", "choices": ["none", "pale blue"]},
    {"key": "taken", "label": "Taken on", "required": True, "kind": "date"},
    {"key": "clear", "label": "Clear", "required": False, "kind": "yesno"},
    {"key": "note", "label": "Note", "required": False, "kind": "text", "size": 200},
]
NAMED = {"button", "textbox", "searchbox", "combobox", "checkbox", "link", "listbox", "spinbutton", "dialog", "navigation", "region", "table",
         "img", "image", "progressbar", "radio", "radiogroup", "heading", "alertdialog", "rowheader", "columnheader", "DisclosureTriangle"}
# What is in the document, whatever it looks like.
STRUCTURE = """
const told = [];
const say = (what, one) => told.push(`${what}: ${one?.outerHTML.slice(0, 110) ?? ""}`);
const seen = (one) => one.checkVisibility({ visibilityProperty: true }) && one.getClientRects().length > 0;
if (!/^[a-z]{2}/.test(document.documentElement.lang)) say("no language");
if (!document.title.trim()) say("no title");
const ids = [...document.querySelectorAll("[id]")].map((one) => one.id);
for (const id of new Set(ids.filter((one, at) => ids.indexOf(one) !== at))) say(`two elements have the id ${id}`);
for (const name of ["aria-labelledby", "aria-describedby", "aria-controls", "for", "list"]) {
    for (const one of document.querySelectorAll(`[${name}]`)) {
        for (const id of one.getAttribute(name).split(/\\s+/)) if (!document.getElementById(id)) say(`${name} names nothing`, one);
    }
}
for (const one of document.querySelectorAll("[tabindex]")) if (one.tabIndex > 0) say("an order of its own", one);
for (const one of document.querySelectorAll("label")) if (!one.control) say("a label of nothing", one);
for (const one of [...document.querySelectorAll("table")].filter(seen)) {
    if (!one.caption?.textContent.trim() && !one.getAttribute("aria-label")) say("a table without a name", one);
    for (const head of one.tHead?.rows[0]?.cells ?? []) if (head.scope !== "col" || !head.textContent.trim()) say("a column without a header", head);
    if (!one.tHead) say("a table without a head", one);
    for (const row of [...one.tBodies].flatMap((body) => [...body.rows]).filter((row) => !row.matches(".below"))) {
        if (row.cells[0].tagName !== "TH" || row.cells[0].scope !== "row") say("a row without a header", row);
        if (row.cells.length !== one.tHead.rows[0].cells.length) say("a row with another number of cells", row);
    }
}
for (const one of document.querySelectorAll("main img, main svg")) if (!one.getAttribute("alt") && !one.getAttribute("aria-label")) say("a picture without a text", one);
const said = document.querySelectorAll("#said [role=status]");
if (said.length !== 1 || !seen(said[0].parentNode)) say("the line of messages");
for (const one of document.querySelectorAll("[role=status] [role=status], [role=alert] [role=alert], [aria-live] [aria-live]")) say("a message within a message", one);
for (const one of document.querySelectorAll("[aria-invalid=true]")) {
    const about = (one.getAttribute("aria-describedby") ?? "").split(" ").map((id) => document.getElementById(id)).filter(Boolean);
    if (!about.some((part) => part.matches(".refusal"))) say("what is wrong isn't told with the control", one);
}
return told;
"""
# Frames of controls and of buttons beside what is around them, and rings of the focus. Texts are screen.CONTRASTS.
FRAMES = """
const channel = (value) => (value / 255 <= 0.04045 ? value / 255 / 12.92 : ((value / 255 + 0.055) / 1.055) ** 2.4);
const luminance = ([red, green, blue]) => 0.2126 * channel(red) + 0.7152 * channel(green) + 0.0722 * channel(blue);
const parts = (colour) => colour.match(/[\\d.]+/g).map(Number);
window.behind_of = (one) => {
    for (let at = one; at; at = at.parentElement) {
        const colour = parts(getComputedStyle(at).backgroundColor);
        if (colour.length < 4 || colour[3] === 1) return colour;
    }
    return parts(getComputedStyle(document.documentElement).backgroundColor).length < 4 ? [255, 255, 255] : [255, 255, 255];
};
window.contrast_of = (one, other) => {
    const [more, less] = [luminance(one), luminance(other)].sort((first, second) => second - first);
    return (more + 0.05) / (less + 0.05);
};
const seen = (one) => one.checkVisibility({ visibilityProperty: true }) && one.getClientRects().length > 0;
const told = [];
for (const one of document.querySelectorAll("button:not(.as-link), .action")) {
    if (!seen(one)) continue;
    const { borderTopColor, borderTopWidth, backgroundColor } = getComputedStyle(one);
    const around = behind_of(one.parentElement);
    const best = Math.max(parseFloat(borderTopWidth) ? contrast_of(parts(borderTopColor), around) : 1, contrast_of(behind_of(one), around));
    if (best < 3) told.push([best.toFixed(2), one.outerHTML.slice(0, 90)]);
}
return told;
"""
# What can be pressed and is lower or narrower than 24 pixels, and isn't far enough from all else (2.5.8). A link within a sentence may
# be; one in a table may not.
TARGETS = """
const seen = (one) => one.checkVisibility({ visibilityProperty: true }) && one.getClientRects().length > 0;
const scope = document.querySelector("dialog[open]") ?? document;
const all = [...scope.querySelectorAll("a[href], button, input, select, textarea, summary")].filter(seen);
const box_of = (one) => {
    const own = one.getBoundingClientRect();
    const label = ["checkbox", "radio"].includes(one.type) ? one.labels[0]?.getBoundingClientRect() : null;
    if (!label) return own;
    const [left, top] = [Math.min(own.left, label.left), Math.min(own.top, label.top)];
    return new DOMRect(left, top, Math.max(own.right, label.right) - left, Math.max(own.bottom, label.bottom) - top);
};
const boxes = all.map(box_of);
const is_small = (box) => box.width < 23.9 || box.height < 23.9;
const in_sentence = (one) => one.tagName === "A" && getComputedStyle(one).display === "inline" && !one.closest("table")
    && one.parentElement.textContent.trim().length > one.textContent.trim().length;
const middle = (box) => [box.left + box.width / 2, box.top + box.height / 2];
const is_near = (box, at) => {
    const [x, y] = middle(box);
    return boxes.some((other, place) => {
        if (place === at || all[place].contains(all[at]) || all[at].contains(all[place])) return false;
        if (is_small(other)) {
            const [more, less] = middle(other);
            return Math.hypot(more - x, less - y) < 24;
        }
        return Math.hypot(Math.max(other.left - x, 0, x - other.right), Math.max(other.top - y, 0, y - other.bottom)) < 12;
    });
};
return all.filter((one, at) => is_small(boxes[at]) && !in_sentence(one) && (one.closest("td, th") ? boxes[at].height < 23.9 : is_near(boxes[at], at)))
    .map((one) => `${Math.round(box_of(one).width)} by ${Math.round(box_of(one).height)}: ${one.outerHTML.slice(0, 90)}`);
"""
# What the tabulator has to come to: of the radio buttons of a group one.
STOPS = """
window.are_alike = (one, other) => one === other || one.type === "radio" && other.type === "radio" && one.name === other.name;
const seen = (one) => one.checkVisibility({ visibilityProperty: true }) && one.getClientRects().length > 0;
const scope = document.querySelector("dialog[open]") ?? document;
const all = [...scope.querySelectorAll("a[href], button, input, select, textarea, summary, [tabindex='0']")]
    .filter((one) => seen(one) && !one.disabled && one.id !== "skip");
window.stops = all.filter((one, at) => all.findIndex((other) => are_alike(one, other)) === at);
window.come_to = new Set();
window.missed_stops = () => window.stops.filter((stop) => ![...window.come_to].some((one) => are_alike(one, stop)));
(scope.querySelector("#skip") ?? scope).focus?.();
return window.stops.length;
"""
# What has the focus: where it is, whether it is seen, and its ring.
FOCUSED = """
const one = document.activeElement;
if (!one || one === document.body || one === document.documentElement) return { missed: -1 };
const is_new = !window.come_to.has(one);
window.come_to.add(one);
const box = one.getBoundingClientRect();
const points = [[0.5, 0.5], [0.1, 0.1], [0.9, 0.9], [0.1, 0.9], [0.9, 0.1]].map(([x, y]) => [box.left + box.width * x, box.top + box.height * y]);
const hits = points.filter(([x, y]) => {
    const top = document.elementFromPoint(x, y);
    return top && (one === top || one.contains(top) || top.contains(one) && !top.matches("#said, #ending, .record-head, header"));
}).length;
const { outlineStyle, outlineWidth, outlineColor, outlineOffset } = getComputedStyle(one);
const parts = (colour) => colour.match(/[\\d.]+/g).map(Number);
const around = parseFloat(outlineOffset) >= 0 ? one.parentElement : one;
const ring = outlineStyle === "none" ? 0 : contrast_of(parts(outlineColor), behind_of(around));
return { missed: missed_stops().length, is_new, hits, width: parseFloat(outlineWidth), ring, told: one.outerHTML.slice(0, 100) };
"""
MISSED = "return missed_stops().map((one) => one.outerHTML.slice(0, 100))"
TAB = {"key": "Tab", "code": "Tab", "windowsVirtualKeyCode": 9}


class Looker:
    """Looks at each screen in each window, and says of each kind of flaw whether it has it."""

    def __init__(self, screen):
        self.screen = screen
        self.names = []

    def __call__(self, name, walks=WALKED):
        self.names.append(name)
        flaws = {"a screen reader": self.tree() + self.screen.run(STRUCTURE)}
        for width, (wide, high, pixels) in WINDOWS.items():
            self.window(wide, high, pixels)
            over = self.screen.overflow()
            flaws.setdefault("the width", []).extend([f"{width}: {over} pixels too wide"] if over else [])
            flaws.setdefault("small targets", []).extend(f"{width}: {one}" for one in self.screen.run(TARGETS))
            if width in COLOURED:
                flaws.setdefault("colours", []).extend(f"{width}: {one}" for one in self.colours())
            if width in walks:
                flaws.setdefault("the tabulator", []).extend(f"{width}: {one}" for one in self.walk(WALKED[width]))
        self.window(*WINDOWS["1366"])
        told = {kind: list(dict.fromkeys(found))[:4] for kind, found in flaws.items() if found}
        say(not told, f"access: {name}: {told or 'names, headings, tables, widths, targets, colours and the tabulator'}")

    def window(self, wide, high, pixels):
        self.screen.driver.execute_cdp_cmd("Emulation.setDeviceMetricsOverride",
                                           {"width": wide, "height": high, "deviceScaleFactor": pixels, "mobile": False})

    def colours(self):
        """Low contrasts of texts and of frames, in both schemes."""
        found = [f"{one}" for one in self.screen.low_contrasts()]
        for scheme in ("dark", "light"):
            self.scheme(scheme)
            found += [f"{scheme}: {one}" for one in self.screen.run(FRAMES)]
        return found

    def scheme(self, scheme):
        self.screen.driver.execute_cdp_cmd("Emulation.setEmulatedMedia", {"features": [{"name": "prefers-color-scheme", "value": scheme}]})

    # ---- what a screen reader is told

    def tree(self):
        nodes = [one for one in self.screen.driver.execute_cdp_cmd("Accessibility.getFullAXTree", {})["nodes"] if not one["ignored"]]
        told = [(one["role"]["value"], one.get("name", {}).get("value", "").strip(), level_of(one)) for one in nodes if "role" in one]
        flaws = [f"no name: {role}" for role, name, _ in told if role in NAMED and not name]
        is_dialog = any(role in ("dialog", "alertdialog") for role, _, _ in told)
        levels = [level for role, _, level in told if role == "heading"]
        if not is_dialog:
            flaws += [] if levels.count(1) == 1 else [f"{levels.count(1)} headings of the first order"]
            roles = [role for role, _, _ in told]
            flaws += [f"{roles.count(one)} of the landmark {one}" for one in ("main", "banner") if roles.count(one) != 1]
        jumps = [(before, after) for before, after in zip(levels, levels[1:]) if after > before + 1]
        flaws += [f"a heading is left out: {jumps}"] if jumps else []
        rows = {name: [one for one in told if one[0] == name] for name in ("row", "rowheader", "columnheader")}
        if rows["row"] and not (rows["rowheader"] or is_dialog):
            flaws.append("no row has a header")
        return flaws

    # ---- the tabulator

    def walk(self, scheme):
        """Presses the tabulator until it has come to each control."""
        self.scheme(scheme)
        self.screen.run(FRAMES)
        count, flaws = self.screen.run(STOPS), []
        for _ in range(count + 12):
            self.screen.driver.execute_cdp_cmd("Input.dispatchKeyEvent", {"type": "rawKeyDown", **TAB})
            there = self.screen.run(FOCUSED)
            flaws += self.flaws_of(there, scheme) if there["missed"] >= 0 else []
            if there["missed"] == 0:
                break
        return flaws + [f"it doesn't come to {one}" for one in self.screen.run(MISSED)]

    @staticmethod
    def flaws_of(there, scheme):
        if not there["is_new"]:
            return []
        flaws = [] if there["hits"] >= 3 else [f"what has the focus is covered ({there['hits']} of 5): {there['told']}"]
        return flaws + ([] if there["ring"] >= 3 and there["width"] >= 2 else [f"its ring isn't seen ({scheme}, {there['ring']:.2f}): {there['told']}"])


def level_of(node):
    return next((one["value"]["value"] for one in node.get("properties", []) if one["name"] == "level"), 0)


def found_open(program, file):
    found(program, file, LAB, "Open Lab", FOUNDERS)


class Open:
    """The laboratory, filled by the server itself: records in each state, forms of two versions, and somebody with all roles."""

    def __init__(self, screen, port):
        self.screen, self.port, self.look = screen, port, Looker(screen)
        self.of = {code: Asker(port, LAB, code, password) for code, _, password in FOUNDERS}
        for code, roles in (("dan", ["analyst"]), ("eve", ["reviewer"]), ("gus", ["manager"]), ("pat", ALL), ("new", ["analyst"])):
            let_in(self.of["ann"], self.of["bob"], code, f"{code.title()} Open", roles)
            self.of[code] = Asker(port, LAB, code, password_of(code))
        self.of["ann"].post("persons", code="due", name="Due Open", roles=["analyst"])
        self.word_of_due = self.of["ann"].post("issue", code="due")["half"] + self.of["bob"].post("confirm", code="due")["half"]

    def fill(self):
        self.of["gus"].post("forms", form="water", approval=True, fields=FIELDS[:4])
        self.of["gus"].post("forms", form="water", approval=True, fields=FIELDS)
        for sample in ("Well 1", "Well 2", "Well 3", "Well 4", "Well 5"):
            self.of["dan"].post("records", form="water", sample=sample)
        for record in (1, 2, 3, 4):
            for key, value, unit in (("lead", "7.5", "mg/L"), ("taken", "2026-03-01", ""), ("colour", "none", "")):
                self.of["dan"].post("entries", record=record, key=key, value=value, unit=unit)
        self.of["dan"].post("entries", record=1, key="lead", value="7.05", unit="mg/L", reason="misread")
        self.of["dan"].post("entries", record=2, key="note", value=" \u202eclear\u200b ", unit="")
        for record, signers in ((1, "dan eve gus"), (2, "dan eve"), (3, "dan"), (4, "dan eve")):
            for code, meaning in zip(signers.split(), ("authorship", "rejection" if record == 4 else "review", "approval")):
                self.sign(code, record, meaning)
        self.of["dan"].post("amendments", record=1, reason="misread", altered=[{"key": "lead", "value": "7.1", "unit": "mg/L"}])

    def sign(self, code, record, meaning):
        version = self.of["dan"].get(f"records/{record}")["versions"][-1]
        more = {"reason": "no blank"} if meaning == "rejection" else {}
        self.of[code].post("signatures", record=record, version=version["version"], digest=version["digest"], meaning=meaning, code=code,
                           password=password_of(code), **more)

    def go(self, place):
        self.screen.run("location.hash = arguments[0]", place)
        self.screen.wait(lambda: self.screen.place() == place, f"the place is {place}")
        self.screen.settle()

    def drop(self):
        """What is typed here may be lost."""
        self.screen.run("for (const one of document.querySelectorAll('main form')) one.removeAttribute('data-keep')")

    def come(self, code, password=None):
        self.screen.load()
        self.screen.open_session(lab=LAB, code=code, password=password or password_of(code))


# ---- the screens


def outside(lab):
    """What is there before somebody signs in."""
    screen, look = lab.screen, lab.look
    screen.load()
    look("signing in")
    screen.do("open_a_session")
    look("signing in, refused", ())
    lab.go("#/checking")
    look("the check of a copy")
    path = screen.room / "good.csv"
    path.write_bytes(lab.of["pat"].copy(1, 5))
    screen.fill(copy=path)
    screen.do("check_a_copy")
    look("a good copy", ())
    path.write_bytes(lab.of["pat"].copy(1, 5).replace(b",7.5,", b",7.4,", 1))
    screen.fill(copy=path)
    screen.do("check_a_copy")
    look("a bad copy", ())
    lab.come("due", lab.word_of_due)
    look("a password that is due")


def lists(lab):
    look = lab.look
    for name, place in (("my day", "#/day"), ("records", "#/records"), ("records, filtered", "#/records?state=open&person=dan"), ("forms", "#/forms"),
                        ("a form", "#/forms/water/2"), ("people", "#/persons"), ("the trail", "#/trail"), ("no such page", "#/nothing")):
        lab.go(place)
        look(name)


def records(lab):
    screen, look = lab.screen, lab.look
    for name, place in (("an open record", "#/records/1"), ("a version that was amended", "#/records/1/versions/1"), ("a reviewed record", "#/records/2"),
                        ("all versions", "#/records/1/paper"), ("signing a review", "#/records/3/versions/1/review"),
                        ("signing on the way", "#/records/3/versions/1/review/next"), ("rejecting", "#/records/3/versions/1/rejection"),
                        ("amending", "#/records/4/amending"), ("a record that isn't there", "#/records/77")):
        lab.go(place)
        look(name, WALKED if name != "signing on the way" else ())
    lab.go("#/records/3/versions/1/review")
    screen.do("sign_a_version")
    look("a signature, refused", ())


def entering(lab):
    screen, look = lab.screen, lab.look
    lab.go("#/records/5")
    look("entering")
    tell_names(screen, "a row", '[data-part="entering"]')
    screen.fill(entry_row(screen, "lead"), value="77")
    screen.fill(entry_row(screen, "taken"), value="1.2.2026")
    screen.fill(entry_row(screen, "note"), value="a note that takes some room")
    screen.do("enter_a_value")
    look("entering, refused")
    screen.run("location.hash = '#/forms'")
    screen.one("#leaving [data-do=leave]")
    look("what is typed is about to be lost")
    screen.do("leave")
    lab.go("#/grid/water")
    look("many samples")
    tell_names(screen, "the grid", '[data-part="grid"]')
    screen.fill(screen.one('tr[data-at="1"]'), sample="Well 1")
    screen.put(screen.one('tr[data-at="1"] [data-key="lead"] [name="value"]'), "99")
    screen.do("enter_a_value")
    look("many samples, refused")
    screen.put(screen.one('tr[data-at="1"] [data-key="lead"] [name="value"]'), "")
    lab.drop()
    lab.go("#/opening/water")
    look("opening")
    screen.fill(sample="Well  1")
    screen.do("open_a_record")
    look("opening, a near name", ())
    lab.drop()


def tell_names(screen, what, part):
    """A control's name has its label, whether it is required, and its unit."""
    nodes = screen.driver.execute_cdp_cmd("Accessibility.getFullAXTree", {})["nodes"]
    names = [one.get("name", {}).get("value", "") for one in nodes if one.get("role", {}).get("value") in ("textbox", "combobox") and not one["ignored"]]
    for wanted in (r"^Lead\b.*\brequired\b.*\bmg/L\b", r"^Taken on\b.*\brequired\b", r"^Note\b"):
        there = [name for name in names if re.search(wanted, name)]
        say(bool(there), f"access: {what} tells of a control {wanted}: {there[:1] or names[:12]}")


def making(lab):
    screen, look = lab.screen, lab.look
    lab.go("#/making/water/2")
    look("making the next version of a form", ("1366",))
    lab.go("#/making")
    same("an editor into which nobody typed is left without a question", screen.place(), "#/making")
    screen.do("make_a_form")
    look("making a form, refused")
    lab.drop()


def people(lab):
    screen, look = lab.screen, lab.look
    lab.go("#/persons/new")
    look("a person")
    screen.do("ask_for_a_one_time_password")
    look("half of a one-time password")
    screen.do("hide_half")
    screen.do("retire_a_person")
    look("a retirement is asked about", ())
    screen.do("leave_it")
    lab.go("#/enrolling")
    screen.do("enrol_a_person")
    look("enrolling, refused")
    lab.drop()
    lab.go("#/password")
    screen.do("change_the_password")
    look("changing the password, refused")
    lab.drop()
    lab.go("#/copies")
    screen.do("take_an_inspection_copy")
    look("copies")


def session(lab):
    """The warning before a session's end, and the dialog at its end."""
    screen, look = lab.screen, lab.look
    lab.go("#/records/5")
    screen.run("window.really = window.really ?? Date.now; Date.now = () => window.really() + 800 * 1000")
    screen.one("#ending button")
    look("a session is about to end")
    screen.run("Date.now = () => window.really() + 901 * 1000")
    screen.one("#again [name=password]")
    look("a session has ended")
    screen.run("Date.now = window.really")


PARTS = (outside, lists, records, entering, making, people, session)


def look_at_access(lab):
    for part in PARTS:
        if part is lists:
            lab.come("pat")
        try:
            part(lab)
        except (Stop, WebDriverException) as fault:
            say(False, f"access: {part.__name__} stopped: {str(fault)[:300]}")
            lab.come("pat")
    same("access: each screen has a name of its own", len(set(lab.look.names)), len(lab.look.names))
