"""A browser at the pages: what a person clicks, types and sees. Elements are found as pages/README.md names them."""
import base64
import contextlib
import json
import os
import pathlib
import re
import shutil
import time

from room import PATIENCE, Stop, say
from selenium import webdriver
from selenium.common.exceptions import StaleElementReferenceException, WebDriverException
from selenium.webdriver.chrome.service import Service
from selenium.webdriver.common.keys import Keys
from selenium.webdriver.support.ui import Select

WIDE, NARROW = (1280, 900), (360, 740)
# In seconds: how long somebody waits whom nginx lets in no more, and how long between two tries (12 openings a minute).
MOST_WAITING, PAUSE = 120, 5.5
ZONE, HOURS_AHEAD = "Asia/Tokyo", 9
SETTINGS = ("--headless=new", "--disable-gpu", "--disable-dev-shm-usage", "--no-first-run", "--no-proxy-server", "--disable-component-update",
            "--disable-background-networking", "--disable-sync", "--hide-scrollbars", "--lang=en-GB", "--force-color-profile=srgb")
# Runs in each document before its own scripts: notes what the content policy stops, and what must never run.
WATCH = """
window.stopped_by_policy = [];
document.addEventListener("securitypolicyviolation", (event) =>
    window.stopped_by_policy.push(`${event.violatedDirective} ${event.blockedURI} ${event.sourceFile}:${event.lineNumber} ${event.sample}`));
window.hacked = [];
window.alert = window.confirm = window.prompt = (text) => { window.hacked.push(String(text)); return false; };
"""
# Texts whose colour is too near to what is behind them (WCAG 2.2, 1.4.3), and controls whose frame is (1.4.11): each with its contrast.
CONTRASTS = """
const channel = (value) => (value / 255 <= 0.04045 ? value / 255 / 12.92 : ((value / 255 + 0.055) / 1.055) ** 2.4);
const luminance = ([red, green, blue]) => 0.2126 * channel(red) + 0.7152 * channel(green) + 0.0722 * channel(blue);
const parts = (colour) => colour.match(/[\\d.]+/g).map(Number);
const behind = (one) => {
    for (let at = one; at; at = at.parentElement) {
        const colour = parts(getComputedStyle(at).backgroundColor);
        if (colour.length < 4 || colour[3] === 1) return colour;
    }
    return [255, 255, 255];
};
const contrast = (one, other) => {
    const [more, less] = [luminance(one), luminance(other)].sort((first, second) => second - first);
    return (more + 0.05) / (less + 0.05);
};
const is_seen = (one) => one.checkVisibility({ visibilityProperty: true }) && one.getClientRects().length > 0;
const found = [];
const look = (one, colour, back, least) => {
    const there = contrast(parts(colour), back);
    if (there < least) found.push([there.toFixed(2), one.outerHTML.slice(0, 80)]);
};
const texts = document.createTreeWalker(document.body, NodeFilter.SHOW_TEXT);
while (texts.nextNode()) {
    const one = texts.currentNode.parentElement;
    if (!texts.currentNode.data.trim() || !is_seen(one) || one.closest("option, caption")) continue;
    const { color, fontSize, fontWeight } = getComputedStyle(one);
    const is_large = parseFloat(fontSize) >= 24 || (fontWeight >= 700 && parseFloat(fontSize) >= 18.66);
    look(one, color, behind(one), is_large ? 3 : 4.5);
}
for (const one of document.querySelectorAll("input:not([type=checkbox]), select, textarea")) {
    if (!is_seen(one)) continue;
    look(one, getComputedStyle(one).color, behind(one), 4.5);
    look(one, getComputedStyle(one).borderTopColor, behind(one.parentElement), 3);
}
return found;
"""
SEEN = """
const [selector, within] = arguments;
return [...(within ?? document).querySelectorAll(selector)]
    .filter((one) => one.checkVisibility({ visibilityProperty: true }) && one.getClientRects().length > 0);
"""


class Screen:
    keys = Keys

    def __init__(self, address, room):
        self.address, self.room = address, pathlib.Path(room)
        self.violations, self.faults = [], []
        (self.room / "downloads").mkdir(exist_ok=True)
        self.driver = self.start()
        self.driver.set_script_timeout(PATIENCE)
        self.driver.set_page_load_timeout(PATIENCE)
        self.size(*WIDE)

    def start(self):
        options = webdriver.ChromeOptions()
        options.binary_location = shutil.which("chromium")
        for setting in SETTINGS + (("--no-sandbox",) if os.getuid() == 0 else ()):
            options.add_argument(setting)
        options.add_argument(f"--user-data-dir={self.room}/profile")
        options.add_experimental_option("prefs", {"download.default_directory": f"{self.room}/downloads", "download.prompt_for_download": False,
                                                  "profile.default_content_setting_values.automatic_downloads": 1,
                                                  "credentials_enable_service": False})
        options.set_capability("acceptInsecureCerts", True)
        options.set_capability("goog:loggingPrefs", {"browser": "ALL"})
        driver = webdriver.Chrome(service=Service(shutil.which("chromedriver")), options=options)
        driver.execute_cdp_cmd("Emulation.setTimezoneOverride", {"timezoneId": ZONE})
        driver.execute_cdp_cmd("Page.addScriptToEvaluateOnNewDocument", {"source": WATCH})
        return driver

    def close(self):
        self.driver.quit()

    # ---- the window

    def watch_tab(self):
        """Of a further tab is noted what is noted of the first one."""
        self.driver.execute_cdp_cmd("Page.addScriptToEvaluateOnNewDocument", {"source": WATCH})

    def bring_to_front(self):
        self.driver.execute_cdp_cmd("Page.bringToFront", {})

    def size(self, width, height):
        """A window of just this size, as on a telephone where it is narrow."""
        self.driver.execute_cdp_cmd("Emulation.setDeviceMetricsOverride",
                                    {"width": width, "height": height, "deviceScaleFactor": 1, "mobile": False})

    def load(self):
        """Loads the pages anew: whoever was signed in is forgotten."""
        self.note()
        self.driver.get("about:blank")
        self.driver.get(self.address)
        self.settle()

    def settle(self):
        """Waits until the view of the place is shown, and nothing is asked of the server any more."""
        self.driver.execute_async_script("setTimeout(() => requestAnimationFrame(() => setTimeout(arguments[0])))")
        self.wait(lambda: self.run("return document.querySelector('main h1') !== null && document.querySelector('[aria-busy]') === null"),
                  "the page is there, and waits for nothing")

    def run(self, script, *words):
        return self.driver.execute_script(script, *words)

    def note(self):
        """Notes what the content policy stopped and what the console says since the last look."""
        with contextlib.suppress(WebDriverException):
            self.violations += self.run("return (window.stopped_by_policy ?? []).splice(0)")
            self.violations += [f"ran: {text}" for text in self.run("return (window.hacked ?? []).splice(0)")]
        for is_fault, text in self.console():
            if re.search("Content.Security.Policy|Trusted", text):
                self.violations.append(text)
            elif is_fault and "the server responded with a status of" not in text:
                self.faults.append(text)

    def console(self):
        """The lines of the console since the last look: whether one is a fault, and its text."""
        return [(line["level"] == "SEVERE", line["message"]) for line in self.driver.get_log("browser")]

    # ---- looking

    def all(self, selector, within=None):
        """The elements of a selector that are seen."""
        with contextlib.suppress(StaleElementReferenceException):
            return self.run(SEEN, selector, within)
        return []

    def one(self, selector, within=None):
        """The one element of a selector that is seen, which is waited for."""
        found = []

        def there():
            found[:] = self.all(selector, within)
            return bool(found)

        self.wait(there, f"{selector} is seen")
        return found[0]

    def wait(self, condition, what, patience=PATIENCE):
        until = time.monotonic() + patience
        while True:
            with contextlib.suppress(StaleElementReferenceException):
                if condition():
                    return
            if time.monotonic() > until:
                raise Stop(f"it isn't so that {what}; on the screen is {self.text()[:700]!r}")
            time.sleep(0.02)

    def place(self):
        """The place in the address, behind the #."""
        return self.run("return location.hash")

    def text(self):
        return self.run("return document.body.innerText")

    def part(self, name, within=None):
        """The text of a part that is seen."""
        return self.one(f'[data-part="{name}"]', within).text

    def parts(self, name, within=None):
        return [one.text for one in self.all(f'[data-part="{name}"]', within)]

    def refusal(self):
        """The word of the refusal that is seen, or None."""
        shown = self.all('[role="alert"][data-refusal]')
        return shown[0].get_attribute("data-refusal") if shown else None

    def overflow(self):
        """By how many pixels the page is wider than its window."""
        return self.run("return document.documentElement.scrollWidth - document.documentElement.clientWidth")

    def low_contrasts(self):
        """Texts and frames that are hard to see, in light and in dark colours."""
        found = []
        for scheme in ("dark", "light"):
            self.driver.execute_cdp_cmd("Emulation.setEmulatedMedia", {"features": [{"name": "prefers-color-scheme", "value": scheme}]})
            found += [(scheme, *one) for one in self.run(CONTRASTS)]
        return found

    # ---- doing

    def do(self, word, within=None):
        """Clicks what does something, and waits until it is done."""
        self.click(self.one(f'[data-do="{word}"]', within))
        self.settle()

    def open_session(self, **values):
        """Signs in. Many sessions are opened here from one address: where nginx lets nobody in for a while, it waits."""
        until = time.monotonic() + MOST_WAITING
        while True:
            self.fill(**values)
            self.do("open_a_session")
            if self.refusal() != "too_often" or time.monotonic() > until:
                return
            time.sleep(PAUSE)

    def click(self, one):
        """Clicks; of a link, waits until its place is there."""
        leads = self.run("arguments[0].scrollIntoView({ block: 'center' }); return arguments[0].tagName === 'A' ? arguments[0].hash : ''", one)
        one.click()
        if leads:
            self.wait(lambda: self.place() == leads, f"the place is {leads}")

    def go(self, place):
        """Follows a link that is seen, to a place."""
        self.click(self.one(f'a[href="{place}"]'))
        self.settle()

    def fill(self, within=None, **values):
        """Types into fields, and chooses, by their names."""
        for name, value in values.items():
            self.put(self.one(f'[name="{name}"]', within), value)

    def put(self, field, value):
        kind, is_chosen, there = self.run("const [one] = arguments; return [one.type, Boolean(one.checked), one.value]", field)
        if kind == "select-one":
            Select(field).select_by_value(value)
        elif kind == "fieldset":
            self.choose(field, value, there)
        elif kind in ("checkbox", "radio"):
            if is_chosen != bool(value):
                field.click()
        elif kind == "file":
            field.send_keys(str(value))
        elif all(ord(one) < 0x10000 for one in value):
            emptied = (Keys.CONTROL, "a", Keys.NULL, Keys.DELETE) if there else ()
            # (Enter alone may lead on)
            lines = value.replace("\n", Keys.SHIFT + Keys.ENTER + Keys.NULL) if kind == "textarea" else value
            field.send_keys(*emptied, lines)
        else:
            # (chromedriver types no character beyond the first plane)
            self.run("arguments[0].value = arguments[1]; arguments[0].dispatchEvent(new Event('input', {bubbles: true}));"
                     "arguments[0].dispatchEvent(new Event('change', {bubbles: true}));", field, value)

    def choose(self, group, value, there):
        """Chooses one of a group of radio buttons, or none."""
        if value == "" and there:
            self.click(self.one('[data-do="clear"]', group))
        elif value != there:
            self.click(self.run("const [group, value] = arguments; return [...group.querySelectorAll('input')].find((one) => one.value === value)",
                                group, value))

    def press(self, *keys):
        """Types without a mouse, into what has the focus."""
        for key in keys:
            self.driver.switch_to.active_element.send_keys(key)

    def tab_to(self, selector, most=80):
        """Comes to an element by the tabulator alone."""
        for _ in range(most):
            if self.run("return document.activeElement.matches(arguments[0])", selector):
                return
            self.press(Keys.TAB)
        raise Stop(f"the tabulator doesn't come to {selector}")

    def downloaded(self, count=1):
        """The files that the browser saved, once there are so many; they are taken away from the folder of what was saved."""
        folder = self.room / "downloads"
        # (what isn't whole yet has another name)
        self.wait(lambda: len([one for one in folder.iterdir() if one.suffix == ".csv"]) >= count, f"{count} files are saved")
        files = sorted(folder.iterdir())
        read = {one.name: one.read_bytes() for one in files}
        for one in files:
            one.unlink()
        return read

    # ---- paper and pictures

    def printed(self, width, height):
        """The PDF that the browser prints on paper of this size, in centimetres."""
        paper = {"paperWidth": width / 2.54, "paperHeight": height / 2.54, "printBackground": False}
        reply = self.driver.execute_cdp_cmd("Page.printToPDF", paper)
        return base64.b64decode(reply["data"])

    @contextlib.contextmanager
    def on_paper(self):
        """What is read meanwhile is what paper shows."""
        self.driver.execute_cdp_cmd("Emulation.setEmulatedMedia", {"media": "print"})
        try:
            yield
        finally:
            self.driver.execute_cdp_cmd("Emulation.setEmulatedMedia", {"media": ""})

    def picture(self, width, tallest):
        """A picture of the page from its top on, as PNG, in a window as high as the page."""
        self.size(width, 600)
        self.size(width, min(max(self.run("return document.documentElement.scrollHeight"), 600), tallest))
        self.run("scrollTo(0, 0)")
        return base64.b64decode(self.driver.execute_cdp_cmd("Page.captureScreenshot", {"format": "png"})["data"])

    def controls(self):
        """Role and name of each node that a screen reader comes to."""
        nodes = self.driver.execute_cdp_cmd("Accessibility.getFullAXTree", {})["nodes"]
        return [(node["role"]["value"], node.get("name", {}).get("value", "").strip()) for node in nodes if not node["ignored"] and "role" in node]


def entry_row(screen, key):
    """The row in which a field's value is entered; where a value stands, with the control for another one."""
    row = screen.one(f'[data-part="entering"] [data-key="{key}"]')
    if not screen.all('[name="value"]', row):
        screen.do("replace", row)
    return row


def looked_over(screen, what):
    """Says that nothing ran and nothing was stopped until now."""
    screen.note()
    lines = json.dumps(screen.violations[:3]) if screen.violations else ""
    say(not screen.violations, f"{what}: the content policy stops nothing, and nothing runs that came as a text {lines}".rstrip())
    say(not screen.faults, f"{what}: no fault in the console{''.join(' ' + one for one in screen.faults[:3])}")
    screen.violations, screen.faults = [], []
