"""All parts, one after the other."""
import io
import time
import traceback

from bench import look_at_bench
from copying import look_at_altered, look_at_mutated
from crowded import found_many, look_at_many, look_at_no_server, look_at_too_often
from entering import look_at_entering
from long import look_at_long
from losing import found_calm, look_at_losing
from markup import found_wild, look_at_hostile
from paper import look_at_copies, look_at_paper
from room import Refused, Stop, found, program_of, report, say, serving
from screen import NARROW, WIDE, Screen, looked_over
from seeking import look_at_seeking
from selenium.common.exceptions import WebDriverException
from serving_site import look_at_compression, look_at_files, look_at_headers, look_at_one_connection, look_at_the_starter
from tabs import look_at_tabs
from workday import FOUNDERS, LAB, NAME, Day
from working import found_busy, look_at_working

# The pictures of docs/pages/, each at two widths.
KEPT = ("sign-in", "records", "entering", "version", "signing", "my-day", "waiting", "making-a-form", "one-time-password", "trail", "checking", "paper")
TALLEST = 1600
PAPER = 794
COLOURS = 64
# A window of 1280 pixels at 400 per cent.
SMALL = (320, 256)
NAMED = {"radio", "radiogroup", "button", "textbox", "searchbox", "combobox", "checkbox", "link", "listbox", "spinbutton"}
# Controls that are seen and that the tabulator passes by.
UNREACHED = """
return [...document.querySelectorAll("a, button, input, select, textarea")].filter((one) => one.checkVisibility() && one.getClientRects().length > 0)
    .filter((one) => one.tabIndex < 0 || (one.tagName === "A" && !one.hasAttribute("href"))).map((one) => one.outerHTML.slice(0, 90));
"""


class Pictures:
    """Looks at each main page: its controls have names and are reached, it fits two widths; and keeps its pictures where a folder is given."""

    def __init__(self, screen, folder):
        self.screen, self.folder = screen, folder

    def __call__(self, name, plain=False):
        if not plain:
            self.look(name)
        for width, size in (("wide", WIDE), ("narrow", NARROW)):
            if self.folder and name in KEPT and (not plain or width == "wide"):
                png = self.screen.picture(PAPER if plain else size[0], 2 * TALLEST if name == "signing" else TALLEST)
                keep(png, self.folder / f"{name}-{width}.png", 40 if plain else 0)
        self.screen.size(*WIDE)

    def look(self, name):
        nameless = [one for one in self.screen.controls() if one[0] in NAMED and not one[1]]
        unreached = self.screen.run(UNREACHED)
        over = {}
        for width, size in (("wide", WIDE), ("at 200 per cent", (WIDE[0] // 2, WIDE[1] // 2)), ("narrow", NARROW), ("at 400 per cent", SMALL)):
            self.screen.size(*size)
            over[width] = self.screen.overflow()
        self.screen.size(*WIDE)
        good = not nameless and not unreached and not any(over.values())
        say(good, f"{name}: each control has a name for screen readers, the tabulator comes to it, and nothing is wider than the window"
            + ("" if good else f": {nameless[:3]} {unreached[:3]} {over}"))
        low = self.screen.low_contrasts()
        say(not low, f"{name}: each text and each frame of a control is well seen, in light and in dark colours {low[:3] or ''}".rstrip())


def keep(png, path, margin):
    """A picture with few colours, so that the file is small, and with a margin, as paper has one."""
    from PIL import Image, ImageOps
    with Image.open(io.BytesIO(png)) as picture:
        framed = ImageOps.expand(picture.convert("RGB"), margin, "white")
        framed.quantize(COLOURS, dither=Image.Dither.NONE).save(path, optimize=True)


def morning_to_evening(day, program, room):
    """The day of all persons."""
    day.morning()
    day.make_forms()
    day.analyst()
    day.reviewer()
    day.amend()
    day.manager()
    looked_over(day.screen, "until noon")
    day.lock_and_unlock()
    day.roles_and_retirement()
    day.trail()
    look_at_paper(day)
    look_at_copies(day, program, room)
    day.leave("hal")
    looked_over(day.screen, "until the evening")
    day.by_keyboard()
    day.session_ends()
    day.time_passes()
    looked_over(day.screen, "a session's end")


def look_at_calm(screen, port):
    """What is looked at in one laboratory."""
    calm = look_at_losing(screen, port)
    look_at_bench(calm)
    look_at_entering(calm)
    look_at_tabs(calm)
    look_at_long(calm)


def play_over(served, program, room, pictures):
    screen = Screen(served.address, room)
    parts = []
    try:
        screen.load()
        day = Day(screen, served.port, Pictures(screen, pictures))
        parts = [("the checker", lambda: (look_at_altered(screen, program, room), look_at_mutated(screen, program, room))),
                 ("the site", lambda: (look_at_headers(served), look_at_one_connection(served), look_at_files(served), look_at_compression(served))),
                 ("the day", lambda: morning_to_evening(day, program, room)),
                 ("what is kept", lambda: day.nothing_is_kept(served.log())),
                 ("work that isn't lost", lambda: (look_at_calm(screen, served.port), looked_over(screen, "work that isn't lost"))),
                 ("what waits", lambda: (look_at_seeking(look_at_working(screen, served.port)), looked_over(screen, "what waits"))),
                 ("hostile texts", lambda: (look_at_hostile(screen, program, served.port), looked_over(screen, "hostile texts"))),
                 ("many records", lambda: (look_at_many(screen, program, served.port), looked_over(screen, "many records"))),
                 ("no reply", lambda: (look_at_too_often(screen), look_at_no_server(screen, served)))]
        for name, part in parts:
            begun = time.monotonic()
            try:
                part()
            except (Stop, Refused, WebDriverException) as fault:
                say(False, f"{name} stopped: {str(fault).splitlines()[0]} {traceback.extract_tb(fault.__traceback__)[2:5]}")
            say(True, f"{name}: {time.monotonic() - begun:.0f} s")
    finally:
        screen.close()


def play(room, words, pictures):
    program = program_of(words)
    file = room / "laboratories"
    try:
        found(program, file, LAB, NAME, FOUNDERS)
        found_wild(program, file)
        found_calm(program, file)
        found_busy(program, file)
        found_many(program, file)
        with serving(program, file) as served:
            play_over(served, program, room, pictures)
        look_at_the_starter(program, room)
    except Stop as fault:
        say(False, str(fault))
    return report.end()
