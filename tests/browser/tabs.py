"""One session in all tabs of a browser: handed on, prolonged, ended, replaced and closed together; and a reload that loses nothing."""
import time

from faults import break_fetch
from losing import LAB, play
from room import password_of, same, say
from screen import PAUSE, entry_row
from working import COUNTED

PATIENCE = 120
# Who is signed in, by the pages' own module.
WHO = """
const done = arguments[arguments.length - 1];
import("/pages/session.js").then(({ who, seconds_left }) => {
    const person = who();
    done(person && { code: person.code, lab: person.lab, signed: person.signed, asked: person.asked, opened: person.opened, id: person.id });
});
"""
# What is kept where it outlives a page, or could be read by another one.
KEPT = """
const done = arguments[arguments.length - 1];
const all = (storage) => Object.fromEntries(Object.keys(storage).map((key) => [key, storage.getItem(key)]));
indexedDB.databases().then((databases) => done([all(localStorage), all(sessionStorage), databases.length, document.cookie, window.name,
    JSON.stringify(history.state), /[0-9a-f]{32}/.test(location.href)]));
"""
# Asks as a tab does, at some moment, and notes whether a session is given, and whose.
ASK = """
const [name, lab, asked] = arguments;
window.given ??= {};
const own = new BroadcastChannel(name);
own.onmessage = ({ data }) => { window.given[name] = [data.person.code, data.token.length]; };
new BroadcastChannel("koghdise").postMessage({ what: "ask", answer_at: name, asked: asked ?? Date.now(), lab });
"""
# Notes what tabs tell each other.
HEAR = "window.heard = []; new BroadcastChannel('koghdise').onmessage = ({ data }) => { window.heard.push(data); };"
AHEAD = "const real = Date.now.bind(Date); window.ahead = arguments[0]; Date.now = () => real() + window.ahead;"


def who(screen):
    return screen.driver.execute_async_script(WHO)


def wait(screen, condition, what):
    screen.wait(condition, what, PATIENCE)


def show_tab(screen, tab):
    screen.driver.switch_to.window(tab)
    screen.bring_to_front()


def another_tab(calm, place, lab=LAB):
    """A tab beside the one that is shown, at a place; gives the one before and itself."""
    screen = calm.screen
    first = screen.driver.current_window_handle
    screen.driver.switch_to.new_window("tab")
    screen.watch_tab()
    screen.driver.get(f"{screen.address}{f'?lab={lab}' if lab else ''}{place}")
    screen.wait(lambda: screen.all("main h1"), "a page is there", PATIENCE)
    return first, screen.driver.current_window_handle


def close_tab(screen, tab, other):
    show_tab(screen, tab)
    screen.note()
    screen.driver.close()
    show_tab(screen, other)


def openings(calm, code):
    return calm.rows_of_trail("open", code)


def is_in(screen):
    return screen.all('[data-do="close_the_session"]')


def seen(screen, selector):
    """The one element of a selector, for which it waits long: a tab that isn't seen is slow."""
    wait(screen, lambda: screen.all(selector), f"{selector} is seen")
    return screen.one(selector)


def answered(screen, name, lab=LAB):
    """Asks, and asks again after a while, until a session is given."""
    asked = []

    def is_given():
        if not asked or time.monotonic() - asked[-1] > 3:
            asked.append(time.monotonic())
            screen.run(ASK, name, lab, None)
        return screen.run("return arguments[0] in (window.given ?? {})", name)
    wait(screen, is_given, f"who asks as {name} is answered")


# ---- a session that is handed on


def second_tab(calm):
    """Another tab at a bookmark of a record, and its reload, want no password; nothing of the session is kept anywhere."""
    screen = calm.screen
    # (where nothing is read in the background, which would go on beside what is looked at)
    calm.go("#/opening")
    before = openings(calm, "dan")
    first, second = another_tab(calm, "#/records/21")
    wait(screen, lambda: is_in(screen), "the other tab is signed in")
    screen.settle()
    there = screen.place(), screen.one("main h1").text, who(screen)["code"]
    same("another tab is signed in, at its own place", there, ("#/records/21", "Well 21 · water", "dan"))
    screen.driver.refresh()
    wait(screen, lambda: is_in(screen), "the reloaded tab is signed in")
    screen.settle()
    same("so it is after a reload", screen.one("main h1").text, "Well 21 · water")
    same("all that is one session", openings(calm, "dan"), before)
    same("nothing but the laboratory's code is kept", screen.driver.execute_async_script(KEPT), [{"koghdise lab": LAB}, {}, 0, "", "", "null", False])
    same("the address has the laboratory, for a bookmark", screen.run("return location.search"), f"?lab={LAB}")
    asked = who(screen)["asked"]
    screen.do("read_again")
    mine = who(screen)
    say(mine["asked"] > asked, "a request prolongs the session")
    show_tab(screen, first)
    wait(screen, lambda: who(screen)["asked"] >= mine["asked"], "the countdown is one")
    same("it is prolonged in the other tab, too", who(screen), mine)
    close_tab(screen, second, first)
    same("a tab that is closed takes nothing from the other one", who(screen)["id"], mine["id"])


def signed_in_one(calm):
    """A signature in one tab is the session's first one for the other tab, too."""
    screen = calm.screen
    for record in (22, 23):
        calm.of["dan"].post("entries", record=record, key="lead", value="1", unit="mg/L")
    calm.go("#/records/22/versions/1/authorship")
    first, second = another_tab(calm, "#/records/23/versions/1/authorship")
    wait(screen, lambda: is_in(screen), "the other tab is signed in")
    screen.settle()
    screen.fill(code="dan", password=password_of("dan"))
    screen.do("sign_a_version")
    close_tab(screen, second, first)
    wait(screen, lambda: who(screen)["signed"], "the other tab knows of the signature")
    screen.do("read_again")
    same("after a signature in another tab the code isn't asked for", screen.all('[name="code"]'), [])


def asked_wrongly(calm):
    """A session is given to who asked just now, for its laboratory or for any, and not once it has ended."""
    screen = calm.screen
    calm.go("#/records/24")
    for name, lab, asked in (("old", LAB, 1_000_000), ("other", "busy", None)):
        screen.run(ASK, name, lab, asked)
    answered(screen, "own")
    answered(screen, "any", "")
    same("a session is given for its laboratory, to who asked just now", screen.run("return window.given"), {"own": ["dan", 64], "any": ["dan", 64]})
    screen.run(AHEAD, 1_800_000)
    dialog = seen(screen, "dialog[open]")
    screen.run(ASK, "ended", LAB, None)
    back(calm, dialog)
    answered(screen, "last")
    same("a session that has ended isn't given", screen.run("return 'ended' in window.given"), False)
    calm.come("dan")


def other_lab(calm):
    """A tab at another laboratory's address stays outside; one that names none comes in."""
    screen = calm.screen
    screen.run(HEAR)
    first, second = another_tab(calm, "", "busy")
    show_tab(screen, first)
    wait(screen, lambda: screen.run("return window.heard.some(({ what, lab }) => what === 'ask' && lab === 'busy')"), "the tab has asked")
    close_tab(screen, second, first)
    first, second = another_tab(calm, "", None)
    wait(screen, lambda: is_in(screen), "a tab whose address names no laboratory is signed in")
    screen.settle()
    same("and its address names it then", screen.run("return location.search"), f"?lab={LAB}")
    screen.driver.get(f"{screen.address}?lab=busy")
    screen.wait(lambda: screen.all("main h1"), "a page is there", PATIENCE)
    show_tab(screen, first)
    answered(screen, "behind")
    show_tab(screen, second)
    there = len(is_in(screen)), screen.one('[name="lab"]').get_attribute("value")
    same("a tab at another laboratory's address isn't signed in", there, (0, "busy"))
    close_tab(screen, second, first)


# ---- a session that ends


def back(calm, dialog):
    """Signs in again; where nginx lets nobody in for a while, it waits."""
    screen = calm.screen
    until = time.monotonic() + PATIENCE
    while True:
        screen.fill(dialog, password=password_of("dan"))
        screen.click(screen.one('[data-do="open_a_session_again"]', dialog))
        wait(screen, lambda: not screen.all("dialog[open]") or screen.refusal(), "the dialog is gone")
        if not screen.all("dialog[open]") or time.monotonic() > until:
            return
        time.sleep(PAUSE)


def replaced(calm):
    """Where the session ends in one tab it has ended in the other, and who signs in again in one has done so in both: what is typed stays."""
    screen = calm.screen
    calm.go("#/records/25")
    screen.fill(entry_row(screen, "note"), value="typed in the first")
    first, second = another_tab(calm, "#/records/26")
    wait(screen, lambda: is_in(screen), "the other tab is signed in")
    screen.settle()
    screen.fill(entry_row(screen, "note"), value="typed in the second")
    before = who(screen)["id"]
    screen.run(AHEAD, 1_800_000)
    seen(screen, "dialog[open]")
    show_tab(screen, first)
    dialog = seen(screen, "dialog[open]")
    say("ended" in dialog.text, f"an end is told in both tabs: {dialog.text.splitlines()[0]!r}")
    back(calm, dialog)
    now = who(screen)["id"]
    show_tab(screen, second)
    screen.run("window.ahead = 0")
    wait(screen, lambda: not screen.all("dialog[open]"), "the other tab goes on, too")
    same("both have the session that was opened in one", (who(screen)["id"], now != before), (now, True))
    for tab, record, text in ((second, 26, "typed in the second"), (first, 25, "typed in the first")):
        show_tab(screen, tab)
        same("what was typed is there", screen.one('[data-key="note"] [name="value"]').get_attribute("value"), text)
        screen.do("enter_a_value")
        same("and is entered", calm.values(record), [("note", text)])
    close_tab(screen, second, first)


def closed(calm):
    """A sign-out in one tab signs out in all. What is typed in another one waits, unseen, for the same person; who comes again in one comes in all."""
    screen = calm.screen
    calm.go("#/records/27")
    screen.fill(entry_row(screen, "note"), value="typed before")
    first, second = another_tab(calm, "#/records/28")
    wait(screen, lambda: is_in(screen), "the second tab is signed in")
    _, third = another_tab(calm, "#/records/29")
    wait(screen, lambda: is_in(screen), "the third tab is signed in")
    screen.settle()
    screen.do("close_the_session")
    seen(screen, '[data-do="open_a_session"]')
    show_tab(screen, second)
    seen(screen, '[data-do="open_a_session"]')
    wait(screen, calm.said, "the line says something")
    same("a sign-out in one tab signs out in another", (who(screen), "signed out" in calm.said()), (None, True))
    show_tab(screen, first)
    dialog = seen(screen, "dialog[open]")
    backdrop = screen.run("return getComputedStyle(arguments[0], '::backdrop').backgroundColor", dialog)
    say(backdrop.startswith("rgb("), f"where something is typed, a page that isn't seen through asks for the password: {backdrop}")
    back(calm, dialog)
    same("what was typed is there", screen.one('[data-key="note"] [name="value"]').get_attribute("value"), "typed before")
    screen.do("enter_a_value")
    same("and is entered, in a session of its own", calm.values(27), [("note", "typed before")])
    for tab in (second, third):
        show_tab(screen, tab)
        wait(screen, lambda: is_in(screen), "a tab without a session is signed in, too")
    say(who(screen)["code"] == "dan", "who signs in in one tab is signed in in all")
    close_tab(screen, third, second)
    screen.do("close_the_session")
    show_tab(screen, first)
    seen(screen, '[data-do="open_a_session"]')
    close_tab(screen, second, first)
    same("the laboratory's code is remembered", screen.one('[name="lab"]').get_attribute("value"), LAB)
    screen.open_session(code="dan", password=password_of("dan"))
    same("and is all that needn't be typed", who(screen)["code"], "dan")
    break_fetch(screen)


# ---- a reload

PRESSED = """
window.pressed = [];
addEventListener("keydown", (event) => { window.pressed.push([event.key, event.defaultPrevented]); });
"""


def reloads(calm):
    """F5, and Control and R, read the view anew, and nothing that is typed is lost; with Shift they are the browser's."""
    screen = calm.screen
    screen.run(COUNTED)
    screen.run(PRESSED)
    keys = screen.keys
    calm.go("#/records")
    screen.run("window.counted.all = 0; document.querySelector('main h1').textContent = 'old'")
    for press in ((keys.F5,), (keys.CONTROL, "r", keys.NULL)):
        screen.run("window.counted.all = 0; document.querySelector('main h1').textContent = 'old'")
        screen.press("".join(press))
        screen.settle()
        there = screen.run("return [window.counted?.all > 0, document.querySelector('main h1').textContent]")
        same("a page is read anew, and isn't left", there, [True, "Records"])
    calm.go("#/records/30")
    screen.fill(entry_row(screen, "note"), value="typed")
    calm.of["dan"].post("entries", record=30, key="lead", value="30.3", unit="mg/L")
    screen.press(keys.F5)
    wait(screen, lambda: "30.3 mg/L" in screen.parts("standing"), "what stands is read anew")
    screen.settle()
    same("and what is typed stays", screen.one('[data-key="note"] [name="value"]').get_attribute("value"), "typed")
    screen.fill(entry_row(screen, "note"), value="")
    calm.go("#/opening")
    screen.fill(sample="Well 5000")
    screen.press(keys.F5)
    there = screen.one('[name="sample"]').get_attribute("value"), "not sent" in calm.said()
    same("so it does where nothing else is to be read", there, ("Well 5000", True))
    screen.press(keys.SHIFT + keys.F5 + keys.NULL)
    pressed = screen.run("return window.pressed.filter(([key]) => ['F5', 'r'].includes(key))")
    same("the browser's own reload is left alone", pressed[-1] if pressed else None, ["F5", False])
    same("the others were taken", [one[1] for one in pressed[:-1]], [True] * 4)
    screen.fill(sample="")
    screen.run("window.counted.all = 0; dispatchEvent(new PageTransitionEvent('pageshow', { persisted: true }))")
    screen.settle()
    same("a page that Back brings from the browser's memory asks whether its session lives", screen.run("return window.counted.all"), 1)


def alone(part):
    """A part that leaves no tab behind, also where it stops."""
    def played(calm):
        driver = calm.screen.driver
        first = driver.current_window_handle
        try:
            part(calm)
        finally:
            for tab in driver.window_handles:
                if tab != first:
                    driver.switch_to.window(tab)
                    driver.close()
            show_tab(calm.screen, first)
    played.__name__ = part.__name__
    return played


PARTS = {"dan": tuple(alone(part) for part in (second_tab, signed_in_one, asked_wrongly, other_lab, replaced, closed, reloads))}


def look_at_tabs(calm):
    play(calm, PARTS)
