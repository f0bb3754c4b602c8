"""Firefox at the pages, by the same words as chromium: what Debian's selenium asks of a driver is sent to Marionette, which Firefox brings
along (JSON with its length in front), and a script to its WebDriver BiDi, which runs it in the page's own world (a WebSocket of the same
session). Both listen at ports of this machine."""
import base64
import json
import os
import shutil
import socket
import struct
import subprocess
import time

from room import PATIENCE, Stop, ends_with_this
from screen import WATCH, ZONE, Screen
from selenium import webdriver
from selenium.webdriver.common.keys import Keys
from selenium.webdriver.common.options import ArgOptions
from selenium.webdriver.remote.command import Command

ELEMENT = "element-6066-11e4-a52e-4f735466cecf"
SETTINGS = {"marionette.port": 0, "browser.shell.checkDefaultBrowser": False, "browser.startup.page": 0, "app.update.enabled": False,
            "datareporting.policy.dataSubmissionEnabled": False, "toolkit.telemetry.enabled": False, "network.captive-portal-service.enabled": False,
            "network.connectivity-service.enabled": False, "browser.aboutwelcome.enabled": False, "extensions.update.enabled": False,
            "network.proxy.type": 0, "signon.rememberSignons": False, "dom.disable_beforeunload": True,
            "browser.download.folderList": 2, "browser.download.alwaysOpenPanel": False}
# What selenium calls a command, and what Marionette calls it.
COMMANDS = {
    Command.GET: "Navigate", Command.REFRESH: "Refresh", Command.CLOSE: "CloseWindow", Command.NEW_WINDOW: "NewWindow",
    Command.SWITCH_TO_WINDOW: "SwitchToWindow", Command.W3C_GET_CURRENT_WINDOW_HANDLE: "GetWindowHandle",
    Command.W3C_GET_WINDOW_HANDLES: "GetWindowHandles", Command.W3C_GET_ACTIVE_ELEMENT: "GetActiveElement", Command.FIND_ELEMENT: "FindElement",
    Command.FIND_ELEMENTS: "FindElements", Command.FIND_CHILD_ELEMENT: "FindElement", Command.FIND_CHILD_ELEMENTS: "FindElements",
    Command.CLEAR_ELEMENT: "ElementClear", Command.SEND_KEYS_TO_ELEMENT: "ElementSendKeys",
    Command.GET_ELEMENT_ATTRIBUTE: "GetElementAttribute", Command.GET_ELEMENT_PROPERTY: "GetElementProperty",
    Command.GET_ELEMENT_TEXT: "GetElementText", Command.GET_ELEMENT_TAG_NAME: "GetElementTagName", Command.IS_ELEMENT_SELECTED: "IsElementSelected",
    Command.IS_ELEMENT_ENABLED: "IsElementEnabled", Command.SET_TIMEOUTS: "SetTimeouts", Command.PRINT_PAGE: "Print",
}
CHILDREN = (Command.FIND_CHILD_ELEMENT, Command.FIND_CHILD_ELEMENTS)
SCRIPTS = {
    Command.W3C_EXECUTE_SCRIPT: "function (...words) {{ return (function () {{ {} }}).apply(window, words); }}",
    Command.W3C_EXECUTE_SCRIPT_ASYNC:
        "function (...words) {{ return new Promise((done) => (function () {{ {} }}).apply(window, [...words, done])); }}",
}
# A click is for one element, which is brought into the window first: one that falls elsewhere, as the page moved meanwhile, does
# nothing. Whether it fell there is noted.
AIM = """function (one) {
    const { top, bottom } = one.getBoundingClientRect();
    if (top < 0 || bottom > innerHeight) one.scrollIntoView({ block: "center" });
    window.aimed = one.closest("select") ?? one;
    window.hit = one.tagName === "OPTION";
    window.fell = null;
    window.aiming ??= addEventListener("click", (event) => {
        if (!window.aimed || !event.isTrusted) return;
        window.hit = window.aimed.contains(event.target);
        window.aimed = null;
        if (window.hit) return;
        window.fell = event.target.outerHTML?.slice(0, 90);
        event.preventDefault();
        event.stopImmediatePropagation();
    }, { capture: true }) ?? true;
}"""
HIT = "function () { window.aimed = null; return window.hit; }"
FELL = "function () { return String(window.fell); }"
CLICKS = 5
HELD = (Keys.SHIFT, Keys.CONTROL, Keys.ALT, Keys.META)


class Failed(Stop):
    """What was asked of the browser failed: the word of the fault, as WebDriver has it, and a text."""


class Marionette:
    """A message is digits, a colon, and so many bytes (firefox-source-docs.mozilla.org, Marionette, protocol 3)."""

    def __init__(self, port):
        self.socket, self.last = socket.create_connection(("127.0.0.1", port), timeout=PATIENCE), 0
        self.file = self.socket.makefile("rb")
        self.receive()

    def receive(self):
        length = b""
        while not length.endswith(b":"):
            length += self.file.read(1) or stop_of("Marionette")
        return json.loads(self.file.read(int(length[:-1])))

    def ask(self, command, words):
        self.last += 1
        text = json.dumps([0, self.last, f"WebDriver:{command}", words]).encode()
        self.socket.sendall(str(len(text)).encode() + b":" + text)
        _, number, fault, given = self.receive()
        if fault or number != self.last:
            raise Failed(fault["error"], fault["message"])
        return given["value"] if isinstance(given, dict) and set(given) == {"value"} else given


class Bidi:
    """A message is a text of a WebSocket (RFC 6455)."""

    def __init__(self, address):
        host, _, path = address.removeprefix("ws://").partition("/")
        self.socket, self.last, self.events = socket.create_connection(host.split(":"), timeout=PATIENCE), 0, []
        self.file = self.socket.makefile("rb")
        head = (f"GET /{path} HTTP/1.1", f"Host: {host}", "Connection: Upgrade", "Upgrade: websocket", "Sec-WebSocket-Version: 13",
                f"Sec-WebSocket-Key: {base64.b64encode(os.urandom(16)).decode()}", "", "")
        self.socket.sendall("\r\n".join(head).encode())
        if b" 101 " not in self.file.readline():
            raise Stop("WebDriver BiDi doesn't answer")
        while self.file.readline().strip():
            pass

    def send(self, kind, data):
        """A frame, which a client masks."""
        size, mask = len(data), os.urandom(4)
        length = bytes([0x80 | size]) if size < 126 else struct.pack("!BH", 0xFE, size) if size < 65536 else struct.pack("!BQ", 0xFF, size)
        masked = bytes(one ^ mask[at % 4] for at, one in enumerate(data))
        self.socket.sendall(bytes([0x80 | kind]) + length + mask + masked)

    def receive(self):
        """The next text. Who asks whether this lives is answered."""
        text, is_whole = b"", False
        while not is_whole:
            first, size = self.file.read(2) or stop_of("WebDriver BiDi")
            if size in (126, 127):
                size = int.from_bytes(self.file.read(2 if size == 126 else 8), "big")
            data, kind = self.file.read(size), first & 15
            if kind == 9:
                self.send(10, data)
            elif kind == 8:
                stop_of("WebDriver BiDi")
            else:
                text, is_whole = text + data, bool(first & 0x80)
        return json.loads(text)

    def ask(self, command, **words):
        self.last += 1
        self.send(1, json.dumps({"id": self.last, "method": command, "params": words}).encode())
        while (reply := self.receive()).get("id") != self.last:
            self.events.append(reply)
        if reply["type"] == "error":
            raise Failed(reply["error"], reply["message"])
        return reply["result"]

    def call(self, tab, function, words):
        """What a function gives, in the page of a tab; what it promises is waited for."""
        reply = self.ask("script.callFunction", functionDeclaration=function, arguments=[told(one) for one in words], target={"context": tab},
                         awaitPromise=True, serializationOptions={"maxDomDepth": 0})
        if reply["type"] == "exception":
            raise Failed("javascript error", reply["exceptionDetails"]["text"])
        return heard(reply["result"])


def stop_of(what):
    raise Stop(f"{what} of firefox-esr closed its port")


def told(value):
    """A value as BiDi is told it."""
    if isinstance(value, dict):
        return {"sharedId": value[ELEMENT]} if ELEMENT in value else {"type": "object", "value": [[name, told(one)] for name, one in value.items()]}
    if isinstance(value, (list, tuple)):
        return {"type": "array", "value": [told(one) for one in value]}
    if value is None:
        return {"type": "null"}
    return {"type": "boolean" if isinstance(value, bool) else "string" if isinstance(value, str) else "number", "value": value}


def heard(value):
    """A value that BiDi tells."""
    kind = value["type"]
    if kind == "node":
        return {ELEMENT: value["sharedId"]}
    if kind in ("array", "nodelist", "htmlcollection"):
        return [heard(one) for one in value["value"]]
    if kind == "object":
        return {name: heard(one) for name, one in value["value"]}
    return value.get("value")


def released(text):
    """Keys, in which what releases all that is held down is each held key once more: Marionette knows no other release."""
    typed, held = [], []
    for one in text:
        if one in HELD:
            held = [other for other in held if other != one] if one in held else [*held, one]
        typed += held if one == Keys.NULL else [one]
        held = [] if one == Keys.NULL else held
    return "".join(typed)


class Connection:
    """What selenium sends its commands through."""

    def __init__(self, room, profile):
        words = [shutil.which("firefox-esr"), "--marionette", "--remote-debugging-port", "0", "--headless", "--no-remote", "--profile", str(profile)]
        self.process = subprocess.Popen(words, stdout=subprocess.DEVNULL, stderr=subprocess.DEVNULL,
                                        env={**os.environ, "HOME": str(room), "TZ": ZONE}, preexec_fn=ends_with_this)
        try:
            self.begin(profile)
        except BaseException:
            self.end()
            raise

    def begin(self, profile):
        """A session of Marionette, and the same one of BiDi."""
        self.marionette = Marionette(self.port(profile / "MarionetteActivePort"))
        wanted = {"webSocketUrl": True, "acceptInsecureCerts": True, "unhandledPromptBehavior": "ignore",
                  "timeouts": {"script": PATIENCE * 1000, "pageLoad": PATIENCE * 1000}}
        self.session = self.marionette.ask("NewSession", wanted)
        self.bidi = Bidi(self.session["capabilities"]["webSocketUrl"])
        self.tab = self.marionette.ask("GetWindowHandle", {})
        self.bidi.ask("session.subscribe", events=["log.entryAdded"])
        self.bidi.ask("script.addPreloadScript", functionDeclaration=f"() => {{ {WATCH} }}")

    def port(self, file):
        """Firefox writes down where it listens, once it does."""
        until = time.monotonic() + PATIENCE
        while time.monotonic() < until and self.process.poll() is None:
            if file.exists() and file.read_text().strip():
                return int(file.read_text())
            time.sleep(0.05)
        raise Stop(f"firefox-esr doesn't listen, status {self.process.poll()}")

    def execute(self, command, words):
        try:
            return {"status": 0, "value": self.done(command, {name: one for name, one in words.items() if name != "sessionId"})}
        except Failed as fault:
            word, text = fault.args
            word = {"no such node": "stale element reference", "no such frame": "no such window"}.get(word, word)
            return {"status": 500, "value": json.dumps({"value": {"error": word, "message": text[:600]}})}

    def done(self, command, words):
        if command in SCRIPTS:
            return self.bidi.call(self.tab, SCRIPTS[command].format(words["script"]), words["args"])
        if command == Command.NEW_SESSION:
            return self.session
        if command == Command.QUIT:
            return self.end()
        if command == Command.CLICK_ELEMENT:
            return self.click(words)
        if command == Command.SEND_KEYS_TO_ELEMENT:
            words["text"] = released(words["text"])
        if command in CHILDREN:
            words["element"] = words.pop("id")
        given = self.marionette.ask(COMMANDS[command], words)
        if command == Command.SWITCH_TO_WINDOW:
            self.tab = words["handle"]
        return given

    def click(self, words):
        """Clicks, and again where the page moved just then."""
        for _ in range(CLICKS):
            self.bidi.call(self.tab, AIM, [{ELEMENT: words["id"]}])
            self.marionette.ask("ElementClick", {"id": words["id"]})
            if self.bidi.call(self.tab, HIT, []):
                return
        raise Failed("element click intercepted", f"{CLICKS} clicks fell elsewhere: {self.bidi.call(self.tab, FELL, [])}")

    def end(self):
        self.process.terminate()
        try:
            self.process.wait(PATIENCE)
        except subprocess.TimeoutExpired:
            self.process.kill()
            self.process.wait()

    def close(self):
        for one in (self.marionette, self.bidi):
            one.socket.close()


class Firefox(Screen):
    """A window of Firefox without a screen, with a profile of its own in a folder."""

    def start(self):
        profile = self.room / "firefox"
        profile.mkdir()
        settings = {**SETTINGS, "browser.download.dir": str(self.room / "downloads")}
        (profile / "user.js").write_text("".join(f"user_pref({json.dumps(name)}, {json.dumps(value)});\n" for name, value in settings.items()))
        self.connection = Connection(self.room, profile)
        return webdriver.Remote(command_executor=self.connection, options=NoOptions())

    def watch_tab(self):
        """(each tab is watched already)"""

    def bring_to_front(self):
        """(a tab that is switched to is in front)"""

    def size(self, width, height):
        self.connection.bidi.ask("browsingContext.setViewport", context=self.connection.tab, viewport={"width": width, "height": height})

    def console(self):
        """The lines of the console since the last look: whether one is a fault, and its text."""
        self.connection.bidi.ask("session.status")
        events = self.connection.bidi.events[:]
        self.connection.bidi.events.clear()
        return [(one["params"]["level"] == "error", one["params"]["text"]) for one in events if one.get("method") == "log.entryAdded"]

    def printed(self, width, height):
        page = {"width": width, "height": height}
        return base64.b64decode(self.driver.execute(Command.PRINT_PAGE, {"page": page, "background": False})["value"])


class NoOptions(ArgOptions):
    """(what is wanted of Firefox is told to it when it begins)"""

    def to_capabilities(self):
        return {"browserName": "firefox"}

    @property
    def default_capabilities(self):
        return {}
