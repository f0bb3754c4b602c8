#!/usr/bin/env python3
"""The pages in a browser, over nginx: bytes, the first screen, an entry from the key to the reply on the screen, and the check of a copy.

    bench/pages.py [PROGRAM]

PROGRAM is the proved one where none is given. It starts ./labdesk-pages over its sample laboratory, and Debian's chromium without a
window, as tests/pages does. Times are in milliseconds: the least and the median of the rounds.
"""
import http.client
import json
import pathlib
import statistics
import subprocess
import sys
import tempfile
import time

TOP = pathlib.Path(__file__).resolve().parent.parent
sys.dont_write_bytecode = True
sys.path[:0] = [str(TOP / "tests/browser"), str(TOP / "tests/model")]
from wanted import prepare  # noqa: E402

ROUNDS = 15
MEGABYTES = (1, 10)
LATENCY, BYTES_A_SECOND = 150, 200_000
CHECKED = """
const done = arguments[arguments.length - 1];
import("/pages/checking.js").then(async ({ checked_copy, line_of }) => {
    const bytes = new Uint8Array(await arguments[0].files[0].arrayBuffer());
    const start = performance.now();
    const line = line_of(await checked_copy(bytes));
    done([performance.now() - start, line]);
});
"""
PAINTED = """
const done = arguments[arguments.length - 1];
const look = () => {
    const painted = performance.getEntriesByName("first-contentful-paint")[0];
    const shown = document.querySelector("main h1");
    if (!painted || !shown || document.querySelector("[aria-busy]")) return setTimeout(look, 5);
    const all = [...performance.getEntriesByType("navigation"), ...performance.getEntriesByType("resource")];
    done([performance.now(), painted.startTime, Math.max(...all.map((one) => one.responseEnd)), all.length,
        all.reduce((sum, one) => sum + one.transferSize, 0), all.reduce((sum, one) => sum + one.decodedBodySize, 0)]);
};
look();
"""
# Notes when the key goes down, and when one more entry has been painted.
WATCHED = """
window.timed = null;
const count = () => document.querySelectorAll("tr[data-entry]").length;
const before = count();
document.addEventListener("keydown", (event) => {
    if (event.key !== "Enter" || count() > before) return;
    const start = performance.now();
    const observer = new MutationObserver(() => {
        if (count() <= before) return;
        observer.disconnect();
        requestAnimationFrame(() => setTimeout(() => { window.timed = performance.now() - start; }));
    });
    observer.observe(document.body, { childList: true, subtree: true });
}, { capture: true });
"""
ASKED = """
const done = arguments[arguments.length - 1];
const [token, entry] = arguments;
const start = performance.now();
fetch("/labs/aqua/entries", { method: "POST", headers: { Authorization: `LabSession ${token}` }, body: JSON.stringify(entry) })
    .then((reply) => reply.json()).then((reply) => done(reply.rows ? performance.now() - start : reply.error));
"""


def line(what, figures):
    print(f"{what}: least {min(figures):.1f} ms, median {statistics.median(figures):.1f} ms, of {len(figures)}")


def measure_paint(screen, by):
    """(of a site whose certificate nobody vouches for chromium keeps no file, so each round fetches all)"""
    rounds = []
    for _ in range(ROUNDS):
        screen.driver.get("about:blank")
        screen.driver.get(screen.address)
        rounds.append(screen.driver.execute_async_script(PAINTED))
    for at, what in enumerate(("the first useful screen", "the first paint", "all files there")):
        line(f"{what}, {by}", [one[at] for one in rounds])
    print(f"{rounds[-1][3]} requests, {rounds[-1][4]:,} bytes over the wire, {rounds[-1][5]:,} bytes of files")


def measure_paints(screen):
    measure_paint(screen, "on this machine")
    slow = {"offline": False, "latency": LATENCY, "downloadThroughput": BYTES_A_SECOND, "uploadThroughput": BYTES_A_SECOND}
    screen.driver.execute_cdp_cmd("Network.enable", {})
    screen.driver.execute_cdp_cmd("Network.emulateNetworkConditions", slow)
    measure_paint(screen, f"with {LATENCY} ms a request and {BYTES_A_SECOND // 1000} kB/s")
    screen.driver.execute_cdp_cmd("Network.disable", {})


def entry_of(record, number):
    return {"record": record, "key": "note", "value": f"value {number}", "unit": "", **({"reason": "measured"} if number else {})}


def measure_entry(screen, port):
    from room import Asker, password_of
    from screen import entry_row
    dan = Asker(port, "aqua", "dan", password_of("dan"))
    screen.load()
    screen.fill(lab="aqua", code="dan", password=password_of("dan"))
    screen.do("open_a_session")
    screen.go("#/opening")
    screen.fill(form="water", sample="Measured")
    screen.do("open_a_record")
    screen.wait(lambda: screen.all('[data-key="note"] [name="value"]'), "the record is there")
    record = int(screen.place().rpartition("/")[2])
    shown = []
    for number in range(ROUNDS):
        row = entry_row(screen, "note")
        screen.fill(row, value=f"value {number}", **({"reason": "measured"} if number else {}))
        screen.run(WATCHED)
        screen.one('[name="value"]', row).send_keys(screen.keys.CONTROL, screen.keys.ENTER)
        screen.wait(lambda: screen.run("return window.timed") is not None, "the entry is shown")
        shown.append(screen.run("return window.timed"))
        screen.settle()
    line("an entry, from the key to its row on the screen", shown)
    other = dan.post("records", form="water", sample="Measured beside")["record"]
    line("the same request alone, by the browser over nginx", [screen.driver.execute_async_script(ASKED, dan.token, entry_of(other, n)) for n in range(ROUNDS)])
    third = dan.post("records", form="water", sample="Measured without nginx")["record"]
    line("the same request alone, at the server", [timed(port, dan.token, entry_of(third, n)) for n in range(ROUNDS)])


def measure_check(screen, program, room):
    """Sound copies of ten entries a version, as bench/copying.py has them."""
    import files
    screen.load()
    screen.go("#/checking")
    screen.driver.set_script_timeout(300)
    for megabytes in MEGABYTES:
        path = pathlib.Path(room) / "copy.csv"
        with open(path, "w") as file:
            file.writelines(files.copy_of("aqua", "Aqua Lab", [("dan", "Dan Day"), ("eve", "Eve Ems")], 10, range(1, 10**9 + 1), megabytes * 1_000_000))
        screen.fill(copy=path)
        there = [screen.driver.execute_async_script(CHECKED, screen.one('[name="copy"]')) for _ in range(3)]
        began = time.perf_counter()
        with open(path, "rb") as file:
            printed = subprocess.run([program, "check"], stdin=file, capture_output=True, text=True).stdout.strip()
        proved = (time.perf_counter() - began) * 1000
        assert all(one[1] == printed for one in there), (there, printed)
        print(f"the check of a copy of {megabytes} MB, {printed}: {min(one[0] for one in there):,.0f} ms, the least of 3; labdesk check: {proved:,.0f} ms")


def timed(port, token, entry):
    start = time.perf_counter()
    client = http.client.HTTPConnection("127.0.0.1", port)
    client.request("POST", "/labs/aqua/entries", json.dumps(entry), {"Authorization": f"LabSession {token}"})
    assert "rows" in json.loads(client.getresponse().read())
    return (time.perf_counter() - start) * 1000


def main():
    prepare("bench/pages")
    from room import program_of, serving
    from screen import Screen
    program = program_of(sys.argv[1:])
    with tempfile.TemporaryDirectory(prefix="labdesk-browser.") as room, serving(program) as served:
        screen = Screen(served.address, room)
        try:
            measure_paints(screen)
            measure_entry(screen, served.port)
            measure_check(screen, program, room)
        finally:
            screen.close()


if __name__ == "__main__":
    main()
