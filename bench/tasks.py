#!/usr/bin/env python3
"""The tasks of a day at the pages, in a browser: clicks, keys, requests, seconds, and the height of the page.

    bench/tasks.py [PROGRAM]

PROGRAM is the proved one where none is given. It founds a laboratory, starts ./labdesk-pages over it, and Debian's chromium without a
window of 1,280 by 900 pixels, and does each task as a person does who types fast. A click is one of the mouse; a key is one that goes
down, also one that is typed; a request is one to the server. The height is that of the page on which the task begins. The seconds are
those of a script that waits for each page.
"""
import pathlib
import sys
import tempfile
import time

TOP = pathlib.Path(__file__).resolve().parent.parent
sys.dont_write_bytecode = True
sys.path[:0] = [str(TOP / "tests/browser"), str(TOP / "tests/model")]
from wanted import prepare  # noqa: E402

LAB = "tasks"
FOUNDERS = [(code, f"{code.title()} Tasks", f"correct horse {code}") for code in ("ann", "bob", "cid")]
RECORDS = 1_500
COUNTED = """
window.counted = { clicks: 0, keys: 0, requests: 0 };
addEventListener("click", ({ detail, isTrusted }) => { window.counted.clicks += isTrusted && detail > 0 ? 1 : 0; }, { capture: true });
addEventListener("keydown", ({ key }) => { window.counted.keys += ["Shift", "Control"].includes(key) ? 0 : 1; }, { capture: true });
const fetch_it = window.fetch.bind(window);
window.fetch = (...words) => {
    window.counted.requests += 1;
    return fetch_it(...words);
};
window.print = () => {};
"""


def number_field(key, label):
    return {"key": key, "label": label, "required": True, "kind": "number", "unit": "mg/L", "decimals": 2, "min": "0", "max": "50"}


class Tasks:
    def __init__(self, screen, port):
        from room import Asker, let_in, password_of
        self.screen, self.password_of = screen, password_of
        self.of = {code: Asker(port, LAB, code, password) for code, _, password in FOUNDERS}
        for code, roles in (("dan", ["analyst"]), ("eve", ["reviewer"]), ("gus", ["manager"])):
            let_in(self.of["ann"], self.of["bob"], code, f"{code.title()} Tasks", roles)
            self.of[code] = Asker(port, LAB, code, password_of(code))
        for form, count in (("ten", 10), ("five", 5), ("one", 1)):
            self.of["gus"].post("forms", form=form, approval=False, fields=[number_field(f"k{at}", f"Amount {at}") for at in range(count)])
        self.rows = []

    def come(self, code):
        self.screen.load()
        self.screen.open_session(lab=LAB, code=code, password=self.password_of(code))
        self.screen.run(COUNTED)

    def go(self, place):
        self.screen.run("location.hash = arguments[0]", place)
        self.screen.settle()

    def task(self, what, work):
        """Counts what a task takes, from the page that is shown on."""
        height = self.screen.run("return document.querySelector('main').scrollHeight")
        before, began = self.screen.run("return { ...window.counted }"), time.monotonic()
        work()
        self.screen.settle()
        seconds = time.monotonic() - began
        after = self.screen.run("return window.counted")
        clicks, keys, requests = (after[name] - before[name] for name in ("clicks", "keys", "requests"))
        print(f"| {what} | {clicks} | {keys:,} | {requests:,} | {height:,} | {seconds:.1f} |", flush=True)

    def sign(self, act, code=None):
        """What is signed has the focus already, or is clicked."""
        screen = self.screen
        if screen.run("return document.activeElement.dataset.do") == act:
            screen.press(screen.keys.ENTER)
        else:
            screen.click(screen.one(f'[data-do="{act}"]'))
        screen.wait(lambda: screen.place().endswith(f"/{act}") and screen.all('[name="password"]'), "the signing is shown")
        screen.settle()
        if code:
            screen.click(screen.one('[name="code"]'))
            screen.press(code, screen.keys.TAB)
        else:
            screen.click(screen.one('[name="password"]'))
        screen.press(self.password_of("dan"), screen.keys.ENTER)
        screen.wait(lambda: not screen.place().endswith(f"/{act}"), "the record is shown again")

    # ---- the tasks

    def ten_results(self):
        screen = self.screen
        self.of["dan"].post("records", form="ten", sample="Ten 1")
        self.go("#/records/1")

        def enter():
            screen.one('[data-key="k0"] [name="value"]').click()
            for at in range(10):
                screen.press(f"{at}.25", screen.keys.ENTER)
        self.task("enter 10 results into an open record", enter)
        screen.wait(lambda: len(self.of["eve"].get("records/1/versions/1")["rows"]) == 10, "all are entered")
        self.task("sign them as the author", lambda: self.sign("authorship", "dan"))

    def five_samples(self):
        screen = self.screen

        def one_after_the_other():
            for at in range(1, 6):
                if at == 1:
                    screen.click(screen.one('a[href="#/opening"]'))
                    screen.settle()
                    screen.press("one", screen.keys.TAB)
                else:
                    screen.click(screen.one('[data-do="open_another"]'))
                    screen.settle()
                screen.press(f"Five {at}", screen.keys.ENTER)
                screen.wait(lambda: screen.place().startswith("#/records/"), "the record is shown")
                screen.settle()
                screen.press("7.05", screen.keys.ENTER)
                screen.wait(lambda: screen.run("return document.activeElement.dataset.do") == "authorship", "the value is entered")
                self.sign("authorship")
                screen.settle()
        self.go("#/records")
        self.task("open 5 samples, enter a result in each, and sign", one_after_the_other)

    def grid(self):
        screen = self.screen
        self.go("#/grid/five")

        def type_all():
            keys = screen.keys
            for column in range(6):
                screen.one(f'tr[data-at="1"] {"[name=sample]" if not column else f"""[data-key="k{column - 1}"] [name="value"]"""}').click()
                for row in range(20):
                    screen.press(f"Grid {row + 1}" if not column else f"{row}.{column}5")
                    if row < 19:
                        screen.press(keys.ENTER)
            screen.press(keys.CONTROL + keys.ENTER + keys.NULL)
            screen.wait(lambda: len(screen.all('[data-outcome="entered"]')) == 100, "all is entered")
        for _ in range(3):
            screen.do("add_rows")
        self.task("type 20 samples of 5 fields in the grid, and enter all", type_all)

    def review(self):
        screen = self.screen

        def ten():
            screen.click(screen.one('[data-part="waiting"] [data-do="review"]'))
            for at in range(10):
                screen.wait(lambda: screen.place().endswith("/review/next") and screen.run("return document.activeElement.name") in ("code", "password"), "the next one is shown")
                screen.settle()
                before = screen.place()
                if at == 0:
                    screen.press("eve", screen.keys.TAB)
                screen.press(self.password_of("eve"), screen.keys.ENTER)
                screen.wait(lambda: screen.place() != before, "it is signed")
        self.task("review 10 records that wait, from the day on", ten)

    def find(self):
        screen = self.screen
        self.go("#/records")

        def look():
            screen.click(screen.one('[data-do="look_through"]'))
            screen.click(screen.one('[name="sample"]'))
            screen.press("Kept 77 ")
            screen.wait(lambda: screen.all('a[href^="#/records/"] bdi') and len(screen.all("tr[data-record]")) == 1, "it is found")
            screen.settle()
            screen.click(screen.one("tr[data-record] a"))
        self.task(f"find a record by its sample among {RECORDS:,}", look)
        self.task("print it", lambda: screen.click(screen.one('[data-do="print"]')))

    def fill(self):
        """Records that wait for a review, and many others."""
        for at in range(10):
            record = self.of["dan"].post("records", form="one", sample=f"Waits {at}")["record"]
            self.of["dan"].post("entries", record=record, key="k0", value="7", unit="mg/L")
            version = self.of["dan"].get(f"records/{record}")["versions"][-1]
            self.of["dan"].post("signatures", record=record, version=1, digest=version["digest"], meaning="authorship", code="dan",
                                password=self.password_of("dan"))

    def fill_more(self):
        last = self.of["dan"].post("records", form="one", sample="Kept 0 ..")["record"]
        for at in range(1, RECORDS - last + 1):
            self.of["dan"].post("records", form="one", sample=f"Kept {at} ..")


def main():
    prepare("bench/tasks")
    from room import found, program_of, serving
    from screen import Screen
    program = program_of(sys.argv[1:])
    with tempfile.TemporaryDirectory(prefix="labdesk-browser.") as folder:
        room = pathlib.Path(folder)
        found(program, room / "laboratories", LAB, "Tasks Lab", FOUNDERS)
        with serving(program, room / "laboratories") as served:
            screen = Screen(served.address, room)
            try:
                tasks = Tasks(screen, served.port)
                print("| Task | Clicks | Keys | Requests | Pixels of height | Seconds |\n|---|---|---|---|---|---|")
                tasks.come("dan")
                tasks.ten_results()
                tasks.five_samples()
                tasks.grid()
                tasks.fill()
                tasks.come("eve")
                tasks.review()
                tasks.fill_more()
                tasks.come("eve")
                tasks.find()
            finally:
                screen.close()


if __name__ == "__main__":
    main()
