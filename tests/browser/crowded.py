"""More records than a reply has, and what nginx says where the server can't."""
import csv
import io

from copying import line_of_program
from room import Asker, found, let_in, password_of, same, say
from seeing import RECORDS, TRAIL, seen

LAB, COUNT = "many", 205
FOUNDERS = [(code, f"{code.title()} Many", f"correct horse {code}") for code in ("ann", "bob", "cid")]


def found_many(program, file):
    found(program, file, LAB, "Many Lab", FOUNDERS)


def fill(port):
    """Some two hundred records, each with a value; every other one is signed. Gives the inspector's session."""
    ann, bob = (Asker(port, LAB, code, password) for code, _, password in FOUNDERS[:2])
    for code, roles in (("dan", ["analyst"]), ("gus", ["manager"]), ("hal", ["inspector"])):
        let_in(ann, bob, code, f"{code.title()}, \"{code}\"", roles)
    dan, gus, hal = (Asker(port, LAB, code, password_of(code)) for code in ("dan", "gus", "hal"))
    field = {"key": "note", "label": "Note", "required": True, "kind": "text", "size": 200}
    gus.post("forms", form="notes", fields=[field])
    for number in range(1, COUNT + 1):
        dan.post("records", form="notes", sample=f"Sample, {number}")
        dan.post("entries", record=number, key="note", value=f'line 1, "{number}"\nline 2', unit="")
    return hal


def look_at_lists(screen, hal):
    screen.load()
    screen.open_session(lab=LAB, code="hal", password=password_of("hal"))
    screen.go("#/records")
    same("the newest hundred records", [one["record"] for one in seen(screen, RECORDS)], list(range(COUNT, COUNT - 100, -1)))
    # (a second click while the first one loads does nothing)
    screen.run("arguments[0].click(); arguments[0].click();", screen.one('[data-do="load_more"]'))
    screen.wait(lambda: len(seen(screen, RECORDS)) > 100, "more records are there")
    screen.settle()
    same("a hundred more, also by a double click", [one["record"] for one in seen(screen, RECORDS)], list(range(COUNT, COUNT - 200, -1)))
    screen.do("load_more")
    screen.wait(lambda: len(seen(screen, RECORDS)) > 200, "all records are there")
    wanted = [one["sample"] for first in (201, 101, 1) for one in reversed(hal.get(f"records?from={first}&to={first + 99}")["records"])]
    same("and then all of them", [one["sample"] for one in seen(screen, RECORDS)], wanted)
    screen.fill(screen.one('form[data-form="filter"]'), sample="sample, 20")
    there = [one["record"] for one in seen(screen, RECORDS)]
    same("filtered by a part of the sample, among all that are loaded", there, [205, 204, 203, 202, 201, 200, 20])
    screen.go("#/trail")
    form = screen.one('form[data-form="read_the_trail"]')
    screen.fill(form, **{"from": "1", "to": "250"})
    screen.do("read_the_trail", form)
    same("a range of the trail that several replies have", [row[0] for row in seen(screen, TRAIL)], list(range(250, 0, -1)))


def rows_of(copy):
    return list(csv.reader(io.StringIO(copy.decode(), newline="")))


def look_at_copies_of_many(screen, program, hal):
    """A copy of each hundred, saved as the server gave it; and one file of all."""
    screen.go("#/copies")
    form = screen.one('form[data-form="take_an_inspection_copy"]')
    screen.fill(form, **{"from": "1", "to": str(COUNT)})
    screen.do("take_an_inspection_copy", form)
    screen.wait(lambda: len(screen.parts("verdict")) == 3, "three copies are taken")
    same("each copy is good", screen.parts("verdict"), ["good 100 100 100 0"] * 2 + ["good 5 5 5 0"])
    screen.do("save_all")
    saved = screen.downloaded(3)
    ranges = ((1, 100), (101, 200), (201, COUNT))
    differing = [name for name, (first, last) in zip(sorted(saved, key=lambda one: int(one.split("-")[1])), ranges)
                 if saved[name].splitlines()[2:] != hal.copy(first, last).splitlines()[2:]]
    same(f"{sorted(saved)} are the server's copies", (len(saved), differing), (3, []))
    screen.do("save_joined")
    (name, joined), = screen.downloaded().items()
    same(f"labdesk check of {name}", line_of_program(program, joined), f"good {COUNT} {COUNT} {COUNT} 0")
    wanted = [row for first, last in ranges for row in rows_of(hal.copy(first, last))[2:-1]]
    rows = rows_of(joined)
    same("its rows are those of the three", (rows[2:-1], rows[1][:5]), (wanted, ["copy", LAB, "1", str(COUNT), "2"]))


def look_at_many(screen, program, port):
    hal = fill(port)
    look_at_lists(screen, hal)
    look_at_copies_of_many(screen, program, hal)


# ---- what nginx says


def look_at_too_often(screen):
    """Too many openings from one address: nginx refuses, and the page says so in words."""
    screen.load()
    for _ in range(40):
        screen.fill(lab=LAB, code="nobody", password="not the right one")
        screen.do("open_a_session")
        if screen.refusal() != "credentials":
            break
    same("too many openings are refused", screen.refusal(), "too_often")
    say(len(screen.one("[data-refusal]").text) > 40, f"in words: {screen.one('[data-refusal]').text!r}")


def look_at_no_server(screen, served):
    """Where nobody answers, what was typed stays, and the page says what to do."""
    screen.load()
    screen.fill(lab=LAB, code="dan", password=password_of("dan"))
    served.stop()
    screen.do("open_a_session")
    there = [screen.one(f'[name="{name}"]').get_attribute("value") for name in ("lab", "code")]
    same("nobody answers", (screen.refusal(), there), ("no_reply", [LAB, "dan"]))
    say(len(screen.one("[data-refusal]").text) > 40, f"in words: {screen.one('[data-refusal]').text!r}")
