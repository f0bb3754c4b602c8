"""A record on paper, and an inspection copy taken, saved, joined and checked."""
import re

from copying import line_of_program
from room import same, say

A4, LETTER = (21.0, 29.7), (21.59, 27.94)


def boxes_of(pdf):
    """The sizes of the pages of a PDF, in points."""
    return [tuple(map(float, box.split()[2:])) for box in re.findall(r"/MediaBox ?\[ ?([^]]*?) ?\]", pdf.decode("latin-1"))]


def look_at_paper(day, record=1):
    """What 21 CFR 11.50(b) wants on paper: printed name, date and time, and meaning of each signature; and values, altered ones, digests."""
    screen = day.screen
    day.to_record(record)
    screen.do("paper")
    for name, (width, height) in (("A4", A4), ("Letter", LETTER)):
        boxes = boxes_of(screen.printed(width, height))
        wanted = (width / 2.54 * 72, height / 2.54 * 72)
        good = boxes and all(abs(there - want) < 1.5 for box in boxes for there, want in zip(box, wanted))
        say(good, f"record {record} is printed on {name}: {len(boxes)} pages")
    with screen.on_paper():
        text, over = screen.text(), screen.overflow()
        controls = screen.all("button, input, nav a")
        day.picture("paper", plain=True)
    versions = [day.inspector.get(f"records/{record}/versions/{number}") for number in (1, 2)]
    lacking = [one for one in wanted_on_paper(versions) if one not in text]
    what = "on it are each signature's printed name, moment and meaning, the values, those that were altered, and the digests"
    say(not lacking, f"{what} {lacking[:3] or ''}".rstrip())
    same("and no control of the page, nor anything cut off", ([one.text for one in controls], over), ([], 0))


def wanted_on_paper(versions):
    for version in versions:
        yield version["digest"]
        yield version["sample"]
        for row in version["rows"]:
            yield from (row["value"].split("\n")[0], row["person"], shown_moment(row["moment"]))
        for one in version["signatures"]:
            yield from (one["name"], shown_moment(one["moment"]), one["meaning"], one["seal"])


def shown_moment(text):
    return f"{text[:10]} {text[11:19]} UTC"


# ---- copies


def take_and_save(day):
    """The copies of a range, saved as the server gave them but for the moment of its copy row."""
    screen = day.screen
    screen.go("#/copies")
    form = screen.one('form[data-form="take_an_inspection_copy"]')
    screen.fill(form, **{"from": "1", "to": "100"})
    screen.do("take_an_inspection_copy", form)
    screen.wait(lambda: screen.parts("verdict"), "the copy is there")
    day.picture("copies")
    screen.do("save")
    (name, saved), = screen.downloaded().items()
    wanted = day.inspector.copy(1, 4).splitlines()
    lines = saved.splitlines()
    same(f"{name} is the server's copy", (lines[:1], lines[2:]), (wanted[:1], wanted[2:]))
    return saved


def check(day, room, copy):
    """The line that the page gives of a file, and how many requests that took."""
    screen = day.screen
    path = room / "copy.csv"
    path.write_bytes(copy)
    before = screen.run("return performance.getEntriesByType('resource').length")
    screen.fill(copy=path)
    screen.do("check_a_copy")
    screen.wait(lambda: screen.parts("verdict"), "the verdict is there")
    return screen.part("verdict"), screen.run("return performance.getEntriesByType('resource').length") - before


def look_at_copies(day, program, room):
    screen = day.screen
    saved = take_and_save(day)
    screen.go("#/checking")
    wanted = line_of_program(program, saved)
    same("the page finds of the copy what labdesk check finds, and asks no server", check(day, room, saved), (wanted, 0))
    say(wanted.startswith("good "), f"it is {wanted}")
    older = re.sub(rb"\d{4}-\d\d-\d\dT\d\d:\d\d:\d\dZ", b"1970-01-01T00:00:00Z", saved, count=1)
    wanted = line_of_program(program, older)
    same("a copy that says it is older than its rows", check(day, room, older), (wanted, 0))
    there = screen.run("return [...document.querySelectorAll('[data-part=remarks] [data-remark]')].map((one) => one.dataset.remark)")
    same(f"it is {wanted}, and each of its rows has a remark", there, ["after_copy"] * min(100, sum(map(int, wanted.split()[2:]))))
    altered = saved.replace(b"Fay Fox", b"Fay Fax", 1)
    wanted = line_of_program(program, altered)
    same("one letter of a printed name changed", check(day, room, altered), (wanted, 0))
    say(re.fullmatch(r"bad seal \d+", wanted), f"it is {wanted}, and the row is said: {screen.one('[data-verdict]').text!r}")
    day.picture("checking")
