"""Copies and altered ones, given to the checker of the pages and to `labdesk check` alike."""
import base64
import csv
import hashlib
import io
import pathlib
import random
import subprocess

from room import TOP, labdesk, say

# Runs the checker over copies, each in base64, and gives a line for each.
CHECKED = """
const done = arguments[arguments.length - 1];
import("/pages/checking.js").then(async ({ checked_copy, line_of }) => {
    const lines = [];
    for (const text of arguments[0]) {
        lines.push(line_of(await checked_copy(Uint8Array.from(atob(text), (one) => one.charCodeAt(0)))));
    }
    done(lines);
}).catch((fault) => done([String(fault)]));
"""
MUTATIONS = 400
BYTES = (b"", b",", b'"', b'""', b"\r", b"\n", b"\r\n", b"\xff", b"\xc3\xbc", b"\xef\xbb\xbf", b"0", b"1", b"a", b"-", b" ", b"\0", b"\x7f",
         b"copy,", b"end,")


def lines_of_page(screen, copies):
    return screen.driver.execute_async_script(CHECKED, [base64.b64encode(one).decode() for one in copies])


def line_of_program(program, copy):
    status, printed = labdesk(program, ["check"], copy)
    good = printed.startswith("good ")
    return printed.rstrip("\n") if status == (0 if good else 1) else f"{printed!r}, status {status}"


def altered_copies(room):
    """The copies of tests/copies, each with the line that is wanted of it."""
    folder = pathlib.Path(room) / "altered"
    folder.mkdir(parents=True)
    subprocess.run([TOP / "tests/copies", "--into", folder], check=True, stdout=subprocess.DEVNULL)
    numbers = sorted(int(one.stem) for one in folder.glob("*.csv"))
    return [((folder / f"{n}.csv").read_bytes(), (folder / f"{n}.wanted").read_text().rstrip("\n")) for n in numbers]


def mutated(copy, chance):
    """The copy with one to three places changed, or with rows left out, doubled or exchanged, or cut, by chance."""
    if chance.random() < 0.4:
        rows = copy.splitlines(keepends=True)
        first, second = sorted(chance.sample(range(1, len(rows)), 2))
        rows[first:second + 1] = chance.choice(([], rows[first:first + 1], rows[first:second + 1] * 2, rows[first:second + 1][::-1]))
        return b"".join(rows)[:chance.choice((None, None, None, -chance.randrange(1, 99)))]
    for _ in range(chance.randint(1, 3)):
        at = chance.randrange(len(copy))
        copy = copy[:at] + chance.choice(BYTES) + copy[at + chance.randrange(3):]
    return copy


def look_at_altered(screen, program, room):
    """All altered copies of tests/copies: both checkers find what that test wants."""
    copies = altered_copies(room)
    wanted = [line for _, line in copies]
    there = lines_of_page(screen, [copy for copy, _ in copies])
    also = [line_of_program(program, copy) for copy, _ in copies]
    differing = [(line, mine, its) for line, mine, its in zip(wanted, there, also) if not line == mine == its]
    words = {line.split()[1] for line in wanted if line.startswith("bad")}
    say(len(copies) > 100 and len(there) == len(copies) and words == {"bad_row", "order", "digest", "seal", "one_person", "no_end"},
        f"{len(copies)} copies of tests/copies, with each flaw: {sorted(words)}")
    say(not differing, f"the page and labdesk check find of each what is wanted {differing[:3] or ''}".rstrip())


# ---- copies whose hashes are right, and whose persons, meanings and states aren't

KIND, RECORD, VERSION, KEY, VALUE, UNIT, PERSON, NAME, MOMENT, REASON, DIGEST, SEAL = 0, 2, 3, 4, 5, 6, 7, 8, 9, 10, 11, 12
PERSONS = ("dan", "eve", "fay", "gus")
MEANINGS = ("authorship", "review", "rejection", "approval")
STATES = ("open", "signed", "reviewed", "released", "rejected")


def sha256(items):
    return hashlib.sha256("".join(f"{len(item)}:{item}\n" for item in items).encode("latin-1")).hexdigest()


def altered_row(row, chance):
    """Another person, meaning, state or wish for approval in a row; or no such row."""
    row = list(row)
    if row[KIND] == "version":
        place, words = chance.choice(((VALUE, STATES), (NAME, ("", "approval"))))
        row[place] = chance.choice(words)
    elif row[KIND] in ("entry", "signature"):
        row[PERSON] = chance.choice(PERSONS)
        if row[KIND] == "signature" and chance.random() < 0.4:
            row[VALUE] = chance.choice(MEANINGS)
            row[REASON] = "not so" if row[VALUE] == "rejection" else ""
        if chance.random() < 0.2:
            return []
    return row


def hashed(rows):
    """The rows with digests, seals and the counts of the end row as they have to be."""
    version = record = entries = previous = None
    for at, row in enumerate(rows):
        if row[KIND] == "record":
            record = row
        elif row[KIND] == "version":
            previous, version = version and version[DIGEST], row
            entries = [one for one in rows[at + 1:] if one[KIND] == "entry" and one[RECORD:KEY] == row[RECORD:KEY]]
            items = [f"labrecord {row[KEY]}", row[1], row[RECORD], row[VERSION], record[KEY], record[VERSION]]
            items += [] if row[KEY] == "1" else ["yes" if row[NAME] else "no"]
            items += [record[VALUE], "-" if row[VERSION] == "1" else previous, row[REASON], row[PERSON], row[MOMENT], str(len(entries))]
            row[DIGEST] = sha256([*items, *(one[place] for one in entries for place in (KEY, VALUE, UNIT, PERSON, MOMENT, REASON))])
        elif row[KIND] == "signature":
            row[DIGEST] = version[DIGEST]
            row[SEAL] = sha256([row[DIGEST], row[1], row[PERSON], row[NAME], row[VALUE], row[MOMENT], row[REASON]])
        elif row[KIND] == "end":
            row[2:6] = [str(sum(one[KIND] == kind for one in rows)) for kind in ("record", "version", "entry", "signature")]
    return rows


def hashed_anew(copy, chance):
    """The copy with one to three rows altered, and all hashes made anew."""
    rows = list(csv.reader(io.StringIO(copy.decode("latin-1"), newline="")))
    for at in chance.sample(range(2, len(rows)), min(chance.randint(1, 3), len(rows) - 2)):
        rows[at] = altered_row(rows[at], chance)
    out = io.StringIO(newline="")
    csv.writer(out, lineterminator="\n").writerows(hashed([row for row in rows if row]))
    return out.getvalue().encode("latin-1")


def look_at_mutated(screen, program, room):
    """Copies altered by chance, in bytes, or in persons and meanings with hashes made anew: both checkers find the same of each."""
    chance = random.Random(54)
    sources = [copy for copy, line in altered_copies(room / "again") if line.startswith("good")]
    sources = [copy for copy in sources if copy.startswith(b"kind,") and b"record," in copy and b"\r" not in copy]
    sources += [(TOP / "examples/copy.csv").read_bytes()]
    # (where three persons sign there are more ways to go wrong)
    sources += 4 * [copy for copy in sources if b",approval,," in copy]
    for what, change, wanted in (("in bytes and rows", mutated, {"good", "bad_row", "order", "digest", "seal", "one_person", "no_end"}),
                                 ("in persons and meanings, with hashes made anew", hashed_anew, {"good", "one_person", "order"})):
        copies = [change(chance.choice(sources), chance) for _ in range(MUTATIONS)]
        there = lines_of_page(screen, copies)
        also = [line_of_program(program, copy) for copy in copies]
        differing = [(copy, mine, its) for copy, mine, its in zip(copies, there, also) if mine != its]
        kinds = {line.split()[1] if line.startswith("bad") else "good" for line in also}
        say(len(there) == MUTATIONS and kinds >= wanted, f"{MUTATIONS} copies altered by chance {what} come to {sorted(kinds)}")
        say(not differing, f"the page and labdesk check find the same of each {differing[:2] or ''}".rstrip())
