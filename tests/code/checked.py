"""The checker of copies without a browser: the copies of tests/copies, and many that are altered by chance, each beside what
examples/check_copy.py finds and remarks on, which follows docs/COPIES.md and is no part of the pages."""
import base64
import importlib.util
import io
import pathlib
import random
import tempfile

import tampered
from copying import altered_copies, hashed_anew, mutated
from said import TOP, same, say

ALTERED = 5_000
FLAWS = {"good", "bad_row", "order", "digest", "seal", "one_person", "no_end"}


def checker():
    about = importlib.util.spec_from_file_location("check_copy", TOP / "examples/check_copy.py")
    module = importlib.util.module_from_spec(about)
    about.loader.exec_module(module)
    return module


def line_of(module, copy):
    try:
        return " ".join(map(str, ["good", *module.check(io.BytesIO(copy)).counts.values()]))
    except module.Bad as flaw:
        return " ".join(map(str, ["bad", *flaw.args]))


def lines_of_page(node, copies):
    verdicts = node.call("checking", "checked_copy", [[{"base64": base64.b64encode(one).decode()}] for one in copies])
    return node.call("checking", "line_of", [[one] for one in verdicts])


# What the script prints of each remark of the page.
REMARKS = {
    "goes_back": "its moment is before that of a row above it", "after_copy": "its moment is after that of the copy",
    "not_of_amendment": "the first value of an amendment has not its person, its moment and its reason",
    "no_reason": "a second value, and no reason", "other_unit": "another unit than this key has elsewhere",
    "nothing_amended": "a signature of an amendment that alters nothing", "same_sample": "record {} has this form and sample, too",
}


def remarks_of_page(node, copies):
    """The lines that the script would print of what the page remarks on, of each copy."""
    found = node.call("remarks", "remarks_on", [[{"base64": base64.b64encode(one).decode()}] for one in copies])
    return [[f"remark row {one['row']}: {REMARKS[one['remark']].format(one['record'])}" for one in those] for those in found]


def look_at_remarks(node, module, what, copies):
    """Copies that are good."""
    wanted = [module.check(io.BytesIO(one)).remarks for one in copies]
    differing = [(mine[:3], its.lines[:3]) for mine, its in zip(remarks_of_page(node, copies), wanted)
                 if (mine[:module.MOST], len(mine)) != (its.lines, its.count)]
    same(f"{len(copies):,} good copies {what}: the page's remarks are those of examples/check_copy.py", differing[:3], [])
    return {one.partition(": ")[2] for its in wanted for one in its.lines}


def look_at_copies(node):
    module, chance = checker(), random.Random(54)
    with tempfile.TemporaryDirectory(prefix="labdesk-pages-copies.") as room:
        told = altered_copies(pathlib.Path(room))
    differing = [(mine, wanted) for mine, (_, wanted) in zip(lines_of_page(node, [one for one, _ in told]), told) if mine != wanted]
    say(len(told) > 100, f"{len(told)} copies of tests/copies")
    same("the page finds of each what that test wants", differing[:4], [])
    sources = [one for one, line in told if line.startswith("good") and one.startswith(b"kind,") and b"record," in one and b"\r" not in one]
    sources += [(TOP / "examples/copy.csv").read_bytes()] + 4 * [one for one in sources if b",approval,," in one]
    for what, change in (("in bytes and rows", mutated), ("in persons and meanings, with hashes made anew", hashed_anew)):
        copies = [change(chance.choice(sources), chance) for _ in range(ALTERED)]
        wanted = [line_of(module, one) for one in copies]
        differing = [pair for pair in zip(lines_of_page(node, copies), wanted) if pair[0] != pair[1]]
        same(f"{ALTERED:,} copies altered by chance {what}: the page finds of each what examples/check_copy.py finds", differing[:4], [])
        kinds = {line.split()[1] if line.startswith("bad") else "good" for line in wanted}
        say(kinds >= (FLAWS if change is mutated else {"good", "one_person", "order"}), f"they come to {sorted(kinds)}")
        look_at_remarks(node, module, f"altered by chance {what}", [one for one, line in zip(copies, wanted) if line.startswith("good")])
    altered = [tampered.copy_of(alteration, moment) for _, alteration, moment, _ in tampered.REMARKED]
    seen = look_at_remarks(node, module, "of which all but one have what no server writes", altered)
    same("each kind of remark was seen", len(seen), len(REMARKS))
