"""The files of schema 2 of tests/old, which another program wrote, and what each laboratory in them is, as one of
tests/model/laboratory.py: with text format 1, and without approvals.
"""
import json
import os
import tarfile

from laboratory import Thing, digest_of
from streams import Stream

ROOT = os.path.dirname(os.path.dirname(os.path.dirname(os.path.abspath(__file__))))
GOOD = ["S-strict", "S-peer", "rich-strict", "rich-peer", "random-11", "random-12"]
# The words that a refusal of each number is printed with.
WORDS = {60: "not_a_desk_file", 61: "schema_old 1", 62: "schema_new 3", 63: "storage", 66: "not_sound aqua"}
# What stands in place of a number where the file is moved.
MOVED = "moved"
# Whose session lives at the laboratory's last moment and may read all of it, and the first of the words that opened it. (The token of a
# session is four words, and a file has the SHA-256 of it.)
READERS = {
    "S": {"aqua": ("hal", 100_352)},
    "rich": {"aqua": ("gus", 100_704), "brick": ("gus", 101_328)},
    "random-11": {"aqua": ("so-169", 910_685_692_195), "brick": ("nx968", 910_493_684_240), "c": ("sx363", 910_577_687_977)},
    "random-12": {"aqua": ("lan562", 588_392_443_884), "brick": ("ria-of-long652", 588_441_445_923), "c": ("mx842", 588_355_441_892)},
}


def unpack(room):
    for archive in ("files", "loosened"):
        with tarfile.open(f"{ROOT}/tests/old/{archive}.tar.xz") as files:
            for one in files:
                with open(f"{room}/{one.name}", "wb") as out:
                    out.write(files.extractfile(one).read())


def answers(kind):
    """What is answered for each file of a kind, by the file's name."""
    with open(f"{ROOT}/tests/old/{kind}.answers") as lines:
        return {f"{kind}-{name}": answer for answer, name in map(str.split, lines)}


def spoiled():
    """The number of the refusal of each file that is refused, by the file's name."""
    return {name: int(answer) for kind in ("spoiled", "loosened") for name, answer in answers(kind).items() if answer != MOVED}


def loosened_and_good():
    """The files whose tables say less than those of schema 2, or say it in other words, and that are moved."""
    return [name for name, answer in answers("loosened").items() if answer == MOVED]


def story_of(name):
    """The name of what a file holds: those that differ in their tables alone hold the same."""
    return "rich" if name.startswith("loosened-") else name.removesuffix("-strict").removesuffix("-peer")


def laboratories(room, name):
    """The laboratories of that file, by their codes."""
    with open(f"{room}/{story_of(name)}.labs.json") as text:
        return {code: laboratory_of(kept) for code, kept in json.load(text).items()}


def stream(room, name):
    """The same as a stream without events, in which the readers have their sessions."""
    s = Stream()
    s.labs, s.next_word = laboratories(room, name), 40_000
    for lab, (_, words) in READERS[story_of(name)].items():
        s.tokens[lab, "reader"] = words
    return s


# ---- a laboratory out of what the other program says of it


def laboratory_of(kept):
    lab = Thing(code=kept["code"], name=kept["name"], last=kept["last"], strays=kept["stray"], persons=[person_of(p) for p in kept["persons"]],
                sessions=[Thing(**s) for s in kept["sessions"]], forms=[form_of(f) for f in kept["forms"]], records=[],
                trail=[Thing(**{**t, "person": t["person"] or None}) for t in kept["trail"]])
    for r in kept["records"]:
        lab.records.append(record_of(lab, r))
    return lab


def verifier_of(kept):
    return kept["salt"], kept["rounds"], kept["bytes"]


def person_of(p):
    given, ask = p["password"], p["ask"]
    if given is None:
        password = None
    elif "verifier" in given:
        password = ("chosen", verifier_of(given["verifier"]), given["changed"])
    else:
        password = ("one-time", verifier_of(given["first"]), verifier_of(given["second"]), given["confirmed"])
    return Thing(code=p["code"], name=p["name"], roles=set(p["roles"]), retired=p["retired"], failures=p["failures"], locked=p["locked"],
                 password=password, ask=ask and (ask["asker"], ask["asked"], verifier_of(ask["verifier"])))


def field_of(f):
    own = {"number": {"unit": f["unit"], "decimals": f["decimals"], "min": f["low"], "max": f["high"]}, "text": {"size": f["size"]},
           "choice": {"choices": f["choices"]}}.get(f["kind"], {})
    members = {**{name: f[name] for name in ("key", "label", "required", "kind")}, **own}
    return {name: value for name, value in members.items() if value is not None}


def form_of(f):
    assert f["approval"] is False
    return Thing(code=f["code"], version=f["version"], approval=False, fields=[field_of(one) for one in f["fields"]])


def record_of(lab, r):
    form = next(f for f in lab.forms if (f.code, f.version) == (r["form"], r["form_version"]))
    record = Thing(number=r["number"], form=form, sample=r["sample"], versions=[])
    for v in r["versions"]:
        assert v["format"] == 1
        previous = digest_of(lab, record, record.versions[-1]) if record.versions else None
        rows = [Thing(**{**row, "reason": row["reason"] or None}) for row in v["rows"]]
        record.versions.append(Thing(number=v["number"], format=1, previous=previous, reason=v["reason"] or None, approval=False, opener=v["opener"],
                                     opened=v["opened"], rows=rows, signatures=[Thing(**one) for one in v["signatures"]]))
    return record
