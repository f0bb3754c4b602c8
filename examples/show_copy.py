#!/usr/bin/env python3
"""Shows an inspection copy to people, as a page for a browser or a printer.

    show_copy.py COPY > copy.html

The page shows each text as it is in the copy: nothing is computed, rounded or run. A character that is invisible, or that changes the order
of others, has its code before it, as [U+202E], and no text changes the order of the text around it. A value that another one replaced is
crossed out, with the version that replaced it. The page begins with the verdict of check_copy.py, which lies beside this script, and with
its remarks, if there are any.
"""
import csv
import html
import os
import re
import subprocess
import sys

HEAD = """<!DOCTYPE html>
<html lang="en"><meta charset="utf-8"><title>{title}</title>
<style>
body {{ font: 15px/1.4 sans-serif; margin: 2em }}
table {{ border-collapse: collapse; margin: .3em 0 1em }}
td, th {{ border: 1px solid #999; padding: .15em .5em; text-align: left; white-space: pre-wrap }}
h2 {{ border-top: 2px solid; padding-top: .3em }} h2, h3 {{ break-after: avoid }} tr {{ break-inside: avoid }}
code {{ overflow-wrap: anywhere }}
bdi {{ white-space: pre-wrap }} .unseen {{ unicode-bidi: isolate }}
.unseen::before {{ content: "[" attr(data-code) "]"; font: .75em monospace }}
</style>
"""
# Characters that aren't seen, or that turn the order of others, as pages/unseen.js has them. (A blank is one by the rules of browsers.)
BLANK = "\u00a0\u1680\u2000-\u200a\u202f\u205f\u3000"
WHITE = f"\t-\r \u2028\u2029\ufeff{BLANK}"
BEYOND_ASCII = "[^\0-\x7f\u200c\u200d]"
UNSEEN = re.compile("|".join([
    # Controls, fillers, marks of direction, tags.
    "[\u0080-\u009f\u00ad\u034f\u061c\u115f\u1160\u17b4\u17b5\u180b-\u180f\u200b\u200e\u200f\u2028-\u202e]",
    "[\u2060-\u206f\u2800\u3164\ufeff\uffa0\ufff9-\ufffb\U000e0000-\U000e0fff]",
    # Joiners and variants, but where a letter or a sign beyond ASCII needs them.
    f"(?<!{BEYOND_ASCII})[\u200c\u200d\ufe00-\ufe0f]", f"[\u200c\u200d](?!{BEYOND_ASCII})",
    # Blanks beside blanks, and at the ends.
    f"(?<![^{WHITE}])[{BLANK}]", f"[{BLANK}](?![^{WHITE}])",
]))
REMARKS = "The copy is good by the rules of a check. But no server writes what these rows of it have:"
ENTRIES = ["value of", "value", "unit", "entered by", "moment (UTC)", "reason", ""]
SIGNATURES = ["signature", "printed name", "code", "moment (UTC)", "reason", "seal"]


def pieces_of(text):
    """A text in pieces, in order: each with whether it is seen. Blanks and line feeds at the ends aren't."""
    first, last = len(text) - len(text.lstrip(" \n")), len(text.rstrip(" \n"))
    at = 0
    for place, character in enumerate(text):
        if not first <= place < last or UNSEEN.match(text, place):
            yield text[at:place], True
            yield character, False
            at = place + 1
    yield text[at:], True


def code_of(character):
    return f"U+{ord(character):04X}"


def seen(text):
    """A text where no element can stand: in place of what isn't seen is its code."""
    return "".join(piece if is_seen else f"[{code_of(piece)}]" for piece, is_seen in pieces_of(text))


def given(text):
    """A text of the copy, apart from the order of what stands around it, and with a mark before what isn't seen."""
    pieces = (html.escape(piece) if is_seen else f'<span class="unseen" data-code="{code_of(piece)}">{html.escape(piece)}</span>'
              for piece, is_seen in pieces_of(text))
    return f"<bdi>{''.join(pieces)}</bdi>" if text else ""


def table(what, head, lines):
    """A table whose cells are pieces of the page."""
    if not lines:
        return f"<p>No {what}.</p>\n"
    rows = [f"<tr>{''.join(f'<td>{cell}</td>' for cell in line)}</tr>\n" for line in lines]
    return f"<table><tr>{''.join(f'<th>{name}</th>' for name in head)}</tr>\n{''.join(rows)}</table>\n"


def note_replaced(rows):
    """Each entry of a record that a later one replaced gets the number of that one's version."""
    later = {}
    for row in reversed(rows):
        if row["kind"] == "entry":
            row["replaced"] = later.get(row["key"], "")
            later[row["key"]] = row["version"]


# In a good copy, samples, printed names, units, values and reasons are texts that somebody gave. Everything else is of letters and digits.


def entry_line(row):
    value, note = given(row["value"]), ""
    if row["replaced"]:
        value, note = f"<s>{value}</s>", f"replaced in version {row['replaced']}"
    return [row["key"], value, given(row["unit"]), row["person"], row["moment"], given(row["reason"]), note]


def signature_line(row):
    return [row["value"], given(row["name"]), row["person"], row["moment"], given(row["reason"]), f"<code>{row['seal']}</code>"]


def version_parts(row, rows):
    """A version with its entries and signatures; rows are all of its record."""
    own = [one for one in rows if one["version"] == row["version"]]
    entries, signatures = ([one for one in own if one["kind"] == kind] for kind in ("entry", "signature"))
    yield f"<h3>Version {row['version']}: {row['value']}{', and an approval is required' if row['name'] else ''}</h3>\n"
    because = f", because: {given(row['reason'])}" if row["reason"] else ""
    yield f"<p>Opened by {row['person']} at {row['moment']}{because}.\nDigest <code>{row['digest']}</code></p>\n"
    yield table("entries", ENTRIES, [entry_line(one) for one in entries])
    yield table("signatures", SIGNATURES, [signature_line(one) for one in signatures])


def record_parts(rows):
    about = rows[0]
    note_replaced(rows)
    yield f"<h2>Record {about['record']}: {given(about['value'])}</h2>\n<p>Form {about['key']}, version {about['version']}</p>\n"
    for row in rows:
        if row["kind"] == "version":
            yield from version_parts(row, rows)


def main(words):
    if words in (["-h"], ["--help"]):
        print(__doc__.strip())
        return 0
    if len(words) != 1 or words[0].startswith("-"):
        print(__doc__, file=sys.stderr)
        return 2
    beside = os.path.dirname(os.path.realpath(__file__))
    found = subprocess.run([sys.executable, f"{beside}/check_copy.py", words[0]], stdout=subprocess.PIPE, stderr=subprocess.PIPE, text=True)
    if found.returncode:
        sys.stderr.write(found.stderr)
        if found.stdout:
            print(f"show_copy.py: {found.stdout.strip()}: a copy that isn't good isn't shown", file=sys.stderr)
        return found.returncode
    with open(words[0], encoding="utf-8-sig", newline="") as file:
        copy, *rows = csv.DictReader(file)
    about = f" ({copy['lab']}), records {copy['record']} to {copy['version']}"
    records = {}
    for row in rows[:-1]:
        records.setdefault(row["record"], []).append(row)
    sys.stdout.reconfigure(encoding="utf-8")
    asked = f" for {copy['person']}" if copy["person"] else ""
    sys.stdout.write(HEAD.format(title=html.escape(seen(copy["name"])) + about) + f"<h1>{given(copy['name'])}{about}</h1>\n"
                     f"<p>Copied at {copy['moment']}{asked}. Checked: {html.escape(found.stdout.strip())}</p>\n")
    if found.stderr:
        lines = "".join(f"<li>{html.escape(line)}</li>\n" for line in found.stderr.splitlines())
        sys.stdout.write(f"<p>{REMARKS}</p>\n<ul>\n{lines}</ul>\n")
    for of_record in records.values():
        sys.stdout.writelines(record_parts(of_record))
    return 0


if __name__ == "__main__":
    sys.exit(main(sys.argv[1:]))
