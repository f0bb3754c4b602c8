"""Reads an edit of a crate's must-fail/ or attacks/, as `rt must-fail` does: a line `file: PATH`, and then pairs of lines `old: TEXT` and
`new: TEXT`. An old text stands in its file exactly once, where the pairs before it are made; white space counts.
"""
import functools
import os
import re

PARTS = ("src/", "specs/", "proofs/")
COMMENTS = ("#", "--", "//")


@functools.lru_cache(None)
def text_of(path):
    with open(path, encoding="utf-8") as file:
        return file.read()


def edited(edit, crate):
    """The texts of the files that an edit changes, by their paths in the crate's folder; and why it can't be made, or none."""
    path, old, texts, before = "", None, {}, {}
    for line in text_of(edit).split("\n"):
        if line.startswith("file: "):
            path = line[len("file: ") :].strip()
            if os.path.normpath(path) != path or not path.startswith(PARTS):
                return {}, f"`{path}` is no file of src, specs or proofs"
            if not os.path.isfile(f"{crate}/{path}"):
                return {}, f"there is no file {path}"
            before[path] = text_of(f"{crate}/{path}")
            texts.setdefault(path, before[path])
        elif line.startswith("old: "):
            old = line[len("old: ") :]
        elif line.startswith("new:"):
            if not path or not old:
                return {}, "a new text without its file or its old text"
            count = texts[path].count(old)
            if count != 1:
                return {}, f"an old text stands {count} times in {path}: {old.strip()}"
            texts[path] = texts[path].replace(old, re.sub("^ ", "", line[len("new:") :]))
            old = None
        elif line.strip() and not line.startswith(COMMENTS):
            return {}, f"a line that isn't read: {line.strip()}"
    if old is not None:
        return {}, f"an old text without its new text: {old.strip()}"
    return (texts, None) if texts != before else ({}, "it changes nothing")
