"""What the documents of the repository say of its tree, for tests/map: how long each is, and which paths, crates, names and counts
stand in it. A document is README.md and its like, docs/*.md, and each README; CHANGELOG.md tells of the past, and is looked at for its
length alone.
"""
import functools
import glob
import os
import re

BUDGETS, FOREIGN, INVENTING = "tests/budgets.txt", "tests/foreign.txt", "tests/shims/documents.py"
# What a name may stand in: all that isn't a document.
SOURCES = ("crates/*/*", "crates/*/src/**/*", "crates/*/specs/**/*", "crates/*/proofs/**/*", "crates/*/must-fail/*", "crates/*/attacks/*",
           "tests/**/*", "tools/*", "bench/*", "pages/**/*", "packaging/**/*", "examples/**/*", ".ci/*", "check", "labdesk*", "crates.txt",
           "docs/openapi.yaml")
# Where no word counts as the tree's: documents, and those below.
NOT_TEXT = (".md", ".png", ".svg", ".db", ".pyc")
PARTS = ("src/", "specs/", "proofs/", "must-fail/", "attacks/", "uses/")
FOLDERS = ("crates/", "docs/", "tests/", "tools/", "bench/", "pages/", "packaging/", "examples/", ".ci/")


def text_of(path):
    with open(path, encoding="utf-8") as file:
        return file.read()


# ---- the pieces of a document


def without_blocks(page):
    """A document without its fenced and its indented blocks, and without comments."""
    page = re.sub(r"^```.*?^```$|<!--.*?-->", "", page, flags=re.M | re.S)
    return re.sub(r"^    .*$", "", page, flags=re.M)


def words_in(text):
    """How many words a text has. A word holds a letter, so figures and the lines of tables are none."""
    return sum(1 for word in re.sub(r"\]\([^)]*\)", "]", text).split() if re.search(r"[^\W\d_]", word))


def spans_of(line):
    return re.findall(r"`([^`]+)`", line)


# ---- how long a document is


def budgets(top):
    """Of each document its bound of words; of a pattern that ends with `text`, that of the words beside tables."""
    for line in text_of(f"{top}/{BUDGETS}").splitlines():
        if line.strip() and not line.startswith("#"):
            pattern, bound, *kind = line.split()
            yield pattern, int(bound), kind == ["text"]


def budget_passed(top):
    """Documents that are longer than they may be, or have no budget; and budgets of nothing."""
    bound_of = {}
    for pattern, bound, is_text in budgets(top):
        paths = sorted(glob.glob(f"{top}/{pattern}"))
        bound_of.update({path: (bound, is_text) for path in paths if path not in bound_of})
        if not paths:
            yield f"{BUDGETS} has {pattern}, which isn't there"
    for path in [*documents(top), f"{top}/CHANGELOG.md"]:
        bound, is_text = bound_of.get(path, (0, False))
        if (count := length_of(path, is_text)) > bound:
            yield f"{os.path.relpath(path, top)} has {count:,} words{' beside its tables' if is_text else ''}, and may have {bound:,}"


def length_of(path, is_text):
    """How many words a document has, in all or beside its tables."""
    lines = without_blocks(text_of(path)).splitlines()
    return words_in("\n".join(line for line in lines if not (is_text and line.startswith("|"))))


def documents(top):
    patterns = ("*.md", "docs/*.md", "pages/*.md", "tests/*.md", "tests/old/*.md", "crates/*/README.md")
    found = [path for pattern in patterns for path in sorted(glob.glob(f"{top}/{pattern}"))]
    return [path for path in found if os.path.basename(path) not in ("CHANGELOG.md", "NEXT.md")]


# ---- what a document names


class Tree:
    """What stands in the tree beside its documents."""

    def __init__(self, top, uses):
        self.top, self.uses = top, uses
        self.foreign = set(re.sub(r"#.*", "", text_of(f"{top}/{FOREIGN}")).split())
        found = (path for pattern in (*SOURCES, "*.md", "docs/**/*") for path in glob.glob(f"{top}/{pattern}", recursive=True))
        self.paths = {os.path.relpath(path, top) for path in found}
        self.names = {os.path.basename(path) for path in self.paths}

    @functools.lru_cache(None)
    def words_under(self, folder):
        """The words of the texts of a folder, and the names of its files."""
        found = set()
        for path in self.paths:
            if not path.startswith(folder) or path.endswith(NOT_TEXT) or path in (FOREIGN, INVENTING) or not os.path.isfile(f"{self.top}/{path}"):
                continue
            found.add(os.path.basename(path).partition(".")[0])
            try:
                found.update(re.findall(r"\w+", text_of(f"{self.top}/{path}")))
            except UnicodeDecodeError:
                pass
        return found

    def has_name(self, name, folder=""):
        return name in self.foreign or name in self.words_under(folder)

    def has_path(self, path, document, crates):
        """Whether there is such a path: from the top, beside the document, or in a crate that the line names."""
        places = ["", os.path.dirname(document) + "/", *(f"crates/{crate}/" for crate in crates)]
        return any(glob.glob(f"{self.top}/{place}{path}") for place in places)


def names_lack(tree):
    """What the documents name in backticks, and the tree doesn't have."""
    for path in documents(tree.top):
        name = os.path.relpath(path, tree.top)
        yield from (f"{name}: {one}" for one in page_lacks(tree, name, text_of(path)))


def page_lacks(tree, name, page):
    """Paths, crates and words of code that a document names in backticks and the tree, or what the document is about, doesn't have."""
    of_blocks = set(re.findall(r"\w+", "".join(re.findall(r"^```.*?^```$|^    .*$", page, re.M | re.S))))
    for line, crates in lines_of(page):
        yield from dict.fromkeys([*words_lack(tree, line, of_blocks), *paths_lack(tree, line, name, crates), *homes_lack(tree, line),
                                  *reach_lacks(tree, line, name)])


def lines_of(page):
    """The lines of a document, each with the crates that it names, or that the line before it named last."""
    crates = []
    for line in without_blocks(page).splitlines():
        crates = re.findall(r"\blab_\w+", line) or (crates if line.strip() else [])
        yield line, crates


# A line each with an invented thing, and what is said of it in a document, or in the README of lab_forms.
INVENTED = {
    "`src/invented.rt` of `lab_desk`": "there is no `src/invented.rt` in lab_desk",
    "`tests/invented`": "there is no `tests/invented`",
    "`lab_invented`": "there is no `lab_invented`",
    "`invented_call`": "nothing in the tree is called `invented_call`",
    "`migrate` of `lab_forms_texts`": "lab_forms_texts has no `migrate`",
    "`serve_one`": "neither lab_forms nor what it uses has `serve_one`",
    "[a page](INVENTED.md)": "there is no INVENTED.md",
    "[a heading](#invented)": "crates/lab_forms/README.md has no heading #invented",
    "the 9 crates above `lab_program`": "9 crates above `lab_program`, and there are 0",
    "51 of 998": "51 of 998, and of crates there are {all}",
    "it is in 997 other crates": "997 crates, and there are {all}",
}


def invented_passes(tree, boxes):
    """Whether an invented name, link or count would pass as one of the tree."""
    for line, wanted in INVENTED.items():
        found = [*page_lacks(tree, "crates/lab_forms/README.md", line), *page_misleads(tree, "crates/lab_forms/README.md", line),
                 *page_miscounts(tree, boxes, line)]
        if found[:1] != [wanted.replace("{all}", all_counts(tree.uses, boxes))]:
            yield f"of {line} nothing is said, or another thing: {found}"


def words_lack(tree, line, of_blocks):
    for span in spans_of(line):
        if span.startswith("lab_") and re.fullmatch(r"\w+", span):
            if span not in tree.uses and not tree.has_name(span):
                yield f"there is no `{span}`"
        elif re.fullmatch(r"[A-Za-z_]\w*(::\w+)*(\(\))?", span):
            yield from (f"nothing in the tree is called `{word}`" for word in re.findall(r"\w+", span)
                        if word not in of_blocks and not tree.has_name(word))


def paths_lack(tree, line, document, crates):
    for span in spans_of(line):
        is_path = span.startswith((*FOLDERS, *PARTS)) or re.fullmatch(r"\w+\.(rt|antt|edit)", span)
        if not is_path or not re.fullmatch(r"[\w.@*/-]+", span) or tree.has_name(span) or re.search(r"NAME|\.\.$", span):
            continue
        is_there = tree.has_path(span, document, crates) or (span.startswith(PARTS) and tree.has_path(f"crates/*/{span}", document, []) and not crates)
        if not is_there and not ("/" not in span and span in tree.names):
            yield f"there is no `{span}`" + (f" in {', '.join(dict.fromkeys(crates))}" if span.startswith(PARTS) and crates else "")


def homes_lack(tree, line):
    """Names that a line puts into a crate, as `name` of `lab_crate`, which that crate doesn't have."""
    for names, crate in re.findall(r"((?:`[\w:]+`(?:, | and )?)+),? of `(lab_\w+)`", line) + re.findall(r"(`[\w:]+`) \(`(lab_\w+)`\)", line):
        if crate in tree.uses:
            yield from (f"{crate} has no `{word}`" for span in spans_of(names) for word in re.findall(r"\w+", span)
                        if not word.startswith("lab_") and not tree.has_name(word, f"crates/{crate}/"))


def reach_lacks(tree, line, document):
    """Names in a crate's README that stand neither in its box, nor in a crate that it uses or that the line names."""
    found = re.fullmatch(r"crates/((lab_[a-z]+)\w*)/README\.md", document)
    if not found or found[1] not in tree.uses:
        return
    crate, box = found[1], found[2]
    near = {one for one in tree.uses if one == box or one.startswith(f"{box}_")} | set(tree.uses[crate]) | set(re.findall(r"\blab_\w+", line))
    for span in spans_of(line):
        if re.fullmatch(r"[A-Za-z_]\w*(::\w+)*(\(\))?", span) and not span.startswith("lab_"):
            yield from (f"neither {crate} nor what it uses has `{word}`" for word in re.findall(r"\w+", span)
                        if tree.has_name(word) and word not in near and not any(tree.has_name(word, f"crates/{one}/") for one in near))


# ---- where a document leads


def links_of(page):
    return re.findall(r"\]\(([^)\s]+)\)", without_blocks(page))


def anchors_of(page):
    """The anchors of a document's headings, as GitHub and its like make them."""
    headings = re.findall(r"^#+ (.*)$", re.sub(r"^```.*?^```$", "", page, flags=re.M | re.S), re.M)
    return {re.sub(r"[^\w -]", "", re.sub(r"\]\([^)]*\)", "", heading).strip().lower()).replace(" ", "-") for heading in headings}


def links_lack(tree):
    """Links of the documents to a file or a heading that isn't there."""
    for path in [*documents(tree.top), f"{tree.top}/CHANGELOG.md"]:
        name = os.path.relpath(path, tree.top)
        yield from (f"{name}: {one}" for one in page_misleads(tree, name, text_of(path)))


def page_misleads(tree, name, page):
    for link in dict.fromkeys(links_of(page)):
        if re.match(r"[a-z]+:", link):
            continue
        file, _, anchor = link.partition("#")
        path = os.path.normpath(os.path.join(os.path.dirname(name), file)) if file else name
        if not os.path.exists(f"{tree.top}/{path}") and file:
            yield f"there is no {link}"
        elif anchor and path.endswith(".md") and anchor not in anchors_of(text_of(f"{tree.top}/{path}") if file else page):
            yield f"{path} has no heading #{anchor}"


# ---- rules that have one home

# What stands in one document alone; the others link there.
HOMES = {
    "how long a session lives": (r"\b900 s(econds)?\b|\b28,800\b|\b15 minutes\b|\b(8|eight) hours\b", "docs/PERSONS.md"),
    "why `storage` is answered over a file": (r"`HasItsCause`: ", "crates/lab_store_read/README.md"),
    "the order of all refusals": (r"^\| Step \| Number \|.*Skipped for", "docs/COMMANDS.md"),
    "the order of a founding's refusals": (r"refused, in this order|first in this order is returned: `", "docs/LABORATORY.md"),
    "the cause of `storage`": (r"^\| 63 \|", "docs/REFUSALS.md"),
    "the cause of `memory`": (r"^\| 90 \|", "docs/REFUSALS.md"),
}


def rules_stand_elsewhere(top):
    for rule, (pattern, home) in HOMES.items():
        there = [os.path.relpath(path, top) for path in documents(top) if re.search(pattern, without_blocks(text_of(path)), re.M)]
        if there != [home]:
            yield f"{rule} stands in {', '.join(there) or 'no document'}, and its home is {home}"


# ---- what a document counts


def above(uses, crate):
    """The crates that use a crate, or one that does."""
    found = {crate}
    for name, used in uses.items():
        if found & set(used):
            found.add(name)
    return found - {crate}


COUNT = r"\b(\d+) (?:other |further |more )?crates\b(?=(.{0,20}))"
# `51 of 64`, if nothing is named that is counted: two numbers of at most three digits, and then the sentence ends or goes on with a verb.
PART = r"(?<![\d,.])(\d{1,3}) of (?:the |its |all )?(\d{2,3})(?= crates\b| (?:are|is|stand|have|has|use|lie|above|below)\b|[),.;:|]|$)"


def counts_differ(tree, boxes):
    """Counts of crates that aren't those of crates.txt."""
    for path in documents(tree.top):
        yield from (f"{os.path.relpath(path, tree.top)}: {one}" for one in page_miscounts(tree, boxes, text_of(path)))


def page_miscounts(tree, boxes, page):
    for line, crates in lines_of(page):
        for told, what in re.findall(COUNT, line):
            wanted = counts_of(tree.uses, boxes, what, crates)
            if int(told) not in wanted:
                is_above = what.startswith(" above")
                told += f" crates{what if is_above else ''}"
                yield f"{told}, and there are {' or '.join(map(str, sorted(wanted))) if is_above else all_counts(tree.uses, boxes)}"
        for some, whole in re.findall(PART, line):
            if int(whole) not in counts_of(tree.uses, boxes, "", crates) or int(some) not in parts_of(tree.uses, boxes, crates):
                yield f"{some} of {whole}, and of crates there are {all_counts(tree.uses, boxes)}"


def counts_of(uses, boxes, what, crates):
    """What a count may be: of the crates above one that the line names, of those of the program, of a box, or of all."""
    if what.startswith(" above"):
        return {len(above(uses, crate)) for crate in crates if crate in uses}
    if what.startswith(" of the program"):
        return {sum(not name.startswith("lab_tests_") for name in uses)}
    return {len(uses), *(len(crates) for _, crates in boxes)}


def parts_of(uses, boxes, crates):
    """How many of all crates a line may speak of: a box's, or those above a crate that it names, without that crate or with it."""
    found = [len(above(uses, crate)) for crate in crates if crate in uses]
    return {*found, *(count + 1 for count in found), *(len(crates) for _, crates in boxes)}


def all_counts(uses, boxes):
    return " or ".join(map(str, sorted(counts_of(uses, boxes, "", []))))


def shown(box):
    return box.partition("_")[2]


def stands_on(tree, boxes):
    """Of each box the boxes whose crates it uses."""
    of = {name: box for box, crates in boxes for name in crates}
    return {box: {of[one] for name in crates for one in tree.uses[name] if one in of} - {box} for box, crates in boxes}


def boxes_told_otherwise(tree, boxes):
    """Rows of the table of boxes in ARCHITECTURE that crates.txt contradicts."""
    names = [shown(box) for box, _ in boxes]
    page = text_of(f"{tree.top}/docs/ARCHITECTURE.md")
    table = re.search(r"^\| Box \|.*\n\|.*\n((?:\|.*\n)+)", page, re.M)
    rows = [[cell.strip() for cell in row.strip("|").split("|")] for row in table[1].splitlines()] if table else []
    there = {re.sub(r"[\[\]]|\(.*?\)", "", row[0]): row[-1] for row in rows}
    if list(there) != names:
        yield f"docs/ARCHITECTURE.md: its boxes are {', '.join(there)}, and those of crates.txt {', '.join(names)}"
        return
    for box, wanted in stands_on(tree, boxes).items():
        told = boxes_of(there[shown(box)], names[:names.index(shown(box))])
        if told != {shown(one) for one in wanted}:
            yield f"docs/ARCHITECTURE.md: {shown(box)} stands on {there[shown(box)]}, and by crates.txt on {', '.join(map(shown, sorted(wanted))) or 'no box'}"


def crates_told_otherwise(tree, boxes):
    """Tables of a box's crates, in the README of its door or of tests/, that don't have each crate once."""
    for box, crates in boxes:
        name = f"crates/{box}/README.md" if box in tree.uses else f"{shown(box)}/README.md"
        table = re.search(r"^\| Crate \|.*\n\|.*\n((?:\|.*\n)+)", text_of(f"{tree.top}/{name}"), re.M)
        told = [one for row in (table[1].splitlines() if table else []) for one in re.findall(r"[\[`](lab_\w+)[\]`]", row.split("|")[1])]
        yield from (f"{name}: its table lacks {one}" for one in crates if one not in told)
        yield from (f"{name}: its table has {one}, which isn't of the box" for one in dict.fromkeys(told) if one not in crates)
        yield from (f"{name}: its table has {one} twice" for one in dict.fromkeys(told) if told.count(one) > 1)


def boxes_of(text, below):
    """The boxes that a cell says: by their names, as `forms to store`, or as `all but seal`."""
    if text == "no box":
        return set()
    if text.startswith("all"):
        return set(below) - set(re.findall(r"\w+", text)[2:])
    ranged = re.fullmatch(r"(\w+) to (\w+)(?:, (.*))?", text)
    if ranged:
        return set(below[below.index(ranged[1]):below.index(ranged[2]) + 1]) | set(re.findall(r"\w+", ranged[3] or ""))
    return set(re.findall(r"\w+", text))


# ---- the libraries of crates.txt


def libraries_unnamed(tree):
    """Libraries of crates.txt that no file of their crate names, but for those of tests/foreign.txt, as `lab_crate:library`."""
    known = {word for word in tree.foreign if ":" in word}
    found = {f"{crate}:{one}" for crate, used in tree.uses.items() for one in used if one not in tree.words_under(f"crates/{crate}/")}
    yield from (f"no file of {one.replace(':', ' names ')}" for one in sorted(found - known))
    yield from (f"{FOREIGN} has {one}, which isn't so" for one in sorted(known - found))
