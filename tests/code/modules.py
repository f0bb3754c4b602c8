"""The modules of the pages by their texts: what each imports and gives, that no import goes in a circle, that nothing is there in vain,
and that no browser is wanted that is newer than docs/PAGES.md says."""
import re

from said import PAGES, TOP, same, say

IMPORT = re.compile(r"^import\s*\{([^}]*)\}\s*from '\./([\w-]+)\.js';$", re.M)
EXPORT = re.compile(r"^export (?:async )?(?:const|let|class|function\*?) (\[[^\]]*\]|\w+)", re.M)
OWN = re.compile(r"^(?:export )?(?:async )?(?:const|let|class|function\*?) (\[[^\]]*\]|\w+)", re.M)
# What is imported from outside the pages: tests and measurements import modules in a browser.
OUTSIDE = re.compile(r'import\("/pages/(\w+)\.js"\)\.then\((?:async )?\(\{([^}]*)\}\)')
# Where a name isn't a member of something else.
AT_WORK = r"(?<![\w$])(?<!(?<!\.\.)\.)"
COMMENT = re.compile(r"^\s*//.*$", re.M)
# What touches a page or the browser around it.
TOUCHES = re.compile(r"\b(?:document|location|addEventListener|matchMedia|localStorage|innerWidth|scrollTo)\b(?!:)|\bwindow\.|\bhistory\.[a-z]+State\b")
# These know the address, what the browser keeps, and its other tabs, and no page either.
AROUND = {"lab", "tabs"}
# What docs/PAGES.md wants of a browser, and what of that decides: each as it stands in the pages.
FLOOR = "Chromium and Edge from 105 on, Firefox from 121 on, Safari from 16.4 on"
DECIDING = {
    "the selector :has()": (r":has\(", "style.css"), "a pattern that looks behind": (r"\(\?<[!=]", "rules.js"),
    "AbortSignal.timeout": (r"AbortSignal\.timeout\(", "api.js"), "findLast": (r"\.findLast\(", "entering.js"),
}
# What came later than that, as MDN's tables have it: in scripts, and in styles.
NEWER = {
    r"\bPromise\.(?:withResolvers|try)\(": "Promise.withResolvers and .try", r"\b(?:Object|Map)\.groupBy\(": "groupBy",
    r"\.(?:toSorted|toReversed|toSpliced)\(": "toSorted, toReversed, toSpliced", r"\]\.with\(": "with of a list",
    r"\bArray\.fromAsync\(": "Array.fromAsync", r"\bURL\.(?:canParse|parse)\(": "URL.canParse",
    r"\.(?:isSubsetOf|isSupersetOf|isDisjointFrom|symmetricDifference|intersection|difference|union)\(": "sets' own operations",
    r"\bIterator\b|\.(?:values|keys|entries)\(\)\.(?:map|filter|some|every|find|take|drop|reduce|toArray|flatMap|forEach)\(": "iterators' helpers",
    r"\bAbortSignal\.any\(": "AbortSignal.any", r"\bRegExp\.escape\(": "RegExp.escape", r"/[a-z]*v[a-z]*\.(?:test|exec)\(": "the flag v of a pattern",
    r"\.(?:isWellFormed|toWellFormed)\(": "isWellFormed", r"\.checkVisibility\(": "checkVisibility", r"\bscheduler\.": "scheduler",
    r"\bpopover\b|\.showPopover\(": "popovers", r"\bstartViewTransition\b": "view transitions", r"\bnavigation\.": "the navigation API",
    r"\bcloseWatcher\b|CloseWatcher": "CloseWatcher", r"\bsetHTML(?:Unsafe)?\(": "setHTML", r"\bimport\s+\w+\s+from\s+['\"][^'\"]+['\"]\s+with\b": "kinds of imports",
    r"\busing \w+ =": "using", r"\bMath\.sumPrecise\(|\bFloat16Array\b": "newer numbers", r"\.(?:toHex|toBase64)\(|\.from(?:Hex|Base64)\(": "bytes in hex and base64",
    r"\brequestClose\(|\bclosedby\b": "requestClose of a dialog", r"\bgetOrInsert(?:Computed)?\(": "getOrInsert",
}
NEWER_STYLES = {
    r"^\s*&|\s&[.:#\s]": "nested rules", r"@layer\b(?!.*;)|@scope\b|@starting-style|@position-try|@property\b|@function\b": "newer at-rules",
    r"\bcolor-mix\(|\boklch\(|\boklab\(|\blight-dark\(|\bcontrast-color\(": "newer colours", r"\btext-wrap\b": "text-wrap",
    r"\banchor\(|\banchor-name\b": "anchors", r":popover-open|:user-(?:in)?valid|:state\(|:open\b": "newer selectors",
    r"\bsubgrid\b": "subgrid", r"\bround\(|\bsin\(|\babs\(|\bsign\(": "newer functions of numbers", r"\bif\(": "if() in styles",
    r"@container\b|\bcontainer-type\b": "queries of a container",
}
# Newer, and the page is as useful without: a text of several lines grows, and sheets of paper are numbered.
GRACES = ("field-sizing: content", "@bottom-right")


def texts():
    return {one.stem: one.read_text() for one in sorted(PAGES.glob("*.js"))}


def names_of(listed):
    """What is imported, as (its name there, its name here)."""
    pairs = [one.split(" as ") for one in re.split(r",\s*", listed.strip().rstrip(",")) if one]
    return [(pair[0].strip(), pair[-1].strip()) for pair in pairs]


def declared(pattern, text):
    return [name for found in pattern.findall(text) for name in re.findall(r"\w+", found)]


def circle(imports):
    """Modules that import each other in a circle, if there are such."""
    done = set()

    def visit(name, path):
        if name in path:
            return [*path[path.index(name):], name]
        if name in done:
            return None
        found = next((way for other in sorted(imports[name]) if (way := visit(other, [*path, name]))), None)
        done.add(name)
        return found
    return next((way for name in imports if (way := visit(name, []))), None)


def look_at_imports(modules):
    imports = {name: {other: names_of(listed) for listed, other in IMPORT.findall(text)} for name, text in modules.items()}
    lines = {name: len(re.findall(r"^(?:import|\} from)\b", text, re.M)) for name, text in modules.items()}
    read = {name: sum(1 + ("\n" in one[0]) for one in re.finditer(IMPORT, text)) for name, text in modules.items()}
    same("each import is read by this check", read, lines)
    say(not circle(imports), f"no import goes in a circle {circle(imports) or ''}".rstrip())
    exports = {name: declared(EXPORT, text) for name, text in modules.items()}
    missing = [(name, other, one) for name, all_of in imports.items() for other, pairs in all_of.items()
               for one, _ in pairs if one not in exports.get(other, [])]
    same("each name that is imported is given", missing, [])
    unused = [(name, here) for name, all_of in imports.items() for pairs in all_of.values() for _, here in pairs
              if len(re.findall(AT_WORK + rf"{here}\b", COMMENT.sub("", IMPORT.sub("", modules[name])))) == 0]
    same("each name that is imported is used", unused, [])
    wanted = {(other, one) for all_of in imports.values() for other, pairs in all_of.items() for one, _ in pairs} | outside()
    same("each name that is given is imported somewhere", [(name, one) for name, all_of in exports.items() for one in all_of if (name, one) not in wanted], [])
    return imports


def outside():
    """What tests and measurements import."""
    files = [*TOP.glob("tests/browser/*.py"), *TOP.glob("bench/*.py")]
    found = [one for file in files for one in OUTSIDE.findall(file.read_text())]
    return {(name, one) for name, listed in found for one, _ in names_of(listed)} | {("checking", "line_of")}


def look_at_own(modules):
    """What a module declares at its top is used in it, or given."""
    dead = []
    for name, text in modules.items():
        bare = COMMENT.sub("", text)
        given = declared(EXPORT, text)
        dead += [(name, one) for one in declared(OWN, text) if one not in given and len(re.findall(rf"(?<![\w$]){one}\b", bare)) < 2]
    same("each function and each constant is used", dead, [])


def look_at_lists(modules):
    """The page loads each module at once, and the README says which touch no page."""
    index = (PAGES / "index.html").read_text()
    preloaded = re.findall(r'<link rel="modulepreload" href="(\w+)\.js">', index)
    same("the page names each module but the first, in order", preloaded, sorted(set(modules) - {"main"}))
    told = re.search(r"((?:`\w+\.js`(?:, | and )?)+) touch no page", (PAGES / "README.md").read_text())
    quiet = set(re.findall(r"`(\w+)\.js`", told[1])) if told else set()
    touching = sorted(name for name in quiet - AROUND if TOUCHES.search(re.sub(r"'[^'\n]*'", "''", COMMENT.sub("", modules[name]))))
    touching += sorted(name for name in AROUND if re.search(r"\bdocument\b", COMMENT.sub("", modules[name])))
    same(f"{len(quiet)} modules of which the README says that they touch no page touch none", touching, [])
    return quiet


def closed(quiet, imports):
    """A module that touches no page imports none that does."""
    wrong = sorted((name, other) for name in quiet for other in imports[name] if other not in quiet | {"texts"})
    same("and they import none that touches one", wrong, [])


def look_at_browsers(modules):
    for what, (pattern, file) in DECIDING.items():
        say(re.search(pattern, (PAGES / file).read_text()), f"{what} is in {file}, as docs/PAGES.md says")
    document = (TOP / "docs/PAGES.md").read_text()
    lacking = [one for one in (FLOOR, "`:has()`", "`AbortSignal.timeout`", "`findLast`", "look-behind") if one not in document]
    same("docs/PAGES.md says which browsers are meant, and what decides that", lacking, [])
    newer = [(name, what) for name, text in modules.items() for pattern, what in NEWER.items() if re.search(pattern, COMMENT.sub("", text))]
    for file in ("style.css", "print.css"):
        text = re.sub(r"/\*.*?\*/", "", (PAGES / file).read_text(), flags=re.S)
        newer += [(file, what) for pattern, what in NEWER_STYLES.items() if re.search(pattern, text, re.M)]
    same(f"of {len(NEWER) + len(NEWER_STYLES)} kinds of newer features the pages want none", newer, [])
    styles = "".join((PAGES / file).read_text() for file in ("style.css", "print.css"))
    say(all(one in styles for one in GRACES), f"what is newer is a grace: {', '.join(GRACES)}")


def look_at_modules():
    modules = texts()
    imports = look_at_imports(modules)
    look_at_own(modules)
    closed(look_at_lists(modules), imports)
    look_at_browsers(modules)
