# Runs ./check of the current folder, with its output in the file that is named, and prints what each crate cost. Twice a second it
# looks at which processes of the prover there are, for which crate and with how much processor time so far. Where a second file is named
# and all has passed, what each crate cost is put into that one, which is a tree's tools/seconds. rt keeps what an earlier run on the machine
# proved: by the output, a check, the tests or the edits of a crate that weren't all done in this run have the seconds there that they had.
import collections
import glob
import os
import pathlib
import platform
import re
import resource
import subprocess
import sys
import threading
import time

sys.path.insert(0, str(pathlib.Path(__file__).resolve().parent.parent / "tools"))
sys.dont_write_bytecode = True
import costs  # noqa: E402

TICKS = os.sysconf("SC_CLK_TCK")
# What the output says where the work of that kind was done for a crate, and of how many edits.
DONE = {
    "check": re.compile(r"rt: (\w+) proved$", re.M),
    "tests": re.compile(r"rt: (\w+): its tests are proved$", re.M),
    "edits": re.compile(r"rt: (\w+): trying its must-fail edits \((\d+)\)$", re.M),
}


def text_of(path):
    with open(path) as file:
        return file.read()


def edited(edit, crate):
    """The files that an edit changes, by their path in the crate, as they are then."""
    path, old, texts = "", "", {}
    for line in text_of(edit).splitlines():
        word, _, rest = line.partition(": ")
        if word == "file":
            path = rest
            texts.setdefault(path, text_of(f"crates/{crate}/{path}"))
        elif word == "old":
            old = rest
        elif word == "new":
            texts[path] = texts[path].replace(old, rest)
    return texts


def edit_in(folder, crate):
    """The edit whose wrong body a folder holds; none where it holds the crate as it stands."""
    for edit in glob.glob(f"crates/{crate}/must-fail/*.edit"):
        if all(text_of(f"{folder}/{path}") == text for path, text in edited(edit, crate).items()):
            return os.path.basename(edit)
    return None


def of_process(number):
    """The crate, the kind of work, when it began, its processor seconds so far, and where it works; none where it is no prover."""
    try:
        with open(f"/proc/{number}/cmdline") as file:
            words = file.read().split("\0")
        if not words[0].endswith("/rattle") or "--crate-name" not in words:
            return None
        with open(f"/proc/{number}/stat") as file:
            figures = file.read().rsplit(")", 1)[1].split()
        folder = os.readlink(f"/proc/{number}/cwd")
    except OSError:
        return None
    kind = "edits" if "edit" in folder else "tests" if "--test" in words else "check"
    crate = words[words.index("--crate-name") + 1]
    return crate, kind, figures[19], sum(int(n) for n in figures[11:15]) / TICKS, folder


def edit_tried(found):
    """The edit that a process tries, where it tries one."""
    crate, kind, _, _, folder = found
    try:
        return edit_in(folder, crate) if kind == "edits" else None
    except OSError:
        return None


def sample(spent, tries, seen):
    for number in filter(str.isdigit, os.listdir("/proc")):
        found = of_process(number)
        if found is None:
            continue
        crate, kind, begun, seconds, _ = found
        if (number, begun) not in seen:
            seen[number, begun] = 0.0, edit_tried(found)
        before, edit = seen[number, begun]
        spent[crate, kind] += max(0.0, seconds - before)
        if edit:
            tries[crate, edit] += max(0.0, seconds - before)
        seen[number, begun] = seconds, edit


def huge_pages():
    """To which programs the kernel gives huge pages: always, madvise, which is to those that ask, or never."""
    try:
        with open("/sys/kernel/mm/transparent_hugepage/enabled") as file:
            return file.read().split("[")[1].split("]")[0]
    except (OSError, IndexError):
        return "never"


def watch(spent, tries, done):
    seen = {}
    while not done.wait(0.5):
        sample(spent, tries, seen)


def edits_of(crate):
    return len(glob.glob(f"crates/{crate}/must-fail/*.edit"))


def has_tests(crate):
    return any("#[test]" in text_of(path) for path in glob.glob(f"crates/{crate}/src/**/*.rt", recursive=True))


def measured(spent, said, crates):
    """Of each crate the seconds of its check, its tests and its edits; none where the output doesn't say that all of it was done."""
    done = {(found[1], kind) for kind in ("check", "tests") for found in DONE[kind].finditer(said)}
    done |= {(found[1], "edits") for found in DONE["edits"].finditer(said) if int(found[2]) == edits_of(found[1])}
    done |= {(crate, "edits") for crate in crates if edits_of(crate) == 0} | {(crate, "tests") for crate in crates if not has_tests(crate)}
    return {crate: [spent[crate, kind] if (crate, kind) in done else None for kind in costs.KINDS] for crate in crates}


def first_line(*words):
    """The first line of what a command prints, or none."""
    try:
        return subprocess.run(words, capture_output=True, text=True).stdout.split("\n")[0].strip()
    except OSError:
        return ""


def about():
    """When this is, of which tree, with which kit and on which machine."""
    tree, kit = first_line("git", "rev-parse", "--short", "HEAD"), first_line("rt", "version")
    return f"{time.strftime('%Y-%m-%d')}, tree {tree or 'unknown'}, {kit or 'no kit'}, {os.cpu_count()} cores, {platform.machine()}"


def main():
    spent, tries = collections.defaultdict(float), collections.defaultdict(float)
    done = threading.Event()
    watcher = threading.Thread(target=watch, args=(spent, tries, done))
    began = time.time()
    watcher.start()
    with open(sys.argv[1], "w") as said:
        status = subprocess.run(["./check"], stdout=said, stderr=subprocess.STDOUT).returncode
    done.set()
    watcher.join()
    said = text_of(sys.argv[1])
    last = said.splitlines()[-1]
    for line in said.splitlines():
        if line.startswith("FAILED "):
            print(line, file=sys.stderr)
    children = resource.getrusage(resource.RUSAGE_CHILDREN)
    used = children.ru_utime + children.ru_stime
    wall = time.time() - began
    print(f"{last}: {wall / 60:.1f} min on the wall, {used / 60:.0f} min of processor time, {os.cpu_count()} cores, huge pages {huge_pages()}")
    print(f"{'crate':<24} {'check':>6} {'tests':>6} {'edits':>6}")
    for folder in sorted(glob.glob("crates/*")):
        crate = os.path.basename(folder)
        columns = " ".join(f"{spent[crate, kind]:>6.0f}" for kind in ("check", "tests", "edits"))
        print(f"{crate:<24} {columns} ({edits_of(crate)})")
    for (crate, edit), seconds in sorted(tries.items()):
        print(f"{crate}/{edit} {seconds:.0f}")
    if status == 0 and sys.argv[2:]:
        crates = costs.crates_in(text_of("crates.txt"))
        seconds = measured(spent, said, crates)
        earlier = sum(None in figures for figures in seconds.values())
        costs.written(sys.argv[2], seconds, about() + (f"; {earlier} crates have seconds of before, since rt kept their work" if earlier else ""))
    sys.exit(status)


if __name__ == "__main__":
    main()
