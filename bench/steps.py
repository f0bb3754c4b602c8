#!/usr/bin/env python3
"""Tells which functions of a crate have the dearest steps: bench/steps.py [--test] CRATE ..

Of each crate that is named: the processor's seconds of a check from nothing with one job, and the functions whose module `Lts`,
which has the steps of the function's body, took longest, with their seconds; with --test, of the crate with its tests. The prover
writes a file for each module as it ends; between two of them its own processor time is counted. It works in a copy, over libraries
that it builds first.
"""
import bisect
import collections
import glob
import os
import re
import shutil
import subprocess
import sys
import tempfile
import time

ROOT = os.path.dirname(os.path.dirname(os.path.realpath(__file__)))
TICKS = os.sysconf("SC_CLK_TCK")
SHOWN = 6


def copied(room):
    """Copies what is proved of the repository: sources and libraries, and no work of its checks."""
    for name in ("crates.txt", "HANDLES"):
        shutil.copy(f"{ROOT}/{name}", room)
    shutil.copytree(f"{ROOT}/crates", f"{room}/crates", symlinks=True, ignore=shutil.ignore_patterns("incremental"))
    subprocess.run(["git", "init", "-q", room], check=True)


def family(number):
    """A process and all that it began."""
    try:
        with open(f"/proc/{number}/task/{number}/children") as file:
            children = file.read().split()
    except OSError:
        return []
    return [number, *(one for child in children for one in family(child))]


def seconds_of(number):
    """The processor's seconds of a process; none where it has ended."""
    try:
        with open(f"/proc/{number}/stat") as file:
            figures = file.read().rsplit(")", 1)[1].split()
    except OSError:
        return 0.0
    return sum(int(figure) for figure in figures[11:13]) / TICKS


def watched(command, folder, said):
    """Runs a command, and answers the moments at which it was looked at, and the processor's seconds up to each."""
    moments, spent = [time.time()], [0.0]
    with open(said, "w") as file:
        process = subprocess.Popen(command, cwd=folder, stdin=subprocess.DEVNULL, stdout=file, stderr=subprocess.STDOUT)
        while process.poll() is None:
            seconds = sum(map(seconds_of, family(process.pid)))
            moments.append(time.time())
            spent.append(max(spent[-1], seconds))
            time.sleep(0.05)
    return process.returncode, moments, spent


def spent_by(moment, moments, spent):
    """The processor's seconds up to a moment."""
    at = bisect.bisect_left(moments, moment)
    if at == 0 or at == len(moments):
        return spent[min(at, len(spent) - 1)]
    share = (moment - moments[at - 1]) / (moments[at] - moments[at - 1])
    return spent[at - 1] + share * (spent[at] - spent[at - 1])


def steps(kept, moments, spent):
    """The seconds of each function's steps, by the files that a check wrote."""
    files = sorted((os.lstat(path).st_mtime, path) for path in glob.glob(f"{kept}/**/*.oantt", recursive=True))
    found = collections.Counter()
    for (before, _), (after, path) in zip(files, files[1:]):
        module = re.search(r"-proofs\.(.*?)\.Lts", os.path.basename(path))
        if module:
            found[module[1]] += spent_by(after, moments, spent) - spent_by(before, moments, spent)
    return found


def told(room, crate, tests):
    """Checks a crate from nothing, and prints what its steps took."""
    folder, said = f"{room}/crates/{crate}", f"{room}/said"
    # what stands below is built before the clock starts
    subprocess.run(["rt", "check", "--jobs", "1", "--only", "no function"], cwd=folder, stdin=subprocess.DEVNULL, capture_output=True)
    shutil.rmtree(f"{folder}/out/incremental", ignore_errors=True)
    status, moments, spent = watched(["rt", "check", "--jobs", "1", *tests], folder, said)
    if status:
        with open(said) as file:
            sys.exit(f"{crate} is not proved: {file.read()[-2000:]}")
    dearest = steps(f"{folder}/out/incremental", moments, spent).most_common(SHOWN)
    print(f"{crate} {spent[-1]:.0f}: {', '.join(f'{name} {seconds:.1f}' for name, seconds in dearest)}", flush=True)


def main(words):
    tests = [word for word in words if word == "--test"]
    crates = [word for word in words if word != "--test"]
    if not crates:
        sys.exit(__doc__)
    with tempfile.TemporaryDirectory() as room:
        copied(room)
        for crate in crates:
            told(room, crate, tests)


main(sys.argv[1:])
