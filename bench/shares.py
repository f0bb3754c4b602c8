#!/usr/bin/env python3
"""Makes the table of docs/PERFORMANCE.md that has whose instructions a request's are.

    bench/shares.py [PROGRAM]             prints the table; without a program, over the one that is proved
    bench/shares.py --functions [PROGRAM] prints the forty functions that have most of them, too
    bench/shares.py --size SIZE ..        does so over the file of that size of bench/sized.py, as "10 versions", and not the small one

`labdesk serve` answers a batch of each kind over the file, as in bench/beside.py, by `valgrind --tool=callgrind`. Each
function's own instructions, less those of what it calls, are counted to whose it is, by its name. A function that was put into its
caller is counted to the caller. Below the table is printed how many statements a request of each kind
runs: the calls of two functions of `sqlite`.
"""
import collections
import datetime
import os
import pathlib
import re
import sys
import tempfile
import time

sys.dont_write_bytecode = True
from beside import Instructions, row  # noqa: E402
from children import proved_program  # noqa: E402
from serving import Server  # noqa: E402
from sized import KINDS, SIZES, begin  # noqa: E402

SHOWN = ("card", "entry", "reading")
# Whose a function is: the first of these that its name has. The last takes what is left.
WHOSE = (
    ("zeroing and copying memory", r"^_*(memset|memcpy|memmove|memcmp)"),
    ("the C library's malloc", r"^(_int_|malloc|free|realloc|calloc|unlink_chunk|sysmalloc|systrim|rattle_alloc|rattle_)"),
    ("`sqlite`: hashes of pages (SipHash)", r"^core::hash"),
    ("`sqlite`: checking the types of a kept plan", r"^sqlite_typing"),
    ("`sqlite`: the rest", r"^sqlite"),
    ("`sha2`", r"^sha2"),
    ("`labdesk`", r"^lab_"),
    ("others", r""),
)
# The functions of `sqlite` that run a statement: one reads, one writes.
RUNS = r"Connection::query_near\b|Transaction::execute\b"


def instructions_and_calls(dump):
    """Each function's own instructions, by its name, and how often each was called."""
    names, counts, calls, function, called, is_call = {}, collections.Counter(), collections.Counter(), None, None, False
    with open(dump, errors="replace") as lines:
        for line in lines:
            if line.startswith(("fn=", "cfn=")):
                kind, _, rest = line.rstrip("\n").partition("=")
                number, _, name = rest.partition(" ")
                if name:
                    names[number] = name
                if kind == "fn":
                    function = number
                else:
                    called = number
            elif line.startswith("calls="):
                is_call = True
                calls[names[called]] += int(line[len("calls="):].split()[0])
            elif re.match(r"[+*\d-]", line):
                # (the line behind a call has what was called)
                if not is_call:
                    counts[names[function]] += int(line.split()[-1])
                is_call = False
    return counts, calls


def whose(counts):
    shares = collections.Counter()
    for name, count in counts.items():
        shares[next(who for who, pattern in WHOSE if re.search(pattern, name))] += count
    return shares


def measured(size, program, room):
    """Each function's instructions a request, by the kind of request, and the statements that it runs."""
    found, statements = {}, {}
    file = str(room / "file")
    size.make(file)
    tokens, measure = begin(file, int(time.time())), Instructions(room)
    with Server(program, file, measure.before) as server:
        server.tokens = dict(tokens)
        for batch in range(2):
            for kind in size.kinds:
                requests = size.requests(kind, batch)
                measure.begin(server)
                for one in requests:
                    server.ask(one)
                measure.end()
                # (the first batch counts for nothing)
                counts, calls = instructions_and_calls(measure.dumps()[-1])
                found[kind] = {name: count / len(requests) for name, count in counts.items()}
                statements[kind] = sum(count for name, count in calls.items() if re.search(RUNS, name)) / len(requests)
    return {kind: found[kind] for kind in SHOWN}, statements


def main(words):
    size = SIZES[0]
    if words[:1] == ["--size"]:
        size = next(one for one in SIZES if one.name == words[1])
        words = words[2:]
    functions = words[:1] == ["--functions"]
    words = words[1:] if functions else words
    program = os.path.abspath(words[0]) if words else proved_program()
    with tempfile.TemporaryDirectory() as name:
        found, statements = measured(size, program, pathlib.Path(name))
    row(["Whose instructions"] + [f"{KINDS[kind]}, thousands | share" for kind in SHOWN])
    print("|" + "---|" * (1 + 2 * len(SHOWN)))
    shares, totals = [whose(found[kind]) for kind in SHOWN], [sum(found[kind].values()) for kind in SHOWN]
    for who, _ in WHOSE:
        row([who] + [f"{share[who] / 1000:,.0f} | {100 * share[who] / total:.0f} %" for share, total in zip(shares, totals)])
    row(["all"] + [f"{total / 1000:,.0f} | 100 %" for total in totals])
    for kind in SHOWN if functions else ():
        print(f"\n{KINDS[kind]}")
        for name, count in collections.Counter(found[kind]).most_common(40):
            print(f"{count:12,.0f}  {name}")
    print("\nStatements a request: " + ", ".join(f"{KINDS[kind]} {count:.1f}" for kind, count in statements.items()))
    print(f"\n{datetime.date.today()}, load {os.getloadavg()[0]:.1f}")
    return 0


if __name__ == "__main__":
    sys.exit(main(sys.argv[1:]))
