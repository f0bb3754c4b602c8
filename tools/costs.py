"""What each crate costs, by tools/seconds, and which crates wait for which, by crates.txt."""
import pathlib
import re

TOP = pathlib.Path(__file__).resolve().parent.parent
KINDS = ("check", "tests", "edits")
# A crate's line in tools/seconds, and a bound's. What wasn't measured is a dash.
LINE = re.compile(r"(\w+) (\d+|-) (\d+|-) (\d+|-)$")
BOUND = re.compile(r"bound (\w+) (\d+)$")


def crates_in(text):
    """Of each crate of crates.txt those that it uses, in the file's order."""
    uses = {}
    for line in text.splitlines():
        name, colon, used = line.partition("#")[0].partition(":")
        if colon:
            uses[name.split()[0]] = used.split()
    return {name: [one for one in used if one in uses] for name, used in uses.items()}


class Costs:
    """What a tree's crates cost, and their bounds."""

    def __init__(self, top=TOP):
        self.path = pathlib.Path(top) / "tools/seconds"
        self.uses = crates_in((pathlib.Path(top) / "crates.txt").read_text(encoding="utf-8"))
        self.seconds, self.bounds, self.unread, self.unmeasured = {}, {}, [], set()
        for line in self.path.read_text(encoding="utf-8").splitlines():
            if found := LINE.match(line):
                self.seconds[found[1]] = tuple(0 if one == "-" else int(one) for one in found.groups()[1:])
                self.unmeasured |= {(found[1], kind) for kind, one in zip(KINDS, found.groups()[1:]) if one == "-"}
            elif found := BOUND.match(line):
                self.bounds[found[1]] = int(found[2])
            elif line.strip() and not line.startswith("#"):
                self.unread.append(line)

    def check(self, crate):
        return self.seconds.get(crate, (0, 0, 0))[0]

    def all(self, crate):
        return sum(self.seconds.get(crate, (0, 0, 0)))

    def above(self, crate):
        """The crates that use a crate, or one that does, in the order of crates.txt."""
        found = {crate}
        for name, used in self.uses.items():
            if found & set(used):
                found.add(name)
        return [name for name in self.uses if name in found and name != crate]

    def bound(self, crate):
        """A crate's bound, and of what it is one: of its check, or, of a crate of tests, of its check and its tests."""
        kind = "tests" if crate.startswith("lab_tests_") else "check"
        return self.bounds.get(crate, self.bounds.get(kind)), kind

    def faults(self):
        """What isn't as it has to be: crates without their seconds, seconds of no crate, a crate that passes its bound."""
        yield from (f"tools/seconds has no crate {name}" for name in self.uses if name not in self.seconds)
        yield from (f"tools/seconds has {name}, which crates.txt lacks" for name in self.seconds if name not in self.uses)
        yield from (f"tools/seconds has a line that isn't read: {line}" for line in self.unread)
        yield from (f"tools/seconds has no bound {kind}" for kind in ("check", "tests") if kind not in self.bounds)
        yield from (f"tools/seconds has a bound of {name}, which crates.txt lacks"
                    for name in self.bounds if name not in ("check", "tests") and name not in self.uses)
        for name in self.uses:
            bound, kind = self.bound(name)
            spent = sum(self.seconds.get(name, (0, 0, 0))[:2]) if kind == "tests" else self.check(name)
            if bound is not None and spent > bound:
                yield f"{name} takes {spent} s of the processor for its {'check and tests' if kind == 'tests' else 'check'}, and may take {bound}"
            elif name in self.bounds and kind in self.bounds and spent <= self.bounds[kind]:
                yield f"{name} takes {spent} s and needs no bound of its own: take its line out of tools/seconds"

    # ---- who waits for whom

    def begins(self, crates=None):
        """When the check of each crate can begin at the earliest, where each has a core of its own."""
        begins = {}
        for name in crates or self.uses:
            begins[name] = max((begins[one] + self.check(one) for one in self.uses[name] if one in begins), default=0)
        return begins

    def chain(self, crates=None):
        """The longest chain of crates of which each waits for the one before: of each its name, and when it can begin."""
        crates = list(crates or self.uses)
        begins = self.begins(crates)
        last = max(crates, key=lambda name: begins[name] + self.check(name))
        found = [last]
        while begins[found[-1]]:
            found.append(max((one for one in self.uses[found[-1]] if one in begins), key=lambda name: begins[name] + self.check(name)))
        return [(name, begins[name]) for name in reversed(found)]


def written(path, measured, about):
    """Puts what was measured into a file of seconds, where its head and its bounds stay; `about` says when and of which tree it is. What
    wasn't measured has the seconds that it had, or a dash."""
    path = pathlib.Path(path)
    kept, before = [], {}
    for line in path.read_text(encoding="utf-8").splitlines():
        if found := LINE.match(line):
            before[found[1]] = found.groups()[1:]
        elif not line.startswith("# Measured"):
            kept.append(line)
    lines = []
    for crate, seconds in measured.items():
        earlier = before.get(crate, ("-",) * len(KINDS))
        lines.append(f"{crate} " + " ".join(was if new is None else f"{new:.0f}" for new, was in zip(seconds, earlier)))
    path.write_text("\n".join([*kept, f"# Measured {about}", *lines]) + "\n", encoding="utf-8")
