"""What a script of tests/ prints of each thing that it looks at: `ok NAME: ..` or `FAILED NAME: ..`, a line each, and the status that
it ends with, 1 where a line says FAILED.

    report = Report("tables")
    report.say(good, "each table has its rows")
    report.same("its rows", there, wanted)
    report.each("each row has a key", faults)
    report.part("a file that was spoiled", run, path)
    sys.exit(report.status)
"""
# What a part may fail by, besides what it found otherwise.
FAULTS = (AssertionError, OSError, ValueError)


class Differs(Exception):
    """What is otherwise than it has to be."""


def shown(value, most=600):
    """A value as a line of a report has it."""
    return f"{value!r:.{most}}"


def with_bytes(show_bytes):
    """How to show a value, of which bytes have a way of their own."""
    return lambda value, most: show_bytes(value) if isinstance(value, bytes) else shown(value, most)


def must_be(what, there, wanted, most=300, show=shown):
    """Stops a part where something is otherwise."""
    if there != wanted:
        raise Differs(f"{what}: {show(wanted, most)} is wanted, and there is {show(there, most)}")


def must_be_one(what, there, wanted, most=300, show=shown):
    """Stops a part where something is none of several."""
    if there not in wanted:
        raise Differs(f"{what}: one of {show(wanted, most)} is wanted, and there is {show(there, most)}")


class Report:
    """The lines of a script, and its status so far."""

    def __init__(self, name):
        self.name, self.status, self.count, self.differing = name, 0, 0, []
        self.lines = {"ok": 0, "FAILED": 0}

    def say(self, good, what):
        """Prints the line of one thing. Returns whether it is good."""
        word = "ok" if good else "FAILED"
        print(f"{word} {self.name}: {what}", flush=True)
        self.lines[word] += 1
        self.status = self.status if good else 1
        return bool(good)

    def same(self, what, there, wanted, most=600):
        """Prints whether one thing is as wanted, and what it is where it isn't."""
        return self.say(there == wanted, what if there == wanted else f"{what}: {shown(there, most)}, and {shown(wanted, most)} is wanted")

    def each(self, what, faults):
        """Prints a line for each fault, or one where there is none. Returns whether there is none."""
        found = list(faults)
        for one in found:
            self.say(False, one)
        return not found and self.say(True, what)

    def part(self, what, run, *given, faults=()):
        """Runs a part. Prints that it is good, with what it returns, or the fault that it stopped at. Returns whether it is good. Where it
        has no name, what it returns says what it was."""
        try:
            told = run(*given)
        except (Differs, *FAULTS, *faults) as fault:
            return self.say(False, f"{what}: {fault}" if what else str(fault))
        return self.say(True, ": ".join(str(one) for one in (what, told) if one not in ("", None)))

    def compare(self, what, there, wanted, most=600):
        """Notes one of many things, for which `whole` prints one line."""
        self.count += 1
        if there != wanted:
            self.differing.append(f"{what}: {shown(there, most)}, and {shown(wanted, most)} is wanted")

    def whole(self, what, most=None):
        """Prints one line for all that was noted since the last, or those of what differs. Returns whether nothing does."""
        count, differing = self.count, self.differing
        self.count, self.differing = 0, []
        for one in differing[:most]:
            self.say(False, one)
        return not differing and self.say(True, what.format(count=count))

    def end(self):
        """Prints how many lines there were of each word. Returns the status."""
        print(f"{self.name}: {self.lines['ok']} ok, {self.lines['FAILED']} failed", flush=True)
        return self.status
