#!/usr/bin/env python3
"""Writes the copy of a short day, which lab_tests_memory and tests/copies compare: Python's csv writes it by docs/COPIES.md of the
laboratory of tests/model/laboratory.py, whose hashes are those of hashlib.

    tests/model/copied.py          the copy of records 1 to 9 for hal, which is examples/copy.csv
    tests/model/copied.py nobody   the same for nobody, as lab_tests_memory has it
    tests/model/copied.py 3 5      the copy of records 3 to 5, for nobody
"""
import copy
import csv
import sys

from named_cases import setup
from laboratory import copy_rows
from streams import LEAD, NOTE


def played():
    """A record released and amended, one rejected, one whose form wants an approval that it doesn't have yet, and one that is open."""
    s = copy.deepcopy(setup())

    def opened(moment, sample, number):
        s.post(moment, "dan", "/records", form="water", sample=sample, wants={"record": number})

    def entered(moment, record, key, value, unit):
        s.post(moment, "dan", "/entries", record=record, key=key, value=value, unit=unit)
    for moment, who in ((1110, "gus"), (1110, "eve"), (1111, "fay")):
        s.open(moment, who)
    s.sign(1200, "dan", 1, 1, "authorship", code="dan")
    s.sign(1210, "eve", 1, 1, "review", code="eve")
    altered = [{"key": "lead", "value": "7.5", "unit": "mg/L"}]
    s.post(1220, "dan", "/amendments", record=1, reason='misread: "7,50"', altered=altered)
    opened(1230, "Sample, two", 2)
    entered(1240, 2, "lead", "<0.05", "mg/L")
    entered(1250, 2, "note", 'it says "clear"', "")
    s.sign(1260, "dan", 2, 1, "authorship")
    s.sign(1270, "fay", 2, 1, "rejection", code="fay", reason="no blank")
    s.post(1280, "gus", "/forms", form="water", approval=True, fields=[LEAD, NOTE])
    opened(1290, "S3", 3)
    entered(1300, 3, "lead", "8", "mg/L")
    s.sign(1310, "dan", 3, 1, "authorship")
    s.sign(1320, "eve", 3, 1, "review")
    opened(1330, "S4", 4)
    return s


def main(words):
    lab, out = played().labs["aqua"], csv.writer(sys.stdout, lineterminator="\n")
    if len(words) == 2:
        out.writerows(copy_rows(lab, int(words[0]), int(words[1]), None, 6000))
    else:
        out.writerows(copy_rows(lab, 1, 9, None if words == ["nobody"] else "hal", 5000))


if __name__ == "__main__":
    main(sys.argv[1:])
