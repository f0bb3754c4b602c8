"""What the parts of tests/pages_code share: where the pages are, and the report."""
import pathlib
import sys

TOP = pathlib.Path(__file__).resolve().parent.parent.parent
PAGES = TOP / "pages"
sys.path.insert(0, str(TOP / "tests/lib"))
from report import Report  # noqa: E402

report = Report("pages_code")
say, same = report.say, report.same
