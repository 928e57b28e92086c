"""Runs the black-box tests: pytest in a process of its own for each file `tests/test_*.py`.

The tests that pytest collects count. A test failed unless its report says that it passed: it may be
missing from the report, or it was skipped and CONTRIBUTING.md doesn't name it as one that may be.
The reports are in out/junit/, in the format of JUnit."""
import collections
import re
import subprocess
from xml.etree import ElementTree

from packages import python_with_pytest
from repository import TOP

REPORTS = TOP / "out" / "junit"
BAD = {"failure", "error", "skipped"}
# The files that take longest, because their tests wait for time to pass.
LONGEST = ("test_limits", "test_compactions", "test_serve", "test_kills")


def files():
    """Returns the files of tests, the longest ones first."""
    def place(path):
        return path.stem not in LONGEST, path.stem
    return sorted((TOP / "tests").glob("test_*.py"), key=place)


def pytest(*words):
    """Returns the words that run pytest."""
    return [python_with_pytest(), "-m", "pytest", "--quiet", "--no-header", *words]


def collected():
    """Returns the names of the tests of each file, by its name; none of a file that can't be
    collected."""
    command = pytest("--collect-only", "--continue-on-collection-errors", "tests")
    how = {"cwd": TOP, "stdin": subprocess.DEVNULL, "stdout": subprocess.PIPE, "text": True}
    ran = subprocess.run(command, check=False, **how)
    names = {path.name: [] for path in files()}
    for line in ran.stdout.splitlines():
        file, is_test, name = line.partition("::")
        if is_test and file.startswith("tests/"):
            names[file.rpartition("/")[2]].append(name)
    return names


def may_be_skipped():
    """Returns the names of the tests that CONTRIBUTING.md allows to be skipped."""
    page = (TOP / "CONTRIBUTING.md").read_text(encoding="utf-8")
    section = page.partition("\n### Skipped tests\n")[2].partition("\n#")[0]
    return set(re.findall(r"`(test_[^`]+)`", section))


def report_of(path):
    """Returns the path of a file's report."""
    return REPORTS / f"{path.stem}.xml"


def ends_of(report):
    """Returns the failures and skips in a report by the test's name."""
    ends = {}
    if report.is_file():
        for case in ElementTree.parse(report).iter("testcase"):
            parts = [part for part in case if part.tag in BAD]
            ends.setdefault(case.get("name"), []).extend(parts)
    return ends


def end_of(name, ends, skipped):
    """Returns whether a test passed, failed, or was skipped as it may be; and why."""
    if name not in ends:
        return "failed", "it isn't in the report"
    tags = {part.tag for part in ends[name]}
    if tags == {"skipped"}:
        why = ends[name][0].get("message")
        if {name, name.partition("[")[0]} & skipped:
            return "skipped", why
        return "failed", f"it was skipped, and no page says that it may be: {why}"
    return ("failed", f"its report has: {', '.join(sorted(tags))}") if tags else ("passed", "")


def count_of(path, names):
    """Returns a function that counts the tests of a file once pytest has ended, (passed,
    failed)."""
    def count(_last, status, hear):
        ends, skipped, counted = ends_of(report_of(path)), may_be_skipped(), collections.Counter()
        for name in names:
            end, why = end_of(name, ends, skipped)
            counted[end] += 1
            if why:
                hear(f"{'FAILED' if end == 'failed' else end} {path.stem}::{name}: {why}")
        if not counted["failed"] and (status or not names):
            hear(f"FAILED {path.stem}: pytest ended with status {status} after {len(names)} tests")
            counted["failed"] += 1
        return counted["passed"], counted["failed"]
    return count


def jobs(chosen):
    """Yields for each file the command that runs it, and the function that counts its tests."""
    names = collected()
    REPORTS.mkdir(parents=True, exist_ok=True)
    for path in chosen:
        report_of(path).unlink(missing_ok=True)
        report = f"--junitxml={report_of(path).relative_to(TOP)}"
        yield pytest(report, str(path.relative_to(TOP))), count_of(path, names[path.name])
