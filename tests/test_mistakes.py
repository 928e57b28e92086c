"""Checks that each wrong body of tests/wrong_bodies.csv is refused by what its row names: an edit
or a test of a crate, or a black-box test; and that there are no more edits than the gate has time
for."""
import csv
import re

from checking import expect
from repository import TOP

MAX_EDITS = 150


def rows():
    """Returns each row of the table: the wrong body, and the names of what refuses it."""
    with open(TOP / "tests" / "wrong_bodies.csv", encoding="utf-8", newline="") as table:
        return [(body, words) for body, *words in list(csv.reader(table))[1:]]


def names(pattern, text):
    """Returns what a pattern finds in all files of these paths."""
    return {name for path in TOP.glob(pattern) for name in re.findall(text, path.read_text(encoding="utf-8"))}


def refusers():
    """Returns the names of all edits and tests."""
    edits = {f"{path.parts[-3]}/{path.stem}" for path in TOP.glob("crates/*/must-fail/*.edit")}
    return edits | names("crates/*/src/**/*.rt", r"#\[test\]\n\s*fn (\w+)") | names("tests/test_*.py", r"\ndef (test_\w+)\(")


def test_each_wrong_body_is_refused_by_what_is_there():
    found, known = rows(), refusers()
    expect(len(found) >= 20, True, "rows")
    expect([body for body, words in found if not words], [], "rows that name nothing")
    expect([(body, word) for body, words in found for word in words if word not in known], [], "names of nothing")


def test_there_are_not_too_many_edits():
    count = len(list(TOP.glob("crates/*/must-fail/*.edit")))
    expect(0 < count <= MAX_EDITS, True, f"{count} edits")
