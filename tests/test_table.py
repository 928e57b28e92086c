"""Counts and refuses the requests for memory of one push to a table, by a preloaded shim: the
requests inside `Table::apply` are those that the program makes in addition to reading the push.
Their number doesn't grow with the state. Does the same for tables that are made, opened and
rebased: if one of their requests is refused, the sink was given no byte. What journals open as is
worked out by hand."""
import pytest

from checking import S1, S2, expect
from journal_reader import base_text, push_content, record_text
from programs import TFS_PROBE as PROGRAM
from refused_requests import FOREVER, run_refused
from sample_states import chain

pytestmark = pytest.mark.usefixtures("tfs_probe")
DONE, REFUSED = b"done 1\n", b"refused OutOfMemory\n"

# A journal of two entries, and the output for each table that is made with ample memory: its
# position, and what its sink was given. Then the limits of the requests that each makes, including
# those for the input.
PUSH, B = record_text(3, b"a", push_content(b"", S1)), b'{"ID":"B"}'
FIRST = b"TFJ1\n" + PUSH + record_text(1, b"a", B)
JOURNAL = FIRST.hex().encode()
MADE = {"new": b"made at 0, 31 bytes\n", "open": b"made at 2, 130 bytes\n", "rebase": b"made at 2, 92 bytes\n"}
MOST = {"new": 11, "open": 29, "rebase": 35}
UNMADE = b"NoMemory, 0 bytes\n"


def ran(text, word, first=0, last=0):
    """Returns the program's output, its status, and the number of its requests."""
    output, status, _, requests, _ = run_refused([PROGRAM, "table", word], first, last, text)
    return output, status, requests


def requests_of(text):
    """Returns the numbers of requests up to the change, and up to its end."""
    output, status, before = ran(text, "read")
    expect((output, status), (b"", 0), "the push is read")
    output, status, after = ran(text, "apply")
    expect((output, status), (DONE, 0), "the push is applied")
    return before, after


def test_the_number_of_requests_is_the_same_for_large_states():
    inside = [after - before for before, after in map(requests_of, map(chain, (1, 2, 2048, 4096)))]
    expect(inside[0] > 0, True, "there is one request at least")
    expect(inside, inside[:1] * len(inside))


def test_each_request_that_is_refused_leaves_the_table_as_it_was():
    for text in map(chain, (1, 300)):
        before, after = requests_of(text)
        for number in range(before + 1, after + 1):
            expect(ran(text, "apply", number, number)[:2], (REFUSED + DONE, 0), f"request {number} of {before} to {after}")


def test_all_requests_from_one_on_that_are_refused_end_in_one_line():
    text = chain(3)
    before, after = requests_of(text)
    for number in range(before + 1, after + 1):
        output, status, _ = ran(text, "apply", number, FOREVER)
        expect((output, status), (REFUSED, 1), f"from request {number} on")


# Journals by their lengths, with the number of opened bytes, and the output.
JOURNALS = {
    "104": FIRST, "changed": FIRST[:20] + bytes([FIRST[20] ^ 1]) + FIRST[21:], "137": b"TFJ1\n" + record_text(3, b"a", push_content(b"", S2)) + PUSH,
    "130": b"TFJ2\n" + base_text(0, []) + FIRST[5:], "92": b"TFJ2\n" + base_text(2, [(b"a", B, S1)]),
    "163": b"TFJ2\n" + base_text(0, []) + PUSH + record_text(3, b"a", push_content(b"", S2)),
}
OPENINGS = """
104 104: made at 2, 130 bytes
104 90: made at 1, 97 bytes
104 71: made at 1, 97 bytes
104 70: made at 0, 31 bytes
104 5: made at 0, 31 bytes
104 3: made at 0, 31 bytes
104 0: made at 0, 31 bytes
changed 104: Damaged(5), 0 bytes
137 137: Unlawful(2), 0 bytes
137 71: made at 1, 97 bytes
130 130: made at 2, 130 bytes
92 92: made at 2, 92 bytes
92 5: TornBase, 0 bytes
92 50: TornBase, 0 bytes
92 91: TornBase, 0 bytes
163 31: made at 0, 31 bytes
163 81: made at 0, 31 bytes
163 97: made at 1, 97 bytes
163 147: made at 1, 97 bytes
163 163: made at 2, 163 bytes"""


@pytest.mark.parametrize("row", OPENINGS.split("\n")[1:])
def test_journals_of_both_formats_are_opened(row):
    given, wanted = row.split(": ")
    length, count = given.split()
    output, status, _ = ran(JOURNALS[length][:int(count)].hex().encode() + b"\n", "open")
    expect((output.decode(), status), (wanted + "\n", 0), row)


def test_the_journals_have_their_lengths():
    expect([len(text) for text in JOURNALS.values()], [104, 104, 137, 130, 92, 163])


@pytest.mark.parametrize("word", MADE)
def test_memory_is_refused_before_a_sink_is_given_anything(word):
    made = MADE[word]
    output, status, requests = ran(JOURNAL, word)
    expect((output, status), (made, 0), word)
    expect(requests <= MOST[word], True, f"{word}: {requests} requests")
    told = {ran(JOURNAL, word, number, last)[:2] for number in range(1, requests + 1) for last in (number, FOREVER)}
    expect(told - {(b"", 1), (made, 0)}, {(UNMADE, 0)}, f"{word}: requests for the table are refused, beside those for the input")
    expect(ran(JOURNAL, word, requests + 1, FOREVER)[:2], (made, 0), f"{word}: there is no further request")
