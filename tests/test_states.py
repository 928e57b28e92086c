"""Refuses the requests for memory of the program `tfs_probe`, which reads small states of each
shape: each request, one in each run, and all from each one on. Each run writes what it writes with
ample memory, or that memory ran out. Then reads texts of the shapes that take the most memory for
their bytes: none takes more than 30 times its bytes and 64 KB."""
from itertools import product
from string import printable

import pytest

from checking import expect
from programs import TFS_PROBE
from refused_requests import FOREVER, count_of, fault_of, most_of
from sample_states import deep, dependent, written

pytestmark = pytest.mark.usefixtures("tfs_probe")
PROGRAM = [TFS_PROBE, "state"]
OF_THE_READER = b"Error: no memory to read the state\n"
FAULTS = [b"", OF_THE_READER, b"Error: out of memory\n", b"Error: memory allocation failed\n"]
# States, and the number of instances of each.
STATES = [(written(2, 0), 2), (written(3, 1), 3), (written(4, 2), 4), (written(5, 3), 5), (dependent(6, 0), 6), (dependent(7, 2), 7),
          (deep(1, 8, 8), 8), (deep(2, 8, 5), 10)]


def ample(count):
    return b"%d instances\n" % count


def test_each_allocation_is_refused_once():
    faults = []
    for state, count in STATES:
        requests = range(1, count_of(PROGRAM, ample(count), state) + 1)
        faults += [fault_of(PROGRAM, ample(count), request, request, state)[1] for request in requests]
    expect(set(faults) - set(FAULTS), set(), "no other fault")
    expect(faults.count(OF_THE_READER) > 100, True, "the reader is refused many of them")


def test_all_requests_from_each_one_on_are_refused():
    for state, count in STATES:
        requests = count_of(PROGRAM, ample(count), state)
        faults = {fault_of(PROGRAM, ample(count), request, FOREVER, state)[1] for request in range(1, requests + 1)}
        expect(faults - set(FAULTS), set(), "no other fault")
        expect(fault_of(PROGRAM, ample(count), requests + 1, FOREVER, state), (ample(count), b""), "there is no further request")


HEAD = b'{"version":4,"serial":1,"lineage":"L","resources":['
RESOURCE = b'{"mode":"data","type":"t","name":"a","instances":['
# Texts of one and two letters, without brackets and escapes.
TEXTS = [b'"%s"' % "".join(text).encode() for count in (1, 2) for text in product(sorted(set(printable[:94]) - set("\"\\[]")), repeat=count)]
# Shapes: the beginning of a text, the parts that it lists, and its end.
SHAPES = {
    "instances": (HEAD + RESOURCE, [b"{}"], b"]}]}"),
    "an instance, and instances": (HEAD + RESOURCE + b"{}]}," + RESOURCE, [b"{}"], b"]}]}"),
    "instances by tens": (HEAD, [RESOURCE + b"{},{},{},{},{},{},{},{},{},{}]}"], b"]}"),
    "resources of one instance": (HEAD, [RESOURCE + b"{}]}"], b"]}"),
    "resources of none": (HEAD, [RESOURCE + b"]}"], b"]}"),
    "numbers for instances": (HEAD + RESOURCE, [b"0"], b"]}]}"),
    "instances of one dependency": (HEAD + RESOURCE, [b'{"dependencies":[""]}'], b"]}]}"),
    "dependencies": (HEAD + RESOURCE + b'{"dependencies":[', [b'""'], b"]}]}]}"),
    "other dependencies, and instances": (HEAD + RESOURCE + b'{"dependencies":[' + b",".join(TEXTS[:1_000]) + b"]},", [b"{}"], b"]}]}"),
    "other dependencies": (HEAD + RESOURCE + b'{"dependencies":[', TEXTS, b"]}]}]}"),
    "keys": (HEAD + RESOURCE, [b'{"index_key":0}'], b"]}]}"),
    "members of one name": (b"{", [b'"ID":0'], b"}"),
    "numbers": (b"[", [b"0"], b"]"),
    "lists of a number": (b"[", [b"[0]"], b"]"),
    "lists of eighteen numbers": (b"[", [b"[" + b",".join([b"0"] * 18) + b"]"], b"]"),
    "lists in lists": (b"[", [b"[" * 120 + b"]" * 120], b"]"),
}


def listing(size, front, parts, back):
    """Returns a text of about this many bytes, which lists parts over and over."""
    count = size * len(parts) // len(b",".join(parts) + b",")
    return front + b",".join((parts * (count // len(parts) + 1))[:count]) + back


@pytest.mark.parametrize("name", SHAPES)
def test_no_text_takes_more_than_thirty_times_its_bytes_and_64_kb(name):
    # A text in quotes has no values, so the memory that another text takes beyond it exceeds the
    # text, a copy, and the 16 KB of the reader.
    for size in (300, 1_000, 3_000, 6_000, 10_000, 12_500, 30_000, 64_000):
        text = listing(size, *SHAPES[name])
        more = most_of(PROGRAM, text) - most_of(PROGRAM, b'"%s"' % text.replace(b'"', b"'")[2:])
        expect(more <= 28 * len(text) + 48 * 1024, True, f"{name} of {len(text)} bytes take {more} bytes more than one text")
