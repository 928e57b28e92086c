"""Refuses the requests for memory of the program `tfs_probe`, which reads a small state, builds its
index and queries it for any and all of two addresses: each request, one in each run, and all from
each one on. Each run writes what it writes with ample memory, or complete lines of it and that
memory ran out."""
import pytest

from checking import expect
from programs import TFS_PROBE
from refused_requests import FOREVER, count_of, fault_of, run_refused
from sample_states import groups

pytestmark = pytest.mark.usefixtures("tfs_probe")
# Of eight resources with two instances each the last two depend, by one or more steps, on all of
# t.r5; t.r7 alone on t.r6[1].
ASKED = groups(16) + b"\nt.r5\nt.r6[1]\n"
ANY, ALL = b"".join(b"any %d\n" % u for u in range(12, 16)), b"all 14\nall 15\n"
AMPLE = b"read\nbuilt\n" + ANY + ALL
PROGRAM = [TFS_PROBE, "index"]


@pytest.mark.parametrize("addresses, words", [
    (b"", b"the query has no address"), (b"t.r5\n" * 65, b"the query has more than 64 addresses"),
    (b"t.r5\n" * 7 + b"t.x\n", b"address 7 of the query names nothing")])
def test_faults_of_queries_are_reported_in_words(addresses, words):
    state = groups(16) + b"\n"
    expect(run_refused(PROGRAM, 0, 0, state + addresses)[:3], (b"read\nbuilt\n", 1, b"Error: " + words + b"\n"))


def test_each_allocation_is_refused_once():
    seen = {fault_of(PROGRAM, AMPLE, request, request, ASKED) for request in range(1, count_of(PROGRAM, AMPLE, ASKED) + 1)}
    expect([fault for _, fault in seen if fault and b"memory" not in fault], [], "memory runs out")
    expect(b"Error: no memory to answer the query\n" in {fault for _, fault in seen}, True, "a query tells that")
    refused = {output for output, fault in seen if fault}
    expect(refused >= {b"", b"read\n", b"read\nbuilt\n", b"read\nbuilt\n" + ANY}, True, "reading, build, any and all are refused some")


def test_all_requests_from_each_one_on_are_refused():
    requests = count_of(PROGRAM, AMPLE, ASKED)
    faults = {fault_of(PROGRAM, AMPLE, request, FOREVER, ASKED)[1] for request in range(1, requests + 1)}
    expect([fault for fault in faults if b"memory" not in fault], [], "memory runs out")
    expect(fault_of(PROGRAM, AMPLE, requests + 1, FOREVER, ASKED), (AMPLE, b""), "there is no further request")
