"""Refuses the requests for memory that the program `tfs_probe` makes: each request, one in each
run, and all from each one on. Each call of `tfs_addr` must then report that memory ran out, or
answer as with ample memory; a text with a fault must have its fault.

It needs gcc, and builds the program if it isn't built."""
import pytest

import refused_requests
from programs import TFS_PROBE
from refused_requests import FOREVER
from repository import TOP

pytestmark = pytest.mark.usefixtures("tfs_probe")
PROGRAM = [TFS_PROBE, "addresses"]
CALLS = ("strip", "config", "instance")
# What the program writes about these calls in its stored run.
STORED = (TOP / "crates" / "tfs_probe" / "stdout").read_text(encoding="utf-8").splitlines()
AMPLE = [line for line in STORED if line.split(":")[0] in CALLS]


def run_refused(first, last):
    """Runs the program, whose requests from the first to the last are refused. Returns its lines,
    its status, and its number of requests."""
    output, status, _, own, _ = refused_requests.run_refused(PROGRAM, first, last)
    return output.decode("utf-8").splitlines(), status, own


def call_of(line):
    return line.split(":")[0]


def may_run_out(place):
    """Returns true if the call that answers in this place requests memory and has no fault to
    report first. `strip` requests none if nothing is left of the text."""
    return AMPLE[place] != "strip: " and "a bracket is" not in AMPLE[place]


def out_of_memory(line):
    return call_of(line) + ": out of memory"


def refused_places(lines, about):
    """Returns the places of the calls that ran out of memory. All other lines must be as with ample
    memory."""
    assert len(lines) == len(AMPLE), f"{about}: {len(lines)} lines"
    places = {place for place, line in enumerate(lines) if line != AMPLE[place]}
    for place in places:
        assert may_run_out(place), f"{about}: {lines[place]!r} in place of {AMPLE[place]!r}"
        assert lines[place] == out_of_memory(AMPLE[place]), f"{about}: {lines[place]!r}"
    return places


def test_ample_memory():
    lines, status, requests = run_refused(0, 0)
    assert (lines, status) == (AMPLE, 0), "with ample memory"
    assert requests > 0
    assert run_refused(requests + 1, FOREVER)[:2] == (AMPLE, 0), "there is no further request"


def test_each_allocation_is_refused_once():
    requests = run_refused(0, 0)[2]
    seen = set()
    for request in range(1, requests + 1):
        lines, status, _ = run_refused(request, request)
        if status == 0:
            places = refused_places(lines, f"request {request}")
            assert len(places) <= 1, f"request {request}: {len(places)} calls ran out of memory"
            seen |= places
        else:
            assert lines == [], f"request {request}: status {status}"
    wanted = {place for place in range(len(AMPLE)) if may_run_out(place)}
    assert seen == wanted, f"not refused: {[AMPLE[place] for place in sorted(wanted - seen)]}"


def test_all_requests_from_each_one_on_are_refused():
    requests = run_refused(0, 0)[2]
    for request in range(1, requests + 1):
        lines, status, _ = run_refused(request, FOREVER)
        if status == 0:
            refused_places(lines, f"from request {request} on")
        else:
            assert lines == [], f"from request {request} on: status {status}"


def main():
    refused_requests.build_shim()
    passed = failed = 0
    for name, check in list(globals().items()):
        if not name.startswith("check_"):
            continue
        try:
            check()
            passed += 1
        except AssertionError as error:
            failed += 1
            print(f"{name}: FAILED: {error}", flush=True)
    print(f"{passed} passed, {failed} failed", flush=True)
    return 1 if failed else 0
