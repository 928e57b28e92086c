"""Refuses the built program's requests for memory, by a preloaded shim: each request of a
conversation, one in each run, and all from each one on. Each run ends by itself, and its output is
complete replies that the model allows. One conversation is the stored run, whose outputs are
written here by hand; two are like it, with a state that doesn't come in one read, in chunks in one
of them; the last has locks, unlocks and a deletion.

All requests are the program's own, by malloc and realloc; the loader and the C library make none.
The first ones are for the arguments: if they are refused, the arguments can't be read and count as
invalid."""
from itertools import combinations

import pytest

from checking import S1, expect
import refused_requests
from refused_requests import FOREVER
from stdio_model import DONE, Request, Table, refusal_text, reply_text
from stdio_program import CRATE, MAX_READ, PROGRAM, USAGE, request_text

pytestmark = pytest.mark.usefixtures("tfstated")
PUSH_AND_GET = (CRATE / "stdin").read_bytes()
STATE = reply_text(200, S1)
NO_MEMORY = refusal_text("OutOfMemory")
NO_STATE = refusal_text("NoState")
FAULT = b"tfstated: NoMemory\n"

A, B = b'{"ID":"A" ,"Who":""}', b'{"ID":"B"}'
LOCKS = [
    ("LOCK", "/state/a", A), ("POST", "/state/a?ID=A", S1), ("GET", "/state/a", b""), ("LOCK", "/state/a", B),
    ("UNLOCK", "/state/a", A), ("DELETE", "/state/a", b""),
]
LONG = S1 + b" " * (200_000 - len(S1))
PUSH_AND_GET_LONG = request_text("POST", "/state/a", LONG) + request_text("GET", "/state/a", b"")
IN_CHUNKS = b"".join(b"2710\r\n" + LONG[at : at + 10_000] + b"\r\n" for at in range(0, len(LONG), 10_000)) + b"0\r\n\r\n"
CHUNKED_HEAD = b"POST /state/a HTTP/1.1\r\nHost: h\r\nTransfer-Encoding: chunked\r\n\r\n"
PUSH_IN_CHUNKS_AND_GET = CHUNKED_HEAD + IN_CHUNKS + request_text("GET", "/state/a", b"")
LONG_STATE = reply_text(200, LONG)
LOCKS_TEXT = b"".join(request_text(*request) for request in LOCKS)
LOCKS_REPLIES = [DONE, DONE, STATE, reply_text(423, A), DONE, DONE]


def run_refused(first, last, word="stdio", data=PUSH_AND_GET):
    """Runs `tfstated`, whose requests from the first to the last are refused."""
    return refused_requests.run_refused([PROGRAM, word], first, last, data)


def ample_counts(data=PUSH_AND_GET, wanted=DONE + STATE):
    """Returns how many requests a conversation makes, and how many of them are for the
    arguments."""
    output, status, errors, requests, others = run_refused(0, 0, data=data)
    expect((output, status, errors, others), (wanted, 0, b"", 0), "no request is refused")
    output, status, errors, for_arguments, others = run_refused(0, 0, "other")
    expect((output, status, errors, others), (b"", 2, USAGE, 0), "other arguments of the same length")
    return requests, for_arguments


def whole_outputs(refused_once):
    """Returns the outputs of a conversation that ended without a fault, with at least one reply
    OutOfMemory."""
    outputs = {DONE + NO_MEMORY, NO_MEMORY + NO_STATE}
    return outputs if refused_once else outputs | {NO_MEMORY + NO_MEMORY}


def expect_allowed(ran, request, for_arguments, refused_once):
    """Fails if a run did something else than a refused request allows."""
    output, status, errors, _, others = ran
    expect(others, 0, f"request {request}: requests of others")
    if request <= for_arguments:
        expect((output, status, errors), (b"", 2, USAGE), f"request {request}, for the arguments")
    elif status == 0:
        expect((output in whole_outputs(refused_once), errors), (True, b""), f"request {request}, {output}")
    else:
        before = {b"", DONE, DONE + STATE} | ({NO_MEMORY} if not refused_once else set())
        expect((status, errors), (1, FAULT), f"request {request}")
        expect(output in before, True, f"request {request}, {output}")


def test_each_allocation_of_the_stored_run_is_refused_once():
    requests, for_arguments = ample_counts()
    expect(0 < for_arguments < requests, True, "there are requests of both sorts")
    seen = set()
    for request in range(1, requests + 1):
        ran = run_refused(request, request)
        expect_allowed(ran, request, for_arguments, refused_once=True)
        seen.add(ran[:2])
    expect(run_refused(requests + 1, FOREVER)[:3], (DONE + STATE, 0, b""), "there is no further request")
    for output, status in [(b"", 1), (DONE, 1), (NO_MEMORY + NO_STATE, 0), (DONE + NO_MEMORY, 0)]:
        expect((output, status) in seen, True, f"some request gives {status}, {output}")


def expect_long_push_is_refused_in_turn(data, harmless=frozenset()):
    """Refuses each request of a conversation with a long push and a read: each outcome that the
    model allows occurs, and each harmless one, and no other."""
    requests, for_arguments = ample_counts(data, DONE + LONG_STATE)
    faults = {(b"", 1, FAULT), (DONE, 1, FAULT)}
    allowed = faults | harmless | {(NO_MEMORY + NO_STATE, 0, b""), (DONE + NO_MEMORY, 0, b"")}
    seen = set()
    for request in range(for_arguments + 1, requests + 1):
        *ran, _, others = run_refused(request, request, data=data)
        expect((tuple(ran) in allowed, others), (True, 0), f"request {request}, {ran[0][:100]}, {ran[1:]}")
        seen.add(tuple(ran))
    expect(seen, allowed, "each of these comes")
    expect(run_refused(requests + 1, FOREVER, data=data)[:3], (DONE + LONG_STATE, 0, b""), "there is no further request")


def test_each_allocation_of_a_push_in_pieces_is_refused_once():
    expect_long_push_is_refused_in_turn(PUSH_AND_GET_LONG)


def test_each_allocation_of_a_push_in_chunks_is_refused_once():
    # A body that was joined is shrunk; if that is refused, it keeps its room.
    expect_long_push_is_refused_in_turn(PUSH_IN_CHUNKS_AND_GET, {(DONE + LONG_STATE, 0, b"")})


def test_all_requests_from_each_one_on_are_refused():
    requests, for_arguments = ample_counts()
    for request in range(1, requests + 1):
        ran = run_refused(request, FOREVER)
        expect_allowed(ran, request, for_arguments, refused_once=False)


def replies_without(refused):
    """Returns the replies to the second conversation if the ones with these numbers are OutOfMemory
    and change nothing."""
    table = Table()
    return [NO_MEMORY if number in refused else table.reply(Request(*request)) for number, request in enumerate(LOCKS)]


def whole_run(refused):
    """Returns the output of the second conversation, its status and standard error, if it comes to
    its end."""
    return b"".join(replies_without(refused)), 0, b""


def broken_runs(refused):
    """Returns the same if it is broken off after some of its replies, and after each that was
    OutOfMemory."""
    replies, first = replies_without(refused), max(refused, default=-1) + 1
    return {(b"".join(replies[:count]), 1, FAULT) for count in range(first, len(LOCKS) + 1)}


def test_each_allocation_of_a_conversation_with_locks_is_refused_once():
    expect(replies_without([]), LOCKS_REPLIES, "with ample memory")
    requests, for_arguments = ample_counts(LOCKS_TEXT, b"".join(LOCKS_REPLIES))
    out_of_memory = {whole_run([number]) for number in range(len(LOCKS))}
    seen = set()
    for request in range(for_arguments + 1, requests + 1):
        *ran, _, others = run_refused(request, request, data=LOCKS_TEXT)
        expect((tuple(ran) in out_of_memory | broken_runs([]), others), (True, 0), f"request {request}, {ran}")
        seen.add(tuple(ran))
    expect(run_refused(requests + 1, FOREVER, data=LOCKS_TEXT)[:3], whole_run([]), "there is no further request")
    expect(out_of_memory <= seen, True, "each reply is OutOfMemory once")
    expect({(b"".join(LOCKS_REPLIES[:count]), 1, FAULT) for count in range(len(LOCKS))} <= seen, True, "faults before each")


def test_all_requests_from_each_one_on_of_a_conversation_with_locks_are_refused():
    requests, for_arguments = ample_counts(LOCKS_TEXT, b"".join(LOCKS_REPLIES))
    allowed = broken_runs([])
    for size in range(1, len(LOCKS) + 1):
        for refused in combinations(range(len(LOCKS)), size):
            allowed |= {whole_run(refused)} | broken_runs(refused)
    for request in range(for_arguments + 1, requests + 1):
        *ran, _, others = run_refused(request, FOREVER, data=LOCKS_TEXT)
        expect((tuple(ran) in allowed, others), (True, 0), f"request {request}, {ran}")


# A state of three instances, a request before it, and the request that is counted with the limit of
# its requests for memory. A list that grows with the journal requests more now and then, so the
# requests of twenty of them are counted.
THREE = (b'{"version":4,"serial":1,"lineage":"L1","resources":[{"mode":"managed","type":"t","name":"a","instances":[{}]},'
         b'{"mode":"managed","type":"t","name":"b","instances":[{"dependencies":["t.a"]}]},'
         b'{"mode":"managed","type":"t","name":"c","instances":[{"dependencies":["t.b"]}]}]}')
MOST = [
    ("a read of no state", ("GET", "/state/z", b""), 4),
    ("a read", ("GET", "/state/a", b""), 3),
    ("a read with an identifier", ("GET", "/state/a?ID=A", b""), 3),
    ("a lock", ("LOCK", "/state/a", A), 11),
    ("a lock with an identifier", ("LOCK", "/state/a?ID=A", A), 11),
    ("an unlock", ("UNLOCK", "/state/a", A), 12),
    ("a push", ("POST", "/state/a", THREE), 64),
    ("a push that comes in pieces", ("POST", "/state/a", LONG), 13),
    ("an impact", ("GET", "/impact/a/any?of=t.a", b""), 10),
    ("an impact of two", ("GET", "/impact/a/all?of=t.a&of=t.b", b""), 12),
]


def requests_of(request, times):
    """Returns how many requests for memory a conversation makes that pushes a state and then sends
    a request this many times."""
    data = request_text("POST", "/state/a", THREE) + request_text(*request) * times
    _, status, errors, requests, others = run_refused(0, 0, data=data)
    expect((status, errors, others), (0, b"", 0), "no request is refused")
    return requests


@pytest.mark.parametrize("what, repeated, most", MOST)
def test_no_request_asks_for_memory_more_often_than_it_needs(what, repeated, most):
    asked = requests_of(repeated, 40) - requests_of(repeated, 20)
    expect(asked <= 20 * most + 8, True, f"{what} makes {asked / 20} requests for memory")


def test_no_request_of_a_short_conversation_asks_for_more_than_a_read():
    ran, counts = refused_requests.run_counted([PROGRAM, "stdio"], 0, 0, LOCKS_TEXT)
    expect((ran.stdout, ran.returncode), (b"".join(LOCKS_REPLIES), 0), "no request is refused")
    expect(counts.longest <= MAX_READ, True, f"a request for {counts.longest} bytes")
