"""Drives `tfstated stdio` with bodies of a stated length that don't come in one read with their
heads, and `tfstated serve` with some that never come to their end. However a request is cut, the
replies are those written here by hand for all of it: no byte of a body is lost, doubled or taken
from the next request, and bytes after a body wait for a read of their own."""
import socket

import pytest

from checking import S1, S2, expect
from serve_program import Server, entries_of
from stdio_model import CLEAN, CUT, DONE, refusal_text, reply_text
from stdio_program import MAX_READ, Talk, request_text, run, run_in_pieces, send_all

pytestmark = pytest.mark.usefixtures("tfstated")
GET = request_text("GET", "/state/a")
NO_STATE = refusal_text("NoState")
LONG = 200_000
SHORT_LENGTHS, LONG_LENGTHS = (0, 1, 41), (65_535, 65_536, 65_537, LONG)
MAX_LOCK_INFO = 65_536
# How many bytes a body of LONG bytes lacks.
MISSING = (1, 2, 65_536, 100_000, 199_999, LONG)


def text_of(size, state=S1):
    """Returns a state followed by spaces, of this many bytes in all, or this many first bytes of
    the state."""
    return state[:size].ljust(size)


def head_of(body):
    """Returns the head of a request that pushes a body, which may be empty."""
    return b"POST /state/a HTTP/1.1\r\nHost: h\r\nContent-Length: %d\r\n\r\n" % len(body)


def push_and_get(body):
    """Returns a request that pushes a body, directly followed by one that reads the state."""
    return head_of(body) + body + GET


def replies_to(body):
    """Returns the replies to these two."""
    return DONE + reply_text(200, body) if body.startswith(S1) else refusal_text("BadState") + NO_STATE


def cut_at(data, *places):
    """Returns the bytes cut at these places; pieces above the limit of one read are cut further."""
    starts = [0, *places, len(data)]
    return [data[at : min(at + MAX_READ, end)] for start, end in zip(starts, starts[1:]) for at in range(start, end, MAX_READ)]


def pieces_of(data, size):
    """Returns the bytes in pieces of this size."""
    return [data[at : at + size] for at in range(0, len(data), size)]


def expect_replies(pieces, body, about):
    """Checks that a push of this body and a read are answered as they are in one piece."""
    expect(run_in_pieces(pieces), (replies_to(body), CLEAN, b""), f"a body of {len(body):,} bytes, {about}")


@pytest.mark.parametrize("size", [*SHORT_LENGTHS, 40, 42, *LONG_LENGTHS])
def test_bodies_in_one_piece(size):
    body = text_of(size)
    expect(len(body), size)
    expect(run(push_and_get(body)), (replies_to(body), CLEAN, b""), f"a body of {size:,} bytes")


@pytest.mark.parametrize("size", [41, LONG])
def test_bodies_follow_heads_of_every_spelling(size):
    body = text_of(size)
    start = b"\r\n\nPOST /state/a HTTP/1.1\nHost: h\nContent-Length: " + b"%010d\n\n" % size
    for pieces in ([start + body + GET], [start, body + GET], [start + body[:3], body[3:] + GET]):
        cut = [piece[at : at + MAX_READ] for piece in pieces for at in range(0, len(piece), MAX_READ)]
        expect_replies(cut, body, f"in {len(cut)} pieces, behind empty lines")


@pytest.mark.parametrize("body", map(text_of, SHORT_LENGTHS))
def test_short_bodies_are_cut_at_each_byte(body):
    data = push_and_get(body)
    for place in range(1, len(data)):
        expect_replies(cut_at(data, place), body, f"cut at {place}")
    for size in (1, 2, 7):
        expect_replies(pieces_of(data, size), body, f"in pieces of {size}")


@pytest.mark.parametrize("length", LONG_LENGTHS)
def test_long_bodies_are_cut_around_their_ends(length):
    body = text_of(length)
    data, start = push_and_get(body), len(head_of(body))
    end = start + len(body)
    places = {start + more for more in (-2, -1, 0, 1, 2)} | {end + more for more in (-2, -1, 0, 1)}
    places |= {start + MAX_READ + more for more in (-2, -1, 0, 1, 2)}
    for place in sorted(places):
        expect_replies(cut_at(data, place), body, f"cut at {place:,}")
        expect_replies(cut_at(data, *sorted({start, place})), body, f"cut behind its head and at {place:,}")


@pytest.mark.parametrize("size", [1_000, 65_535])
@pytest.mark.parametrize("length", LONG_LENGTHS)
def test_long_bodies_come_in_pieces(length, size):
    body = text_of(length)
    expect_replies(pieces_of(push_and_get(body), size), body, f"in pieces of {size:,}")


def test_a_long_body_comes_byte_by_byte():
    body = text_of(65_537)
    expect_replies(pieces_of(push_and_get(body), 1), body, "byte by byte")


def run_in_packets(packets):
    """Runs the program on packets. A read that asks for fewer bytes than a packet has loses the
    packet's end."""
    near, far = socket.socketpair(socket.AF_UNIX, socket.SOCK_SEQPACKET)
    talk = Talk(stdin=far)
    far.close()
    send_all(near, packets, lambda: True)
    return talk.end()


@pytest.mark.parametrize("size", [41, LONG])
def test_no_read_goes_past_the_end_of_a_body(size):
    body = text_of(size)
    head, wanted = head_of(body), replies_to(body)
    rest = pieces_of(body[1:], MAX_READ)
    separate, joined = [head + body[:1], *rest, GET], [head + body[:1], *rest[:-1], rest[-1] + GET]
    expect(run_in_packets(separate), (wanted, CLEAN, b""), f"a body of {size:,} bytes, and the next request by itself")
    expect(run_in_packets(joined), (DONE, CLEAN, b""), f"a body of {size:,} bytes, and the next request in its last packet")


def test_a_read_of_a_head_takes_what_is_there():
    expect(run_in_packets([push_and_get(S1)]), (replies_to(S1), CLEAN, b""), "all in one packet")


def test_no_read_of_a_body_takes_more_than_65536_bytes():
    body = text_of(2 * MAX_READ)
    packets = [head_of(body), body[:MAX_READ] + b"lost", body[MAX_READ:], GET]
    expect(run_in_packets(packets), (replies_to(body), CLEAN, b""))


@pytest.mark.parametrize("length", LONG_LENGTHS)
def test_a_long_body_is_answered_before_the_next_byte_is_there(length):
    body, talk = text_of(length), Talk()
    for piece in cut_at(head_of(body) + body, len(head_of(body))):
        talk.give(piece)
    expect(talk.take(len(DONE)), DONE, f"a body of {len(body):,} bytes")
    talk.give(GET)
    expect(talk.end(), (reply_text(200, body), CLEAN, b""), f"a body of {len(body):,} bytes")


@pytest.mark.parametrize("size", [999, 4_096, 65_535, MAX_READ])
def test_bodies_one_after_another_are_kept_apart(size):
    pushes = [text_of(LONG), S2, text_of(70_000, S2), S2[:-1], text_of(LONG + 1, S2.replace(b"2 ", b"3 ")), b"", S2.replace(b"2 ", b"4 ")]
    names = ["SerialReused", "BadState", "BadState"]
    replies = [DONE, DONE, *map(refusal_text, names[:2]), DONE, refusal_text(names[2]), DONE]
    states = [pushes[0], pushes[1], pushes[1], pushes[1], pushes[4], pushes[4], pushes[6]]
    wanted = b"".join(reply + reply_text(200, state) for reply, state in zip(replies, states))
    expect(run_in_pieces(pieces_of(b"".join(map(push_and_get, pushes)), size)), (wanted, CLEAN, b""), f"in pieces of {size:,}")


@pytest.mark.parametrize("missing", MISSING)
def test_a_body_that_is_cut_short_is_no_message(missing):
    body = text_of(LONG)
    head = head_of(body)
    data = head + body[: LONG - missing]
    expect(run(data), (b"", CUT, b""), f"{missing:,} bytes are missing")
    for pieces in (pieces_of(data, 65_535), cut_at(data, len(head))):
        expect(run_in_pieces(pieces), (b"", CUT, b""), f"{missing:,} bytes are missing, in pieces of {len(pieces[0]):,}")


def test_a_server_has_nothing_of_a_body_that_is_cut_short():
    body, server = text_of(LONG), Server()
    for missing in MISSING:
        with server.connect() as connection:
            connection.sendall(head_of(body))
            connection.sendall(body[: LONG - missing])
            connection.shutdown(socket.SHUT_WR)
            expect(connection.recv(1), b"", f"{missing:,} bytes are missing: no reply")
        expect(server.ask("GET", "/state/a"), (404, b'{"error":"NoState"}'), f"{missing:,} bytes are missing")
    expect(server.ask("POST", "/state/a", body), (200, b""), "all of it")
    expect(server.ask("GET", "/state/a"), (200, body))
    expect(entries_of(server.kill()), [("push", "a", [b"", body])], "the journal")


@pytest.mark.parametrize("body", [b"a" * 100_000, GET * 3_000, text_of(LONG)[:-1] + b"x"])
def test_a_long_body_that_is_no_state_is_refused_and_passed_over(body):
    data, wanted = push_and_get(body), (refusal_text("BadState") + NO_STATE, CLEAN, b"")
    expect(run(data), wanted, body[:40])
    for pieces in (pieces_of(data, 1_000), cut_at(data, len(head_of(body)), len(data) - len(GET))):
        expect(run_in_pieces(pieces), wanted, body[:40])


@pytest.mark.parametrize("size", [1_000, 65_535, MAX_READ])
def test_long_lock_information_comes_in_pieces(size):
    held, other = b'{"ID":"A"}'.ljust(MAX_LOCK_INFO), b'{"ID":"B"}'.ljust(MAX_LOCK_INFO + 1)
    data = b"".join(request_text("LOCK", "/state/a", body) for body in (held, other, other[:-1])) + request_text("UNLOCK", "/state/a", held)
    wanted = DONE + refusal_text("BadLockInfo") + reply_text(423, held) + DONE
    expect(run_in_pieces(pieces_of(data, size)), (wanted, CLEAN, b""), f"in pieces of {size:,}")
