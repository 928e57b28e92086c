"""Drives `tfstated stdio` through every length of a name, an identifier, a head and a body, each
with its bytes in two reads, a body also in one read, and through every character of a name. A
program that gives up at one length, for one name, or at one place of a cut, answers differently
from the plain model of stdio_model.py."""
import string

import pytest

from checking import S1, expect
from sample_states import chain
import stdio_model as model
from stdio_model import CLEAN
from stdio_program import request_text, run_in_pieces

pytestmark = pytest.mark.usefixtures("tfstated")
# The characters of a name, lock information, and a state of two instances.
LETTERS = string.ascii_letters + string.digits + "_-."
LOCK, STATE = b'{"ID":"i"}', chain(2)


def expect_as_modelled(pieces, about):
    """Checks that the program answers these pieces, each of them a read, as the model does, and
    ends as it does."""
    output, status = model.conversation(b"".join(pieces))
    expect(status, CLEAN, f"{about}: the model's end")
    expect(run_in_pieces(pieces), (output, status, b""), about)


def in_chunks(body, method="POST", target="/state/a"):
    """Returns a request whose body is one chunk, if it has any bytes."""
    coded = (b"%x\r\n%s\r\n" % (len(body), body) if body else b"") + b"0\r\n\r\n"
    return request_text(method, target, more="Transfer-Encoding: chunked\r\n") + coded


def with_length(body, method="POST", target="/state/a"):
    """Returns a request whose body has its length in the head, even if that is 0."""
    more = "" if body else "Content-Length: 0\r\n"
    return request_text(method, target, body, more)


def halves(text):
    """Returns the two pieces of a text; one if it has a single byte."""
    middle = len(text) // 2
    return [piece for piece in (text[:middle], text[middle:]) if piece]


@pytest.mark.parametrize("framed", [with_length, in_chunks])
def test_each_length_of_a_name(framed):
    pieces = []
    for length in range(1, 65):
        target = "/state/" + "n" * length
        pieces += halves(framed(S1, target=target)) + halves(request_text("GET", target))
    expect_as_modelled(pieces, framed.__name__)


def test_each_character_of_a_name():
    pieces = []
    for letter in LETTERS:
        for name in (letter, f"{letter}x", f"x{letter}"):
            pieces += [request_text("LOCK", f"/state/{name}", LOCK), request_text("POST", f"/state/{name}?ID=i", STATE),
                       request_text("GET", f"/state/{name}"), request_text("GET", f"/impact/{name}/any?of=t.a")]
    expect_as_modelled(pieces, "names")


def test_each_length_of_an_identifier():
    pieces = []
    for length in range(1, 257):
        identifier = "i" * length
        lock = b'{"ID":"%s"}' % identifier.encode()
        pieces += halves(with_length(lock, "LOCK")) + halves(in_chunks(b'{"ID":"other"}', "LOCK"))
        pieces += halves(with_length(S1, target=f"/state/a?ID={identifier}")) + halves(in_chunks(lock, "UNLOCK"))
    expect_as_modelled(pieces, "identifiers")


def padded(request, length):
    """Returns a request whose head has this many bytes."""
    head, empty_line, body = request.partition(b"\r\n\r\n")
    room = length - len(head) - len(empty_line) - len(b"\r\nX:")
    return head + b"\r\nX:" + b"x" * room + empty_line + body if room >= 0 else None


@pytest.mark.parametrize("framed", [with_length, in_chunks])
def test_each_length_of_a_head_that_is_cut_at_its_end(framed):
    pieces, count = [], 0
    for length in range(40, 401):
        whole = padded(framed(S1), length)
        if whole:
            pieces += [whole[:length], whole[length:], *halves(request_text("GET", "/state/a"))]
            count += 1
    expect(count > 300, True, "most lengths are possible")
    expect_as_modelled(pieces, framed.__name__)


@pytest.mark.parametrize("before_end", [1, 2, 3])
def test_each_length_of_a_head_that_is_cut_before_its_end(before_end):
    requests = filter(None, (padded(request_text("GET", "/state/a"), length) for length in range(40, 401)))
    pieces = [piece for text in requests for piece in (text[:-before_end], text[-before_end:])]
    expect_as_modelled(pieces, f"{before_end} bytes before the end")


def bodies(framed):
    """Yields a push for each length of a body."""
    for length in range(301):
        state = S1.replace(b"1 ", b"%d" % length)
        yield framed(state.ljust(length)[:length])


@pytest.mark.parametrize("framed", [with_length, in_chunks])
def test_each_length_of_a_body_in_one_read(framed):
    expect_as_modelled([piece for whole in bodies(framed) for piece in (whole, request_text("GET", "/state/a"))], framed.__name__)


@pytest.mark.parametrize("framed", [with_length, in_chunks])
def test_each_length_of_a_body_in_two_reads(framed):
    pieces = []
    for whole in bodies(framed):
        body = whole.index(b"\r\n\r\n") + 4
        middle = body + (len(whole) - body) // 2
        pieces += [piece for piece in (whole[:middle], whole[middle:]) if piece] + halves(request_text("GET", "/state/a"))
    expect_as_modelled(pieces, framed.__name__)
