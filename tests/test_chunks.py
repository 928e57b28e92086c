"""Drives `tfstated stdio` with bodies in chunks, and with heads that two readers could understand
differently. The expected output is written here by hand; chunks of Hypothesis are answered by the
plain model of stdio_model.py."""
from hypothesis import given, settings, strategies as st
import pytest

from checking import S1, expect
from cuts import some_pieces, without_end
from journal_texts import one_in
import stdio_model as model
from stdio_model import ASKED, CLEAN, CUT, DONE, REFUSED, refusal_text, reply_text
from stdio_program import run, run_in_pieces

pytestmark = pytest.mark.usefixtures("tfstated")
GET = b"GET /state/a HTTP/1.1\r\nHost: h\r\n\r\n"
NO_STATE = refusal_text("NoState")
A = b'{"ID":"A"}'
PUSHED = DONE + reply_text(200, S1)
CODED = b"29\r\n" + S1 + b"\r\n0\r\n\r\n"
SMALL = b"".join(b"1\r\n%c\r\n" % byte for byte in S1) + b"0\r\nX: y\r\n\r\n"
MAX_BODY = 16777216
# A state in two chunks, with an extension after each size, and a trailer of two fields.
EXTENDED = b'3;k="v"\r\n{"v\r\n026 \t;x\r\n' + S1[3:] + b"\r\n0;y\r\nDate: today\r\nX: z\r\n\r\n"
PADDED = b"0029 \t;x=y\r\n" + S1 + b"\r\n000;\r\nA: b\n\n"


def chunked(body, method=b"POST", coding=b"Transfer-Encoding: chunked\r\n", version=1):
    """Returns a request whose body is already encoded."""
    return b"%s /state/a HTTP/1.%d\r\nHost: h\r\n%s\r\n%s" % (method, version, coding, body)


def expect_refused(data, name, about):
    """Checks that the program refuses the message, after which no message can follow."""
    expect(run(data + GET), (refusal_text(name, close=True), REFUSED, b""), about)


@pytest.mark.parametrize("body", [
    CODED, SMALL, EXTENDED, PADDED, b"029 \t;x=y\r\n" + S1 + b"\r\n00000;\r\n\r\n", b"29\r\n" + S1 + b"\r\n0\r\nA: b\nC\r\n\n",
    b"28\r\n" + S1[:40] + b"\r\n1\r\n" + S1[40:] + b"\r\n0\r\n\n", b"0000000000000029\r\n" + S1 + b"\r\n0\r\n\r\n",
])
def test_bodies_in_chunks_are_read(body):
    expect(run(chunked(body) + GET), (PUSHED, CLEAN, b""), body)


@pytest.mark.parametrize("coded", [b"0\r\n\r\n", b"0\r\n\n", b"1\r\na\r\n02\r\nbc\r\n0\r\n\r\n"])
def test_bodies_in_chunks_that_are_no_state_are_refused(coded):
    expect(run(chunked(coded) + GET), (refusal_text("BadState") + NO_STATE, CLEAN, b""), coded)


@pytest.mark.parametrize("coding", [
    b"transfer-encoding: \tCHUNKED \r\n", b"tRANSFER-eNCODING:chunked\r\n", b"transfer-encoding: \tcHuNkEd \r\n"])
def test_a_coding_is_one_in_every_case(coding):
    expect(run(chunked(CODED, coding=coding) + GET), (PUSHED, CLEAN, b""), coding)


def test_a_body_in_chunks_may_be_the_last():
    expect(len(chunked(CODED)), 115)
    closing = chunked(CODED, coding=b"Transfer-Encoding: chunked\r\nConnection: close\r\n") + GET
    expect(run(closing), (b"HTTP/1.1 200 OK\r\nConnection: close\r\nContent-Length: 0\r\n\r\n", ASKED, b""))


@pytest.mark.parametrize("body", [CODED, SMALL, EXTENDED, PADDED])
def test_each_cut_of_a_body_in_chunks_changes_nothing(body):
    data = chunked(body) + GET
    for count in range(1, len(data)):
        expect(run_in_pieces([data[:count], data[count:]]), (PUSHED, CLEAN, b""), count)
    expect(run_in_pieces([data[at : at + 1] for at in range(len(data))]), (PUSHED, CLEAN, b""), "byte by byte")


@pytest.mark.parametrize("body", [CODED, SMALL, EXTENDED, PADDED])
def test_each_beginning_of_a_body_in_chunks_is_cut_short(body):
    whole = chunked(body)
    for count in range(1, len(whole)):
        expect(run(whole[:count]), (b"", CUT, b""), count)


@pytest.mark.parametrize("coding, version, name", [
    (b"Transfer-Encoding: gzip, chunked\r\n", 1, "TransferCoding"), (b"Transfer-Encoding: chunked\r\n" * 2, 1, "TransferCoding"),
    (b"Transfer-Encoding:\r\n", 1, "TransferCoding"), (b"Transfer-Encoding: chunked\r\n", 0, "TransferCoding"),
    (b"Transfer-Encoding: chunked;x=y\r\n", 1, "TransferCoding"), (b"Transfer-Encoding: identity\r\n", 1, "TransferCoding"),
    (b"Transfer-Encoding: chunked, chunked\r\n", 1, "TransferCoding"), (b"Transfer-Encoding: x\tchunked\r\n", 1, "TransferCoding"),
    (b"Content-Length: 41\r\nTransfer-Encoding: chunked\r\n", 1, "BadLength"),
    (b"Transfer-Encoding: chunked\r\nContent-Length: 41\r\n", 0, "BadLength"),
])
def test_codings_are_judged_with_the_head(coding, version, name):
    expect_refused(chunked(CODED, coding=coding, version=version), name, coding)


@pytest.mark.parametrize("line", [
    b"x\r\n", b"\r\n", b"-1\r\n", b"+1\r\n", b"0x1\r\n", b" 1\r\n", b"1\n", b"1;\n", b"1 2\r\n", b"1;a\rb\r\n",
    b"0" * 17 + b"\r\n", b"0" * 16 + b"1\r\n", b"1;" + b"a" * 1022 + b"\r\n", b"1" * 1024,
    b"0;" + b"a" * 1021 + b"\r\n\r\n", b"0;" + b"a" * 1022,
    *[size + b"\r\n" + S1 + b"\r\n0\r\n\r\n" for size in (b"+29", b"-29", b"0x29", b" 29", b"29 x", b"0" * 15 + b"29")],
    b"28\r\n" + S1 + b"\r\n", b"1\r\nab\r\n", b"1\r\na\n\r\n", b"0\r\n" + b"a" * 16384, b"0\r\n" + b"a" * 16383 + b"\n\n",
])
def test_chunks_that_are_none_are_refused(line):
    expect_refused(chunked(line), "BadChunk", line[:40])


@pytest.mark.parametrize("line", [b"1000001\r\n", b"f" * 16 + b"\r\n", b"1\r\na\r\n1000000\r\n"])
def test_chunks_that_are_too_large_are_refused(line):
    expect_refused(chunked(line), "BodyTooLarge", line[:40])


def test_the_longest_lines_and_trailers_are_read():
    longest = b"29;" + b"a" * 1019 + b"\r\n" + S1 + b"\r\n0\r\n" + b"a" * 16382 + b"\n\n"
    expect(run(chunked(longest) + GET), (PUSHED, CLEAN, b""), "the longest line and trailer")
    most = CODED[:-5] + b"0;" + b"a" * 1020 + b"\r\n" + b"a" * 16382 + b"\n\n"
    expect(run(chunked(most) + GET), (PUSHED, CLEAN, b""), "the longest last line and trailer")
    expect(run_in_pieces([chunked(most)[:-1], most[-1:] + GET]), (PUSHED, CLEAN, b""), "the same, cut at its last byte")
    expect(run(chunked((b"1;" + b"k" * 1020 + b"\r\n \r\n") * 50 + CODED) + GET),
           (DONE + reply_text(200, b" " * 50 + S1), CLEAN, b""), "fifty of the longest lines")


@pytest.mark.parametrize("cut", [b"x", b"1\r", b"1\r\nax", b"1000000\r\n"])
def test_chunks_that_are_not_whole_are_cut(cut):
    expect(run(chunked(cut)), (b"", CUT, b""), cut)


@pytest.mark.parametrize("coded, name, count", [
    (b"g\r\n0\r\n\r\n", "BadChunk", 3), (b'4;k="v"\r\nabcd\r\n4x\r\nefgh', "BadChunk", 19), (b"4\r\nabcdefgh\r\n", "BadChunk", 9),
    (b"4\r\nabcd\n\n0\r\n", "BadChunk", 9), (b"4\r\nabcd\r\r\n0\r\n", "BadChunk", 9), (b"1000001\r\na", "BodyTooLarge", 9),
    (b"ffffffffffffffff;x\r\na", "BodyTooLarge", 20), (b"1\r\na\r\n1000000\r\nb", "BodyTooLarge", 15),
])
def test_a_refusal_comes_with_the_first_byte_that_decides_it(coded, name, count):
    decided, head = chunked(coded[:count]), chunked(b"")
    refused = (refusal_text(name, close=True), REFUSED, b"")
    expect(run(decided[:-1]), (b"", CUT, b""), coded)
    expect(run(decided), refused, coded)
    expect(run_in_pieces([head, *(coded[at : at + 1] for at in range(len(coded)))]), refused, coded)


def test_a_body_has_at_most_65536_chunks():
    def coded(count):
        return b"".join(b"1\r\n%c\r\n" % byte for byte in S1 + b" " * (count - len(S1))) + b"0\r\n\r\n"

    expect(run(chunked(coded(65536))), (DONE, CLEAN, b""))
    expect_refused(chunked(coded(65537)), "BadChunk", "one more")


def test_a_body_in_chunks_has_at_most_16_mib():
    body = S1 + b" " * (MAX_BODY - len(S1))
    coded = b"%x\r\n%s\r\n" % (MAX_BODY - 1, body[:-1]) + b"1\r\n" + body[-1:] + b"\r\n0\r\n\r\n"
    output, status, errors = run(chunked(coded) + GET)
    expect((output == DONE + reply_text(200, body), status, errors), (True, CLEAN, b""))


LOCK = b"LOCK /state/a HTTP/1.1\r\nHost: h\r\nContent-Length: %d\r\n\r\n%s" % (len(A), A)
DELETE = b"DELETE /state/a HTTP/1.1\r\nHost: h\r\n\r\n"
HEAD_OF_POST = b"POST /state/a HTTP/1.1\r\nHost: h\r\n"
CODING = b"Transfer-Encoding: chunked\r\n"


@pytest.mark.parametrize("data, name", [
    (HEAD_OF_POST + b"Content-Length: 4\r\n" + CODING + b"\r\n0\r\n\r\n", "BadLength"),
    (HEAD_OF_POST + b"Content-Length: 0\r\nContent-Length: 5\r\n\r\n", "BadLength"),
    (HEAD_OF_POST + b"Content-Length : 5\r\n\r\n", "BadHead"), (HEAD_OF_POST + b"Transfer-Encoding:\r\n chunked\r\n\r\n", "BadHead"),
    (HEAD_OF_POST + b"Transfer-Encoding : chunked\r\n\r\n0\r\n\r\n", "BadHead"),
    (HEAD_OF_POST + CODING[:-2] + b";q=1\r\n\r\n0\r\n\r\n", "TransferCoding"),
    (HEAD_OF_POST + CODING * 2 + b"\r\n0\r\n\r\n", "TransferCoding"),
    (HEAD_OF_POST.replace(b"1.1", b"1.0") + CODING + b"\r\n0\r\n\r\n", "TransferCoding"),
    (HEAD_OF_POST + CODING + b"\r\n29\n" + S1 + b"\r\n0\r\n\r\n", "BadChunk"),
    (HEAD_OF_POST + CODING + b"\r\n29\r\n" + S1 + b"\n0\r\n\r\n", "BadChunk"),
    (HEAD_OF_POST + CODING + b"\r\n+29\r\n" + S1 + b"\r\n", "BadChunk"),
    (HEAD_OF_POST + CODING + b"\r\n00000000000000029\r\n" + S1 + b"\r\n", "BadChunk"),
    (HEAD_OF_POST + b"Content-Length: 5,5\r\n\r\n", "BadLength"),
])
def test_no_request_hides_in_another(data, name):
    expect(run(LOCK + data + DELETE), (DONE + refusal_text(name, close=True), REFUSED, b""), data)


@pytest.mark.parametrize("coding", [b"Transfer-Encoding: cHuNkEd\r\n", b"Transfer-Encoding:\tchunked\t\r\n"])
def test_a_body_of_an_oddly_written_coding_hides_no_request(coding):
    held = reply_text(423, A)
    expect(run(LOCK + HEAD_OF_POST + coding + b"\r\n" + CODED + DELETE), (DONE + held + held, CLEAN, b""), coding)


def test_an_empty_body_in_chunks_forces_a_lock_off():
    unlock = b"UNLOCK /state/a HTTP/1.1\r\nHost: h\r\n" + CODING + b"\r\n0\r\n\r\n"
    expect(run(LOCK + unlock + GET), (DONE + DONE + NO_STATE, CLEAN, b""), "an empty body in chunks")


SPACES, SIZES = st.sampled_from([0, 0, 1, 300]), st.sampled_from([300, 16, 7, 1])
EXTENSIONS = st.sampled_from([b"", b"", b";", b";a=b", b" \t", b"\t;c"])
# The bytes after the last chunk, whose size has one zero or three.
TRAILERS = st.sampled_from([b"\r\n".join((zeros, field)) + end for zeros in (b"0", b"000") for field in (b"", b"", b"X: y\r\n", b"\x00\n")
                            for end in (b"\r\n", b"\n")])


@st.composite
def coded_bodies(draw):
    """Draws a body in chunks, now and then an invalid one."""
    text, coded = S1 + b" " * draw(SPACES), b""
    while text:
        size, extension = draw(SIZES), draw(EXTENSIONS)
        chunk, text = text[:size], text[size:]
        end = b"\n" if draw(one_in(300)) else b"\r\n"
        coded += (b"%x" % (len(chunk) + draw(one_in(300)))) + extension + end + chunk + b"\r\n"
    return coded + draw(TRAILERS)


REQUESTS = st.lists(st.one_of(st.just(GET), coded_bodies().map(chunked)), min_size=1, max_size=11).map(b"".join)


@st.composite
def streams(draw):
    """Draws requests, some with a body in chunks, perhaps without their end, in pieces."""
    return draw(some_pieces(draw(without_end(draw(REQUESTS))), 60))


def test_random_chunks_are_read_as_the_model_says():
    ends = set()

    @settings(max_examples=120)
    @given(streams())
    def are_read(pieces):
        output, status = model.conversation(b"".join(pieces))
        expect(run_in_pieces(pieces), (output, status, b""), "chunks")
        ends.add(status)

    are_read()
    expect(ends, {CLEAN, CUT, REFUSED}, "each end is met")
