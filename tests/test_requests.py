"""Drives `tfstated stdio` with heads of every kind: hosts, versions, lengths, closings, digests,
routes, methods and queries. The expected output is written here by hand; random heads are answered
by the plain model of stdio_model.py."""
import base64
import hashlib
import itertools
import random

from hypothesis import given, settings, strategies as st
import pytest

from checking import S1, expect
from request_bytes import ABC, EMPTY, GET, NO_STATE, digest, request
import stdio_model as model
from stdio_model import ASKED, CLEAN, CUT, DONE, REFUSED, refusal_text, reply_text
from stdio_program import run

pytestmark = pytest.mark.usefixtures("tfstated")
CLOSING_NO_STATE = (
    b"HTTP/1.1 404 Not Found\r\nConnection: close\r\nContent-Type: application/json\r\nContent-Length: 19\r\n\r\n"
    b'{"error":"NoState"}'
)


NO_HOST = (refusal_text("NoHost", close=True), REFUSED)
HOSTS = [
    *[(host, 1, *NO_HOST) for host in (b"", b"Host: h\r\nHost: h\r\n", b"Host: h\r\nhost: i\r\n", b"Hosts: h\r\n")],
    *[(host, 1, NO_STATE * 2, CLEAN) for host in (b"Host:\r\n", b"HOST: a b c\r\n", b"hOST: a:80\r\n", b"host:[::1]:8080\r\n")],
    *[(host, 0, CLOSING_NO_STATE, ASKED) for host in (b"", b"Host: h\r\n")],
    *[(host, 0, *NO_HOST) for host in (b"Host: h\r\nHost: h\r\n", b"Host: a\r\nHost: b\r\n")],
]


@pytest.mark.parametrize("host, version, output, status", HOSTS)
def test_a_request_has_one_host(host, version, output, status):
    expect(run(request(b"GET", host=host, version=version) + GET), (output, status, b""), host)


def test_the_reply_to_a_request_without_a_host():
    expect(refusal_text("NoHost", close=True), b"HTTP/1.1 400 Bad Request\r\nConnection: close\r\n"
           b'Content-Type: application/json\r\nContent-Length: 18\r\n\r\n{"error":"NoHost"}')


CLOSING = [
    b"Connection: close\r\n", b"connection: Close\r\n", b"Connection: keep-alive, Close\r\n", b"Connection: \tCLOSE ,x\r\n",
    b"Connection: x\r\nConnection:,close,\r\n", b"Connection: \tCLOSE\t \r\n", b"Connection: keep-alive,\t close ,x\r\n",
    b"Connection: ,close\r\n", b"Connection: keep-alive\r\nConnection: close\r\n", b'Connection: "a, close ,b"\r\n',
]
STAYING = [
    b"Connection: keep-alive\r\n", b"Connection: closed\r\n", b"Connection: x close\r\n", b"Connection:\r\n", b"X: close\r\n",
    b'Connection: "close"\r\n', b"Connection: close x\r\n", b"Connection: xclose\r\n", b"Connection: clos, e\r\n",
    b"Connection: ,,\r\n", b"Close: close\r\n",
]


@pytest.mark.parametrize("more", CLOSING + STAYING)
def test_a_conversation_ends_after_a_request_of_1_0(more):
    expect(run(request(b"GET", more, version=0) + GET), (CLOSING_NO_STATE, ASKED, b""))


@pytest.mark.parametrize("behind", [GET, b"", b"GET", b"x\n\n"])
@pytest.mark.parametrize("more", CLOSING)
def test_a_conversation_ends_after_a_request_that_asks_to_close(more, behind):
    expect(run(request(b"GET", more) + behind), (CLOSING_NO_STATE, ASKED, b""))


@pytest.mark.parametrize("more", STAYING)
def test_a_conversation_continues_after_a_request_that_does_not_ask_to_close(more):
    expect(run(request(b"GET", more) + GET), (NO_STATE * 2, CLEAN, b""))


def test_the_last_reply_says_that_the_connection_closes():
    done = b"HTTP/1.1 200 OK\r\nConnection: close\r\nContent-Length: 0\r\n\r\n"
    expect(run(request(b"POST", CLOSING[0], S1) + GET), (done, ASKED, b""))
    expect(run(request(b"POST", b"", S1) + request(b"GET", CLOSING[1]) + GET),
           (DONE + reply_text(200, S1, close=True), ASKED, b""))
    allowed = b"HTTP/1.1 405 Method Not Allowed\r\nAllow: DELETE, GET, LOCK, POST, UNLOCK\r\nConnection: close\r\n"
    expect(run(request(b"PUT", CLOSING[0]) + GET)[0][: len(allowed)], allowed)


BAD_STATE, BAD_LOCK_INFO = refusal_text("BadState"), refusal_text("BadLockInfo")


GOOD_DIGESTS = [b"", digest(ABC), b"content-md5:\t kAFQmDzST7DWlj99KOF/cg== \r\n"]
BAD_DIGESTS = [
    *map(digest, (EMPTY, ABC[:-2], b"kAFQmDzST7DWlj99KOF_cg==", b"kafqmdzst7dwlj99kof/cg==", b"?", b"")), digest(ABC) * 2]
ANSWERS = [(b"GET", NO_STATE), (b"POST", BAD_STATE), (b"DELETE", DONE), (b"LOCK", BAD_LOCK_INFO)]


@pytest.mark.parametrize("more", GOOD_DIGESTS)
@pytest.mark.parametrize("method, answer", [*ANSWERS, (b"UNLOCK", BAD_LOCK_INFO)])
def test_a_body_has_the_digest_that_its_head_states(method, answer, more):
    expect(run(request(method, more, b"abc") + GET), (answer + NO_STATE, CLEAN, b""))


@pytest.mark.parametrize("more", BAD_DIGESTS)
@pytest.mark.parametrize("method", model.METHODS)
def test_a_body_with_another_digest_is_refused(method, more):
    expect(run(request(method.encode(), more, b"abc") + GET), (refusal_text("BadDigest") + NO_STATE, CLEAN, b""))


@pytest.mark.parametrize("body", [None, b""])
@pytest.mark.parametrize("method, answer", [*ANSWERS, (b"UNLOCK", DONE)])
def test_no_body_has_the_digest_of_no_bytes(method, answer, body):
    expect(run(request(method, digest(EMPTY), body) + GET), (answer + NO_STATE, CLEAN, b""))


def test_a_pushed_state_has_its_digest():
    told = base64.b64encode(hashlib.md5(S1).digest())
    expect(run(request(b"POST", digest(told), S1) + GET), (DONE + reply_text(200, S1), CLEAN, b""))


@pytest.mark.parametrize("last", [request(b"UNLOCK", digest(EMPTY), b""), request(b"UNLOCK", b"", b""), request(b"UNLOCK")])
def test_a_held_lock_is_forced_off_by_an_empty_body_with_its_digest(last):
    lock, lost = request(b"LOCK", body=b'{"ID":"A" ,"Who":""}'), request(b"POST", body=S1, target=b"/state/a?ID=A")
    unlock = request(b"UNLOCK", digest(EMPTY), b"")
    expect(run(lock + unlock + lost + last), (DONE * 2 + refusal_text("LockLost") + DONE, CLEAN, b""))


@pytest.mark.parametrize("data, name", [
    (request(b"GET", digest(ABC)), "BadDigest"), (request(b"GET", b"content-md5: \t" + EMPTY + b" \r\n"), "NoState"),
    (request(b"PUT", digest(b"?")), "MethodNotAllowed"), (request(b"GET", digest(b"?"), target=b"/state/a%20"), "BadName"),
    (request(b"POST", digest(ABC[:-1]), b"abc"), "BadDigest"), (request(b"LOCK", digest(ABC), b"x"), "BadDigest"),
])
def test_digests_are_looked_at_last(data, name):
    expect(run(data + GET), (refusal_text(name) + NO_STATE, CLEAN, b""), data)


def fields(count):
    """Returns a request with this many fields."""
    return b"GET /state/a HTTP/1.1\r\nHost: h\r\n" + b"A: b\r\n" * (count - 1) + b"\r\n"


def length(*values):
    """Returns a head that states these lengths."""
    lines = b"".join(b"Content-Length: %s\r\n" % value for value in values)
    return b"POST /state/a HTTP/1.1\r\nHost: h\r\n" + lines + b"\r\n"


@pytest.mark.parametrize("data, name", [
    (length(b"16777217"), "BodyTooLarge"), (length(b"9" * 400), "BodyTooLarge"), (length(b"1" + b"0" * 39), "BodyTooLarge"),
    (fields(65), "HeadTooLarge"), (b"GET /" + b"a" * 16379, "HeadTooLarge"), (b"\r\n" * 8192, "HeadTooLarge"),
    (b"a" * 16383 + b"\n", "HeadTooLarge"), (b"a" * 16383 + b"\n\n", "HeadTooLarge"), (b"GET\r\n\r\n", "BadHead"),
    (b"GET\n\n", "BadHead"), (b"GET /state/a HTTP/2.0\r\n\r\n", "BadHead"),
    (b"GET /state/a HTTP/1.1\r\nHost: h\r\n folded\r\n\r\n", "BadHead"), (length(b"1", b"1"), "BadLength"),
    (length(b"3", b"3") + b"abc", "BadLength"), (length(b"+3"), "BadLength"), (length(b"3,3"), "BadLength"),
    (length(b"41, 41"), "BadLength"), (length(b""), "BadLength"),
])
def test_refused_heads_end_the_conversation(data, name):
    expect(run(data + GET), (refusal_text(name, close=True), REFUSED, b""), name)


def test_the_reply_to_a_body_that_is_too_large():
    expect(refusal_text("BodyTooLarge", close=True), b"HTTP/1.1 413 Content Too Large\r\nConnection: close\r\n"
           b'Content-Type: application/json\r\nContent-Length: 24\r\n\r\n{"error":"BodyTooLarge"}')


@pytest.mark.parametrize("data, output, status", [
    (fields(64), NO_STATE, CLEAN), (length(b" 00041\t") + S1, DONE, CLEAN), (b"GET /" + b"a" * 16378, b"", CUT),
    (b"a" * 16383, b"", CUT), (length(b"16777216"), b"", CUT),
])
def test_heads_at_their_limits_are_taken(data, output, status):
    expect(run(data), (output, status, b""), data[:40])


HEAD_OF_POST = b"POST /state/a HTTP/1.1\r\nHost: h\r\n"


@pytest.mark.parametrize("data, reply", [
    (b"\r\n\n\r\n" + GET, NO_STATE), (b"GET /state/a HTTP/1.1\nHost: h\n\n", NO_STATE),
    (HEAD_OF_POST + b"content-LENGTH: \t3 \r\n\r\nabc", BAD_STATE),
    (HEAD_OF_POST + b"Content-Length: " + b"0" * 39 + b"3\r\n\r\nabc", BAD_STATE),
    (HEAD_OF_POST + b"Content-Length: 0\r\n\r\n", BAD_STATE), (HEAD_OF_POST + b"\r\n", BAD_STATE),
])
def test_messages_are_taken_however_their_heads_are_written(data, reply):
    expect(run(data + GET), (reply + NO_STATE, CLEAN, b""), data)


def test_a_head_of_1_0_without_a_field_is_taken():
    expect(run(b"PUT /?a=b HTTP/1.0\r\n\r\n" + GET), (refusal_text("NoRoute", close=True), ASKED, b""), "no field")


GZIP = b"Transfer-Encoding: gzip\r\n"


@pytest.mark.parametrize("data, name", [
    (request(b"GET", b"Content-Length: 1\r\n" * 2, host=b""), "NoHost"),
    (request(b"POST", b"transfer-ENCODING: gzip, chunked\r\n"), "TransferCoding"),
    (request(b"POST", b"Transfer-Encoding:\r\nTransfer-Encoding: chunked\r\n"), "TransferCoding"),
    (request(b"POST", b"Transfer-Encoding: chunked\r\n", b"abc"), "BadLength"),
    (request(b"POST", b"Transfer-Encoding: chunked\r\nContent-Length: 16777217\r\n"), "BadLength"),
    (request(b"GET", b"Content-Length: x\r\n" + GZIP, host=b""), "NoHost"), (request(b"GET", b"A b: c\r\n", host=b""), "BadHead"),
    (request(b"GET", b"Content-Length: x\r\n" + GZIP), "BadLength"), (request(b"GET", GZIP), "TransferCoding"),
    (request(b"GET", b"Content-Length: 16777217\r\n" + GZIP), "BadLength"),
    (request(b"GET", b"Content-Length: 16777217\r\n", host=b""), "NoHost"),
])
def test_heads_are_refused_in_order(data, name):
    expect(run(data + GET), (refusal_text(name, close=True), REFUSED, b""), data)


def test_the_reply_to_head_has_no_body():
    head = b"HEAD /state/a HTTP/1.1\r\nHost: h\r\n\r\n"
    bare = (b"HTTP/1.1 405 Method Not Allowed\r\nAllow: DELETE, GET, LOCK, POST, UNLOCK\r\n"
            b"Content-Type: application/json\r\nContent-Length: 28\r\n\r\n")
    expect(len(bare), 127)
    expect(run(request(b"POST", b"", S1) + head + GET), (DONE + bare + reply_text(200, S1), CLEAN, b""))
    closing = (b"HTTP/1.1 405 Method Not Allowed\r\nAllow: DELETE, GET, LOCK, POST, UNLOCK\r\nConnection: close\r\n"
               b"Content-Type: application/json\r\nContent-Length: 28\r\n\r\n")
    expect(run(request(b"HEAD", b"Connection: close\r\n") + GET), (closing, ASKED, b""))
    for method in (b"head", b"HEADS"):
        expect(run(request(method) + GET), (bare + b'{"error":"MethodNotAllowed"}' + NO_STATE, CLEAN, b""), method)
    missing = head.replace(b"/state/a", b"/state/")
    expect(run(missing + GET)[0], refusal_text("NoRoute")[: -len(b'{"error":"NoRoute"}')] + NO_STATE)


@pytest.mark.parametrize("data, output, status", [
    (b"\x16\x03\x01\x02\x00\x01\x00\x01\xfc\x03\x03", b"", CUT), (b"\x00" * 16383, b"", CUT),
    (b"\x00" * 16384, refusal_text("HeadTooLarge", close=True), REFUSED), (b"\r\n\r\n", b"", CUT),
    *[(data, refusal_text("BadHead", close=True), REFUSED) for data in (
        b"SSH-2.0-client\r\n\r\n", b"PRI * HTTP/2.0\r\n\r\nSM\r\n\r\n", b"GET /\r\n\r\n", b"\xff\n\n", b"{}\n\n" + S1)],
])
def test_what_isnt_http_is_refused_or_cut(data, output, status):
    expect(run(data), (output, status, b""), data[:40])


def test_noise_is_refused_or_cut_as_the_model_says():
    chance = random.Random(7)
    for turn in range(60):
        size = chance.randrange(1, 40000)
        data = chance.getrandbits(8 * size).to_bytes(size, "little")
        expect(run(data), (*model.conversation(data), b""), f"noise {turn}")


# Lines of a head: its hosts, its connection, another line, and a digest, each as often as it is to
# occur.
LINES = st.tuples(*map(st.sampled_from, (
    [[b"Host: h"]] * 6 + [[], [b"Host: h"] * 2],
    [[]] * 16 + [[b"Connection: " + word] for word in (b"close", b"x, Close", b"keep-alive", b"")],
    [[]] * 20 + [[line] for line in (b"X: y", b"content-length: 0", b"Content-Length: x", b"A:", b"Transfer-Encoding: gzip")],
    [[]] * 4 + [[b"Content-MD5: " + text] for text in (EMPTY, b"?")])))
ORDERS = [st.sampled_from([*itertools.permutations(range(count))]) for count in range(6)]
ENDS = st.sampled_from([b"\r\n", b"\n"])
REQUEST_LINES = st.builds(
    b"%s %s HTTP/%s".__mod__, st.tuples(
        st.sampled_from([b"GET", b"GET", b"DELETE", b"UNLOCK", b"HEAD", b"PUT", b"get"]),
        st.sampled_from([b"/state/a", b"/state/a", b"/state/b?ID=x", b"/state/", b"/state/a%20", b"/x"]),
        st.sampled_from([b"1.1"] * 12 + [b"1.0", b"2.0"])))


@st.composite
def head_lines(draw):
    """Draws lines of a head; most of them are valid."""
    lines = [line for part in draw(LINES) for line in part]
    end, order = draw(ENDS), draw(ORDERS[len(lines)])
    return end + b"".join(lines[place] + end for place in order) + end


def heads():
    """Returns a strategy for requests without a body."""
    return st.builds(bytes.__add__, REQUEST_LINES, head_lines())


def test_random_heads_are_answered_as_the_model_says():
    met = set()

    @settings(max_examples=200)
    @given(st.lists(heads(), min_size=1, max_size=11).map(b"".join))
    def are_answered(data):
        output, status = model.conversation(data)
        expect(run(data), (output, status, b""), "heads")
        met.update(name for name in model.STATUSES if b'"%s"' % name.encode() in output)

    are_answered()
    wanted = {"BadHead", "NoHost", "BadLength", "TransferCoding", "NoRoute", "MethodNotAllowed", "BadName", "BadDigest"}
    expect((wanted | {"NoState", "LockLost"}) - met, set(), "each refusal is met")
