"""Drives `tfstated stdio` with targets, methods and queries of every kind. The expected output is
written here by hand."""
import pytest

from checking import S1, S2, expect
from request_bytes import GET, NO_STATE, digest, request
from stdio_model import CLEAN, DONE, refusal_text, reply_text
from stdio_program import run

pytestmark = pytest.mark.usefixtures("tfstated")


# Requests without a body, and the refusal of each: methods and targets are judged by the route,
# then the method, then the name.
REFUSED_REQUESTS = """
GET / NoRoute
GET * NoRoute
GET /state NoRoute
GET /state/ NoRoute
GET /state/?a NoRoute
GET /state/a/ NoRoute
GET /state/a/b NoRoute
GET /State/a NoRoute
GET //state/a NoRoute
GET state/a NoRoute
GET ?/state/a NoRoute
GET http://h/state/a NoRoute
PUT /state/a%20b/ NoRoute
LOCK /state/ NoRoute
UNLOCK /state/ NoRoute
PUT /state/a MethodNotAllowed
PUT /state/a?ID=A MethodNotAllowed
PUT /state/a%20b MethodNotAllowed
OPTIONS /state/a MethodNotAllowed
get /state/a MethodNotAllowed
GETS /state/a MethodNotAllowed
Lock /state/a MethodNotAllowed
lock /state/a MethodNotAllowed
GET /state/a%20b BadName
GET /state/a%2Fb BadName
POST /state/a%2Fb?c BadName
DELETE /state/a%20b BadName
UNLOCK /state/a%20b?ID=A BadName
GET /state/{name} BadName
GET /state/a?b=c NoState
GET /state/.. NoState
GET /impact NoRoute
GET /impact/a NoRoute
GET /impact/a/ NoRoute
GET /impact//any NoRoute
GET /impact/any NoRoute
GET /impact/a/b/any NoRoute
GET /impact/a/any/ NoRoute
GET /impact/a/anyx NoRoute
GET /impact/a/an NoRoute
GET /impact/a/Any NoRoute
GET /impact/aany NoRoute
GET /impact/a/al?/l NoRoute
GET /impact/a/some?of=t.a NoRoute
GET /impacts/a/any NoRoute
GET /state/a/any NoRoute
GET /impact/a%20b/any?of=t.a BadName
GET /impact/{name}/all BadName
GET /impact/a/all?of=t.a NoState
"""
REFUSED_QUERIES = """
POST /impact/a%20b/any
get /impact/a/all
LOCK /impact/a/any
"""
TARGETS = [line.rsplit(" ", 1) for line in REFUSED_REQUESTS.split("\n") if line]


@pytest.mark.parametrize("line, name", [*TARGETS, ("GET /state/" + "n" * 65, "BadName"), ("GET /state/" + "n" * 64, "NoState")])
def test_targets_and_methods_are_judged_in_order(line, name):
    data = line.encode() + b" HTTP/1.1\r\nHost: h\r\n\r\n"
    expect(run(data + GET), (refusal_text(name) + NO_STATE, CLEAN, b""), line)


def test_a_name_without_a_state_is_deleted():
    gone = request(b"DELETE", target=b"/state/q") + request(b"GET", target=b"/state/q")
    expect(run(gone), (DONE + NO_STATE, CLEAN, b""))


def test_the_reply_to_a_method_that_is_not_allowed():
    expect(refusal_text("MethodNotAllowed"), b"HTTP/1.1 405 Method Not Allowed\r\n"
           b"Allow: DELETE, GET, LOCK, POST, UNLOCK\r\n"
           b'Content-Type: application/json\r\nContent-Length: 28\r\n\r\n{"error":"MethodNotAllowed"}')


ALLOWED = b"HTTP/1.1 405 Method Not Allowed\r\nAllow: GET\r\nContent-Type: application/json\r\nContent-Length: 28\r\n\r\n"


@pytest.mark.parametrize("line", REFUSED_QUERIES.strip().split("\n"))
def test_queries_have_one_method(line):
    data = line.encode() + b" HTTP/1.1\r\nHost: h\r\n\r\n"
    expect(run(data + GET), (ALLOWED + b'{"error":"MethodNotAllowed"}' + NO_STATE, CLEAN, b""), line)


def test_the_head_of_a_query_has_no_body_and_its_digest_is_looked_at():
    expect(run(request(b"HEAD", target=b"/impact/a/all?of=t.a") + GET), (ALLOWED + NO_STATE, CLEAN, b""))
    expect(run(request(b"GET", digest(b"?"), target=b"/impact/a/all?of=t.a")), (refusal_text("BadDigest"), CLEAN, b""))


def test_a_read_returns_the_state_of_its_name():
    pushes = request(b"POST", b"", S1, b"/state/prod-eu_1.A") + request(b"POST", b"", S2, b"/state/state")
    reads = request(b"GET", target=b"/state/prod-eu_1.A?ID=x/y?z") + request(b"GET", target=b"/state/state?")
    expect(run(pushes + reads + GET), (DONE + DONE + reply_text(200, S1) + reply_text(200, S2) + NO_STATE, CLEAN, b""))


def changes(query):
    """Returns a push, a deletion and an unlock of `a`, each with this query."""
    target = b"/state/a" + query
    return request(b"POST", b"", S1, target), request(b"DELETE", target=target), request(b"UNLOCK", target=target)


HOLDER = b'{"ID":"Z"}'
LOCK, UNLOCK = request(b"LOCK", b"", HOLDER), request(b"UNLOCK", b"", HOLDER)


@pytest.mark.parametrize("query", [b"", b"?", b"?id=A", b"?of=ID&IDs=A", b"?ID=&ID=A", b"?ID", b"?ID&ID=A"])
def test_a_change_without_an_identifier_bears_none(query):
    push, delete, free = changes(query)
    output = DONE * 4 + refusal_text("NoState") + DONE + DONE
    expect(run(push + delete + LOCK + free + GET + LOCK + UNLOCK), (output, CLEAN, b""))


@pytest.mark.parametrize("query, identifier", [
    (b"?ID=A", b"A"), (b"?ID=A&ID=B", b"A"), (b"?of=x&&ID=A&ID=", b"A"), (b"?I%44=A", b"A"), (b"?ID=a=b?c", b"a=b?c"),
    (b"?ID=%41%2fb%26", b"A/b&"), (b"?ID=a+b%2B", b"a b+"), (b"?ID=%C3%A9", b"\xc3\xa9"),
    (b"?ID=a%FFb", b"a\xef\xbf\xbdb"), (b"?ID=%4", b"%4"),
])
def test_a_change_bears_the_first_identifier(query, identifier):
    push, delete, free = changes(query)
    own = request(b"LOCK", b"", b'{"ID":"%s"}' % identifier)
    expect(run(own + push + delete + free + LOCK + free), (DONE * 5 + reply_text(423, HOLDER), CLEAN, b""))


@pytest.mark.parametrize("target", [b"/state/a", b"/state/a?ID=A"])
def test_a_lock_has_its_body_alone(target):
    lock, push = request(b"LOCK", b"", b'{"ID":"B"}', target), request(b"POST", b"", S1, b"/state/a?ID=B")
    expect(run(lock + push + GET), (DONE * 2 + reply_text(200, S1), CLEAN, b""), target)


# Three instances: the second depends on the first and the third on the second; and four of one
# resource, with one more that depends on them.
CHAIN = (
    b'{"version":4,"serial":2,"lineage":"L","resources":['
    b'{"mode":"managed","type":"t","name":"a","instances":[{"dependencies":["x.y"]}]},'
    b'{"mode":"managed","type":"t","name":"b","instances":[{"dependencies":["t.a"]}]},'
    b'{"mode":"managed","type":"t","name":"c","instances":[{"dependencies":["t.b[3]"]}]}]}'
)
KEYS = (
    b'{"version":4,"serial":7,"lineage":"L","resources":[{"mode":"managed","type":"t","name":"a","instances":['
    b'{"index_key":"\xc3\xa9"},{"index_key":"a b+"},{"index_key":"%zz"},{"index_key":"a\xef\xbf\xbdb"}]},'
    b'{"mode":"managed","type":"t","name":"b","instances":[{"index_key":"\xc3\xa9","dependencies":["t.a[\\"\xc3\xa9\\"]"]}]}]}'
)
FOUND = b"HTTP/1.1 200 OK\r\nContent-Type: application/json\r\n"
NO_ADDRESS = b"HTTP/1.1 400 Bad Request\r\nContent-Type: application/json\r\n"
UNKNOWN = b"HTTP/1.1 404 Not Found\r\nContent-Type: application/json\r\n"
BOTH, LAST = b'{"instances":["t.b","t.c"],"position":4,"serial":2}', b'{"instances":["t.c"],"position":4,"serial":2}'
KEYED = b'{"instances":["t.b[\\"\xc3\xa9\\"]"],"position":4,"serial":7}'


@pytest.mark.parametrize("state, head, target, length, body", [
    (CHAIN, FOUND, b"/impact/a/any?of=t.a", 51, BOTH), (CHAIN, FOUND, b"/impact/any/all?of=t.a", 51, BOTH),
    (CHAIN, FOUND, b"/impact/all/any?of=t.a&of=t.a", 51, BOTH), (CHAIN, FOUND, b"/impact/a/any?of=t.b&ID=x&of=t.a&of=t.b", 51, BOTH),
    (CHAIN, FOUND, b"/impact/a/all?of=t.b&of=t.a&of=t.a", 45, LAST), (CHAIN, FOUND, b"/impact/a-1.b_C/all?OF=t.a&o%66=t.b&&fo", 45, LAST),
    (CHAIN, FOUND, b"/impact/a/any?of=t.c", 40, b'{"instances":[],"position":4,"serial":2}'),
    *[(KEYS, FOUND, b"/impact/a/any?of=" + text, 53, KEYED)
      for text in (b"t.a[%22%C3%A9%22]", b"t.a[%22a+b%2B%22]", b"t.a[%22%zz%22]", b"t.a[%22a%FFb%22]")],
    *[(CHAIN, NO_ADDRESS, target, 21, b'{"error":"NoAddress"}')
      for target in (b"/impact/a/any", b"/impact/a/all?", b"/impact/a/any?Of=t.a")],
    *[(CHAIN, UNKNOWN, target, 26, b'{"error":"UnknownAddress"}')
      for target in (b"/impact/a/all?of=t.a&of=x.y", b"/impact/a/any?of=t.a&of", b"/impact/a-1.b_C/all?of=a+b%2B&&of=%zz")],
])
def test_queries_are_answered_by_all_their_texts(state, head, target, length, body):
    names = (b"/state/a", b"/state/any", b"/state/all", b"/state/a-1.b_C")
    pushes = b"".join(request(b"POST", b"", state, name) for name in names)
    wanted = head + b"Content-Length: %d\r\n\r\n" % length + body
    expect(run(pushes + request(b"GET", target=target)), (DONE * 4 + wanted, CLEAN, b""), target)
