"""The stand-in for etcd: its replies, written by hand from those of etcd 3.4, and its faults."""
import contextlib
import http.client
import json
import time

import pytest

from checking import expect
from etcd_calls import HEAD, Connection, call, coded, is_absent, move, put, read
from etcd_stand_in import DELAY, DOUBLE, DROP, LATE, LOSE, TWICE, etcd
from folders import fresh


def header(revision):
    return {"cluster_id": "1", "member_id": "1", "revision": str(revision), "raft_term": "2"}


def row(key, value, create, mod, version):
    return {"key": coded(key), "create_revision": str(create), "mod_revision": str(mod), "version": str(version), "value": coded(value)}


def refused(text, code=3):
    return {"error": f"etcdserver: {text}", "message": f"etcdserver: {text}", "code": code}


def head_of(path):
    """Returns the value of the head and its revisions, or None."""
    status, reply = call(path, "kv/range", key=coded(HEAD))
    expect(status, 200)
    return reply.get("kvs", [None])[0]


# A call, its request, and the reply's status and value.
REPLIES = (
    ("kv/range", {"key": coded(HEAD)}, 200, {"header": header(1)}),
    ("kv/txn", move(b"", b"1 7", (b"/t/r/a", b"row")), 200,
     {"header": header(2), "succeeded": True, "responses": [{"response_put": {"header": {"revision": "2"}}}] * 2}),
    ("kv/txn", move(b"", b"1 8"), 200,
     {"header": header(2), "responses": [{"response_range": {"header": {"revision": "2"}, "kvs": [row(HEAD, b"1 7", 2, 2, 1)], "count": "1"}}]}),
    ("kv/txn", move(b"1 7", b"2 7"), 200,
     {"header": header(3), "succeeded": True, "responses": [{"response_put": {"header": {"revision": "3"}}}]}),
    ("kv/range", {"key": coded(b"/t/"), "range_end": coded(b"/t0"), "limit": "1"}, 200,
     {"header": header(3), "kvs": [row(HEAD, b"2 7", 2, 3, 2)], "more": True, "count": "2"}),
    ("kv/put", {"key": coded(b"/t/x")}, 200, {"header": header(4)}),
    ("kv/put", {"key": coded(b"/t/x"), "lease": "55"}, 404, refused("requested lease not found", 5)),
    ("kv/put", {"value": coded(b"1")}, 400, refused("key is not provided")),
    ("kv/txn", {"success": [put(HEAD, b"1"), put(HEAD, b"2")]}, 400, refused("duplicate key given in txn request")),
    ("kv/deleterange", {"key": coded(b"/t/x")}, 200, {"header": header(5), "deleted": "1"}),
    ("lease/grant", {"TTL": "1", "ID": "9"}, 200, {"header": header(5), "ID": "9", "TTL": "2"}),
    ("lease/keepalive", {"ID": "9"}, 200, {"result": {"header": header(5), "ID": "9", "TTL": "2"}}),
    ("lease/keepalive", {"ID": "8"}, 200, {"result": {"header": header(5), "ID": "8"}}),
    ("lease/revoke", {"ID": "8"}, 404, refused("requested lease not found", 5)),
    ("lease/revoke", {"ID": "9"}, 200, {"header": header(5)}),
)


def test_it_replies_as_etcd_does():
    path = fresh() / "etcd.sock"
    with etcd(path):
        for number, (what, request, status, value) in enumerate(REPLIES):
            expect(call(path, what, **request), (status, value), f"call {number}")


def test_a_lease_ends_with_its_keys():
    path = fresh() / "etcd.sock"
    with etcd(path):
        call(path, "lease/grant", TTL="2", ID="9")
        call(path, "kv/txn", compare=[is_absent(HEAD)], success=[put(HEAD, b"7", lease="9")])
        expect(head_of(path)["lease"], "9")
        time.sleep(1.2)
        call(path, "lease/keepalive", ID="9")
        time.sleep(1.2)
        expect(head_of(path) is None, False, "kept alive")
        time.sleep(1.2)
        expect(head_of(path), None, "ended")


# A fault at the second call, whether its reply is read, and what the move leaves of the head: the
# value, and how often it was written.
FAULTS = ((LOSE, False, (b"1 7", "1")), (DROP, False, None), ((LATE, 0.2), False, (b"1 7", "1")), (TWICE, True, (b"1 7", "1")),
          ((DELAY, 0.3), True, (b"1 7", "1")))


@pytest.mark.parametrize("fault, replies, left", FAULTS, ids=[str(row[0]) for row in FAULTS])
def test_a_fault_at_a_call(fault, replies, left):
    path = fresh() / "etcd.sock"
    with etcd(path, {2: fault}):
        expect(head_of(path), None)
        began = time.monotonic()
        if replies:
            status, reply = call(path, "kv/txn", **move(b"", b"1 7"))
            # A move that is carried out twice replies to the second one, which finds the first's head.
            expect((status, reply.get("succeeded", False)), (200, fault != TWICE))
        else:
            with pytest.raises((http.client.HTTPException, OSError)):
                call(path, "kv/txn", **move(b"", b"1 7"))
        if fault == (DELAY, 0.3):
            expect(time.monotonic() - began >= 0.3, True, "the delay")
        if fault == (LATE, 0.2):
            expect(head_of(path), None, "not yet")
            time.sleep(0.5)
        found = head_of(path)
        expect(found and (found["value"], found["version"]), left and (coded(left[0]), left[1]))


def test_a_doubled_reply_comes_twice():
    path, text = fresh() / "etcd.sock", json.dumps(move(b"", b"1 7")).encode()
    with etcd(path, {1: DOUBLE}), contextlib.closing(Connection(path)) as connection:
        connection.connect()
        connection.sock.sendall(b"POST /v3/kv/txn HTTP/1.1\r\nHost: localhost\r\nContent-Length: %d\r\n\r\n%s" % (len(text), text))
        found = b""
        while found.count(b'"succeeded":true') < 2:
            found += connection.sock.recv(65_536)
        expect(found[:len(found) // 2], found[len(found) // 2:])
        expect(head_of(path)["version"], "1")


def test_a_delayed_reply_can_be_given_up():
    path = fresh() / "etcd.sock"
    with etcd(path, {1: (DELAY, 2)}):
        with pytest.raises(OSError):
            call(path, "kv/txn", seconds=0.2, **move(b"", b"1 7"))
        expect(call(path, "kv/txn", **move(b"", b"1 7"))[1]["responses"][0]["response_range"]["kvs"][0]["value"], coded(b"1 7"))
        expect(read(HEAD)["request_range"]["key"], coded(HEAD))
