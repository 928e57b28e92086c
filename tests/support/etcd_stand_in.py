"""A stand-in for etcd 3.4: its JSON gateway over a unix socket, as far as a journal's store needs it.
It has ranges, puts, transactions, deletions and leases over one dictionary. At a call of a chosen
number it loses, delays or doubles the reply, or carries the request out late or twice."""
import base64
import contextlib
import http.server
import itertools
import json
import socketserver
import threading
import time
from pathlib import Path

MAX_REQUEST = 1_572_864
MIN_TTL = 2
# What happens at a call: the reply is lost, delayed or doubled; the request is lost, carried out
# after the reply was given up, or carried out twice.
LOSE, DELAY, DOUBLE, DROP, LATE, TWICE = "lose", "delay", "double", "drop", "late", "twice"


class Refused(Exception):
    """A request that etcd refuses, with its status, its code and its text."""

    def __init__(self, status, code, text):
        super().__init__(text)
        self.reply = status, {"error": text, "message": text, "code": code}


def invalid(text):
    return Refused(400, 3, text)


def check_key(key):
    if not key:
        raise invalid("etcdserver: key is not provided")


def no_lease():
    return Refused(404, 5, "etcdserver: requested lease not found")


def plain(text):
    """Returns the bytes of a field in base64."""
    try:
        return base64.b64decode(text, validate=True)
    except ValueError:
        raise invalid("illegal base64 data at input byte 0") from None


def coded(data):
    return base64.b64encode(data).decode()


def within(key, request):
    """Returns true if a key is in a request's range: one key, or those from a key to before another."""
    first, end = plain(request.get("key", "")), plain(request.get("range_end", ""))
    return key == first if not end else first <= key and (end == b"\0" or key < end)


class Store:
    """The keys and leases of a cluster. Values have the order of etcd's fields; numbers are texts, and
    fields that are 0, false or empty are left out, as the gateway does."""

    def __init__(self):
        self.revision, self.keys, self.leases, self.lock = 1, {}, {}, threading.Lock()
        self.ids = itertools.count(7_587_000_000_000_001)

    def header(self):
        return {"cluster_id": "1", "member_id": "1", "revision": str(self.revision), "raft_term": "2"}

    def expire(self):
        """Ends the leases whose time is over, each in a revision of its own if it has keys."""
        now = time.monotonic()
        for lease in [lease for lease, (_, end) in self.leases.items() if end <= now]:
            self.end_lease(lease)

    def end_lease(self, lease):
        del self.leases[lease]
        bound = [key for key, row in self.keys.items() if row.get("lease") == str(lease)]
        self.revision += bool(bound)
        for key in bound:
            del self.keys[key]

    def among(self, request):
        """Returns the keys of a request's range, in order."""
        check_key(plain(request.get("key", "")))
        return sorted(key for key in self.keys if within(key, request))

    def range(self, request):
        found, limit = self.among(request), int(request.get("limit", 0))
        given = found[:limit] if limit else found
        reply = {"kvs": [{"key": coded(key), **self.keys[key]} for key in given], "more": len(given) < len(found), "count": str(len(found))}
        return {name: value for name, value in reply.items() if value not in ([], False, "0")}

    def check_put(self, request):
        check_key(plain(request.get("key", "")))
        plain(request.get("value", ""))
        if int(request.get("lease", 0)) and int(request["lease"]) not in self.leases:
            raise no_lease()

    def put(self, request, revision):
        key, value, lease = plain(request["key"]), request.get("value", ""), int(request.get("lease", 0))
        old = self.keys.get(key, {"create_revision": str(revision), "version": "0"})
        row = {"create_revision": old["create_revision"], "mod_revision": str(revision), "version": str(int(old["version"]) + 1)}
        self.keys[key] = row | ({"value": value} if value else {}) | ({"lease": str(lease)} if lease else {})
        return {}

    def delete(self, request):
        gone = self.among(request)
        for key in gone:
            del self.keys[key]
        return {"deleted": str(len(gone))} if gone else {}

    def holds(self, compare):
        """Returns true if a comparison for equality holds."""
        row = self.keys.get(plain(compare.get("key", "")))
        if compare.get("result", "EQUAL") != "EQUAL":
            raise invalid("this stand-in compares for equality alone")
        target = compare.get("target", "VERSION")
        if target == "VALUE":
            return row is not None and row.get("value", "") == compare.get("value", "")
        name = {"VERSION": "version", "CREATE": "create_revision", "MOD": "mod_revision"}[target]
        return int((row or {}).get(name, 0)) == int(compare.get(name, 0))

    def check_operations(self, operations):
        for key in (plain(body.get("key", "")) for operation in operations for body in operation.values()):
            check_key(key)
        puts = [plain(op["request_put"]["key"]) for op in operations if "request_put" in op]
        deletes = [op["request_delete_range"] for op in operations if "request_delete_range" in op]
        if len(set(puts)) < len(puts) or any(within(key, delete) for key in puts for delete in deletes):
            raise invalid("etcdserver: duplicate key given in txn request")
        if len(operations) > 128:
            raise invalid("etcdserver: too many operations in txn request")

    def transact(self, request):
        for compare in request.get("compare", []):
            check_key(plain(compare.get("key", "")))
        for branch in ("success", "failure"):
            self.check_operations(request.get(branch, []))
        succeeded = all([self.holds(compare) for compare in request.get("compare", [])])
        operations = request.get("success" if succeeded else "failure", [])
        for put in (op["request_put"] for op in operations if "request_put" in op):
            self.check_put(put)
        revision, wrote, responses = self.revision + 1, False, []
        for operation in operations:
            (kind, body), = operation.items()
            if kind == "request_put":
                wrote, name, reply = True, "response_put", self.put(body, revision)
            elif kind == "request_delete_range":
                name, reply = "response_delete_range", self.delete(body)
                wrote = wrote or bool(reply)
            else:
                name, reply = "response_range", self.range(body)
            responses.append({name: {"header": {"revision": str(self.revision + wrote)}, **reply}})
        self.revision += wrote
        return ({"succeeded": True} if succeeded else {}) | ({"responses": responses} if responses else {})

    def grant(self, request):
        lease, ttl = int(request.get("ID", 0)) or next(self.ids), max(int(request.get("TTL", 0)), MIN_TTL)
        self.leases[lease] = ttl, time.monotonic() + ttl
        return {"ID": str(lease), "TTL": str(ttl)}

    def keep_alive(self, request):
        lease = int(request.get("ID", 0))
        if lease not in self.leases:
            return {"ID": str(lease)}
        ttl = self.leases[lease][0]
        self.leases[lease] = ttl, time.monotonic() + ttl
        return {"ID": str(lease), "TTL": str(ttl)}

    def revoke(self, request):
        if int(request.get("ID", 0)) not in self.leases:
            raise no_lease()
        self.end_lease(int(request["ID"]))
        return {}

    def write(self, put):
        self.check_put(put)
        self.revision += 1
        return self.put(put, self.revision)

    def remove(self, request):
        reply = self.delete(request)
        self.revision += bool(reply)
        return reply

    def answer(self, path, request):
        """Returns the status of a call and its reply."""
        calls = {
            "/v3/kv/range": self.range, "/v3/kv/put": self.write, "/v3/kv/txn": self.transact, "/v3/kv/deleterange": self.remove,
            "/v3/lease/grant": self.grant, "/v3/lease/keepalive": self.keep_alive, "/v3/lease/revoke": self.revoke,
        }
        with self.lock:
            self.expire()
            try:
                reply = calls[path](request)
            except Refused as refused:
                return refused.reply
            reply = {"header": self.header(), **reply}
            return 200, {"result": reply} if path == "/v3/lease/keepalive" else reply


class Calls(http.server.BaseHTTPRequestHandler):
    protocol_version = "HTTP/1.1"

    def do_POST(self):
        body = self.rfile.read(int(self.headers["Content-Length"]))
        number, fault, seconds = self.server.next_call()
        if fault == DROP:
            return self.give_up()
        if fault == LATE:
            threading.Timer(seconds, self.outcome, [body]).start()
            return self.give_up()
        if fault == TWICE:
            self.outcome(body)
        status, reply = self.outcome(body)
        if fault == LOSE:
            return self.give_up()
        if fault == DELAY:
            time.sleep(seconds)
        for _ in range(2 if fault == DOUBLE else 1):
            self.send_reply(status, reply)
        return None

    def outcome(self, body):
        """Carries a request out."""
        if len(body) > MAX_REQUEST * 4 // 3:
            return invalid("etcdserver: request is too large").reply
        return self.server.store.answer(self.path, json.loads(body))

    def give_up(self):
        """Ends the connection without a reply."""
        self.close_connection = True

    def send_reply(self, status, reply):
        """Sends a reply: in chunks with a trailer if it is a refusal or of a stream, as etcd does."""
        text = json.dumps(reply, separators=(",", ":")).encode()
        chunked = status != 200 or "result" in reply
        self.send_response(status)
        self.send_header("Content-Type", "application/json")
        if status != 200:
            self.send_header("Trailer", "Grpc-Trailer-Content-Type")
        self.send_header(*(("Transfer-Encoding", "chunked") if chunked else ("Content-Length", str(len(text)))))
        self.end_headers()
        trailer = b"Grpc-Trailer-Content-Type: application/grpc\r\n" if status != 200 else b""
        self.wfile.write(b"%x\r\n%s\r\n0\r\n%s\r\n" % (len(text), text, trailer) if chunked else text)

    def address_string(self):
        return "a client"

    def log_message(self, *words):
        """Logs nothing."""


class Server(socketserver.ThreadingMixIn, socketserver.UnixStreamServer):
    """Answers calls, which are counted from 1. `faults` has what happens at calls, by their numbers:
    a fault, or a fault and a number of seconds."""
    daemon_threads = True
    request_queue_size = 64

    def __init__(self, path, faults):
        super().__init__(str(path), Calls)
        self.store, self.faults, self.calls, self.lock = Store(), dict(faults), 0, threading.Lock()

    def next_call(self):
        """Counts a call. Returns its number, its fault and the fault's seconds."""
        with self.lock:
            self.calls += 1
            fault = self.faults.get(self.calls)
            kind, seconds = fault if isinstance(fault, tuple) else (fault, 0)
            return self.calls, kind, seconds


@contextlib.contextmanager
def etcd(path, faults=()):
    """Serves at a socket's path. Yields the server."""
    with Server(Path(path), faults) as server:
        thread = threading.Thread(target=server.serve_forever, kwargs={"poll_interval": 0.01})
        thread.start()
        try:
            yield server
        finally:
            server.shutdown()
            thread.join()
