"""Calls of etcd's JSON gateway over a unix socket, one connection each, and random ones."""
import base64
import contextlib
import http.client
import json
import socket

from checking import SECONDS

HEAD, LEADER = b"/t/head", b"/t/leader"


def coded(data):
    return base64.b64encode(data).decode()


class Connection(http.client.HTTPConnection):
    """A connection to a unix socket."""

    def __init__(self, path, seconds=SECONDS):
        super().__init__("localhost", timeout=seconds)
        self.path = str(path)

    def connect(self):
        self.sock = socket.socket(socket.AF_UNIX)
        self.sock.settimeout(self.timeout)
        self.sock.connect(self.path)


def call(path, what, seconds=SECONDS, **request):
    """Returns the status of a call and the value of its reply. A lost reply raises an error."""
    with contextlib.closing(Connection(path, seconds)) as connection:
        connection.request("POST", f"/v3/{what}", json.dumps(request))
        reply = connection.getresponse()
        return reply.status, json.loads(reply.read())


def put(key, value, **more):
    return {"request_put": {"key": coded(key), "value": coded(value), **more}}


def read(key, **more):
    return {"request_range": {"key": coded(key), **more}}


def has_value(key, value):
    return {"key": coded(key), "target": "VALUE", "value": coded(value)}


def is_absent(key):
    return {"key": coded(key), "target": "CREATE", "create_revision": "0"}


def move(old, new, *rows):
    """Returns a transaction that moves the head from a value, or from none, with rows."""
    compare = has_value(HEAD, old) if old else is_absent(HEAD)
    return {"compare": [compare], "success": [*(put(key, value) for key, value in rows), put(HEAD, new)], "failure": [read(HEAD)]}


def random_call(random, leases):
    """Returns a call and its request, over a few keys and values. `leases` has those that exist."""
    keys = [b"/t/%c" % letter for letter in b"abcd"] + [HEAD, b""]
    key, value = random.choice(keys), random.choice([b"", b"1 7", b"2 7", b"\0\xff" * 9])
    lease = random.choice([{}, {}, {}, {"lease": "55"}, *({"lease": lease} for lease in leases[-2:])])
    compares = [has_value(key, value), is_absent(key), {"key": coded(key), "target": "MOD", "mod_revision": str(random.randrange(6))}]
    operations = [put(random.choice(keys), value, **lease), read(b"/t/", range_end=coded(b"/t0"), limit=str(random.randrange(4))),
                  {"request_delete_range": {"key": coded(random.choice(keys[:5]))}}]
    some = {"compare": random.sample(compares, random.randrange(3)), "success": random.sample(operations, random.randrange(3)),
            "failure": random.sample(operations, random.randrange(3))}
    return random.choice([
        ("kv/range", read(key, limit=str(random.randrange(3)))["request_range"]),
        ("kv/range", read(b"/t/", range_end=coded(b"/t0"), limit=str(random.randrange(4)))["request_range"]),
        ("kv/put", put(key, value, **lease)["request_put"]),
        ("kv/deleterange", {"key": coded(key)}),
        ("kv/txn", some), ("kv/txn", some), ("kv/txn", move(random.choice([b"", b"1 7", b"2 7"]), b"2 7", (b"/t/r/a", value))),
        ("lease/grant", {"TTL": "300"}), ("lease/keepalive", {"ID": random.choice(["55", *leases])}),
        ("lease/revoke", {"ID": random.choice(["55", *leases])}),
    ])
