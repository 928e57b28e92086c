"""Asks `tfstatectl serve --metrics` for the numbers of the server: what it answered, how long that
took, its journal and its compactions; requests that aren't for numbers; addresses that can't be
used. tests/deploy/deploy_metrics.py has Prometheus read them."""
import http.client
import json
import resource
import socket
import time

import pytest

from checking import S1, SECONDS, expect
from folder_program import STATUSES, LocalConnection, Serving, ended
from folders import LOOPBACK, ask_over, free_port, fresh, named
from lazy_disk import slow
from metrics import read_families

pytestmark = pytest.mark.usefixtures("tfstatectl")
KINDS = {
    "tfstated_requests_total": "counter", "tfstated_request_duration_seconds": "histogram", "tfstated_sync_duration_seconds": "histogram",
    "tfstated_compactions_total": "counter",
    "tfstated_failed_compactions_total": "counter", "tfstated_compaction_wait_seconds_total": "counter",
    "tfstated_longest_compaction_wait_seconds": "gauge", "tfstated_changes_total": "counter", "tfstated_journal_bytes": "gauge",
    "process_resident_memory_bytes": "gauge"}
LOCK, OTHER = (json.dumps({"ID": holder, "Who": "a"}).encode() for holder in "xy")
MIB, DELAY_MICROS = 1 << 20, 10_000
ROUTES = {"GET": ("state", "impact"), "POST": ("state",), "DELETE": ("state",), "LOCK": ("state",), "UNLOCK": ("state",)}


class Measured(Serving):
    """A server on a new folder, whose numbers are at a port or at a unix socket."""

    def __init__(self, *words, path=None, **how):
        self.numbers = path or free_port()
        place = f"unix:{path}" if path else f"{LOOPBACK}:{self.numbers}"
        super().__init__(fresh(), "--first", *words, "--metrics", place, **how)

    def scrape(self, target="/metrics", method="GET"):
        """Returns the status, the header fields and the body of a reply of the numbers' address."""
        local = isinstance(self.numbers, int)
        connection = http.client.HTTPConnection(LOOPBACK, self.numbers, timeout=SECONDS) if local else LocalConnection(self.numbers)
        try:
            connection.request(method, target)
            reply = connection.getresponse()
            return reply.status, dict(reply.getheaders()), reply.read()
        finally:
            connection.close()

    def samples(self):
        kinds, samples = read_families(self.scrape()[2].decode())
        expect(kinds, KINDS)
        return samples


def row(method, route, status, refusal=""):
    return ("tfstated_requests_total", frozenset({("method", method), ("route", route), ("status", str(status)), ("refusal", refusal)}))


def counted(samples):
    """Returns the numbers of answered requests."""
    return {key: value for key, value in samples.items() if key[0] == "tfstated_requests_total"}


def value(samples, name):
    return samples[f"tfstated_{name}", frozenset()]


def test_each_answer_is_counted_by_what_was_asked_and_answered():
    server = Measured().listens()
    expect(counted(server.samples()), {}, "nothing was asked")
    asked = [("GET", "/state/a", None), ("POST", "/state/a", S1), ("POST", "/state/a", S1), ("GET", "/state/a", None), ("LOCK", "/state/a", LOCK),
             ("LOCK", "/state/a", OTHER), ("POST", "/state/a", S1), ("UNLOCK", "/state/a", LOCK), ("DELETE", "/state/a", None),
             ("GET", "/impact/a/any?of=t.a", None), ("POST", "/state/a", b"{}"), ("GET", "/other", None)]
    found = [server.ask(*one)[0] for one in asked]
    expect(found, [404, 200, 200, 200, 200, 423, 423, 200, 200, 404, 400, 404])
    expect(counted(server.samples()), {
        row("GET", "state", 404, "NoState"): 1, row("POST", "state", 200): 2, row("GET", "state", 200): 1, row("LOCK", "state", 200): 1,
        row("LOCK", "state", 423, "Locked"): 1, row("POST", "state", 423, "Locked"): 1, row("UNLOCK", "state", 200): 1,
        row("DELETE", "state", 200): 1, row("GET", "impact", 404, "NoState"): 1, row("POST", "state", 400, "BadState"): 1,
        row("", "", 404, "NoRoute"): 1})


def test_a_request_that_is_refused_before_the_table_is_counted_too():
    server = Measured().listens()
    asked = [b"no head\r\n\r\n", b"GET /state/a HTTP/1.1\r\n\r\n", b"PUT /state/a HTTP/1.1\r\nHost: x\r\n\r\n", b"no head\r\n\r\n",
             b"GET /state/a HTTP/1.1\r\nHost: x\r\nTransfer-Encoding: gzip\r\n\r\n"]
    for text in asked:
        with socket.create_connection((LOOPBACK, server.port), SECONDS) as stream:
            stream.sendall(text)
            expect(stream.recv(65536).startswith(b"HTTP/1.1 4") or text[:3] == b"GET", True, text)
    found = counted(server.samples())
    expect(sum(found.values()), len(asked), found)
    expect({key: count for key, count in found.items() if count != 1}, {row("", "", 400, "BadHead"): 2})
    expect({dict(key[1])["refusal"] for key in found}, {"BadHead", "NoHost", "MethodNotAllowed", "TransferCoding"})


def test_the_memory_and_its_limit():
    server = Measured().listens()
    resident = server.samples()["process_resident_memory_bytes", frozenset()]
    expect(MIB < resident <= server.most_memory(), True, resident)
    size = 8 << 40
    limited = Measured(preexec_fn=lambda: resource.setrlimit(resource.RLIMIT_AS, (size, size))).listens()
    kinds, samples = read_families(limited.scrape()[2].decode())
    expect(kinds, {**KINDS, "process_virtual_memory_max_bytes": "gauge"})
    expect(samples["process_virtual_memory_max_bytes", frozenset()], size)


def test_durations_are_in_buckets_that_grow():
    server = Measured().listens()
    for _ in range(20):
        server.ask("GET", "/state/a")
    server.ask("POST", "/state/a", S1)
    samples, name = server.samples(), "tfstated_request_duration_seconds"
    for method, routes in ROUTES.items():
        for route in routes:
            labels = {("method", method), ("route", route)}
            buckets = sorted((float(dict(key[1])["le"].replace("+Inf", "inf")), number) for key, number in samples.items()
                             if key[0] == f"{name}_bucket" and labels <= key[1])
            expect(len(buckets), 11)
            expect([number for _, number in buckets], sorted(number for _, number in buckets))
            count = {("GET", "state"): 20, ("POST", "state"): 1}.get((method, route), 0)
            expect((buckets[-1][1], samples[f"{name}_count", frozenset(labels)]), (count, count))
            expect(samples[f"{name}_sum", frozenset(labels)] > 0, count > 0)


def test_each_sync_is_counted_with_its_time():
    server = Measured(env=slow(DELAY=DELAY_MICROS)).listens()
    begun, name = server.samples(), "tfstated_sync_duration_seconds"
    for _ in range(5):
        expect(server.ask("POST", "/state/a", S1)[0], 200)
    expect(server.ask("GET", "/state/a")[0], 200)
    samples = server.samples()
    grown = {key: number - begun[key] for key, number in samples.items() if key[0].startswith(name)}
    expect(grown[f"{name}_count", frozenset()], 5, "each change had a sync of its own, and the read had none")
    expect(5 * DELAY_MICROS / 1e6 <= grown[f"{name}_sum", frozenset()], True, grown)
    buckets = {dict(key[1])["le"]: number for key, number in grown.items() if key[0] == f"{name}_bucket"}
    expect((len(buckets), buckets["+Inf"], buckets["0.010000"]), (11, 5, 0), buckets)


def test_the_journal_and_its_compactions():
    server = Measured("--compact-entries", "50").listens()
    expect((value(server.samples(), "changes_total"), value(server.samples(), "compactions_total")), (0, 0))
    for _ in range(120):
        expect(server.ask("POST", "/state/a", S1)[0], 200)
    until = time.monotonic() + SECONDS
    while value(server.samples(), "compactions_total") < 2 and time.monotonic() < until:
        time.sleep(0.1)
    samples = server.samples()
    expect((value(samples, "changes_total"), value(samples, "compactions_total"), value(samples, "failed_compactions_total")), (120, 2, 0))
    newest = sorted(server.folder.glob("*.tfj"))[-1]
    expect(newest.name, f"{named(3)}.tfj")
    expect(value(samples, "journal_bytes"), newest.stat().st_size)
    expect(0 <= value(samples, "longest_compaction_wait_seconds") <= value(samples, "compaction_wait_seconds_total"), True)


def test_other_requests_get_their_statuses():
    server = Measured().listens()
    status, fields, body = server.scrape()
    expect((status, fields["content-type"], fields["connection"]), (200, "text/plain; version=0.0.4", "close"))
    status, fields, nothing = server.scrape(method="HEAD")
    expect((status, nothing), (200, b""))
    expect(server.scrape("/metrics?name=x")[0], 200)
    expect(server.scrape("/")[0], 404)
    expect(server.scrape("/state/a")[0], 404)
    status, fields, body = server.scrape(method="POST")
    expect((status, fields["allow"], body), (405, "GET, HEAD", b""))
    with socket.create_connection((LOOPBACK, server.numbers)) as client:
        client.sendall(b"nonsense\r\n\r\n")
        expect(client.recv(100)[:13], b"HTTP/1.1 400 ")
    expect(server.scrape()[0], 200, "the next one is answered")


def test_clients_that_say_nothing_and_many_that_ask():
    server = Measured().listens()
    silent = [socket.create_connection((LOOPBACK, server.numbers)) for _ in range(2)]
    began = time.monotonic()
    expect(server.scrape()[0], 200)
    expect(time.monotonic() - began < SECONDS, True, "silent clients are left")
    for client in silent:
        client.close()
    expect({server.scrape()[0] for _ in range(50)}, {200})


def test_a_unix_socket(tmp_path):
    server = Measured(path=tmp_path / "numbers").listens()
    server.ask("POST", "/state/a", S1)
    expect(counted(server.samples()), {row("POST", "state", 200): 1})


@pytest.mark.parametrize("place, fault", [("nowhere:1", "CannotBind"), ("1", "CannotBind"), ("unix:", "SocketPath"), ("unix:/nowhere/x", None)])
def test_an_address_that_cannot_be_used_starts_nothing(place, fault):
    folder = fresh()
    status, output, errors = ended(folder, "--first", "--metrics", place)
    expect((status != 0, output, errors.startswith(f"tfstatectl: {place}: {fault or ''}")), (True, "", True), errors)
    if fault:
        expect(status, STATUSES.get(fault, status))
    expect(list(folder.glob("*.tfj")), [], "nothing is made")


def test_without_the_option_nobody_listens_and_nothing_is_counted():
    server = Serving(fresh(), "--first").listens()
    connection = server.connect()
    expect(ask_over(connection, "GET", "/metrics", None)[0], 404)
