"""Clients that work as Terraform does: they lock, fetch, push and unlock on persistent connections.
Some of them are killed, between requests and inside one, and the server is killed while all of them
work. Their requests and the acknowledgements are recorded."""
import base64
import hashlib
import http.client
import json
import math
import random
import threading
import time

from checking import SECONDS, expect
from serve_program import state
from stdio_program import request_text

GONE = (OSError, http.client.HTTPException)


class Changes:
    """The requested changes, and when each was sent and acknowledged. No change is requested
    twice."""

    def __init__(self):
        self.sent, self.acknowledged = {}, {}

    def send(self, kind, name, *fields):
        self.sent[kind, name, fields] = time.monotonic()
        return kind, name, fields

    def acknowledge(self, change):
        self.acknowledged[change] = time.monotonic()

    def expect_in(self, entries, about):
        """Checks that each acknowledged change is among the entries of a journal, before each
        change that was sent after the acknowledgement, and that no entry occurs twice or was never
        sent."""
        found, latest = [(kind, name, tuple(fields)) for kind, name, fields in entries], 0
        expect(len(set(found)), len(found), f"{about}: how often each is there")
        expect([change for change in found if change not in self.sent], [], f"{about}: what nobody sent")
        there = set(found)
        expect([change for change in list(self.acknowledged) if change not in there], [], f"{about}: what is missing")
        for change in found:
            expect(self.acknowledged.get(change, math.inf) >= latest, True, f"{about}: {change[:2]} stands behind one that was sent later")
            latest = max(latest, self.sent[change])


class Team:
    """The state that all clients share."""

    def __init__(self, server):
        self.server, self.goes_on, self.changes, self.failures = server, True, Changes(), []
        self.inside, self.serials, self.doubtful, self.orphans, self.lost, self.cut = {}, {}, {}, set(), 0, 0
        self.guard = threading.Condition()

    def kill(self):
        """Kills the server while the clients work. Returns the journal's bytes."""
        with self.guard:
            server, self.server = self.server, None
        return server.kill()

    def go_on(self, server):
        """Has the clients continue with another server."""
        with self.guard:
            self.server = server
            self.guard.notify_all()

    def end(self):
        """Has the clients end."""
        with self.guard:
            self.goes_on = False
            self.guard.notify_all()

    def current(self):
        """Returns the server, once there is one; None if the clients must end."""
        with self.guard:
            if not self.guard.wait_for(lambda: self.server is not None or not self.goes_on, SECONDS):
                self.failures.append("there is no server")
            return self.server if self.goes_on and not self.failures else None

    def enter(self, name, number, status):
        """Records that a client got a lock, which no other client may have then."""
        with self.guard:
            if status != 200 or name in self.inside:
                self.failures.append(f"{name}: {number} got status {status} while {self.inside.get(name)} is inside")
            self.inside[name] = number

    def leave(self, name, number, orphan=None):
        """Records that a client is about to unlock, or has gone and perhaps left its lock."""
        with self.guard:
            if self.inside.get(name) == number:
                del self.inside[name]
            if orphan is not None:
                self.orphans.add(orphan)

    def lose(self, server, error):
        """Records that a client lost its connection, which is right only if its server was
        killed."""
        with self.guard:
            self.lost += 1
            if server is self.server:
                self.failures.append(f"a connection ends while the server goes on: {error!r}")

    def take_orphan(self, server, name, holder):
        """Returns true if a holder that this server reported has gone; the caller must then
        unlock."""
        with self.guard:
            is_left = server is self.server and name not in self.inside and holder in self.orphans
            self.orphans -= {holder} if is_left else set()
            return is_left

    def give_back(self, holder):
        """Records that a holder that has gone may still have its lock."""
        with self.guard:
            self.orphans.add(holder)

    def find(self, name, serial):
        """Checks that the holder of the lock finds the last acknowledged push, or an unacknowledged
        one from before the server was killed."""
        with self.guard:
            wanted = {self.serials.get(name, 0), self.doubtful.pop(name, self.serials.get(name, 0))}
            if serial not in wanted:
                self.failures.append(f"{name} has serial {serial}, pushed was {wanted}")
            self.serials[name] = serial


class Client(threading.Thread):
    """One machine with Terraform: it changes workspaces under their locks, on a persistent
    connection."""

    def __init__(self, number, team):
        super().__init__(daemon=True)
        self.number, self.team, self.rng = number, team, random.Random(number)
        self.connection, self.server, self.used = None, None, 0

    def run(self):
        while (server := self.team.current()) is not None:
            if server is not self.server:
                self.drop()
                self.server = server
            name = f"w{self.rng.randrange(3)}"
            identifier = f"{self.number}-{self.rng.randrange(10**9)}"
            info = json.dumps({"ID": identifier, "Operation": "OperationTypeApply", "Who": "w"}).encode()
            try:
                self.change(name, identifier.encode(), info)
            except GONE as error:
                self.drop()
                self.team.lose(server, error)
                self.team.leave(name, self.number, info)
            except Exception as error:
                self.team.failures.append(f"client {self.number}: {error!r}")

    def drop(self):
        """Closes the connection, as a killed client does."""
        if self.connection is not None:
            self.connection.close()
            self.connection = None

    def ask(self, method, target, body=None):
        """Returns the status and the body of the reply."""
        if time.monotonic() - self.used > 1:
            self.drop()  # the server closes it soon
        if self.connection is None:
            host, port = self.server.address.split(":")
            self.connection = http.client.HTTPConnection(host, int(port), timeout=SECONDS)
        digest = {"Content-MD5": base64.b64encode(hashlib.md5(body).digest()).decode()} if body else {}
        fields = {"User-Agent": "Go-http-client/1.1", "Content-Type": "application/json", "Accept-Encoding": "gzip", **digest}
        self.connection.request(method, target, body=body, headers=fields)
        with self.connection.getresponse() as reply:
            status, text = reply.status, reply.read()
        self.used = time.monotonic()
        return status, text

    def submit(self, change, method, target, body):
        """Requests a change, and records it if it is acknowledged. Returns the status and the body
        of the reply."""
        change = self.team.changes.send(*change)
        status, text = self.ask(method, target, body)
        if status == 200:
            self.team.changes.acknowledge(change)
        return status, text

    def cut(self, name, info, request):
        """Ends the client as if killed, after a part of a request, perhaps with the lock."""
        if self.connection is not None and self.connection.sock is not None:
            self.connection.sock.sendall(request[: self.rng.randrange(1, len(request))])
            self.team.cut += 1
        self.drop()
        self.team.leave(name, self.number, info)

    def change(self, name, identifier, info):
        """Does one run of Terraform on a workspace. The run ends if another client has the lock.
        Some clients are killed inside."""
        target, fate = f"/state/{name}", self.rng.random()
        if fate < 0.03:
            return self.cut(name, None, request_text("LOCK", target, info))
        status, holder = self.submit(("lock", name, info), "LOCK", target, info)
        if status == 423:
            return self.break_lock(name, holder)
        self.team.enter(name, self.number, status)
        status, text = self.ask("GET", target)
        serial = json.loads(text)["serial"] if status == 200 else 0
        self.team.find(name, serial)
        text = state(serial + 1, ("a",), ("b", "t.a"))
        if fate < 0.06:
            self.drop()
            return self.team.leave(name, self.number, info)
        if fate < 0.09:
            return self.cut(name, info, request_text("POST", f"{target}?ID={identifier.decode()}", text))
        self.push(name, identifier, serial + 1, text)
        self.team.leave(name, self.number)
        return self.submit(("unlock", name, identifier), "UNLOCK", target, info)

    def push(self, name, identifier, serial, text):
        """Pushes the next state under the lock."""
        self.team.doubtful[name] = serial
        status, _ = self.submit(("push", name, identifier, text), "POST", f"/state/{name}?ID={identifier.decode()}", text)
        if status != 200:
            self.team.failures.append(f"{name}: a push under the lock has status {status}")
        self.team.serials[name] = serial

    def break_lock(self, name, holder):
        """Unlocks the workspace if the holder has gone."""
        if not self.team.take_orphan(self.server, name, holder):
            return
        try:
            self.submit(("unlock", name, json.loads(holder)["ID"].encode()), "UNLOCK", f"/state/{name}", holder)
        except GONE:
            self.team.give_back(holder)
            raise
