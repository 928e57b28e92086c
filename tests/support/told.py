"""What servers reported to the clients of the tests, and clients that send requests until a server
is gone."""
import http.client
import json
import threading
import time

from checking import expect
from folders import LOOPBACK, ask_over
from pushers import serials_of
from serve_program import state

GONE = (OSError, http.client.HTTPException)
NAMES = [f"n{number}" for number in range(4)]


class Told:
    """What a server has reported: the last serial of each name that was acknowledged or read, and
    the greatest position."""

    def __init__(self):
        self.acknowledged, self.read, self.position, self.count = {}, {}, 0, 0

    def push(self, connection, name):
        """Pushes the next serial of a name."""
        serial = self.acknowledged.get(name, 0) + 1
        text = state(serial, ("a",), ("b", "t.a"))
        if ask_over(connection, "POST", f"/state/{name}", text)[0] == 200:
            self.acknowledged[name] = serial
            self.count += 1

    def look(self, connection, name):
        """Reads a name, and queries it."""
        status, text = ask_over(connection, "GET", f"/state/{name}")
        if status == 200:
            self.read[name] = max(self.read.get(name, 0), json.loads(text)["serial"])
        status, text = ask_over(connection, "GET", f"/impact/{name}/any?of=t.a")
        if status == 200:
            answer = json.loads(text)
            self.read[name] = max(self.read.get(name, 0), answer["serial"])
            self.position = max(self.position, answer["position"])

    def expect_in(self, folder, about):
        """Checks that the journals of a folder have all of it."""
        serials, position = serials_of(folder)
        for name in NAMES:
            found, last = serials.get(name, []), self.acknowledged.get(name, 0)
            expect(found, sorted(found), f"{about}: the order of {name}")
            expect(sorted(set(found))[:last], list(range(1, last + 1)), f"{about}: {name}")
            read, newest = self.read.get(name, 0), max(found, default=0)
            expect(read <= newest, True, f"{about}: {name} was read with {read}, found {newest}")
        is_there = self.position <= position
        expect(is_there, True, f"{about}: position {self.position} was told, found {position}")


def ask_on(server, step):
    """Sends requests until the server is gone. A server that compacts its journal ends
    connections."""
    connection = http.client.HTTPConnection(LOOPBACK, server.port, timeout=10)
    while server.process.poll() is None:
        try:
            step(connection)
        except GONE:
            connection.close()
    connection.close()


def beside(server, told, readers):
    """Starts threads that push to each name, and some that read. Returns them."""
    steps = [lambda connection, name=name: told.push(connection, name) for name in NAMES]
    for name in NAMES[:readers]:
        steps.append(lambda connection, name=name: told.look(connection, name))
    threads = [threading.Thread(target=ask_on, args=(server, step)) for step in steps]
    for thread in threads:
        thread.start()
    return threads


def kill_beside(server, told, rng, is_due):
    """Kills a server at a random moment under load, after a condition holds."""
    threads, count = beside(server, told, 3), told.count + rng.randrange(12)
    while told.count < count or not is_due():
        expect(server.process.poll(), None, "the server runs")
        time.sleep(0.001)
    time.sleep(rng.random() * 0.02)
    server.kill()
    for thread in threads:
        thread.join()
