"""Clients that push to `tfstatectl serve` and retry as Terraform does, and the serials in the
journals of their folder."""
import http.client
import json
import time

from checking import S1, expect
from folder_program import Serving
from folders import LOOPBACK, ask_over, journals
from journal_reader import read_journal


SECONDS = 30
TRIES = 3  # Terraform's default: one try and two more
GONE = (OSError, http.client.HTTPException)


class Lost(Exception):
    """Raised if no try of a request had a reply."""


class Pusher:
    """A client that pushes rising serials to a name of its own on a persistent connection, and
    retries if that ends, as Terraform does."""

    def __init__(self, server, name, padding=b""):
        self.server, self.name, self.padding, self.acknowledged, self.failures = server, name, padding, 0, []
        self.connection = http.client.HTTPConnection(LOOPBACK, server.port, timeout=SECONDS)

    def text(self, serial):
        return S1.replace(b"1 ", b"%d " % serial)[:-1] + b',"x":"' + self.padding + b'"}'

    def push(self):
        """Pushes the next serial. Returns the number of tries."""
        text = self.text(self.acknowledged + 1)
        for tried in range(1, TRIES + 1):
            try:
                expect(ask_over(self.connection, "POST", f"/state/{self.name}", text), (200, b""), f"{self.name} {self.acknowledged + 1}")
                self.acknowledged += 1
                return tried
            except GONE:
                self.connection.close()
        raise Lost(f"{self.name}: {TRIES} tries of serial {self.acknowledged + 1} failed")

    def push_until_gone(self, pause=0):
        """Pushes until the server is gone, with a pause after each push."""
        try:
            while True:
                self.push()
                time.sleep(pause)
        except Lost:
            self.connection.close()
        except AssertionError as error:
            self.failures.append(error)


def serials_of(folder):
    """Returns the serials that names pushed, in order, over all journals of a folder. Each journal
    must continue at the position of the previous one."""
    found, position = {}, None
    for _, data in sorted({**journals(folder), **journals(folder / "old")}.items()):
        _, base, rows, entries, end = read_journal(data)
        expect((end.split()[0] in ("whole", "torn"), position in (None, base)), (True, True), f"{end}: {base} follows {position}")
        position = base + len(entries)
        for kind, name, fields in entries:
            if kind == "push":
                found.setdefault(name, []).append(json.loads(fields[-1])["serial"])
    return found, position


def has_come(holds, about, seconds=SECONDS):
    """Waits until a condition holds."""
    end = time.monotonic() + seconds
    while not holds():
        expect(time.monotonic() < end, True, about)
        time.sleep(0.02)


def newest(folder):
    """Returns the number of a folder's newest journal."""
    return max((int(path.stem[8:]) for path in folder.glob("*.tfj")), default=0)


def serving(folder, *words, **how):
    """Starts a server on a folder, with its standard error in a file next to the folder."""
    begins = [] if journals(folder) else ["--first"]
    return Serving(folder, "--keep", "1000000", *begins, *words, **how).listens()
