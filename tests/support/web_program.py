"""Runs `tfstatectl web` for the tests: the page and its JSON, over TCP or a unix socket."""
import http.client
import json
import subprocess

from checking import SECONDS, STARTED
from folder_program import FOLDER_PROGRAM, LocalConnection
from folders import LOOPBACK, free_port
from repository import TOP

PAGE = TOP / "deploy" / "web"


class Web:
    """The page of a folder, or a start that failed, whose line says why."""

    def __init__(self, folder, *words, path=None, place=None, page=PAGE):
        self.path, self.port = path, None if path else free_port()
        self.place = place or (f"unix:{path}" if path else f"{LOOPBACK}:{self.port}")
        words = [FOLDER_PROGRAM, "web", str(folder), "--listen", self.place, "--page", str(page), *map(str, words)]
        self.process = subprocess.Popen(words, stdin=subprocess.DEVNULL, stdout=subprocess.DEVNULL, stderr=subprocess.PIPE)
        STARTED.append(self.process)
        self.line = self.process.stderr.readline().decode()

    def __enter__(self):
        if self.line != f"tfstatectl: the page is at {self.place}\n":
            raise AssertionError(f"it ended: {self.line}")
        return self

    def __exit__(self, *fault):
        self.process.kill()
        self.end()

    def end(self):
        """Waits until the program has ended. Returns its status."""
        self.process.communicate(timeout=SECONDS)
        STARTED.remove(self.process)
        return self.process.returncode

    def connect(self):
        """Returns a connection, which its first request opens."""
        return LocalConnection(self.path) if self.path else http.client.HTTPConnection(LOOPBACK, self.port, timeout=SECONDS)

    def send(self, method, target, headers=None):
        """Returns the status, the fields and the body of the reply to one request."""
        connection = self.connect()
        try:
            connection.request(method, target, headers=headers or {})
            reply = connection.getresponse()
            return reply.status, {name.lower(): value for name, value in reply.getheaders()}, reply.read()
        finally:
            connection.close()

    def ask(self, target="", user=None):
        """Returns the status and the JSON of an answer below `/api/workspaces`."""
        status, _, body = self.send("GET", f"/api/workspaces{target}", {} if user is None else {"X-Remote-User": user})
        return status, json.loads(body)

    def names(self, user=None):
        """Returns the names of the workspaces that are shown."""
        status, answer = self.ask(user=user)
        if status != 200:
            raise AssertionError(f"{status} {answer}")
        return sorted(row["workspace"]["name"] for row in answer["workspaces"])
