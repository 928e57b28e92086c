"""Runs the built program as a server for the tests, on a free port and a journal of its own."""
import contextlib
import ctypes
import itertools
import json
import os
import resource
import socket
import subprocess
import tempfile
from pathlib import Path

from checking import SECONDS, STARTED, expect
from journal_reader import read_journal
from stdio_program import PROGRAM, request_text

FOLDER = tempfile.TemporaryDirectory(prefix="tfstated-")
LOOPBACK = "127.0.0.1"
NUMBER = iter(range(10**6))
PIDFD_GETFD = 438  # pidfd_getfd(2) of Linux, for which Python has no name


def fresh(content=None):
    """Returns an unused path in the folder; with a content, writes it to a file there."""
    path = Path(FOLDER.name) / f"journal-{next(NUMBER)}"
    if content is not None:
        path.write_bytes(content)
    return str(path)


def free_port():
    """Returns a free port of the loopback interface."""
    with socket.socket() as probe:
        probe.bind((LOOPBACK, 0))
        return probe.getsockname()[1]


class Server:
    """The running server on a journal of its own, which is new or continues an old one."""

    def __init__(self, workers=2, old=None, **how):
        self.address, self.new = f"{LOOPBACK}:{free_port()}", fresh()
        words = [PROGRAM, "serve", self.address, str(workers), self.new, *([old] if old else [])]
        self.process = subprocess.Popen(words, stdin=subprocess.DEVNULL, stdout=subprocess.PIPE, stderr=subprocess.PIPE, **how)
        STARTED.append(self.process)
        expect(self.process.stdout.readline(), f"listening {self.address}\n".encode(), "the first line")

    def connect(self):
        host, port = self.address.split(":")
        connection = socket.create_connection((host, int(port)), timeout=SECONDS)
        connection.setsockopt(socket.IPPROTO_TCP, socket.TCP_NODELAY, 1)
        return connection

    def ask(self, method, target, body=b"", more=""):
        """Returns the status and the body of the reply to one request, on a connection of its
        own."""
        with self.connect() as connection:
            return asked(connection, method, target, body, more)

    def kill(self):
        """Kills the server, and waits until it is gone. Returns its journal's bytes."""
        self.process.kill()
        self.process.communicate()
        return Path(self.new).read_bytes()

    def end(self):
        """Waits until the server has ended. Returns the rest of its output, its status, and what it
        wrote to standard error."""
        output, errors = self.process.communicate(timeout=SECONDS)
        return output, self.process.returncode, errors

    def shut(self):
        """Shuts the listening socket: the server gets no further connections, and keeps the
        existing ones."""
        for name in os.listdir(f"/proc/{self.process.pid}/fd"):
            with contextlib.suppress(OSError), descriptor_of(self.process.pid, int(name)) as copied:
                if copied.getsockopt(socket.SOL_SOCKET, socket.SO_ACCEPTCONN):
                    copied.shutdown(socket.SHUT_RDWR)

    def lowest_free(self):
        """Returns the number that the server's next descriptor gets."""
        used = set(map(int, os.listdir(f"/proc/{self.process.pid}/fd")))
        return next(number for number in itertools.count() if number not in used)

    def leave_free(self, count):
        """Limits the server's new descriptors to numbers below this one; it keeps the existing
        ones."""
        _, most = resource.prlimit(self.process.pid, resource.RLIMIT_NOFILE)
        resource.prlimit(self.process.pid, resource.RLIMIT_NOFILE, (count, most))


def descriptor_of(pid, number):
    """Returns a copy of the socket that a child process has under this number."""
    process = os.pidfd_open(pid)
    try:
        copied = ctypes.CDLL(None, use_errno=True).syscall(PIDFD_GETFD, process, number, 0)
    finally:
        os.close(process)
    if copied < 0:
        raise OSError(ctypes.get_errno(), f"descriptor {number}")
    try:
        return socket.socket(fileno=copied)
    except OSError:
        os.close(copied)
        raise


def reply_of(file):
    """Returns the status and the body of the next reply; none if the connection ends before it is
    complete."""
    line = file.readline()
    if not line.endswith(b"\r\n"):
        return None
    length = None
    while (field := file.readline()) not in (b"\r\n", b""):
        if field.lower().startswith(b"content-length:"):
            length = int(field.split(b":")[1])
    body = file.read(length) if length is not None else None
    return (int(line.split()[1]), body) if body is not None and len(body) == length else None


def asked(connection, method, target, body=b"", more=""):
    """Returns the status and the body of the reply to one request."""
    connection.sendall(request_text(method, target, body, more))
    with connection.makefile("rb") as file:
        return reply_of(file)


def answer_over(connection, request):
    """Returns the reply to a request; none if its connection ends without one."""
    try:
        return asked(connection, *request)
    except ConnectionError:
        return None


def answer_of(server, request):
    """Does the same on a connection of its own."""
    with server.connect() as connection:
        return answer_over(connection, request)


def run(*words, **how):
    """Runs the program until it ends. Returns its output, its status, and what it wrote to standard
    error."""
    how = {"stdout": subprocess.PIPE, **how}
    ran = subprocess.run([PROGRAM, *words], stderr=subprocess.PIPE, stdin=subprocess.DEVNULL, timeout=SECONDS, check=False, **how)
    return ran.stdout, ran.returncode, ran.stderr


def state(serial, *resources):
    """Returns a state's text, with resources of type t, each with its dependencies."""
    listed = [{"mode": "managed", "type": "t", "name": name, "instances": [{"dependencies": needs}]} for name, *needs in resources]
    return json.dumps({"version": 4, "serial": serial, "lineage": "L1", "resources": listed}).encode()


def entries_of(data):
    """Returns the entries of a journal's bytes, which are whole or torn."""
    _, _, _, entries, end = read_journal(data)
    expect(end.split()[0] in ("whole", "torn"), True, f"the journal's end: {end}")
    return entries


def calls_in(trace):
    """Returns the calls that a trace has recorded so far, in order."""
    lines = os.read(trace, 65536).decode().splitlines()
    return [(name, int(descriptor)) for name, descriptor in map(str.split, lines)]


def send_all(connection, data):
    """Sends the bytes, as far as the server takes them."""
    try:
        connection.sendall(data)
    except OSError:
        pass


def rest_of(file):
    """Returns the bytes up to the end of a connection."""
    try:
        return file.read()
    except ConnectionError:
        return b""


def limited(space):
    """Returns a function that limits the address space of a program."""
    return lambda: resource.setrlimit(resource.RLIMIT_AS, (space, space))


def hostile(length):
    """Returns a body of this many bytes, which takes many times its length in memory to be read."""
    return (b"[" + b'{"":0},' * ((length - 4) // 7)).ljust(length - 3) + b"{}]"


def zeros(length):
    """Returns a list of this many bytes, whose numbers each take many times their length in memory
    to be read."""
    return (b"[" + b"0," * ((length - 4) // 2)).ljust(length - 2) + b"0]"


def crowd(length):
    """Returns a state of this many bytes that lists far too many instances, which each take many
    times their length in memory to be read."""
    head, tail = state(1, ("a",)).rsplit(b"{", 1)
    expect(tail.startswith(b'"dependencies"'), True, "the last object is the instance")
    room = length - len(head) - len(tail) - 1
    return (head + b"{}," * (room // 3)).ljust(length - len(tail) - 1) + b"{" + tail


def push_large(server, text, statuses):
    """Pushes a text, and records the status of the reply; none if the connection ends without
    one."""
    try:
        reply = server.ask("POST", "/state/large", text)
    except OSError:
        reply = None
    statuses.append(reply and reply[0])
