"""Runs the built program `tfstatectl` for the tests, and serves folders of journals with it."""
import http.client
import resource
import signal
import socket
import subprocess
from pathlib import Path

from checking import SECONDS, STARTED, expect
from folders import LOOPBACK, ask_over, free_port
from programs import TFSTATECTL as FOLDER_PROGRAM

# The exit statuses by the names of faults, as docs/FAULTS.md lists them.
STATUSES = {
    **dict.fromkeys(("Locked", "CannotRead", "CannotWrite", "CannotBind", "SyncFault", "AcceptFault", "Write", "Changing", "NoReply", "Status"), 20),
    **dict.fromkeys(("Arguments", "NotPast", "BadTime", "OneInput", "NoSource", "BadUrl"), 21), "TornBase": 22, "Damaged": 23, "Unlawful": 24,
    **dict.fromkeys(("NoJournal", "NotFirst", "Diverged", "TooFar", "TwoOfName", "NotBeginning", "Served"), 25),
    **dict.fromkeys(("Replaced", "OldAhead", "OtherIdentity", "BadIdentity"), 25), **dict.fromkeys(("NotAtLeast", "NoPosition"), 26),
    **dict.fromkeys(("NoFolder", "NotFolder", "NotAllowed"), 27), **dict.fromkeys(("OutOfMemory", "SmallStack"), 28), "JournalFault": 29,
    "NoName": 30, "NoState": 31, **dict.fromkeys(("BeforeOldest", "BehindNewest", "NotKept", "NoTime"), 32), "LineageDiffers": 33, "NotLocked": 36,
    **dict.fromkeys(("SerialAtLimit", "TooLong", "Unplaced"), 34), **dict.fromkeys(("NoAddress", "TooManyAddresses", "UnknownAddress"), 35),
    **dict.fromkeys(("BadPlan", "BadState", "LargeState", "NoFile"), 37)}


def run(*words, **how):
    """Runs the program until it ends. Returns its status, and what it wrote to standard output and
    standard error."""
    ran = subprocess.run([FOLDER_PROGRAM, *map(str, words)], stdin=subprocess.DEVNULL, capture_output=True, timeout=SECONDS, check=False, **how)
    return ran.returncode, ran.stdout.decode(), ran.stderr.decode()


def ended(folder, *words, **how):
    """Runs a start that must end by itself. Returns its status, and what it wrote."""
    listen = () if "--listen" in words else ("--listen", f"{LOOPBACK}:0")
    return run("serve", folder, *listen, *words, **how)


class LocalConnection(http.client.HTTPConnection):
    """A connection over a unix socket."""

    def __init__(self, path):
        super().__init__("localhost", timeout=SECONDS)
        self.path = str(path)

    def connect(self):
        self.sock = socket.socket(socket.AF_UNIX)
        self.sock.settimeout(self.timeout)
        self.sock.connect(self.path)


class Serving:
    """A server on a folder, or a start that failed, which has no line. It listens on a port, or on
    a unix socket of this path."""

    def __init__(self, folder, *words, port=None, path=None, workers="2", **how):
        self.folder, self.path, self.port = folder, path, None if path else port or free_port()
        self.place = f"unix:{path}" if path else f"{LOOPBACK}:{self.port}"
        words = [FOLDER_PROGRAM, "serve", str(folder), "--listen", self.place, "--workers", workers, *map(str, words)]
        self.process = subprocess.Popen(words, stdin=subprocess.DEVNULL, stdout=subprocess.PIPE, stderr=subprocess.PIPE, **how)
        STARTED.append(self.process)
        self.line = self.process.stdout.readline()

    def listens(self):
        """Fails unless the server listens."""
        if self.line != f"listening {self.place}\n".encode():
            raise AssertionError(f"it ended: {self.end()}")
        return self

    def connect(self):
        """Returns a connection, which its first request opens."""
        return LocalConnection(self.path) if self.path else http.client.HTTPConnection(LOOPBACK, self.port, timeout=SECONDS)

    def ask(self, method, target, body=None):
        """Returns the status and the body of the reply to one request, on a connection of its
        own."""
        connection = self.connect()
        try:
            return ask_over(connection, method, target, body)
        finally:
            connection.close()

    def most_memory(self):
        """Returns the peak memory in bytes."""
        lines = Path(f"/proc/{self.process.pid}/status").read_text().splitlines()
        return next(int(line.split()[1]) * 1024 for line in lines if line.startswith("VmHWM:"))

    def end(self):
        """Waits until the program has ended. Returns its status, and what it wrote to standard
        error."""
        errors = self.process.communicate(timeout=SECONDS)[1]
        return self.process.returncode, errors.decode()

    def kill(self):
        """Kills the program. Returns what it wrote to standard error."""
        self.process.kill()
        errors = self.end()[1]
        STARTED.remove(self.process)
        return errors


def served(folder, *words, **how):
    """Serves a folder, asks for the state of `a`, and kills the server. Returns the answer, and the
    line of the start."""
    server = Serving(folder, *words, **how).listens()
    answer = server.ask("GET", "/state/a")
    lines = server.kill().splitlines()
    expect(len(lines), 1, lines)
    return answer, lines[0]


def limit_files(size):
    """Returns a function that limits the size of files and ignores the signal for a longer
    write."""
    def limit():
        signal.signal(signal.SIGXFSZ, signal.SIG_IGN)
        resource.setrlimit(resource.RLIMIT_FSIZE, (size, size))
    return limit
