"""Compiles and starts the servers and programs of the benchmark, ends them, and removes all that
they wrote."""
import getpass
import os
import select
import shutil
import signal
import socket
import subprocess
import sys
import tempfile
import time
from contextlib import ExitStack, contextmanager
from pathlib import Path

HERE = Path(__file__).resolve().parent
LOOPBACK = "127.0.0.1"
WORKERS = 16
SECONDS = 600
START_SECONDS = 30
SOURCES = {
    "load": ["load.c", "wire.c", "state.c", "md5.c", "samples.c"],
    "responder": ["responder.c", "wire.c", "state.c"],
    "work": ["work.c", "md5.c", "json.c", "state.c", "samples.c"],
}


def end_by_signal(number, frame):
    """Ends the script as by an error, so that what it started is ended too."""
    sys.exit(f"ended by signal {number}")


def free_port():
    """Returns a free port of the loopback interface."""
    with socket.socket() as probe:
        probe.bind((LOOPBACK, 0))
        return probe.getsockname()[1]


def compiled(folder):
    """Compiles the C programs into a folder. Returns the line of the compiler."""
    compiler = shutil.which("cc") or shutil.which("gcc") or shutil.which("clang")
    if not compiler:
        sys.exit("a C compiler (cc, gcc or clang) is missing: the load and its peers are written in C")
    for name, sources in SOURCES.items():
        words = [compiler, "-std=c11", "-O2", "-Wall", "-Wextra", "-pthread", "-o", str(folder / name)]
        subprocess.run([*words, *(str(HERE / source) for source in sources)], check=True)
    return subprocess.run([compiler, "--version"], capture_output=True, text=True, check=True).stdout.splitlines()[0]


def ended(process):
    """Ends a process and its children. Returns what it wrote to standard error."""
    if process.poll() is None:
        os.killpg(process.pid, signal.SIGKILL)
    return process.communicate()[1].decode(errors="replace").strip()


def wait_for_line(process):
    """Waits until a server has printed its address."""
    if not select.select([process.stdout], [], [], SECONDS)[0] or not process.stdout.readline().startswith(b"listening"):
        sys.exit(f"{process.args[0]} doesn't listen: {ended(process)}")


def is_open(process, port):
    """Returns true if a process listens on a port before it ends, and soon."""
    limit = time.monotonic() + START_SECONDS
    while process.poll() is None and time.monotonic() < limit:
        with socket.socket() as probe:
            if not probe.connect_ex((LOOPBACK, port)):
                return True
        time.sleep(0.01)
    return False


class Bench:
    """The compiled programs, the measured program, and folders on disk and in memory. All are
    removed at its end."""

    def __init__(self, program, stack):
        self.program, self.stack = os.path.abspath(program), stack
        self.tools = self.folder(None)
        self.compiler = compiled(self.tools)
        disk = os.environ.get("TMPDIR") or ("/var/tmp" if os.path.isdir("/var/tmp") else None)
        self.rooms = {"disk": self.folder(disk)}
        if os.access("/dev/shm", os.W_OK):
            self.rooms["memory"] = self.folder("/dev/shm")
        self.nginx_program = shutil.which("nginx") or shutil.which("nginx", path="/usr/sbin:/usr/local/sbin")

    def folder(self, room):
        """Returns a folder that is removed at the end."""
        return Path(self.stack.enter_context(tempfile.TemporaryDirectory(prefix="tfstated-bench-", dir=room)))

    def folder_in(self, room):
        """Returns a folder on disk or in memory, which is removed when its block ends."""
        return tempfile.TemporaryDirectory(dir=self.rooms[room])

    def missing(self):
        """Yields what can't be measured here, a line each."""
        if "memory" not in self.rooms:
            yield "/dev/shm is missing: journals lie on disk alone"
        if not self.nginx_program:
            yield "nginx is missing: it is left out"

    def tool(self, name, *words):
        """Returns the numbers that a program prints on one line."""
        command = [str(word) for word in (self.tools / name, *words)]
        try:
            ran = subprocess.run(command, capture_output=True, text=True, timeout=SECONDS, check=False)
        except subprocess.TimeoutExpired:
            sys.exit(f"{name} {' '.join(command[1:])}: takes more than {SECONDS} seconds")
        if ran.returncode:
            sys.exit(f"{name} {' '.join(command[1:])}: {ran.stderr.strip() or ran.returncode}")
        return [float(word) for word in ran.stdout.split()]

    @contextmanager
    def started(self, words):
        """Starts a process that is ended with all that it started."""
        ends = {"stdin": subprocess.DEVNULL, "stdout": subprocess.PIPE, "stderr": subprocess.PIPE}
        process = subprocess.Popen([str(word) for word in words], start_new_session=True, **ends)
        try:
            yield process
        finally:
            ended(process)

    @contextmanager
    def tfstated(self, room="disk", old=None):
        """Starts the server with a journal of its own, which is removed at the end. Returns its
        port and its process."""
        port = free_port()
        with self.folder_in(room) as folder:
            words = [self.program, "serve", f"{LOOPBACK}:{port}", WORKERS, f"{folder}/journal", *([old] if old else [])]
            with self.started(words) as process:
                wait_for_line(process)
                yield port, process

    @contextmanager
    def responder(self, size):
        """Starts the responder. Returns its port."""
        port = free_port()
        with self.started([self.tools / "responder", port, size]) as process:
            wait_for_line(process)
            yield port

    @contextmanager
    def nginx(self, room="disk"):
        """Starts nginx over files of its own, which are removed at the end. Returns its port; none
        if it isn't installed or doesn't start."""
        if not self.nginx_program:
            yield None
            return
        port = free_port()
        with ExitStack() as stack:
            folder = Path(stack.enter_context(self.folder_in(room)))
            (folder / "files" / "state").mkdir(parents=True)
            user = f"user {getpass.getuser()};" if os.getuid() == 0 else ""
            settings = (HERE / "nginx.conf").read_text().replace("PORT", str(port), 2).replace("\nUSER\n", f"\n{user}\n")
            (folder / "nginx.conf").write_text(settings)
            words = [self.nginx_program, "-p", folder, "-c", folder / "nginx.conf", "-e", folder / "error.log"]
            process = stack.enter_context(self.started(words))
            if not is_open(process, port):
                print(f"nginx doesn't start and is left out: {ended(process)[-200:]}", flush=True)
                self.nginx_program = port = None
            yield port
