"""Stand-ins for the commands of deploy/'s pages that change a whole system, so that the page can be
run in a folder: dpkg, install, runuser, systemctl, journalctl, nginx, curl, man, useradd, usermod,
ssh-keyscan, and rsync, which takes files from another folder instead of a machine. They use one
folder, which is the root of the page's paths, and do to units what systemd does on their commands.

    python3 tests/deploy/page_tools.py TOOL ARGUMENT ..

ROOM names the folder: its `root` has the files, its `ports` the ports of nginx and of the server.
FIRST names the folder of the first machine."""
import contextlib
import os
import re
import select
import shlex
import shutil
import signal
import subprocess
import sys
import time
from pathlib import Path

from folders import LOOPBACK

ROOM = Path(os.environ.get("ROOM", "."))
ROOT, HOST = ROOM / "root", "tfstated.example.com"
OWN = ("/var/lib/", "/var/backups", "/var/log/nginx", "/etc/nginx", "/etc/systemd", "/usr/lib/systemd", "/usr/share/tfstated", "/usr/bin/tfstatectl",
       "/run/tfstated")
AROUND = """user root;
daemon on;
pid {room}/nginx.pid;
error_log {room}/error.log;
events {{}}
http {{
    client_body_temp_path {room}/bodies;
    proxy_temp_path {room}/replies;
    fastcgi_temp_path {room}/unused-1;
    uwsgi_temp_path {room}/unused-2;
    scgi_temp_path {room}/unused-3;
    include {room}/site.conf;
}}
"""


def moved(text):
    """Returns a text of the page or of a unit with the paths and the port of the room."""
    for path in OWN:
        text = re.sub(rf"(?<!{re.escape(str(ROOT))}){re.escape(path)}", f"{ROOT}{path}", text)
    for name in ("install", "rsync"):
        text = text.replace(f"/usr/bin/{name} ", f"{name} ")
    return text.replace("listen 443 ssl", f"listen {LOOPBACK}:{port_of('nginx')} ssl")


def port_of(name):
    """Returns the port of nginx, or of a server without --listen."""
    return (ROOM / "ports").read_text().split()[("nginx", "server").index(name)]


def enter(room):
    """Has all later commands use another folder."""
    global ROOM, ROOT
    ROOM, ROOT = room, room / "root"


def real(name):
    """Returns the path of the real command, which comes after its stand-in on the PATH."""
    path = os.pathsep.join(folder for folder in os.environ["PATH"].split(os.pathsep) if Path(folder) != ROOM / "tools")
    return shutil.which(name, path=path)


def run(*words):
    return subprocess.run([str(word) for word in words], check=False).returncode


def dpkg(words):
    """Unpacks one package."""
    if len(words) != 2 or words[0] != "-i":
        return 2
    return run(real("dpkg-deb"), "--extract", words[1], ROOT)


def install(words):
    """Leaves owners and groups out, because the service's user doesn't exist here."""
    kept = [word for before, word in zip(["", *words], words) if word not in ("-o", "-g") and before not in ("-o", "-g")]
    return run(real("install"), *kept)


def runuser(words):
    """Runs a command. A start that has the default address gets the room's, because another program
    may listen on 8080."""
    if words[:3] != ["-u", "tfstated", "--"]:
        return 2
    serves = "serve" in words and "--listen" not in words
    return run(*words[3:], *(["--listen", f"{LOOPBACK}:{port_of('server')}"] if serves else []))


def curl(words):
    return run(real("curl"), "--connect-to", f"{HOST}:443:{LOOPBACK}:{port_of('nginx')}", "--cacert", ROOM / "certificate.pem", *words)


def rsync(words):
    """Takes the journals of the first machine, as its key allows."""
    first = f"{os.environ['FIRST']}/root/var/lib/tfstated/journal/"
    if "tfstated@primary.example.com:/" not in words:
        return 2
    return run(real("rsync"), *(first if word.endswith(".com:/") else word for word in words))


def nothing(words):
    """Does nothing for commands without a meaning in a folder: a user, a login shell, the keys of
    another machine."""
    return 0


def man(words):
    """Shows a page of the room's manual."""
    if real("man"):
        return run("env", "MANPAGER=cat", real("man"), "-M", ROOT / "usr/share/man", *words)
    return run(real("mandoc"), *(page for word in words for page in (ROOT / "usr/share/man").glob(f"*/{word}.*")))


def journalctl(words):
    """Prints what the server has written since its last start."""
    if words != ["-u", "tfstated"]:
        return 2
    return run("cat", ROOM / "server.log")


def nginx(words):
    """Checks the site of the page within a configuration of the room."""
    (ROOM / "site.conf").write_text(moved((ROOT / "etc/nginx/conf.d/tfstated.conf").read_text()))
    text = AROUND.format(room=ROOM)
    (ROOM / "nginx.conf").write_text(text if os.getuid() == 0 else text.replace("user root;\n", ""))
    return run(real("nginx"), "-p", ROOM, "-c", ROOM / "nginx.conf", *words)


def commands_of(unit, setting="ExecStart"):
    """Returns the words of each command of a service, including those of its drop-ins; an empty one
    removes the previous ones."""
    folders = [ROOT / "etc/systemd/system", ROOT / "usr/lib/systemd/system"]
    files = [next(folder / unit for folder in folders if (folder / unit).exists()), *sorted((folders[0] / f"{unit}.d").glob("*.conf"))]
    found = []
    for command in re.findall(rf"^{setting}=\+?(.*)$", "\n".join(file.read_text() for file in files), re.M):
        found = found + [moved(command)] if command else []
    return [shlex.split(command) for command in found]


def start(unit):
    """Starts the server and waits until it listens, or does what another unit does once. Records
    whether it failed."""
    status = start_server() if unit == "tfstated.service" else max((run(*command) for command in commands_of(unit)), default=0)
    (ROOM / f"{unit}.failed").write_text("failed" if status else "")
    return status


def start_server():
    """Starts the server and waits until it listens or has ended. Returns a status."""
    if alive():
        return 0
    for command in commands_of("tfstated.service", "ExecStartPre"):
        run(*command)
    with open(ROOM / "server.log", "wb") as log:
        process = subprocess.Popen(commands_of("tfstated.service")[0], stdin=subprocess.DEVNULL, stdout=log, stderr=log, start_new_session=True)
    (ROOM / "server.pid").write_text(str(process.pid))
    while b"listening" not in (ROOM / "server.log").read_bytes() and process.poll() is None:
        time.sleep(0.05)
    return 0 if b"listening" in (ROOM / "server.log").read_bytes() else 1


def pid_of(name):
    path = ROOM / f"{name}.pid"
    return int(path.read_text()) if path.exists() and path.read_text().strip() else 0


def has_ended(process, seconds):
    """Returns true if all threads of a process have ended before this time has passed. A running
    thread keeps the files open, and their locks."""
    return bool(select.select([process], [], [], seconds)[0])


@contextlib.contextmanager
def process_of(name):
    """Yields a descriptor of the process of the server or of nginx; none if there is no such
    process."""
    try:
        process = os.pidfd_open(pid_of(name)) if pid_of(name) else None
    except ProcessLookupError:
        process = None
    yield process
    if process is not None:
        os.close(process)


def alive(name="server"):
    """Returns true if a process runs; one that has ended and waits for its parent doesn't."""
    with process_of(name) as process:
        return process is not None and not has_ended(process, 0)


def stop(name):
    """Ends the server or nginx, and waits until it has ended."""
    with process_of(name) as process:
        if process is not None and not has_ended(process, 0):
            signal.pidfd_send_signal(process, signal.SIGTERM)
            has_ended(process, None)
    return 0


def start_nginx():
    """Starts nginx, and waits until its process is known. Returns a status."""
    status = nginx([])
    while not status and not alive("nginx"):
        time.sleep(0.05)
    return status


def act(verb, unit):
    """Does what a verb of systemctl does with a unit."""
    if unit == "nginx":
        if verb == "reload":
            return nginx(["-s", "reload"])
        return stop("nginx") + start_nginx()
    unit = unit if "." in unit else f"{unit}.service"
    if unit.endswith(".timer"):
        return start(unit.replace(".timer", ".service")) if verb in ("start", "enable") else 0
    if verb in ("stop", "restart"):
        stop("server")
    return start(unit) if verb in ("start", "restart", "enable") else 0


def tell(verb, unit):
    """Prints the outcome of a unit. Returns a status: `is-failed` has 0 if it failed, `status` has
    3 if it doesn't run."""
    path, runs = ROOM / f"{unit}.service.failed", unit == "tfstated" and alive()
    failed = not runs and path.exists() and path.read_text() == "failed"
    print("failed" if failed else "active" if runs else "inactive", flush=True)
    if verb == "is-failed":
        return 0 if failed else 1
    journalctl(["-u", unit])
    return 0 if runs else 3


def systemctl(words):
    verb, *units = [word for word in words if word != "--now"]
    if verb in ("is-failed", "status"):
        return tell(verb, *units)
    known = ("enable", "disable", "start", "stop", "restart", "reload", "reset-failed", "daemon-reload")
    return max((act(verb, unit) for unit in units), default=0) if verb in known else 2


TOOLS = {"dpkg": dpkg, "install": install, "runuser": runuser, "curl": curl, "nginx": nginx, "systemctl": systemctl, "rsync": rsync, "man": man}
TOOLS.update({"journalctl": journalctl, "useradd": nothing, "usermod": nothing, "ssh-keyscan": nothing})


if __name__ == "__main__":
    sys.exit(TOOLS[sys.argv[1]](sys.argv[2:]))
