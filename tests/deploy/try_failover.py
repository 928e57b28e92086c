"""Loses, cuts off and brings back a server among three hosts in network namespaces of one machine,
with the commands of the units of deploy/: what a standby by copies has, what two servers at once
do, and which starts a least position refuses. It needs root, ip, rsync and curl. To try another
storage, give `Standby` what brings the journals from one host to the other. The last line is `N
passed, M failed`."""
import json
import os
import re
import shlex
import shutil
import subprocess
import sys
import time

from checking import S1, SECONDS, STARTED, checks_in, expect, run_checks
from folder_program import FOLDER_PROGRAM
from folders import fresh
from repository import TOP

NET, PORT, COPIES = "10.231.7", 8080, 8730
NAME = f"tfstated-{os.getpid()}"
LOCK = '{"ID":"%s"}'


def ip(*words):
    subprocess.run(["ip", *map(str, words)], check=True, capture_output=True)


class Host:
    """A network namespace with an address, on a switch with the others."""

    def __init__(self, number):
        self.number, self.space, self.address = number, f"{NAME}-{number}", f"{NET}.{number}"
        ip("netns", "add", self.space)
        ip("link", "add", "eth0", "netns", self.space, "type", "veth", "peer", "name", f"port{number}", "netns", f"{NAME}-switch")
        ip("-n", self.space, "address", "add", f"{self.address}/24", "dev", "eth0")
        for device in ("lo", "eth0"):
            ip("-n", self.space, "link", "set", device, "up")
        ip("-n", f"{NAME}-switch", "link", "set", f"port{number}", "master", "switch")
        self.join()

    def join(self):
        ip("-n", f"{NAME}-switch", "link", "set", f"port{self.number}", "up")

    def cut(self):
        ip("-n", f"{NAME}-switch", "link", "set", f"port{self.number}", "down")

    def start(self, *words):
        """Starts a program on this host, without waiting for it."""
        how = {"stdin": subprocess.DEVNULL, "stdout": subprocess.PIPE, "stderr": subprocess.PIPE}
        started = subprocess.Popen(["ip", "netns", "exec", self.space, *map(str, words)], **how)
        STARTED.append(started)
        return started

    def run(self, *words):
        """Returns the status of a program on this host, and what it writes."""
        how = {"stdin": subprocess.DEVNULL, "stdout": subprocess.PIPE, "stderr": subprocess.STDOUT, "timeout": SECONDS, "check": False}
        ran = subprocess.run(["ip", "netns", "exec", self.space, *map(str, words)], **how)
        return ran.returncode, ran.stdout.decode()

    def ask(self, server, method, target, body=None):
        """Returns the status and the body of a server's reply to this host; 0 if it gets none
        within 3 seconds."""
        words = ["curl", "-s", "--max-time", "3", "-X", method, "-w", "\n%{http_code}", f"http://{server.address}:{PORT}{target}"]
        text, _, status = self.run(*words, *(["--data-binary", body] if body else []))[1].rpartition("\n")
        return int(status), text

    def serve(self, folder, *words):
        """Starts a server on this host. Fails unless it listens."""
        process = self.start(FOLDER_PROGRAM, "serve", folder, "--listen", f"{self.address}:{PORT}", "--workers", "2", *words)
        line = process.stdout.readline().decode()
        expect(line, f"listening {self.address}:{PORT}\n", "it serves" if line else process.stderr.read().decode())
        return process

    def begin(self, folder, *words):
        """Starts a server on this host, in a new folder."""
        status, text = self.run(FOLDER_PROGRAM, "init", folder)
        expect(status, 0, text)
        return self.serve(folder, *words)

    def refused(self, folder, *words):
        """Makes a start that must end by itself. Returns its status, and the name of its fault."""
        status, text = self.run(FOLDER_PROGRAM, "serve", folder, "--listen", f"{self.address}:{PORT}", *words)
        return status, re.findall(r"\b([A-Z][a-zA-Z]+): ", text)[-1]


class Standby:
    """What deploy/tfstated-standby.service does on the second host; over the network instead of the
    unit's ssh."""

    def __init__(self, first, second, folder):
        self.second, self.room = second, fresh()
        self.received, self.copies, self.least = (self.room / name for name in ("received", "copies", "least"))
        settings = self.room / "rsyncd.conf"
        settings.write_text(f"use chroot = no\nuid = root\ngid = root\n[journal]\npath = {folder}\nread only = yes\n")
        self.daemon = first.start("rsync", "--daemon", "--no-detach", f"--address={first.address}", f"--port={COPIES}", f"--config={settings}")
        unit = (TOP / "deploy" / "tfstated-standby.service").read_text()
        for old, new in (("tfstated@primary.example.com:/", f"rsync://{first.address}:{COPIES}/journal/"), ("/var/lib/tfstated/received", self.received),
                         ("/var/lib/tfstated/journal", self.copies), ("/var/lib/tfstated/least", self.least), ("/usr/bin/tfstatectl", FOLDER_PROGRAM),
                         ("--timeout=20", "--timeout=3 --contimeout=3")):
            expect(old in unit, True, f"the unit has {old}")
            unit = unit.replace(old, str(new))
        self.commands = [shlex.split(command) for command in re.findall(r"^ExecStart=(.*)$", unit, re.M)]
        self.copies.mkdir()
        self.least.write_text("0\n")

    def copy(self):
        """Returns the status of the first command that fails, and its text; otherwise the text of
        the last one."""
        for command in self.commands:
            status, text = self.second.run(*command)
            if status:
                break
        return status, text

    def copies_all(self):
        end, found = time.monotonic() + SECONDS / 4, self.copy()
        while found[0] and time.monotonic() < end:
            time.sleep(0.2)
            found = self.copy()
        expect(found[0], 0, found[1])


def network():
    """Makes two hosts for servers and one for clients, on a switch."""
    ip("netns", "add", f"{NAME}-switch")
    ip("-n", f"{NAME}-switch", "link", "add", "switch", "type", "bridge")
    ip("-n", f"{NAME}-switch", "link", "set", "switch", "up")
    return [Host(number) for number in (1, 2, 3)]


def remove_network():
    for name in ("switch", "1", "2", "3"):
        subprocess.run(["ip", "netns", "delete", f"{NAME}-{name}"], check=False, capture_output=True)


FIRST = SECOND = CLIENT = None


def push(serial, server=None):
    """Pushes a state with a serial, which must be accepted."""
    text = S1.decode().replace('"serial":1 ', f'"serial":{serial}')
    expect(CLIENT.ask(server or FIRST, "POST", "/state/prod", text), (200, ""), f"serial {serial}")


def serial_at(server, client=None):
    return json.loads((client or CLIENT).ask(server, "GET", "/state/prod")[1])["serial"]


def end(process):
    """Does what fencing does: cuts the server's power."""
    process.kill()
    process.wait()
    STARTED.remove(process)


def check_a_standby_has_all_up_to_its_last_copy_and_a_least_position_tells():
    folder = fresh() / "journal"
    server, standby = FIRST.begin(folder), Standby(FIRST, SECOND, folder)
    for serial in range(1, 11):
        push(serial)
    standby.copies_all()
    expect(int(standby.least.read_text()), 10)
    push(11)
    end(server)
    expect(SECOND.refused(standby.copies, "--at-least", "11"), (26, "NotAtLeast"), "the client has seen position 11")
    SECOND.serve(standby.copies, "--at-least-file", standby.least)
    expect(serial_at(SECOND), 10)


def check_a_standby_that_has_caught_up_lacks_nothing():
    folder = fresh() / "journal"
    server, standby = FIRST.begin(folder), Standby(FIRST, SECOND, folder)
    for serial in range(1, 6):
        push(serial)
        standby.copies_all()
    end(server)
    server = FIRST.serve(folder)
    push(6)
    standby.copies_all()
    expect(CLIENT.ask(FIRST, "LOCK", "/state/prod", LOCK % "run")[0], 200)
    standby.copies_all()
    end(server)
    SECOND.serve(standby.copies, "--at-least", "7")
    expect(serial_at(SECOND), 6, "over a restart of the first one, too")
    status, text = CLIENT.ask(SECOND, "LOCK", "/state/prod", LOCK % "other")
    expect((status, json.loads(text)["ID"]), (423, "run"), "the lock is held there, too")
    push_with_lock(7, SECOND, "run")


def push_with_lock(serial, server, lock):
    text = S1.decode().replace('"serial":1 ', f'"serial":{serial}')
    expect(CLIENT.ask(server, "POST", f"/state/prod?ID={lock}", text), (200, ""))


def check_a_host_that_is_cut_off_leaves_good_copies():
    folder = fresh() / "journal"
    FIRST.begin(folder)
    standby = Standby(FIRST, SECOND, folder)
    push(1)
    standby.copies_all()
    FIRST.cut()
    try:
        expect(CLIENT.ask(FIRST, "GET", "/state/prod")[0], 0, "it isn't reached")
        expect(standby.copy()[0] != 0, True, "no copy is made")
        expect(SECOND.run(FOLDER_PROGRAM, "check", standby.copies)[0], 0)
    finally:
        FIRST.join()
    push(2)
    standby.copies_all()
    expect(int(standby.least.read_text()), 2, "it goes on once the host is back")


def check_two_servers_at_once_give_one_lock_twice_and_their_histories_stay_apart():
    folder = fresh() / "journal"
    first, standby = FIRST.begin(folder), Standby(FIRST, SECOND, folder)
    push(1)
    standby.copies_all()
    FIRST.cut()
    second = SECOND.serve(standby.copies, "--at-least", "1")
    try:
        expect(CLIENT.ask(SECOND, "LOCK", "/state/prod", LOCK % "two")[0], 200)
        expect(FIRST.ask(FIRST, "LOCK", "/state/prod", LOCK % "one")[0], 200, "this is why the first one has to be fenced before")
    finally:
        FIRST.join()
    expect([CLIENT.ask(host, "LOCK", "/state/prod", LOCK % "x")[0] for host in (FIRST, SECOND)], [423, 423])
    status, text = standby.copy()
    expect((status, "Locked" in text), (20, True), "the first one's journals don't come over the second one's")
    end(first)
    end(second)
    status, text = standby.copy()
    expect((status, "Served" in text), (25, True), "nor once it has ended")
    for path in standby.copies.glob("*.tfj"):
        shutil.copy(path, folder / path.name.replace(path.stem[-2:], f"{int(path.stem[-2:]) + 5:02}"))
    status, fault = FIRST.refused(folder)
    expect((status, fault), (25, "Diverged"), "one folder with both is refused")


def check_a_host_that_comes_back_is_refused_by_the_position_of_the_other():
    folder = fresh() / "journal"
    first, standby = FIRST.begin(folder), Standby(FIRST, SECOND, folder)
    push(1)
    standby.copies_all()
    end(first)
    SECOND.serve(standby.copies, "--at-least-file", standby.least)
    for serial in range(2, 6):
        push(serial, SECOND)
    expect(int(standby.least.read_text()), 5, "the server raises it")
    expect(FIRST.refused(folder, "--at-least-file", standby.least), (26, "NotAtLeast"))
    back = fresh() / "back"
    expect(FIRST.run(FOLDER_PROGRAM, "copy", standby.copies, back)[0], 0, "the way back is a new folder")
    expect("position 5" in FIRST.run(FOLDER_PROGRAM, "check", back)[1], True)


def check_a_volume_that_shows_an_older_past_is_refused():
    volume, least = fresh() / "volume", fresh() / "position"
    least.write_text("0\n")
    first = FIRST.begin(volume, "--at-least-file", least)
    push(1)
    shutil.copytree(volume, volume.parent / "older")
    for serial in range(2, 5):
        push(serial)
    end(first)
    expect(SECOND.refused(volume.parent / "older", "--at-least-file", least), (26, "NotAtLeast"))
    SECOND.serve(volume, "--at-least-file", least)
    expect(serial_at(SECOND), 4, "the volume itself lacks nothing")


if __name__ == "__main__":
    missing = [name for name in ("ip", "rsync", "curl") if not shutil.which(name)]
    if os.getuid() or missing:
        sys.exit(f"failover-test: not here, since it needs {' and '.join(missing) or 'root'}")
    try:
        FIRST, SECOND, CLIENT = network()
        sys.exit(run_checks(checks_in(globals())))
    except subprocess.CalledProcessError as fault:
        sys.exit(f"failover-test: not here, since no network can be made: {fault.stderr.decode().strip()}")
    finally:
        remove_network()
