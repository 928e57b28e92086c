"""Runs each command of deploy/'s pages, in the order of an operator's days, in a folder of its own:
with the package, a real nginx, openssl and curl, and with stand-ins for commands that change a
whole system. tests/deploy/deploy_commands.py runs the commands of Terraform, and
tests/deploy/try_package.py runs blocks, and commands for systemd, under a real one."""
import contextlib
import json
import os
import re
import shutil
import signal
import subprocess
import sys
import time

import package
import page_tools
from checking import S2, SECONDS, checks_in, expect, run_checks
from deploy_nginx import make_secrets, signed
from folders import LOOPBACK, NEWEST, PUSH2, PUSH3, REBASED, S1, SHORT, free_port, fresh, goes_on_alone, named
from metrics import read_metrics
from page_blocks import INSTALL, MONITOR, PAGE, TERRAFORM, command, commands_in, commands_of, left_out, places, take, take_all
from repository import TOP

# The folders of the machine that the pages describe, and of its standby.
ROOM, STANDBY = fresh(), fresh()
ROOT = ROOM / "root"
JOURNAL = ROOT / "var/lib/tfstated/journal"
PUT_AWAY = 12
PROTOCOL = (TOP / "docs" / "PROTOCOL.md").read_text()


def prepare(room):
    """Prepares the folder of a machine: a certificate, the package, and the stand-ins."""
    subject = ["-subj", "/CN=tfstated.example.com", "-addext", "subjectAltName=DNS:tfstated.example.com"]
    key = ["-newkey", "ec", "-pkeyopt", "ec_paramgen_curve:prime256v1", "-nodes", "-days", "2"]
    files = ["-keyout", room / "key.pem", "-out", room / "certificate.pem"]
    subprocess.run(["openssl", "req", "-x509", *key, *subject, *files], check=True, capture_output=True)
    shutil.copy(package.DIST / f"{package.NAME}.deb", room)
    (room / "ports").write_text(f"{free_port()} {free_port()}")
    (room / "tools").mkdir()
    for name in ("var/lib/tfstated", "var/lib/prometheus/node-exporter", "var/log/nginx", "etc/nginx/conf.d", "etc/systemd/system"):
        (room / "root" / name).mkdir(parents=True)
    for name in page_tools.TOOLS:
        path = room / "tools" / name
        path.write_text(f'#!/bin/sh\nexec {sys.executable} {TOP}/tests/deploy/page_tools.py {name} "$@"\n')
        path.chmod(0o755)


def start(block, room=ROOM):
    """Starts a shell that runs a block on a machine."""
    page_tools.enter(room)
    variables = {"ROOM": str(room), "FIRST": str(ROOM), "PATH": f"{room}/tools:{room}/root/usr/bin:{room}/root/usr/sbin:{os.environ['PATH']}",
                 "PYTHONPATH": os.pathsep.join(sys.path), "TFSTATED_NGINX": f"{room}/root/etc/nginx/tfstated"}
    how = {"cwd": room, "env": {**os.environ, **variables}, "stdin": subprocess.DEVNULL, "stdout": subprocess.PIPE, "stderr": subprocess.STDOUT}
    return subprocess.Popen(["bash", "-e", "-c", page_tools.moved(block)], start_new_session=True, text=True, **how)


def run(block, room=ROOM):
    """Returns what a block writes on a machine. The block must succeed."""
    started = start(block, room)
    text = started.communicate(timeout=2 * SECONDS)[0]
    expect(started.returncode, 0, f"{block}\n{text}")
    return text


def run_until_it_listens(block):
    """Returns what a block writes until its server listens. The server is then ended."""
    started, text = start(block), ""
    while "listening" not in text and (line := started.stdout.readline()):
        text += line
    with contextlib.suppress(ProcessLookupError):
        os.killpg(started.pid, signal.SIGKILL)
    started.communicate()
    expect("listening" in text, True, f"{block}\n{text}")
    return text


def do(*titles):
    """Returns what the blocks under these headings write."""
    return "".join(run(block) for title in titles for block in take_all(title))


def ask(method, target, body=None, **how):
    """Returns the status and the body of a reply through nginx."""
    words = ["curl", "-s", "-o", "-", "-w", "\n%{http_code}", "-X", method, f"https://tfstated.example.com{target}"]
    for name, value in how.get("headers", {}).items():
        words += ["-H", f"{name}: {value}"]
    quoted = " ".join(f"'{word}'" for word in words) + (f" --data-binary '{body.decode()}'" if body else "")
    text, _, status = run(quoted).rpartition("\n")
    return int(status), text.encode()


PASSWORDS = {}


def told_passwords(text):
    """Returns the users with their passwords, as a block prints them."""
    return dict(line.split() for line in text.splitlines() if len(line.split()) == 2 and len(line.split()[1]) == 24)


def check_the_first_day():
    text = do(*INSTALL)
    PASSWORDS.update(told_passwords(text))
    expect(set(PASSWORDS), {"admin", "auditor", "network-ci"}, text)
    expect("it answers" in text, True, text)
    expect(ask("POST", "/state/network.prod", S1, headers=signed("admin", PASSWORDS["admin"])), (200, b""))
    expect(ask("GET", "/state/network.prod", headers=signed("network-ci", PASSWORDS["network-ci"])), (200, S1))
    expect(ask("GET", "/state/network.prod", headers=signed("admin", PASSWORDS["auditor"]))[0], 401)


def check_an_older_state_is_told_with_the_next_serial():
    for method in ("LOCK", "UNLOCK"):
        expect(ask(method, "/state/network.prod", b'{"ID":"run"}', headers=signed("admin", PASSWORDS["admin"])), (200, b""))
    text = do("Bring back an older state")
    expect(("push" in text, "run" in text), (True, True), text)
    expect((ROOM / "back.json").read_bytes(), S2, "S1 with the next serial")


def check_copies_and_what_to_watch():
    do("Make copies")
    expect(len(list((ROOT / "var/backups/tfstated/journal").glob("*.tfj"))), 1)
    before = goes_on_alone(JOURNAL)
    text = do(*MONITOR)
    goes_on_alone(JOURNAL, before)
    expect(("\n423\n" in f"\n{text}", "a start continues" in text, "\tadmin\tPOST\tnetwork.prod\t200" in text), (True, True, True), text)
    expect(re.search(rf"^\d+ +network\.prod +push .* {re.escape(LOOPBACK)} +admin$", text, re.M) is not None, True, text)
    found = read_metrics((ROOT / "var/lib/prometheus/node-exporter/tfstated.prom").read_text())
    expect((found["tfstated_workspaces"][0], found["tfstated_locks"][0], "tfstated_newest_copy_age_seconds" in found), (2, 1, True), found)


def check_who_holds_a_lock_is_asked():
    asks = take("Clear the lock of a run that died", 0)
    expect(run(asks).strip(), '{"error":"LockLost"}', "nobody does")
    expect(run(asks.replace("/prod?", "/watch?")).strip(), '{"ID":"for ever"}')
    asks = asks.replace("--unix-socket /run/tfstated/tfstated.sock", f"-u 'admin:{PASSWORDS['admin']}'")
    asks = asks.replace("http://localhost", "https://tfstated.example.com")
    expect(run(asks).strip(), '{"error":"LockLost"}', "the same through nginx")


def check_the_manual_and_the_limits_are_told():
    expect("--at-least-file" in run(command("man tfstatectl")), True)
    for limit in "sf":
        expect(re.fullmatch("[0-9]+|unlimited", run(command(f"ulimit -{limit}")).strip()) is not None, True)


def check_the_script_of_the_archive():
    script = ROOT / "usr/share/tfstated/postinst"
    page_tools.enter(ROOM)
    script.write_text(page_tools.moved(script.read_text()))
    configures = command("/usr/share/tfstated/postinst configure")
    text = run(configures)
    expect(("nothing is started" in text, "127.0.0.1:8080" in text, "X-Remote-User" in text), (True, False, False), text)
    site = ROOT / "etc/nginx/conf.d/tfstated.conf"
    before = site.read_text()
    site.write_text(before.replace("proxy_set_header X-Remote-User", "#") + "# server 127.0.0.1:8080;\n")
    text = run(configures)
    expect(("names 127.0.0.1:8080, and the unit listens at unix:/" in text, "doesn't set X-Remote-User" in text), (True, True), text)
    site.write_text(before)


def check_a_start_that_fails_is_told():
    newest = JOURNAL / f"{named(goes_on_alone(JOURNAL))}.tfj"
    page_tools.enter(ROOM)
    page_tools.stop("server")
    whole = newest.read_bytes()
    newest.write_bytes(whole[:60] + bytes([whole[60] ^ 1]) + whole[61:])
    run("systemctl start tfstated tfstated-copy tfstated-stats || true")
    for unit in ("tfstated", "tfstated-copy", "tfstated-stats"):
        expect(run(command(f"systemctl is-failed {unit}")), "failed\n", unit)
    for text in (run(command("journalctl -u tfstated")), run(f"{command('systemctl status tfstated')} || [ $? = 3 ]")):
        expect(f"{newest}: Damaged" in text, True, text)
    newest.write_bytes(whole)
    run(f"{command('systemctl reset-failed tfstated')}\n{command('systemctl start tfstated')}")
    expect(run("systemctl is-failed tfstated || [ $? = 1 ]"), "active\n")


def check_users():
    add, remove = take_all("Manage users")
    password = told_passwords(run(add))["ann"]
    expect(waits_for_status("ann", password, 200), True, "once nginx has its new files")
    expect(ask("DELETE", "/state/network.prod", headers=signed("ann", password))[0], 403, "it isn't in her line")
    listed = run(command("tfstated-user list"))
    expect([line for line in listed.splitlines() if not line.startswith(" ")], ["admin", "auditor", "network-ci", "ann"], listed)
    expect('    "~^ann:(?:(GET|LOCK|POST|UNLOCK):)" 1;\n' in listed, True, listed)
    run(remove)
    expect(ask("GET", "/state/network.prod", headers=signed("ann", password))[0], 401, "she is gone")
    expect(ask("GET", "/state/network.prod", headers=signed("admin", PASSWORDS["admin"])), (200, S1))
    expect(run("tfstated-user list"), listed[: listed.index("ann\n")])


def waits_for_status(user, password, wanted):
    """Returns true if a user gets a status before long, because nginx takes a moment for new
    files."""
    end = time.monotonic() + SECONDS
    while time.monotonic() < end:
        if ask("GET", "/state/network.prod", headers=signed(user, password))[0] == wanted:
            return True
    return False


def compacted_with_changes():
    """Has the server retire more journals than stay in any case, each with a change."""
    for number in range(PUT_AWAY):
        before, admin = goes_on_alone(JOURNAL), signed("admin", PASSWORDS["admin"])
        expect(ask(("LOCK", "UNLOCK")[number % 2], "/state/put-away", b'{"ID":"away"}', headers=admin), (200, b""))
        (JOURNAL / "compact").touch()
        goes_on_alone(JOURNAL, before)


def copies_go_by_age():
    """Retired copies are removed after 90 days, except the newest 10, and no others."""
    journal = ROOT / "var/backups/tfstated/journal"
    before, old = set(journal.rglob("*.tfj")), sorted(journal.glob("old/*.tfj"))
    expect((len(old) > 10, len(before - set(old))), (True, 1), f"those before the newest were put away: {before}")
    for days, left in ((80, before), (100, before - set(old[:-10]))):
        for path in before:
            os.utime(path, (time.time() - days * 86400,) * 2)
        run("systemctl start tfstated-copy.service")
        expect(set(journal.rglob("*.tfj")), left, f"after {days} days; the newest stays, however old")


def check_an_upgrade_and_a_restore_keep_the_states():
    do("Upgrade")
    expect(ask("GET", "/state/network.prod", headers=signed("admin", PASSWORDS["admin"])), (200, S1))
    compacted_with_changes()
    do("Make copies")
    copies_go_by_age()
    do("Restore a copy")
    expect(ask("GET", "/state/network.prod", headers=signed("admin", PASSWORDS["admin"])), (200, S1))
    folders = sorted(path.name for path in (ROOT / "var/backups/tfstated").iterdir())
    expect((len(folders), folders[0]), (2, "journal"), "the copies begin anew")


def check_a_least_position_counts_what_was_accepted():
    """Reads, refusals, copies, starts, compactions and a restore are no changes."""
    do("Use a replicated volume")
    admin, least = signed("admin", PASSWORDS["admin"]), ROOT / "var/lib/tfstated-least/position"
    changes = 4 + PUT_AWAY
    expect(int(least.read_text()), changes, "a push, a lock and an unlock by the run, the lock that is watched, and those before compactions")
    expect(ask("POST", "/state/network.prod", S2, headers=admin), (200, b""))
    expect(int(least.read_text()), changes + 1)
    expect(ask("LOCK", "/state/watch", b'{"ID":"other"}', headers=admin)[0], 423)
    expect(int(least.read_text()), changes + 1, "to ask whether changes are taken costs no entry")


def check_an_address_with_a_key_is_asked_for():
    resource = {"mode": "managed", "type": "t", "name": "a", "instances": [{"index_key": "k"}]}
    body = json.dumps({"version": 4, "serial": 1, "lineage": "L", "resources": [resource]}).encode()
    expect(ask("POST", "/state/keys", body, headers=signed("admin", PASSWORDS["admin"])), (200, b""))
    asks = """curl -G URL --data-urlencode 'of=t.a["k"]'"""
    text = run(command(asks, PROTOCOL, URL="--unix-socket /run/tfstated/tfstated.sock http://localhost/impact/keys/any"))
    expect('{"instances":[],' in text, True, text)


def check_a_standby_gets_the_journals_and_takes_over():
    (standby, first, again), (take_over,) = map(take_all, ("Set up a standby", "Take over on the standby"))
    run(take("Install the package", 0), STANDBY)
    run(standby, STANDBY)
    shutil.copy(STANDBY / "root/var/lib/tfstated/.ssh/id_ed25519.pub", ROOM / "standby.pub")
    run(first)
    line = (ROOT / "var/lib/tfstated/.ssh/authorized_keys").read_text()
    expect(line.startswith(f'restrict,command="rrsync -ro {ROOT}/var/lib/tfstated/journal" ssh-ed25519 '), True, line)
    goes_on_alone(JOURNAL)
    run(again, STANDBY)
    newest = sorted(JOURNAL.glob("*.tfj"))[-1]
    copy = STANDBY / "root/var/lib/tfstated/journal" / newest.name
    expect(copy.read_bytes() == newest.read_bytes(), True, "the standby has the journal")
    page_tools.enter(ROOM)
    page_tools.stop("server")
    starts = command("tfstatectl serve FOLDER --at-least POSITION", FOLDER="/var/lib/tfstated/journal", POSITION=1000)
    expect("NotAtLeast" in run(f"{starts} --listen {LOOPBACK}:{free_port()} || [ $? = 26 ]", STANDBY), True, "a position that the standby lacks")
    run(take_over, STANDBY)
    expect(run("curl -fs --unix-socket /run/tfstated/tfstated.sock http://localhost/state/network.prod", STANDBY).encode(), S2)


def check_a_damaged_journal_is_cut_or_passed_over():
    """With a newest journal whose last record is damaged, and with an older one."""
    listen = f"--listen {LOOPBACK}:{free_port()}"
    newest, older = fresh(n2=NEWEST[:-1] + b"x"), fresh(n1=NEWEST[:-1] + b"x", n2=REBASED)
    file, past = newest / f"{named(2)}.tfj", older / f"{named(1)}.tfj"
    told = run(f"tfstatectl serve {newest} {listen} || [ $? = 23 ]")
    at = len(SHORT + PUSH2)
    expect(f"{file}: Damaged: invalid at byte {at}." in told, True, told)
    text = run(f"{command('tfstated check FILE', FILE=file)} || [ $? = 4 ]")
    expect(text, f"base 1 1\n1 push a\ndamaged {at}\n", "the good records before it")
    run(command("truncate -s AT FILE", AT=at, FILE=file))
    expect("a start continues" in run(f"tfstatectl check {newest}"), True)
    expect(f"{past}: Damaged" in run(f"tfstatectl serve {older} {listen} || [ $? = 23 ]"), True)
    starts = command("runuser -u tfstated -- tfstatectl serve /var/lib/tfstated/journal --accept-past FILE", FILE=past)
    told = run_until_it_listens(starts.replace("/var/lib/tfstated/journal", str(older)))
    expect(f"{past} is discarded" in told, True, told)
    run_until_it_listens(f"tfstatectl serve {older} {listen}")


def check_histories_of_two_servers_are_told_apart():
    listen = f"--listen {LOOPBACK}:{free_port()}"
    both = fresh(n1=SHORT + PUSH3, n2=REBASED)
    told = run(f"tfstatectl serve {both} {listen} || [ $? = 25 ]")
    expect("Diverged" in told, True, told)
    for folder in (fresh(n1=SHORT + PUSH3), fresh(n2=REBASED)):
        text = run(command("tfstatectl check FOLDER", FOLDER=folder))
        expect("a start continues" in text, True, text)
    run(command("tfstatectl show FOLDER NAME >FILE", FOLDER=folder, NAME="a", FILE="missing.json"))
    expect((ROOM / "missing.json").read_bytes(), S2, "what is pushed to the other one")
    told = run_until_it_listens(f"tfstatectl serve {both} {listen} --accept-past {both}/{named(1)}.tfj")
    expect("lost" in told, True, told)


def check_each_command_of_the_page_was_run():
    expect(left_out({*places(), *commands_in(PAGE)} - commands_of(*TERRAFORM)), [])


def end():
    for room in (ROOM, STANDBY):
        page_tools.enter(room)
        for name in ("server", "nginx"):
            page_tools.stop(name)


if __name__ == "__main__":
    missing = [name for name in ("nginx", "openssl", "dpkg-deb", "jq", "curl", "rsync", "ssh-keygen") if not shutil.which(name)]
    if missing:
        sys.exit(f"not installed: {', '.join(missing)}")
    subprocess.run(command("make package").split(), cwd=TOP, stdout=subprocess.DEVNULL, check=True)
    make_secrets()
    prepare(ROOM)
    prepare(STANDBY)
    try:
        sys.exit(run_checks(checks_in(globals())))
    finally:
        end()
