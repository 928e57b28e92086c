"""Installs the package into a fresh Debian tree and runs it under a systemd of its own, in a
container without a network: each block of deploy/'s pages, each command for systemd in its
sentences, Terraform's cycle with TLS and a user, who may use the socket, kills, a damaged journal,
a standby over ssh, and a removal that leaves the journals. It needs root, debootstrap,
systemd-nspawn, Terraform and a Debian mirror, which MIRROR may name. The last line is `N passed, M
failed`."""
import json
import os
import re
import shutil
import subprocess
import sys
import tempfile
import time
from pathlib import Path

import package
from checking import SECONDS, STARTED, checks_in, expect, run_checks
from page_blocks import INSTALL, MONITOR, SYSTEMD, command, commands_of, configuration, left_out, places, take_all
from repository import TOP

SUITE, KEPT = "bookworm", TOP / "out" / "package-test"
INSTALLED = "systemd,systemd-sysv,nginx-light,openssl,curl,ca-certificates,jq,rsync,openssh-server,python3,prometheus-node-exporter"
NEXT = package.VERSION + "+next"
MACHINE = "tfstated-test"
RESOURCES = """resource "terraform_data" "a" { input = "1" }
resource "terraform_data" "b" { input = terraform_data.a.output }
"""


def tool(*words, **how):
    return subprocess.run([str(word) for word in words], stdin=subprocess.DEVNULL, check=True, **how)


def base_tree():
    """Returns a fresh Debian tree with systemd and nginx, which later runs copy."""
    base, done = KEPT / SUITE, KEPT / f"{SUITE}.done"
    if not done.exists() or done.read_text() != INSTALLED:
        shutil.rmtree(base, ignore_errors=True)
        base.parent.mkdir(parents=True, exist_ok=True)
        mirror = [os.environ["MIRROR"]] if "MIRROR" in os.environ else []
        with open(KEPT / "debootstrap.log", "wb") as log:
            tool("debootstrap", "--variant=minbase", f"--include={INSTALLED}", SUITE, base, *mirror, stdout=log, stderr=log)
        done.write_text(INSTALLED)
    return base


class Container:
    """A Debian tree under a systemd of its own, with only a loopback interface."""

    def __init__(self, tree):
        self.tree = tree
        mount = "mkdir -p /run/systemd/nspawn && mount -t tmpfs tmpfs /run/systemd/nspawn && exec"
        words = f"systemd-nspawn --quiet --keep-unit --register=no --private-network --boot --machine={MACHINE} --console=pipe --directory={tree}"
        words += f" --bind-ro={shutil.which('terraform')}:/usr/local/bin/terraform"
        self.log = open(KEPT / "boot.log", "wb")
        how = {"stdin": subprocess.DEVNULL, "stdout": self.log, "stderr": self.log}
        self.process = subprocess.Popen(["unshare", "--mount", "sh", "-c", f"{mount} {words}"], **how)
        self.leader = None

    def boots(self):
        """Returns true if its systemd is up before long."""
        end = time.monotonic() + SECONDS
        while time.monotonic() < end and self.process.poll() is None:
            children = Path(f"/proc/{self.process.pid}/task/{self.process.pid}/children").read_text().split()
            if children:
                self.leader = children[0]
                if self.run("systemctl is-system-running")[1].strip() in ("running", "degraded"):
                    return True
            time.sleep(0.5)
        return False

    def run(self, script, given=None):
        """Returns the status of a script in it, and what it writes."""
        words = ["nsenter", "--target", self.leader, "--all", "env", "-i", "PATH=/usr/local/bin:/usr/sbin:/usr/bin:/sbin:/bin", "HOME=/root", "LANG=C.UTF-8"]
        how = {"stdout": subprocess.PIPE, "stderr": subprocess.STDOUT, "timeout": 2 * SECONDS, "check": False, "text": True}
        ran = subprocess.run([*words, "bash", "-e", "-c", script], input=given or "", **how)
        return ran.returncode, ran.stdout

    def do(self, script, given=None):
        """Returns what a script in it writes. The script must succeed."""
        status, text = self.run(script, given)
        expect(status, 0, f"{script}\n{text}")
        return text

    def end(self):
        if self.leader:
            self.run("systemctl poweroff")
        try:
            self.process.wait(SECONDS / 4)
        except subprocess.TimeoutExpired:
            self.process.kill()
            self.process.wait()
        self.log.close()


BOX, PASSWORDS = None, {}
# How curl asks the server itself.
DIRECT = "--unix-socket /run/tfstated/tfstated.sock http://localhost"


def do(*titles):
    """Returns what the commands under these headings write. They must succeed."""
    return "".join(BOX.do(f"cd /root\n{block}") for title in titles for block in take_all(title))


def waits_for(script, text=""):
    """Waits until a script in the container succeeds and writes a text. Returns what it writes."""
    end, found = time.monotonic() + SECONDS, (1, "")
    while time.monotonic() < end and (found[0] or text not in found[1]):
        found = BOX.run(script)
        time.sleep(0.5)
    expect((found[0], text in found[1]), (0, True), f"{script}: {found[1]}")
    return found[1]


def check_it_installs_and_starts_nothing():
    text = BOX.do("cd /root && dpkg -i tfstated_*_amd64.deb")
    expect("nothing is started" in text, True, text)
    expect(BOX.do("stat -c '%U %G %a' /var/lib/tfstated").split(), ["tfstated", "tfstated", "700"])
    states = BOX.run("systemctl is-enabled tfstated tfstated-copy.timer tfstated-standby.timer")[1].split()
    expect(states, ["disabled"] * 3)
    expect(BOX.run("systemctl is-active tfstated")[1].strip(), "inactive")
    expect(BOX.do("tfstatectl --version").split()[1], package.VERSION)
    expect(BOX.do("cd / && sha256sum --quiet -c /usr/share/doc/tfstated/SHA256SUMS"), "")


def check_the_first_day_of_the_page():
    BOX.do("echo 127.0.0.1 tfstated.example.com >>/etc/hosts")
    BOX.do("cd /root && openssl req -x509 -newkey ec -pkeyopt ec_paramgen_curve:prime256v1 -nodes -days 2 -keyout key.pem -out certificate.pem "
           "-subj /CN=tfstated.example.com -addext subjectAltName=DNS:tfstated.example.com 2>&1")
    BOX.do("cp /root/certificate.pem /usr/local/share/ca-certificates/tfstated.crt && update-ca-certificates 2>&1")
    began = time.monotonic()
    text = do(*INSTALL)
    print(f"the commands of the first day take {time.monotonic() - began:.0f} seconds", flush=True)
    PASSWORDS.update(line.split() for line in text.splitlines() if len(line.split()) == 2 and len(line.split()[1]) == 24)
    expect(set(PASSWORDS), {"admin", "auditor", "network-ci"}, text)
    expect(BOX.do("systemctl is-active tfstated nginx").split(), ["active", "active"])
    expect(BOX.do("curl -fs https://tfstated.example.com/healthz"), "it answers\n")
    expect(BOX.do("systemctl show -P LimitAS tfstated; systemctl show -P MemoryMax tfstated").split(), [str(3 << 30), str(3500 << 20)], "on a smaller machine")
    BOX.do("rm /etc/systemd/system/tfstated.service.d/memory.conf && systemctl daemon-reload && systemctl restart tfstated")
    waits_for("curl -fs https://tfstated.example.com/healthz")


def check_what_may_not_be_entered_is_told_apart_from_what_is_not_there():
    for folder, fault in (("/root/journal", "NotAllowed"), ("/var/lib/tfstated/none", "NoFolder")):
        status, text = BOX.run(f"runuser -u tfstated -- tfstatectl serve {folder} --listen 127.0.0.1:8099")
        expect((status, f"{folder}: {fault}: " in text), (27, True), text)


def check_nginx_may_use_the_socket_and_nobody_else():
    kept = ["tfstated www-data 2750 /run/tfstated", "tfstated www-data 660 /run/tfstated/tfstated.sock"]
    look = "stat -c '%U %G %a %n' /run/tfstated /run/tfstated/tfstated.sock"
    for again in ("systemctl restart tfstated", "systemctl stop tfstated && systemctl start tfstated"):
        expect(BOX.do(look).splitlines(), kept)
        expect(BOX.do(f"runuser -u www-data -- curl -s {DIRECT}/state/none"), '{"error":"NoState"}')
        for user in ("nobody", "sshd"):
            expect(BOX.run(f"runuser -u {user} -- curl -s {DIRECT}/state/none"), (7, ""), user)
        expect(BOX.run("curl -s http://127.0.0.1:8080/state/none"), (7, ""), "nothing listens at the address of before")
        BOX.do(again)
        waits_for("curl -fs https://tfstated.example.com/healthz")


def terraform(*words):
    """Returns what Terraform writes in the container. Terraform must succeed."""
    return BOX.do(f"cd /root/project && TF_HTTP_PASSWORD='{PASSWORDS['network-ci']}' CHECKPOINT_DISABLE=1 terraform {' '.join(words)} -no-color 2>&1")


def state():
    return json.loads(BOX.do(f"curl -fs -u 'admin:{PASSWORDS['admin']}' https://tfstated.example.com/state/network.prod"))


def check_terraform_applies_with_tls_and_a_user():
    (BOX.tree / "root" / "project").mkdir()
    (BOX.tree / "root" / "project" / "main.tf").write_text(configuration() + RESOURCES)
    terraform("init")
    expect("2 added" in terraform("apply", "-auto-approve"), True)
    expect([resource["name"] for resource in state()["resources"]], ["a", "b"])
    expect("No changes" in terraform("plan"), True)


def check_an_older_state_is_told():
    expect("push" in do("Bring back an older state"), True)
    expect(json.loads(BOX.do("cat /root/back.json"))["serial"], state()["serial"] + 1)


def check_a_killed_server_comes_back_with_its_state():
    before = state()
    BOX.do("systemctl kill --signal=KILL tfstated")
    waits_for(f"curl -fs -u 'admin:{PASSWORDS['admin']}' https://tfstated.example.com/state/network.prod")
    expect(state(), before)
    expect("No changes" in terraform("plan"), True)


def check_a_server_that_ends_again_and_again_is_not_started_without_end():
    before, history = state(), BOX.do("tfstatectl history /var/lib/tfstated/journal network.prod")
    kill = "systemctl kill --signal=KILL tfstated 2>/dev/null || true; systemctl is-failed --quiet tfstated"
    BOX.do(f"for number in $(seq 2000); do if {kill}; then break; fi; sleep 0.1; done")
    waits_for(command("systemctl is-failed tfstated"), "failed")
    expect("Start request repeated too quickly" in BOX.do(command("journalctl -u tfstated")), True)
    BOX.do(f"{command('systemctl reset-failed tfstated')} && {command('systemctl start tfstated')}")
    waits_for("curl -fs https://tfstated.example.com/healthz")
    expect((state(), BOX.do("tfstatectl history /var/lib/tfstated/journal network.prod")), (before, history), "it has all that it had")


def check_the_timer_copies_as_the_user_of_the_service():
    do("Make copies")
    waits_for("ls /var/backups/tfstated/journal", "journal-")
    expect(BOX.do("stat -c %U /var/backups/tfstated/journal/*.tfj").split()[0], "tfstated")
    expect("whole" in BOX.do("tfstatectl check /var/backups/tfstated/journal"), True)
    expect(BOX.do("systemctl show -P Result tfstated-copy.service").strip(), "success")


def check_who_holds_a_lock_is_asked():
    expect(do("Clear the lock of a run that died").strip(), '{"error":"LockLost"}', "nobody does")


def check_what_to_watch_and_users():
    text = do(*MONITOR)
    expect(("\n423\n" in f"\n{text}", "a start continues" in text), (True, True), text)
    waits_for("curl -fs http://127.0.0.1:9100/metrics", "\ntfstated_changes_total ")
    add, remove = take_all("Manage users")
    password = re.search("^ann (.*)$", BOX.do(add), re.M)[1]
    ask = f"curl -s -o /dev/null -w '%{{http_code}}' -u 'ann:{password}' https://tfstated.example.com/state/network.prod"
    waits_for(ask, "200")
    expect(BOX.do("tfstated-user list | grep -v '^ '").split(), ["admin", "auditor", "network-ci", "ann"])
    BOX.do(remove)
    expect((BOX.do(ask), BOX.do("tfstated-user list | grep -v '^ '").split()), ("401", ["admin", "auditor", "network-ci"]))
    expect(BOX.do("stat -c '%U %G %a' /etc/nginx/tfstated/passwords").split(), ["root", "www-data", "640"])


def check_a_damaged_journal_ends_the_start_for_good_and_a_copy_restores_it():
    before = state()
    BOX.do("systemctl start tfstated-copy.service && systemctl stop tfstated-copy.timer tfstated")
    newest = BOX.do("ls /var/lib/tfstated/journal/*.tfj | tail -1").strip()
    BOX.do(f"printf x | dd of={newest} bs=1 seek=60 conv=notrunc 2>&1")
    for unit in ("tfstated", "tfstated-copy", "tfstated-stats"):
        BOX.run(f"systemctl start {unit}")
        waits_for(command(f"systemctl is-failed {unit}"), "failed")
    expect(BOX.do("systemctl show -P ExecMainStatus tfstated; systemctl show -P NRestarts tfstated").split(), ["23", "0"])
    for text in (BOX.do(command("journalctl -u tfstated")), BOX.run(command("systemctl status tfstated"))[1]):
        expect(f"{newest}: Damaged" in text, True, text)
    do("Restore a copy")
    waits_for("curl -fs https://tfstated.example.com/healthz")
    expect(state(), before)


def check_a_full_disk_ends_the_server_until_there_is_room():
    """The folder of the journals is on a disk of 4 MiB of its own during the check."""
    BOX.do("systemctl stop tfstated-copy.timer tfstated && mkdir /root/kept && cp -a /var/lib/tfstated/journal /root/kept && mount -t tmpfs -o "
           "size=4m,mode=700,uid=$(id -u tfstated) tmpfs /var/lib/tfstated/journal && cp -a /root/kept/journal/. /var/lib/tfstated/journal && systemctl start tfstated")
    waits_for("curl -fs https://tfstated.example.com/healthz")
    state_of = 'printf \'{"version":4,"serial":%d,"lineage":"L","x":"%s"}\' $number "$(head -c 1000000 /dev/zero | tr "\\0" x)"'
    push = f"for number in 1 2 3 4 5; do {state_of} | curl -s -o /dev/null -w '%{{http_code}} ' --data-binary @- {DIRECT}/state/full; done"
    expect(BOX.do(push).split(), ["200", "200", "200", "200", "500"])
    waits_for("journalctl -u tfstated --no-pager -n 50", "status=29")
    waits_for("journalctl -u tfstated --no-pager -n 20", "CannotWrite")
    waits_for("systemctl show -P ExecMainStatus tfstated", "20")
    expect(BOX.run("systemctl is-failed tfstated")[1].strip() in ("activating", "deactivating"), True, "it is tried again")
    BOX.do("mount -o remount,size=64m /var/lib/tfstated/journal")
    waits_for("curl -fs https://tfstated.example.com/healthz")
    expect(json.loads(BOX.do(f"curl -fs {DIRECT}/state/full | jq 'del(.x)'"))["serial"] in (4, 5), True, "that which was answered 500 may be there")
    BOX.do("systemctl stop tfstated && umount /var/lib/tfstated/journal && systemctl start tfstated tfstated-copy.timer")
    waits_for("curl -fs https://tfstated.example.com/healthz")


def check_a_least_position_that_the_server_raises():
    do("Use a replicated volume")
    waits_for("curl -fs https://tfstated.example.com/healthz")
    terraform("apply", "-auto-approve", "-replace=terraform_data.a")
    position = int(BOX.do("cat /var/lib/tfstated-least/position"))
    expect(position > 3, True, position)
    BOX.do(f"echo {position + 1} >/var/lib/tfstated-least/position && systemctl restart tfstated || true")
    waits_for("systemctl is-failed tfstated", "failed")
    expect(BOX.do("systemctl show -P ExecMainStatus tfstated").strip(), "26")
    BOX.do(f"echo {position} >/var/lib/tfstated-least/position && systemctl start tfstated")
    waits_for("curl -fs https://tfstated.example.com/healthz")


def check_a_standby_over_ssh_with_a_key_that_reads_the_journals_alone():
    """Both machines are this one, so the standby gets other folders."""
    (standby, first, again), (take_over,) = map(take_all, ("Set up a standby", "Take over on the standby"))
    BOX.do("echo 127.0.0.1 primary.example.com >>/etc/hosts && systemctl start ssh")
    BOX.do(f"cd /root\n{standby}\ncp /var/lib/tfstated/.ssh/id_ed25519.pub standby.pub\n{first}\n{again}")
    expect("ConditionPathExists" in BOX.do("systemctl status tfstated-standby.service || true"), True, "a server's folder takes no copies")
    BOX.do("sed -i '/^Exec\\|^Cond/s#/var/lib/tfstated/journal#/var/lib/tfstated/standby#' /etc/systemd/system/tfstated-standby.service")
    BOX.do("systemctl daemon-reload && systemctl start tfstated-standby.service")
    newest = BOX.do("cd /var/lib/tfstated/journal && ls *.tfj | tail -1").strip()
    BOX.do(f"cmp /var/lib/tfstated/journal/{newest} /var/lib/tfstated/standby/{newest}")
    tried = BOX.run("runuser -u tfstated -- ssh -o BatchMode=yes tfstated@primary.example.com cat /etc/hostname")
    expect(tried[0] != 0, True, tried)
    BOX.do("rm /etc/systemd/system/tfstated-standby.service && systemctl daemon-reload")
    BOX.do(take_over)
    expect(BOX.run("systemctl is-enabled tfstated-standby.timer")[1].strip(), "disabled")


def check_an_upgrade_says_from_which_version_and_leaves_the_server():
    before = BOX.do("systemctl show -P MainPID tfstated"), state()
    BOX.do("cd /root && rm tfstated_*_amd64.deb && mv next.deb tfstated_next_amd64.deb")
    install, restart = take_all("Upgrade")
    text = BOX.do(f"cd /root && {install}")
    expect(f"upgraded from {package.VERSION} to {NEXT}" in text, True, text)
    expect((BOX.do("systemctl show -P MainPID tfstated"), state()), before, "the server goes on")
    BOX.do(restart)
    waits_for("curl -fs https://tfstated.example.com/healthz")
    expect(state(), before[1])


def check_a_removal_leaves_the_journals():
    before = BOX.do("ls /var/lib/tfstated/journal/")
    text = BOX.do("dpkg -r tfstated")
    expect("the journals in /var/lib/tfstated are left" in text, True, text)
    expect(BOX.run("systemctl is-active tfstated")[1].strip(), "inactive")
    gone = [path for path in ("/usr/bin/tfstatectl", "/usr/sbin/tfstated-user", "/run/tfstated") if BOX.run(f"test -e {path}")[0]]
    expect((BOX.do("ls /var/lib/tfstated/journal/"), len(gone)), (before, 3), gone)
    BOX.do("dpkg -P tfstated")
    expect(BOX.do("ls /var/lib/tfstated/journal/"), before, "also where it is purged")
    BOX.do("dpkg -i /root/tfstated_next_amd64.deb && systemctl start tfstated")
    waits_for("curl -fs https://tfstated.example.com/healthz")
    expect(state()["version"], 4, "and an installation goes on from them")


def check_the_archive_does_without_dpkg():
    before = BOX.do("readlink /lib"), state()
    BOX.do(f"dpkg -P tfstated && tar -xzf /root/tfstated_*_amd64.tar.gz -C / && {command('/usr/share/tfstated/postinst configure')} && systemctl start tfstated")
    waits_for("curl -fs https://tfstated.example.com/healthz")
    expect((BOX.do("readlink /lib"), state()), before, "Debian's link stays, and the journals do")
    expect(BOX.do("tfstatectl --version").split()[1], package.VERSION)


def check_each_block_and_each_command_of_systemd_was_run():
    expect(left_out({*places(), *commands_of(*SYSTEMD)}), [])


def next_deb(folder):
    """Returns the package again, with a higher version."""
    tool("dpkg-deb", "--raw-extract", package.DIST / f"{package.NAME}.deb", folder)
    for path in (folder / "DEBIAN").iterdir():
        path.write_text(re.sub(rf"(?<![\d.]){re.escape(package.VERSION)}(?!\d|\.\d)", NEXT, path.read_text()))
    tool("dpkg-deb", "--root-owner-group", "--build", folder, folder.parent / "next.deb", stdout=subprocess.DEVNULL)
    return folder.parent / "next.deb"


def main():
    global BOX
    missing = [name for name in ("debootstrap", "systemd-nspawn", "dpkg-deb", "terraform", "unshare", "nsenter") if not shutil.which(name)]
    if os.getuid() or missing:
        sys.exit(f"package-test: not here, since it needs {' and '.join(missing) or 'root'}")
    package.main()
    try:
        base = base_tree()
    except subprocess.CalledProcessError:
        sys.exit(f"package-test: not here, since debootstrap fails: {KEPT}/debootstrap.log has why")
    with tempfile.TemporaryDirectory(prefix="package-", dir=KEPT) as folder:
        tree = Path(folder) / "tree"
        tool("cp", "-a", base, tree)
        for ending in ("deb", "tar.gz"):
            shutil.copy(package.DIST / f"{package.NAME}.{ending}", tree / "root")
        shutil.copy(next_deb(Path(folder) / "next"), tree / "root" / "next.deb")
        BOX = Container(tree)
        try:
            if not BOX.boots():
                sys.exit(f"package-test: not here, since systemd-nspawn boots no container: {KEPT}/boot.log has why")
            return run_checks(checks_in(globals()))
        finally:
            BOX.end()
            STARTED.clear()


if __name__ == "__main__":
    sys.exit(main())
