"""Upgrades a server from the package of the previous version, downgrades it and upgrades it again,
in a container of its own, by each block of docs/UPGRADING.md: states, locks, positions and history
stay. It needs what tests/deploy/try_package.py needs. BEFORE names the package of the previous
version; without it that version's commit is built by `rt try`, without proofs. The last line is `N
passed, M failed`."""
import json
import os
import re
import shutil
import subprocess
import sys
import tempfile
from pathlib import Path

import package
import try_package
import unproved
from checking import STARTED, checks_in, expect, run_checks
from page_blocks import blocks_in
from repository import TOP
from try_package import KEPT, Container, base_tree, tool, waits_for

EARLIER, COMMIT = "0.1.0", "ad81abc309061ea3a998d623941a9b141de7b43c"
PAGE = (TOP / "docs" / "UPGRADING.md").read_text()
HOST = "https://tfstated.example.com"
FOLDER = "/var/lib/tfstated/journal"
# The checks in an unproved program need more address space than a unit gives.
SMALL = "LimitAS=3G\nMemoryMax=3500M"
ROOM = "LimitAS=infinity\nMemoryMax=infinity\nSystemCallFilter="
PASSWORDS, SEEN, TAKEN = {}, {}, set()
# Makes a package of programs that need the C library and one more of the compiler's.
MAKES = "import package; package.libc_of = lambda path: '2.36'; package.main()"


def sections():
    """Returns the blocks of the page by their heading."""
    parts = re.split(r"^## (.*)$", PAGE, flags=re.M)
    return {title: blocks_in(text, "bash") for title, text in zip(parts[1::2], parts[2::2])}


def take(title, number):
    """Returns a block of the page for a check that runs it."""
    TAKEN.add((title, number))
    return sections()[title][number]


def box(script):
    """Returns what a script in the container writes. Fails if the script fails."""
    return try_package.BOX.do(f"cd /root\n{script}")


def earlier_package():
    """Returns the package of the previous version, and makes it if it isn't named."""
    if "BEFORE" in os.environ:
        return Path(os.environ["BEFORE"]).resolve()
    made = KEPT / "before" / "dist" / f"tfstated_{EARLIER}_amd64.deb"
    if not made.exists():
        checkout = KEPT / "before"
        shutil.rmtree(checkout, ignore_errors=True)
        tool("git", "clone", "--quiet", TOP, checkout)
        tool("git", "-C", checkout, "checkout", "--quiet", COMMIT)
        unproved.main(checkout, checkout / "programs")
        given = {name.upper(): str(checkout / "programs" / name) for name in unproved.STARTS}
        # The previous version may have its scripts in the folder of its tests.
        folder = checkout / ("tools" if (checkout / "tools").is_dir() else "tests")
        tool(sys.executable, "-c", MAKES, cwd=folder, env={**os.environ, **given})
    return made


def version_of(deb):
    return subprocess.run(
        ["dpkg-deb", "--field", deb, "Version"], stdout=subprocess.PIPE, check=True, text=True
    ).stdout.strip()


def answers():
    waits_for(f"curl -fs {HOST}/healthz")


def ask(method, name, body=""):
    """Returns the status and the body of the reply to a request of the administrator."""
    data = f" --data-binary '{body}'" if body else ""
    words = f"curl -s -w '\\n%{{http_code}}' -u 'admin:{PASSWORDS['admin']}' -X {method}{data}"
    text, _, status = box(f"{words} '{HOST}/state/{name}'").rpartition("\n")
    return int(status), text


def state(serial, name):
    return json.dumps({"version": 4, "serial": serial, "lineage": name, "resources": []})


def push(serial, name):
    expect(
        ask("POST", f"{name}?ID=held" if name == "locked" else name, state(serial, name)),
        (200, ""),
        name,
    )


def look():
    """Returns what the server has: states, holders, and the history of a workspace."""
    found = {name: ask("GET", name) for name in ("network.prod", "locked")}
    found["holder"] = ask("LOCK", "locked", '{"ID":"other"}')
    # (the standard error that comes with it has a line of its own for what is no longer kept)
    told = box(f"tfstatectl history {FOLDER} network.prod --json 2>/dev/null")
    found["history"] = sorted((row["position"], row["act"], row["serial"]) for row in rows_in(told))
    return found


def rows_in(told):
    """Returns the rows of a history: 0.1 prints them as a list, later versions each on a line."""
    return json.loads(told) if told.startswith("[") else list(map(json.loads, told.splitlines()))


def compacted(times, name):
    """Has the server retire a journal with a change, again and again."""
    for _ in range(times):
        SEEN[name] = SEEN.get(name, 1) + 1
        push(SEEN[name], name)
        box(f"touch {FOLDER}/compact && while [ -e {FOLDER}/compact ]; do sleep 0.1; done")
        answers()


def retired():
    return box(f"ls {FOLDER}/old").split()


def check_the_version_before_serves():
    box("echo 127.0.0.1 tfstated.example.com >>/etc/hosts")
    box(
        "openssl req -x509 -newkey ec -pkeyopt ec_paramgen_curve:prime256v1 -nodes -days 2 "
        "-keyout key.pem -out certificate.pem -subj /CN=tfstated.example.com "
        "-addext subjectAltName=DNS:tfstated.example.com 2>&1"
    )
    box(
        "cp certificate.pem /usr/local/share/ca-certificates/tfstated.crt\n"
        "update-ca-certificates 2>&1"
    )
    page = subprocess.run(
        ["dpkg-deb", "--fsys-tarfile", SEEN["deb"]], stdout=subprocess.PIPE, check=True
    ).stdout
    read = ["tar", "-xO", "./usr/share/doc/tfstated/README.md"]
    page = subprocess.run(read, input=page, stdout=subprocess.PIPE, check=True).stdout.decode()
    day = page.split("\n## First day\n", 1)[1].split("\n### ", 1)[0]
    text = "".join(box(block.replace(SMALL, SEEN["room"])) for block in blocks_in(day, "bash"))
    PASSWORDS.update(
        line.split()
        for line in text.splitlines()
        if len(line.split()) == 2 and len(line.split()[1]) == 24
    )
    expect("admin" in PASSWORDS, True, text)
    answers()
    push(1, "network.prod")
    expect(ask("LOCK", "locked", '{"ID":"held"}'), (200, ""))
    push(1, "locked")
    compacted(2, "network.prod")
    SEEN["before"] = look()
    expect(SEEN["before"]["holder"], (423, '{"ID":"held"}'))
    expect(len(SEEN["before"]["history"]), 3)


def check_an_upgrade_keeps_states_locks_and_history():
    box(f"mv {SEEN['earlier']} later/ && mv later/{package.NAME}.deb .")
    text = box(take("Upgrade", 0))
    expect(f"upgraded from {EARLIER} to {package.VERSION}" in text, True, text)
    box(take("Upgrade", 1))
    answers()
    expect(look(), SEEN["before"])
    expect(box("tfstatectl --version").split()[1], package.VERSION)
    expect(len(box(f"cat {FOLDER}/identity").splitlines()) > 1, True, "it marks its journals")
    expect("whole" in box("tfstatectl check /var/lib/tfstated/before"), True, "the copy of before")
    expect(box(f"head -c 5 {FOLDER}/$(ls {FOLDER} | grep tfj | tail -1)"), "TFJ2\n")


def check_a_downgrade_keeps_states_and_locks():
    compacted(12, "network.prod")
    before = look()
    expect(len(retired()) > 10, True, "more than the earlier version keeps")
    box(f"mv {package.NAME}.deb later/ && mv later/{SEEN['earlier']} .")
    box(take("Downgrade", 0))
    answers()
    expect(box("tfstatectl --version").split()[1], EARLIER)
    after = look()
    expect(
        {name: after[name] for name in ("network.prod", "locked", "holder")},
        {name: before[name] for name in ("network.prod", "locked", "holder")},
    )
    expect(
        after["history"],
        before["history"][-len(after["history"]) :],
        "of the history the newest stays",
    )
    expect(
        (len(retired()), len(after["history"]) < len(before["history"])),
        (10, True),
        "10 retired journals",
    )


def check_another_upgrade_needs_the_marks_removed():
    compacted(1, "network.prod")
    before = look()
    box(f"mv {SEEN['earlier']} later/ && mv later/{package.NAME}.deb .")
    copy, install, restart = take("Upgrade", 0).splitlines()
    box(install)
    try_package.BOX.run(restart)
    waits_for("systemctl is-failed tfstated", "failed")
    expect(box("systemctl show -P ExecMainStatus tfstated").strip(), "25")
    expect("OtherIdentity" in box("journalctl -u tfstated --no-pager"), True)
    box(f"{take('Upgrade again', 0)}\n{restart}\n{take('Upgrade', 1)}")
    answers()
    expect(look(), before)


def check_the_three_lines_of_the_readme():
    block = blocks_in((TOP / "README.md").read_text(), "bash")[0].rstrip()
    box(f'sudo() {{ "$@"; }}\n{block} >serve.log 2>&1 &')
    waits_for("curl -s http://127.0.0.1:8080/state/none", "NoState")
    expect(box("tfstatectl check journal").count("whole"), 1)


def check_each_block_of_the_page_was_run():
    wanted = {
        (title, number) for title, blocks in sections().items() for number in range(len(blocks))
    }
    expect(wanted - TAKEN, set())


def main():
    missing = [
        name
        for name in ("debootstrap", "systemd-nspawn", "dpkg-deb", "terraform", "git")
        if not shutil.which(name)
    ]
    if os.getuid() or missing:
        sys.exit(f"package-test: not here, since it needs {' and '.join(missing) or 'root'}")
    package.main()
    deb = earlier_package()
    expect(version_of(deb), EARLIER, "the version of the package before")
    base = base_tree()
    SEEN.update(deb=deb, earlier=deb.name, room=SMALL if "BEFORE" in os.environ else ROOM)
    with tempfile.TemporaryDirectory(prefix="package-", dir=KEPT) as folder:
        tree = Path(folder) / "tree"
        tool("cp", "-a", base, tree)
        (tree / "root" / "later").mkdir()
        shutil.copy(deb, tree / "root")
        shutil.copy(package.DIST / f"{package.NAME}.deb", tree / "root" / "later")
        try_package.BOX = Container(tree)
        try:
            if not try_package.BOX.boots():
                sys.exit(
                    "package-test: not here, since systemd-nspawn boots no container: "
                    f"{KEPT}/boot.log has why"
                )
            return run_checks(checks_in(globals()))
        finally:
            try_package.BOX.end()
            STARTED.clear()


if __name__ == "__main__":
    sys.exit(main())
