"""Makes the package and checks it without installing it: its files and their sums, the contents of
its control file and of its manual pages, what its files for bash and zsh complete, and its units."""
import hashlib
import re
import shutil
import subprocess
import sys
import tarfile
import tempfile
from pathlib import Path

import package
from checking import SECONDS, checks_in, expect, run_checks
from page_blocks import PAGE
from repository import TOP

FOLDER = tempfile.TemporaryDirectory(prefix="tfstated-")
ROOT = Path(FOLDER.name) / "root"
UNITS = ["tfstated", "tfstated-copy", "tfstated-standby", "tfstated-stats", "tfstated-web"]
WANTED = """usr/bin/tfstatectl usr/bin/tfstated usr/sbin/tfstated-user usr/share/man/man8/tfstatectl.8.gz usr/share/man/man1/tfstated.1.gz
usr/lib/systemd/system/tfstated.service usr/lib/systemd/system/tfstated-copy.service usr/lib/systemd/system/tfstated-copy.timer
usr/lib/systemd/system/tfstated-standby.service usr/lib/systemd/system/tfstated-standby.timer
usr/lib/systemd/system/tfstated-stats.service usr/lib/systemd/system/tfstated-stats.timer
usr/share/doc/tfstated/README.md usr/share/doc/tfstated/INSTALL.md usr/share/doc/tfstated/OPERATE.md usr/share/doc/tfstated/STANDBY.md
usr/share/doc/tfstated/RECOVER.md usr/share/doc/tfstated/FAULTS.md
usr/share/doc/tfstated/REFERENCE.md usr/share/doc/tfstated/PROTOCOL.md usr/share/doc/tfstated/JOURNAL.md usr/share/doc/tfstated/MODEL.md
usr/share/doc/tfstated/picture.svg usr/share/doc/tfstated/UPGRADING.md usr/share/doc/tfstated/CHANGELOG.md
usr/share/doc/tfstated/IMPACT.md usr/share/doc/tfstated/FOLDER.md usr/share/doc/tfstated/SERVING.md
usr/share/doc/tfstated/COPIES.md usr/share/doc/tfstated/VERSIONS.md usr/share/doc/tfstated/PERFORMANCE.md usr/share/doc/tfstated/copyright
usr/share/doc/tfstated/SHA256SUMS usr/share/tfstated/nginx.conf usr/share/tfstated/nginx-access.conf
usr/lib/systemd/system/tfstated-web.service usr/share/doc/tfstated/WEB.md
usr/share/tfstated/web/graph.js usr/share/tfstated/web/impact.js usr/share/tfstated/web/index.html usr/share/tfstated/web/layout.js
usr/share/tfstated/web/page.css usr/share/tfstated/web/page.js usr/share/tfstated/web/parts.js usr/share/tfstated/web/workspace.js
usr/share/tfstated/web/workspaces.js
usr/share/tfstated/alerts.yml usr/share/tfstated/dashboard.json usr/share/tfstated/postinst usr/share/tfstated/impact-gitlab.yml usr/share/tfstated/impact-github.yml
usr/share/bash-completion/completions/tfstatectl usr/share/zsh/vendor-completions/_tfstatectl"""
COMMANDS = "init serve check copy list holder history show diff restore impact stats web".split()
WANTED = {*WANTED.split(), *(f"usr/share/man/man8/tfstatectl-{name}.8.gz" for name in COMMANDS)}


def made(ending):
    return package.DIST / f"{package.NAME}{ending}"


def tool(*words):
    """Returns the status of a tool, and its output."""
    ran = subprocess.run([str(word) for word in words], stdout=subprocess.PIPE, stderr=subprocess.STDOUT, timeout=SECONDS, check=False)
    return ran.returncode, ran.stdout.decode()


def check_both_archives_have_the_same_files():
    expect(tool("dpkg-deb", "--extract", made(".deb"), ROOT)[0], 0)
    expect({str(path.relative_to(ROOT)) for path in package.files_of(ROOT)}, WANTED)
    with tarfile.open(made(".tar.gz")) as archive:
        members = {member.name[2:]: member for member in archive.getmembers() if member.isfile()}
        expect(set(members), WANTED)
        tops = {member.name.split("/")[1] for member in archive.getmembers()}
        expect(tops, {"usr"}, "a folder `lib` would take the place of Debian's link of this name")
        for name, member in members.items():
            expect(archive.extractfile(member).read() == (ROOT / name).read_bytes(), True, name)
            expect((member.uid, member.mode), (0, 0o755 if name.split("/")[1] in ("bin", "sbin") or name.endswith("/postinst") else 0o644), name)


def check_each_link_of_the_pages_leads_to_a_file_of_the_package():
    pages = sorted((ROOT / "usr/share/doc/tfstated").glob("*.md"))
    links = [(page.parent / path).resolve() for page in pages for path in re.findall(r"\]\(([^)#:]+)\)", page.read_text())]
    expect((len(links) > 4, [path for path in links if not path.is_file()]), (True, []))


def check_the_sums_are_those_of_the_files():
    for sums, folder in ((made(".sha256"), package.DIST), (ROOT / "usr/share/doc/tfstated/SHA256SUMS", ROOT)):
        lines = [line.split("  ") for line in sums.read_text().splitlines()]
        expect(len(lines) in (2, len(WANTED) - 1), True, sums)
        expect([hashlib.sha256((folder / name).read_bytes()).hexdigest() for _, name in lines], [told for told, _ in lines])


def check_a_second_run_makes_the_same_bytes():
    before = [made(ending).read_bytes() for ending in (".deb", ".tar.gz")]
    expect(package.main(), 0)
    expect([made(ending).read_bytes() for ending in (".deb", ".tar.gz")] == before, True)


def check_the_control_file():
    fields = dict(re.findall(r"^([A-Z][\w-]+): (.*)$", tool("dpkg-deb", "--field", made(".deb"))[1], re.M))
    wanted = {"Package": "tfstated", "Version": package.VERSION, "Architecture": "amd64"}
    expect({name: fields.get(name) for name in wanted}, wanted)
    expect(re.fullmatch(r"libc6 \(>= 2\.[0-9]+(\.[0-9]+)?\), passwd", fields["Depends"]) is not None, True, fields["Depends"])
    scripts = tool("dpkg-deb", "--ctrl-tarfile", made(".deb"))[0]
    expect(scripts, 0)


def check_the_manual_pages_have_no_fault():
    tools = [("mandoc", ("mandoc", "-T", "lint", "-W", "warning")), ("man", ("man", "--warnings=w", "-E", "UTF-8", "-l", "-Tutf8", "-Z"))]
    there = [words for name, words in tools if shutil.which(name)]
    expect(there != [], True, "mandoc or man is there")
    for page in ("man8/tfstatectl.8", "man1/tfstated.1", *(f"man8/tfstatectl-{name}.8" for name in COMMANDS)):
        text = subprocess.run(["gzip", "-dc", ROOT / f"usr/share/man/{page}.gz"], stdout=subprocess.PIPE, check=True).stdout
        path = ROOT.parent / Path(page).name
        path.write_bytes(text)
        for words in there:
            ran = subprocess.run([*words, path], capture_output=True, timeout=SECONDS, check=False)
            told = ran.stderr.decode() + (ran.stdout.decode() if words[0] == "mandoc" else "")
            expect((ran.returncode, told), (0, ""), words)


def options_of(name):
    """Returns the options that the help text of a command lists."""
    return re.findall(r"^ +(?:-h, )?(--[a-z-]+)", tool(package.program("tfstatectl"), name, "--help")[1], re.M)


def check_the_manual_has_each_option_and_each_status():
    text = (ROOT.parent / "tfstatectl.8").read_text().replace("\\-", "-")
    expect(len(options_of("serve")) > 6, True)
    for name in COMMANDS:
        own = (ROOT.parent / f"tfstatectl-{name}.8").read_text().replace("\\-", "-")
        expect([option for option in options_of(name) if f"Fl {option[1:]}" not in text or f"Fl {option[1:]}" not in own], [], name)
    expect([status for status in (0, *range(20, 30)) if not re.search(rf"^\.It (?:\d+, )*{status}\b", text, re.M)], [])


def completed(*words):
    """Returns what bash offers for the last of some words of a command."""
    path = ROOT / "usr/share/bash-completion/completions/tfstatectl"
    script = f'source {path}; COMP_WORDS=("$@"); COMP_CWORD=$(($# - 1)); _tfstatectl; for reply in "${{COMPREPLY[@]}}"; do echo "$reply"; done'
    ran = subprocess.run(["bash", "-ec", script, "bash", "tfstatectl", *words], cwd=ROOT, capture_output=True, timeout=SECONDS, check=False)
    expect((ran.returncode, ran.stderr), (0, b""), words)
    return ran.stdout.decode().splitlines()


def check_bash_completes_commands_options_and_values():
    expect(completed(""), [*COMMANDS, "help", "--help", "--version"])
    expect((completed("h"), completed("hi"), completed("help", "hi")), (["holder", "history", "help"], ["history"], ["history"]))
    for name in COMMANDS:
        expect([option for option in completed(name, "-") if option != "-h"], options_of(name), name)
    expect(completed("history", "--act", ""), ["push", "lock", "unlock", "force-unlock", "delete"])
    expect((completed("history", "--act", "f"), completed("history", "folder", "--ac")), (["force-unlock"], ["--act"]))
    expect((completed("serve", "--workers", ""), completed("serve", "us"), completed("init", "")), ([], ["usr"], ["usr"]))
    expect(completed("serve", "--at-least-file", "usr/bin/tfstatect"), ["usr/bin/tfstatectl"])
    expect(completed("serve", "usr/bin/tfstatect"), [], "a file is no folder")
    expect(completed("impact", "folder", "name", "a"), ["any", "all"])


def check_zsh_gets_the_options_and_words_of_each_command():
    if not shutil.which("zsh"):
        print("zsh isn't there: its file isn't run")
        return
    path = ROOT / "usr/share/zsh/vendor-completions/_tfstatectl"
    script = f"_arguments() {{ print -rl -- $@ }}; _describe() {{ print -rl -- ${{(P)2}} }}; words=(tfstatectl $1 ''); CURRENT=$(($# + 2)); shift $#; source {path}"
    listed = tool("zsh", "-fc", script, "zsh")[1].splitlines()
    expect([line.split(":")[0] for line in listed], COMMANDS)
    for name in COMMANDS:
        lines = tool("zsh", "-fc", script, "zsh", name)[1].splitlines()
        expect([line.split("[")[0] for line in lines if line.startswith("--")], options_of(name), name)
        expect(any(line.startswith("1:FOLDER:_files -/") or line.startswith("1:FROM:_files -/") for line in lines), True, lines)
    expect("--act[Lists only acts of this kind]:ACT:(push lock unlock force-unlock delete)" in tool("zsh", "-fc", script, "zsh", "history")[1], True)


def check_a_start_that_a_person_has_to_look_at_is_not_tried_again():
    """Compares the unit with docs/FAULTS.md: its table, and the statuses after which the unit
    retries."""
    text = (TOP / "docs" / "FAULTS.md").read_text()
    again = set(re.search(r"The package's unit\s+retries\s+after\s+(\d+)\s+and\s+(\d+)\.", text).groups())
    others = set(re.findall(r"^\| (2\d) \| ", text, re.M)) - again
    expect((len(again), len(others)), (2, 8))
    unit = (TOP / "deploy" / "tfstated.service").read_text()
    expect(set(re.findall(r"^RestartPreventExitStatus=(.*)$", unit, re.M)[0].split()), others)
    expect(set(re.findall(r"^ExecStopPost=.* in ([0-9 |]+)\) sleep", unit, re.M)[0].split(" | ")), again, "before these starts it waits")


def settings_of(unit):
    """Returns the settings of a unit after its commands and limits, as they are written there."""
    text = (TOP / "deploy" / f"{unit}.service").read_text()
    return set(re.findall(r"^\w+=.*$", text[text.index("\nNoNewPrivileges=") :].split("\n[")[0], re.M))


def check_the_other_units_are_hardened_as_the_server():
    wanted = {line for line in settings_of(UNITS[0]) if not line.startswith("RestrictAddressFamilies=")}
    expect(len(wanted) > 20, True, wanted)
    for unit in UNITS[1:]:
        # The standby connects to the first machine.
        may_lack = {"IPAddressDeny=any"} if unit == "tfstated-standby" else set()
        expect(wanted - settings_of(unit) - may_lack, set(), unit)


def check_systemd_reads_the_units():
    if not shutil.which("systemd-analyze"):
        print("systemd-analyze isn't there: the units aren't read by it")
        return
    for target in ("sysinit", "basic", "shutdown", "multi-user", "timers", "network-online", "network", "local-fs"):
        package.put(ROOT, f"usr/lib/systemd/system/{target}.target", b"[Unit]\nDescription=a target\n")
    for name in ("usr/bin/rsync", "usr/bin/install", "bin/sh"):
        package.put(ROOT, name, b"", 0o755)
    for path, text in re.findall(r"^cat >(\S+) <<'END'\n(.*?)^END$", PAGE, re.M | re.S):
        package.put(ROOT, path[1:], text.encode())
    expect(len(list((ROOT / "etc/systemd/system/tfstated.service.d").iterdir())), 2, "what the page adds to the units")
    units = [ROOT / f"usr/lib/systemd/system/{name}.service" for name in UNITS]
    status, told = tool("systemd-analyze", "verify", "--man=no", f"--root={ROOT}", *units)
    expect((status, told), (0, ""))


if __name__ == "__main__":
    if not shutil.which("dpkg-deb"):
        sys.exit("not installed: dpkg-deb")
    package.main()
    sys.exit(run_checks(checks_in(globals())))
