"""Tries what the first screen of README.md shows: its three lines over the package, with stand-ins
for commands that change a whole system, Terraform with its block, and its picture, which must be
what the program draws; what `make try` leaves running; the templates and the workflow of .github;
and the page of figures, which must be what `make bench` prints."""
import contextlib
import html
import http.client
import os
import re
import shutil
import signal
import socket
import subprocess
import sys
import tempfile
import time
from pathlib import Path

import package
from built import program
from checking import S1, SECONDS, checks_in, expect, run_checks
from folder_program import Serving
from folders import LOOPBACK, ask_over, free_port, fresh
from repository import TOP

sys.path.append(str(TOP / "bench"))

import page

README, PROTOCOL = (TOP / "README.md").read_text(), (TOP / "docs" / "PROTOCOL.md").read_text()
ADDRESS, TRY_MINUTES = "127.0.0.1:8080", 30
TOOLS = {"sudo": 'exec "$@"', "dpkg": '[ "$1" = -i ] && exec dpkg-deb --extract "$2" "$ROOT"'}
RESOURCE = 'resource "terraform_data" "a" {}\n'


def block(language, page=README):
    """Returns the first block of a language on a page."""
    return re.search(rf"^```{language}\n(.*?)^```$", page, re.M | re.S)[1]


@contextlib.contextmanager
def started(words, **how):
    """Starts a command in a group of its own, which is ended at the end."""
    ends = {"stdin": subprocess.DEVNULL, "stdout": subprocess.PIPE, "stderr": subprocess.STDOUT}
    process = subprocess.Popen(words, start_new_session=True, text=True, **ends, **how)
    try:
        yield process
    finally:
        with contextlib.suppress(ProcessLookupError):
            os.killpg(process.pid, signal.SIGTERM)
        process.communicate()


def reads_until(process, text):
    """Returns what a command writes until a line has a text. Fails if the command ends before."""
    found = ""
    for line in process.stdout:
        found += line
        if text in line:
            return found
    raise AssertionError(f"it ended: {found[-2000:]}")


@contextlib.contextmanager
def installed(address):
    """Has the three lines of the page run in a folder, until the server listens."""
    with tempfile.TemporaryDirectory(prefix="tfstated-") as name:
        room = Path(name)
        (room / "tools").mkdir()
        for tool, text in TOOLS.items():
            (room / "tools" / tool).write_text(f"#!/bin/sh\n{text}\n")
            (room / "tools" / tool).chmod(0o755)
        shutil.copy(package.DIST / f"{package.NAME}.deb", room)
        given = {
            **os.environ,
            "ROOT": f"{room}/root",
            "PATH": f"{room}/tools:{room}/root/usr/bin:{os.environ['PATH']}",
        }
        script = block("bash").replace(ADDRESS, address)
        with started(["bash", "-e", "-c", script], cwd=room, env=given) as process:
            reads_until(process, f"listening {address}")
            yield


def reply(address, method, target, body=None):
    """Returns the status and the body of the reply to a request."""
    connection = http.client.HTTPConnection(address, timeout=SECONDS)
    try:
        return ask_over(connection, method, target, body)
    finally:
        connection.close()


def applies(address):
    """Has Terraform apply a configuration with the block of the page. Returns false without
    Terraform."""
    if not shutil.which("terraform"):
        print("terraform isn't there: the block of the page isn't tried")
        return False
    with tempfile.TemporaryDirectory(prefix="tfstated-") as folder:
        text = block("hcl").replace(ADDRESS, address) + RESOURCE
        (Path(folder) / "main.tf").write_text(text)
        for words in ("init -no-color", "apply -auto-approve -no-color"):
            how = {
                "cwd": folder,
                "stdout": subprocess.PIPE,
                "stderr": subprocess.STDOUT,
                "text": True,
            }
            ran = subprocess.run(["terraform", *words.split()], timeout=SECONDS, check=False, **how)
            expect(ran.returncode, 0, ran.stdout)
    return True


def check_the_three_lines_install_and_serve():
    lines, address = block("bash").splitlines(), f"{LOOPBACK}:{free_port()}"
    expect(len(lines), 3)
    with installed(address):
        expect(reply(address, "GET", "/state/prod")[0], 404)
        if applies(address):
            status, state = reply(address, "GET", "/state/prod")
            expect((status, b'"terraform_data"' in state), (200, True), state)


def drawn_by_the_program():
    """Returns the nodes of docs/PROTOCOL.md's state, the filled ones, and the arrows, as drawn."""
    state = block(
        "json", PROTOCOL.split("What does a change of the network touch in this state?", 1)[1]
    )
    folder = fresh()
    server = Serving(folder, "--first").listens()
    expect(server.ask("POST", "/state/a", state.encode()), (200, b""))
    words = [program("tfstatectl"), "impact", folder, "a", "any", "aws_vpc.main", "--dot"]
    dot = subprocess.run(words, stdout=subprocess.PIPE, timeout=SECONDS, check=True).stdout.decode()
    text = r'"((?:[^"\\]|\\.)*)"'
    plain = dot.replace('\\"', "'")
    nodes = re.findall(rf"^  {text}(| \[style=filled\]);$", plain, re.M)
    arrows = re.findall(rf"^  {text} -> {text};$", plain, re.M)
    return {name for name, _ in nodes}, {name for name, style in nodes if style}, set(arrows)


def drawn_in_the_picture():
    """Returns the same of docs/impact.svg."""
    text = html.unescape((TOP / "docs" / "impact.svg").read_text().replace("&quot;", "'"))
    nodes = re.findall(r'class="node">\s*<title>(.*?)</title>\s*<polygon fill="(\w+)"', text)
    arrows = re.findall(r'class="edge">\s*<title>(.*?)->(.*?)</title>', text)
    return (
        {name for name, _ in nodes},
        {name for name, colour in nodes if colour == "orange"},
        set(arrows),
    )


def check_the_picture_is_what_the_program_draws():
    expect("](docs/impact.svg)" in README, True)
    found = drawn_in_the_picture()
    expect(tuple(map(len, found)), (6, 3, 5))
    expect(drawn_by_the_program(), found)


def line_for_terraform(address):
    url = f"http://{address}/state/prod"
    return f"export TF_HTTP_ADDRESS={url} TF_HTTP_LOCK_ADDRESS={url} TF_HTTP_UNLOCK_ADDRESS={url}\n"


def check_make_try_ends_with_a_server_that_runs_until_it_is_stopped():
    signal.alarm(60 * TRY_MINUTES)
    address = f"{LOOPBACK}:{free_port()}"
    with started(["make", "try", f"ADDRESS={address}"], cwd=TOP) as process:
        reads_until(process, line_for_terraform(address))
        expect(reply(address, "POST", "/state/prod", S1), (200, b""))
        os.killpg(process.pid, signal.SIGINT)
        process.wait(SECONDS)
        end = time.monotonic() + SECONDS
        while is_open(address) and time.monotonic() < end:
            time.sleep(0.2)
        expect(is_open(address), False, "the server has ended")


def is_open(address):
    host, port = address.split(":")
    with socket.socket() as probe:
        return probe.connect_ex((host, int(port))) == 0


def check_make_try_once_ends_by_itself():
    signal.alarm(60 * TRY_MINUTES)
    address = f"{LOOPBACK}:{free_port()}"
    words = ["make", "try", "ONCE=1", f"ADDRESS={address}"]
    ran = subprocess.run(
        words, cwd=TOP, stdin=subprocess.DEVNULL, capture_output=True, text=True, check=False
    )
    expect(
        (ran.returncode, line_for_terraform(address) in ran.stdout),
        (0, True),
        ran.stdout[-2000:] + ran.stderr,
    )
    expect(is_open(address), False)


def check_make_try_refuses_an_address_in_use():
    with socket.socket() as listener:
        listener.bind((LOOPBACK, 0))
        listener.listen()
        address = f"{LOOPBACK}:{listener.getsockname()[1]}"
        how = {"cwd": TOP, "capture_output": True, "text": True}
        ran = subprocess.run(["make", "try", f"ADDRESS={address}"], check=False, **how)
    expect(
        (ran.returncode != 0, "something listens at this address" in ran.stderr),
        (True, True),
        ran.stderr,
    )


def check_the_page_of_figures_has_the_form_that_make_bench_prints():
    """Each table has the heading and the columns of bench/page.py, and each row as many cells."""
    text = (TOP / "docs" / "PERFORMANCE.md").read_text()
    expect(text.endswith(f"\n\n{page.REPEAT}\n"), True)
    found = re.findall(r"^## (.*)\n\n(?:[^|#]+\n\n)?((?:\|.*\|\n)+)", text, re.M)
    wanted = [(heading, "|".join(columns)) for heading, _, columns in page.TABLES.values()]
    expect([(heading, rows.splitlines()[0][1:-1]) for heading, rows in found], wanted)
    for _, rows in found:
        expect(len({row.count("|") for row in rows.splitlines()}), 1, rows)


def check_the_figures_of_a_run_become_a_page():
    rows = [
        ["waits", "heads", "64", "1.0 s", "0.01 s"],
        ["rates", "GET", "2", "3", "4", "nginx 1.00"],
        ["times", "start", "1 s"],
    ]
    text = page.page("4 cores", rows)
    for line in (
        "One run of `make bench`: 4 cores.",
        "|GET|2|3|4|nginx 1.00|",
        "|start|1 s|||",
        "|heads|64|1.0 s|0.01 s|",
    ):
        expect(line in text, True, f"{line} in {text}")
    expect("## Calls" in text, False, "a table without rows")


def check_the_workflow_runs_the_test_on_a_runner_with_the_kit():
    text = (TOP / ".github" / "workflows" / "test.yml").read_text()
    expect(re.findall(r"^ +- run: (.*)$", text, re.M), ["make test"])
    expect("runs-on: [self-hosted, linux, x64, rattle-kit]" in text, True)
    templates = {path.name for path in (TOP / ".github").rglob("*") if path.is_file()}
    expect(
        templates, {"bug.yml", "proposal.yml", "config.yml", "pull_request_template.md", "test.yml"}
    )


if __name__ == "__main__":
    package.main()
    sys.exit(run_checks(checks_in(globals())))
