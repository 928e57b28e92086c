"""Runs `tfstatectl serve` with compactions: many in a row under clients, requested ones,
compactions on full disks, kills inside them, and Terraform. No acknowledged change may be missing,
and clients that retry as Terraform does see no error."""
import functools
import http.client
import json
import os
import random
import resource
import shutil
import signal
import socket
import subprocess
import threading
import time
from contextlib import ExitStack

import pytest

from checking import S1, STARTED, expect
from folder_program import STATUSES, limit_files, run
from folders import A, B, LOOPBACK, all_of, at_once, fresh, journals, named
from programs import preloaded
from pushers import GONE, SECONDS, TRIES, Pusher, has_come, newest, serials_of, serving
from serve_program import reply_of
from stdio_program import request_text

pytestmark = pytest.mark.usefixtures("tfstatectl")
SHIM = preloaded("kill_calls.c")
CHANGES = 500  # of each of 8 clients
NO_STATE = (404, b'{"error":"NoState"}')


def expect_all(folder, pushers, about):
    """Checks that each acknowledged push is in the journals, in order; the one after them may be
    there, once more for each try."""
    serials, _ = serials_of(folder)
    for pusher in pushers:
        expect(pusher.failures, [], about)
        there = serials.get(pusher.name, [])
        expect(there, sorted(there), f"{about}: the order of {pusher.name}")
        expect(sorted(set(there))[: pusher.acknowledged], list(range(1, pusher.acknowledged + 1)), f"{about}: {pusher.name}")


def expect_served(server, pushers):
    """Checks that a server has the last push of each name, or the one after it."""
    for pusher in pushers:
        if pusher.acknowledged:
            serial = json.loads(server.ask("GET", f"/state/{pusher.name}")[1])["serial"]
            expect(serial in (pusher.acknowledged, pusher.acknowledged + 1), True, f"{pusher.name}: {serial}, {pusher.acknowledged}")


def work(server, pushers, count):
    """Has each of some clients push this many times, concurrently. Returns the most tries of a
    push."""
    tries = at_once(lambda pusher: max(pusher.push() for _ in range(count)), pushers)
    for pusher in pushers:
        pusher.connection.close()
    return max(tries)


def test_many_compactions_in_a_row_lose_nothing():
    folder, least = fresh(), fresh() / "least"
    least.write_text("0")
    server = serving(folder, "--compact-entries", str(CHANGES), "--at-least-file", least, workers="8")
    pushers = [Pusher(server, f"n{k}") for k in range(8)]
    tries = work(server, pushers, CHANGES)
    expect_served(server, pushers)
    lines = server.kill().splitlines()
    serials, position = serials_of(folder)
    expect((position >= 8 * CHANGES, newest(folder) > 4, tries <= TRIES), (True, True, True), (position, newest(folder), tries))
    expect(len(lines), newest(folder), "a line for each term")
    expect(" bytes instead of " in lines[1] and " 8 names, requests waited " in lines[1], True, lines[1])
    expect(int(least.read_text()), position, "the least position was raised in each term")
    expect_all(folder, pushers, "after many terms")
    expect([serials[pusher.name][-1] for pusher in pushers], [CHANGES] * 8)
    again = serving(folder)
    expect_served(again, pushers)
    again.kill()


def test_a_file_requests_a_compaction():
    folder = fresh()
    server = serving(folder)
    expect(server.ask("POST", "/state/a", S1), (200, b""))
    expect(server.ask("LOCK", "/state/a", B), (200, b""))
    (folder / "compact").touch()
    has_come(lambda: newest(folder) == 2, "a turn comes")
    expect((server.ask("GET", "/state/a"), server.ask("LOCK", "/state/a", A)), ((200, S1), (423, B)))
    has_come(lambda: newest(folder / "old") == 1, "the one before is put away")
    expect(((folder / "compact").exists(), list(journals(folder))), (False, [2]))
    expect(server.ask("UNLOCK", "/state/a", B), (200, b""))
    line = server.kill().splitlines()[1]
    expect(f"{named(2)}.tfj from position 2: " in line and " 1 names, requests waited " in line, True, line)
    expect(serials_of(folder), ({"a": [1]}, 3))


def test_a_compaction_waits_for_no_client_and_keeps_its_connection():
    folder, text = fresh(), request_text("GET", "/state/a")
    # Of four workers one has a request that comes in two parts, one a client that is silent, one a
    # client between two requests, and one none.
    server = serving(folder, workers="4")
    address = (LOOPBACK, server.port)
    with ExitStack() as stack:
        begun, silent, idle = (stack.enter_context(socket.create_connection(address, timeout=SECONDS)) for _ in range(3))
        answers = {who: stack.enter_context(who.makefile("rb")) for who in (begun, silent, idle)}
        begun.sendall(text[:17])
        (folder / "compact").touch()
        idle.sendall(text)
        expect(reply_of(answers[idle]), NO_STATE, "before the compaction")
        has_come(lambda: newest(folder) == 2, "a compaction")
        for who, rest in ((idle, text), (silent, text), (begun, text[17:])):
            who.sendall(rest)
            expect(reply_of(answers[who]), NO_STATE, "after it, on the same connection")
    expect(server.ask("GET", "/state/a")[0], 404, "on a new one")
    server.kill()


def test_a_body_goes_on_after_each_compaction():
    folder, text = fresh(), S1[:-1] + b',"x":"' + b"x" * 100_000 + b'"}'
    server = serving(folder, workers="2")
    head, size = request_text("POST", "/state/a", text).split(b"\r\n\r\n")[0] + b"\r\n\r\n", len(text) // 3
    with socket.create_connection((LOOPBACK, server.port), timeout=SECONDS) as client, client.makefile("rb") as answers:
        client.sendall(head)
        for number, at in enumerate(range(0, len(text), size), 2):
            client.sendall(text[at : at + size])
            (folder / "compact").touch()
            has_come(lambda: newest(folder) == number or len(text) <= at + size, "a compaction within the body")
        expect(reply_of(answers), (200, b""), "the body is whole")
    expect(server.ask("GET", "/state/a"), (200, text))
    server.kill()


@pytest.mark.parametrize("size, count", [(1_000, 400), (1_000_000, 40)])
def test_no_request_fails_because_of_compactions(size, count):
    folder = fresh()
    server = serving(folder, "--compact-bytes", "8M" if size > 10_000 else "100K", workers="16")
    pushers = [Pusher(server, f"n{k}", b"x" * size) for k in range(8)]
    expect(work(server, pushers, count), 1, "tries of a push")
    expect(newest(folder) > 4, True, newest(folder))
    expect_served(server, pushers)
    server.kill()
    expect_all(folder, pushers, "on connections that last")


def grows(folder, size, *words, seconds):
    """Returns true if a push of this many bytes has the server continue in another journal within a
    time."""
    server, before = serving(folder, *words), newest(folder)
    expect(Pusher(server, "a", b"x" * size).push(), 1)
    end = time.monotonic() + seconds
    while time.monotonic() < end and newest(folder) == before:
        time.sleep(0.05)
    server.kill()
    return newest(folder) > before


@pytest.mark.parametrize("size, words, wanted", [
    (2_000, ("--compact-bytes", "2K"), True), (900, ("--compact-bytes=1K",), False), (1_000_000, ("--compact-bytes", "1M"), False),
    (0, ("--compact-entries", "1"), True), (0, ("--compact-entries=1K", "--compact-bytes=1G"), False)])
def test_bytes_and_entries_are_bounds(size, words, wanted):
    expect(grows(fresh(), size, *words, seconds=SECONDS if wanted else 2), wanted)


NO_BYTES = ("0", "0K", "x", "K", "-1", "1T", "1k", "1KK", "99999999999G", "18446744073709551616")


@pytest.mark.parametrize("words", [
    *(("--compact-bytes", number) for number in NO_BYTES), *(("--compact-entries", number) for number in ("0", "65001", "64K", "1G", "x")),
    ("--compact-bytes",), ("--compact-entries=",), ("--compact-bytes=0",)], ids=" ".join)
def test_wrong_bounds(words):
    folder = fresh(n1=b"TFJ1\n")
    status, output, errors = run("serve", folder, *words)
    expect((status, output, "error: " in errors), (STATUSES["Arguments"], "", True), f"{words}: {errors}")
    expect(all_of(folder), {f"{named(1)}.tfj": b"TFJ1\n"}, "nothing is changed")


def limit(server, size):
    """Limits the size of the files of a running server, or removes the limit."""
    _, most = resource.prlimit(server.process.pid, resource.RLIMIT_FSIZE)
    resource.prlimit(server.process.pid, resource.RLIMIT_FSIZE, (most if size is None else size, most))


def failed_compaction(*words):
    """Returns a server whose first compaction failed, because its files can't grow, and that
    continues, and its client."""
    def ignore():
        signal.signal(signal.SIGXFSZ, signal.SIG_IGN)
    folder = fresh()
    server = serving(folder, *words, preexec_fn=ignore)
    pusher = Pusher(server, "a", b"x" * 10_000)
    pusher.push()
    limit(server, 5_000)
    (folder / "compact").touch()
    lines = [server.process.stderr.readline().decode() for _ in range(2)]
    limit(server, None)
    expect(f"{named(2)}.tfj: CannotWrite" in lines[1], True, lines)
    expect((folder / "compact").exists(), False, "the file is taken")
    pusher.push()
    expect((sorted(path.name for path in folder.glob("*journal*.tfj*")), pusher.acknowledged), ([f"{named(1)}.tfj"], 2), "the journal goes on")
    return folder, server, pusher, time.monotonic()


@pytest.fixture(scope="module", autouse=True)
def failed(tfstatectl):
    """Yields a server whose compaction failed before the first test began; its minute passes
    meanwhile."""
    made = failed_compaction()
    STARTED.clear()
    yield made
    made[1].process.kill()


def test_a_failed_compaction_continues_the_old_journal():
    folder, server, pusher, _ = failed_compaction()
    time.sleep(1.5)
    pusher.push()
    expect(server.kill(), "", "there is no other try at once")
    expect(serials_of(folder), ({"a": [1, 2, 3]}, 3))
    again = serving(folder)
    expect_served(again, [pusher])
    again.kill()


def test_a_journal_that_fails_in_a_later_run_ends_the_server():
    folder = fresh()
    server = serving(folder, "--compact-entries", "2", preexec_fn=limit_files(2_000))
    pusher = Pusher(server, "a", b"x" * 400)
    for _ in range(6):
        pusher.push()
    has_come(lambda: newest(folder) > 2, "there are terms before")
    text = pusher.text(9)[:-2] + b"x" * 2_000 + b'"}'
    expect(server.ask("POST", "/state/a", text), (500, b'{"error":"JournalFault"}'))
    status, errors = server.end()
    expect((status, "JournalFault" in errors), (STATUSES["JournalFault"], True), errors)
    reads = serving(folder, "--serve-reads", "--compact-entries", "2", preexec_fn=limit_files(2_000))
    expect(reads.ask("POST", "/state/a", text), (500, b'{"error":"JournalFault"}'))
    (folder / "compact").touch()
    time.sleep(1.5)
    number = newest(folder)
    expect((reads.ask("POST", "/state/a", text)[0], reads.ask("GET", "/state/a")), (503, (200, pusher.text(6))))
    expect((newest(folder), reads.process.poll()), (number, None), "there is no turn over a journal that has failed")
    reads.kill()


class Freeing(Pusher):
    """A client that makes and deletes a name before each push, so that compactions free names."""

    def push(self):
        for method, body in (("POST", S1), ("DELETE", None)):
            try:
                self.server.ask(method, f"/state/gone-{self.acknowledged}", body)
            except GONE:
                pass
        return super().push()


def killed_at(client, turn):
    """Kills a server before the call with this number, while a client pushes, and checks that the
    next start has all that was acknowledged. Returns the number of retired journals."""
    folder = fresh()
    how = {"env": {**os.environ, "LD_PRELOAD": SHIM, "TURN": str(turn)}}
    server = serving(folder, "--compact-entries", "3", **how)
    pusher = client(server, "a")
    pusher.push_until_gone()
    expect(server.end()[0], -signal.SIGKILL, f"turn {turn}")
    again = serving(folder)
    expect_all(folder, [pusher], f"turn {turn}")
    expect_served(again, [pusher])
    again.kill()
    return len(journals(folder / "old"))


@pytest.mark.parametrize("client", [Pusher, Freeing])
def test_a_kill_at_each_call_of_compactions_loses_nothing(client):
    count = fresh() / "count"
    serving(fresh(), env={**os.environ, "LD_PRELOAD": SHIM, "TURN": "0", "COUNT": str(count)}).kill()
    first = len(count.read_bytes())
    olds = at_once(functools.partial(killed_at, client), range(first + 1, first + 73))
    expect(max(olds) > 2, True, f"some kills came after turns: {olds}")


def kill_once(folder, chance, pushers):
    """Kills a server at a random moment while clients push, with a compaction after every few
    changes."""
    server = serving(folder, "--compact-entries", str(chance.randrange(5, 60)), workers="4")
    for pusher in pushers:
        pusher.server, pusher.connection = server, http.client.HTTPConnection(LOOPBACK, server.port, timeout=SECONDS)
    expect_served(server, pushers)
    for pusher in pushers:
        serial = server.ask("GET", f"/state/{pusher.name}")
        pusher.acknowledged = json.loads(serial[1])["serial"] if serial[0] == 200 else 0
    threads = [threading.Thread(target=pusher.push_until_gone) for pusher in pushers]
    for thread in threads:
        thread.start()
    time.sleep(chance.random() * 0.8)
    server.kill()
    for thread in threads:
        thread.join()
    expect_all(folder, pushers, "after a kill")


def kill_often(turns, seed):
    """Kills a server this many times, and checks each time that nothing acknowledged is lost."""
    folder, chance = fresh(), random.Random(seed)
    pushers = [Pusher(Nowhere, f"n{k}") for k in range(3)]
    for _ in range(turns):
        kill_once(folder, chance, pushers)
    expect(newest(folder) > turns + 5, True, "there were turns")


class Nowhere:
    """The server of a client that doesn't have one yet."""

    port = 1


def test_kills_at_random_moments_lose_nothing():
    kill_often(30, 20261126)


BACKEND = """terraform {{
  backend "http" {{
    address        = "http://{address}/state/tf"
    lock_address   = "http://{address}/state/tf"
    unlock_address = "http://{address}/state/tf"
  }}
}}
resource "terraform_data" "a" {{ input = "{value}" }}
"""


def terraform(folder, *words):
    """Runs Terraform, which must succeed."""
    variables = {"CHECKPOINT_DISABLE": "1", "TF_IN_AUTOMATION": "1", "HOME": str(folder), "TF_CLI_CONFIG_FILE": "/dev/null"}
    ran = subprocess.run(["terraform", *words, "-no-color"], cwd=folder, env={**os.environ, **variables}, stdin=subprocess.DEVNULL,
                         capture_output=True, timeout=60, check=False)
    expect(ran.returncode, 0, f"{words}: {(ran.stdout + ran.stderr).decode()}")


def test_terraform_sees_no_error():
    if not shutil.which("terraform"):
        pytest.skip("terraform isn't installed")
    folder, project = fresh(), fresh()
    server = serving(folder, "--compact-entries", "50", workers="8")
    pushers = [Pusher(server, f"n{k}") for k in range(3)]
    threads = [threading.Thread(target=pusher.push_until_gone) for pusher in pushers]
    for thread in threads:
        thread.start()
    for value in range(5):
        (project / "main.tf").write_text(BACKEND.format(address=f"{LOOPBACK}:{server.port}", value=value))
        terraform(project, *(["apply", "-auto-approve"] if value else ["init"]))
    kept = json.loads(server.ask("GET", "/state/tf")[1])
    server.kill()
    for thread in threads:
        thread.join()
    expect((kept["resources"][0]["instances"][0]["attributes"]["input"]["value"], newest(folder) > 3), ("4", True))
    expect_all(folder, pushers, "beside Terraform")


def test_a_failed_compaction_is_retried_after_a_minute(failed):
    folder, server, pusher, began = failed
    STARTED.append(server.process)
    has_come(lambda: newest(folder) == 2, "another try", 75)
    expect(time.monotonic() - began > 55, True, "not before a minute is over")
    expect_served(server, [pusher])
    server.kill()
