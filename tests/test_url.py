"""Runs `tfstatectl impact --plan` on the state of a running server: over TCP and a unix socket, with a
prefix of its target, and with servers and addresses that give no state."""
import contextlib
import socket
import threading

import pytest

from checking import expect
from folder_program import STATUSES, Serving, run
from folders import LOOPBACK, fresh
from plan_texts import STATE, change, plan_of

pytestmark = pytest.mark.usefixtures("tfstatectl")


@pytest.fixture(scope="module", name="plan")
def written_plan():
    """Returns the path of a plan that updates an instance of the state."""
    path = fresh() / "plan.json"
    path.write_bytes(plan_of(change("t.vpc", "update")))
    return path


def impact(plan, url, name="net"):
    return run("impact", "--plan", plan, "--url", url, name)


def test_the_state_comes_from_a_running_server(plan):
    folder = fresh()
    server = Serving(folder, "--first").listens()
    expect(server.ask("POST", "/state/net", STATE)[0], 200)
    wanted = run("impact", "--plan", plan, "--folder", folder, "net")
    expect((wanted[0], "t.dns" in wanted[1]), (0, True))
    for url in (f"http://{LOOPBACK}:{server.port}", f"http://{LOOPBACK}:{server.port}/"):
        expect(impact(plan, url), wanted, url)
    expect(impact(plan, f"http://{LOOPBACK}:{server.port}", "none")[0], STATUSES["NoState"])
    server.kill()
    local = Serving(folder, path=folder / "socket").listens()
    expect(impact(plan, f"unix:{folder}/socket"), wanted)
    local.kill()


@contextlib.contextmanager
def replying(*pieces):
    """Runs a server that replies with these bytes to each request, and yields its address and the
    heads of the requests."""
    heads = []
    with socket.create_server((LOOPBACK, 0)) as listener:
        def work():
            with contextlib.suppress(OSError):
                while True:
                    connection = listener.accept()[0]
                    with connection, contextlib.suppress(OSError):
                        heads.append(connection.recv(65536))
                        for piece in pieces:
                            connection.sendall(piece)
        thread = threading.Thread(target=work, daemon=True)
        thread.start()
        yield f"http://{LOOPBACK}:{listener.getsockname()[1]}", heads
        listener.shutdown(socket.SHUT_RDWR)
        thread.join()


def reply(body, *fields, status="200 OK"):
    return "\r\n".join([f"HTTP/1.1 {status}", *fields, "", ""]).encode() + body


SIZED = f"Content-Length: {len(STATE)}"


@pytest.mark.parametrize("pieces, wanted", [
    ((reply(STATE, SIZED),), 0), ((reply(STATE),), 0), ((reply(STATE, "X: y", SIZED.lower()),), 0),
    ((b"", reply(b"", SIZED), STATE[:5], STATE[5:]), 0), ((reply(STATE[:-1], SIZED),), "NoReply"), ((reply(STATE + b" ", SIZED),), "NoReply"),
    ((reply(b"", SIZED),), "NoReply"), ((b"",), "NoReply"), ((b"HTTP/1.1 200 OK\r\n",), "NoReply"), ((b"no reply at all\r\n\r\n",), "NoReply"),
    ((reply(STATE, SIZED, status="500 Internal Server Error"),), "Status"), ((reply(b"", status="401 Unauthorized"),), "Status"),
    ((reply(b"", status="301 Moved Permanently"),), "Status"), ((reply(b"", status="404 Not Found"),), "NoState"),
    ((reply(b"no state"),), "BadState"), ((reply(b" " * 16777217),), "LargeState"), ((reply(b" " * 17000000),), "LargeState")], ids=range(17))
def test_a_reply_is_a_state_or_has_a_fault(plan, pieces, wanted):
    with replying(*pieces) as (url, heads):
        status, output, errors = impact(plan, url)
    expect((status, bool(output)), (STATUSES.get(wanted, 0), not wanted), errors)
    if wanted:
        expect((f" {wanted}: " in errors, len(errors.splitlines())), (True, 1), errors)
    expect(heads, [f"GET /state/net HTTP/1.0\r\nHost: {url[7:]}\r\n\r\n".encode()])


def test_an_address_may_have_a_prefix(plan):
    with replying(reply(STATE, SIZED)) as (url, heads):
        expect(impact(plan, f"{url}/a/b/")[0], 0)
    expect(heads[0].split(b"\r\n")[0], b"GET /a/b/state/net HTTP/1.0")


@pytest.mark.parametrize("url, fault", [
    ("https://localhost", "BadUrl"), ("localhost:80", "BadUrl"), ("http://", "BadUrl"), ("", "BadUrl"), ("http:///state", "BadUrl"),
    ("http://a b", "BadUrl"), ("http://a/\x01", "BadUrl"), ("http://a/\r\nX: y", "BadUrl"), ("unix:/nowhere", "CannotRead"),
    ("unix:", "CannotRead")])
def test_an_address_that_gives_no_state_is_reported(plan, url, fault):
    status, output, errors = impact(plan, url)
    expect((status, output, f"tfstatectl: --url: {fault}: " in errors), (STATUSES[fault], "", True), errors)


def test_a_server_that_does_not_run_is_reported(plan):
    with socket.socket() as held:
        held.bind((LOOPBACK, 0))
        status, output, errors = impact(plan, f"http://{LOOPBACK}:{held.getsockname()[1]}")
    expect((status, output, "tfstatectl: --url: CannotRead: " in errors), (STATUSES["CannotRead"], "", True), errors)


def test_other_sources_are_refused_with_it(plan):
    for words in (("--state", "x"), ("--folder", "x", "net"), ("any", "t.a")):
        expect(run("impact", "--plan", plan, "--url", "unix:x", "net", *words)[0], STATUSES["Arguments"], words)
    expect(run("impact", "--plan", plan, "--url", "unix:x")[0], STATUSES["Arguments"], "without a name")
    expect(impact(plan, "unix:x", "no name")[0], STATUSES["NoName"])
