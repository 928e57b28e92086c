"""Runs `tfstatectl serve --listen unix:PATH` and talks to it over the socket: its mode and its
group, each request, a socket that an ended server has left, one that is in use, paths that are
refused, and who may connect. SIGTERM, compactions and restarts keep it."""
import contextlib
import errno
import os
import signal
import socket
import stat

import pytest

from checking import S1, S2, expect
from folder_program import Serving, ended
from folders import A, B, FOLDER, REBASED, SHORT, all_of, ask_over, at_once, fresh, goes_on_alone, journals
from programs import preloaded

pytestmark = pytest.mark.usefixtures("tfstatectl")
MODE, NOBODY, GROUP = 0o660, 65534, 54321
NO_STATE = (404, b'{"error":"NoState"}')
# The longest path of a socket, in bytes (unix(7) of Linux).
MAX_PATH = 107


def path_in(folder):
    return folder / "s"


def serving(folder, path=None, **how):
    """Returns a server on a folder that listens on a socket."""
    return Serving(folder, path=path or path_in(fresh()), **how).listens()


def look(path):
    """Returns whether a path is a socket, its permissions, and the number of its file."""
    found = path.lstat()
    return stat.S_ISSOCK(found.st_mode), stat.S_IMODE(found.st_mode), found.st_ino


def expect_socket(path):
    expect(look(path)[:2], (True, MODE), f"{path} is a socket for its user and its group")


def refused(path, status, fault, folder=None, **how):
    """Makes a start that must end with a fault, and leave the folder as it is."""
    folder = folder or fresh(n1=SHORT)
    before = all_of(folder)
    found, output, errors = ended(folder, "--listen", f"unix:{path}", **how)
    expect((found, output, f": {fault}: " in errors, len(errors.splitlines())), (status, "", True, 1), f"{path}: {errors}")
    expect(all_of(folder), before, f"{path}: nothing is changed")


def listening_at(path):
    """Returns a socket on which another program listens."""
    other = socket.socket(socket.AF_UNIX)
    other.bind(str(path))
    other.listen()
    return other


@pytest.mark.parametrize("mask", [0, 0o022, 0o077])
def test_the_socket_has_its_mode_before_anybody_can_connect(mask):
    reading, writing = os.pipe()
    how = {"env": {**os.environ, "LD_PRELOAD": preloaded("listen_modes.c"), "TRACE": str(writing)}, "pass_fds": [writing], "umask": mask}
    server = serving(fresh(n1=SHORT), **how)
    expect(os.read(reading, 100), b"%o\n" % MODE, f"by umask {mask:o}")
    expect_socket(server.path)
    server.kill()
    os.close(reading)
    os.close(writing)


def requests_of(name, position):
    """Returns requests of each kind for a workspace, with their replies; the first change gets this
    position."""
    target, instance = f"/state/{name}", b'{"mode":"managed","type":"t","name":"a","instances":[{}]}'
    text = S1[:-1] + b',"resources":[' + instance + b"]}"
    answer = b'{"instances":[],"position":%d,"serial":1}' % (position + 1)
    return [("GET", target, None, NO_STATE), ("LOCK", target, A, (200, b"")), ("LOCK", target, B, (423, A)), ("POST", target, text, (423, A)),
            ("POST", f"{target}?ID=A", text, (200, b"")), ("GET", target, None, (200, text)), ("GET", f"/impact/{name}/any?of=t.a", None, (200, answer)),
            ("UNLOCK", target, A, (200, b"")), ("DELETE", target, None, (200, b"")), ("GET", target, None, NO_STATE),
            ("GET", "/", None, (404, b'{"error":"NoRoute"}'))]


def test_each_request_is_answered_over_it():
    server = serving(fresh(n1=b"TFJ1\n"))
    for method, target, body, wanted in requests_of("a", 1):
        expect(server.ask(method, target, body), wanted, f"{method} {target}")
    with contextlib.closing(server.connect()) as one:
        for method, target, body, wanted in requests_of("b", 5):
            expect(ask_over(one, method, target, body), wanted, f"{method} {target}, on one connection")
    long = S1[:-1] + b',"x":"' + b"y" * (1 << 20) + b'"}'
    expect(server.ask("POST", "/state/c", long), (200, b""))
    expect(server.ask("GET", "/state/c") == (200, long), True, "more than a socket's buffers take")


def test_more_clients_than_workers_are_answered():
    server = serving(fresh(n1=SHORT), workers="1")
    with contextlib.ExitStack() as held:
        waiting = [held.enter_context(contextlib.closing(server.connect())) for _ in range(8)]
        for connection in waiting:
            connection.request("GET", "/state/a")
        for connection in waiting:
            expect(connection.getresponse().read(), S1)
            connection.close()


def write_and_read(case):
    """Writes on a connection, and reads each write on it."""
    server, number = case
    with contextlib.closing(server.connect()) as connection:
        for serial in range(1, 21):
            text = S1.replace(b"1 ", b"%d " % serial)
            expect(ask_over(connection, "POST", f"/state/n{number}", text), (200, b""))
            expect(ask_over(connection, "GET", f"/state/n{number}"), (200, text), "its own write")


def test_two_sessions_read_their_own_writes():
    server = serving(fresh(n1=SHORT), workers="2")
    at_once(write_and_read, [(server, number) for number in range(2)])
    with contextlib.closing(server.connect()) as first, contextlib.closing(server.connect()) as second:
        for writes, reads, text in ((first, second, S2), (second, first, S2.replace(b"2 ", b"3 "))):
            expect(ask_over(writes, "POST", "/state/a", text), (200, b""))
            for session in (writes, reads):
                expect(ask_over(session, "GET", "/state/a"), (200, text), "an acknowledged write")


def test_a_socket_that_an_ended_server_left_is_replaced():
    folder, path = fresh(n1=SHORT), path_in(fresh())
    for number in (signal.SIGKILL, signal.SIGTERM):
        server = serving(folder, path)
        expect(server.ask("GET", "/state/a"), (200, S1))
        server.process.send_signal(number)
        expect(server.end()[0], -number)
        expect(look(path)[0], True, "it is left")
    path.chmod(0o777)
    server = serving(folder, path)
    expect_socket(path)
    expect(server.ask("GET", "/state/a"), (200, S1))


def test_a_socket_in_use_is_refused():
    folder, path = fresh(n1=SHORT), path_in(fresh())
    server = serving(folder, path)
    before = look(path)
    refused(path, 20, "CannotBind")
    expect(ended(folder, "--listen", f"unix:{path}")[0], 20, "the same folder")
    expect((look(path), server.ask("GET", "/state/a")), (before, (200, S1)), "the server still has it")
    server.kill()
    path.unlink()
    with contextlib.closing(listening_at(path)):
        before = look(path)
        refused(path, 20, "CannotBind")
        expect(look(path), before, "another program's socket is left")


def test_a_second_start_in_the_folder_leaves_the_socket():
    folder, path = fresh(n1=SHORT), path_in(fresh())
    server = serving(folder, path)
    before = look(path)
    for other in (path, path_in(fresh())):
        status, _, errors = ended(folder, "--listen", f"unix:{other}")
        expect((status, ": Locked: " in errors), (20, True), errors)
    expect((look(path), other.exists(), server.ask("GET", "/state/a")), (before, False, (200, S1)))


def test_a_file_of_another_kind_is_refused():
    room = fresh()
    with contextlib.closing(listening_at(room / "listens")):
        (room / "file").write_bytes(b"kept")
        (room / "folder").mkdir()
        (room / "link").symlink_to("listens")
        (room / "nowhere").symlink_to("none")
        os.mkfifo(room / "pipe")
        before = sorted((path.name, path.lstat().st_ino, path.lstat().st_mode) for path in room.iterdir())
        for name in ("file", "folder", "link", "nowhere", "pipe"):
            refused(room / name, 21, "NotSocket")
        expect(sorted((path.name, path.lstat().st_ino, path.lstat().st_mode) for path in room.iterdir()), before, "each is left")
        expect((room / "file").read_bytes(), b"kept")


def test_paths_that_are_too_long_or_empty_are_refused():
    room = fresh()
    for path in ("", "x" * (MAX_PATH + 1), "x" * 5000):
        refused(path, 21, "SocketPath", cwd=room)
    for path in ("none/s", f"{'x' * 50}/s"):
        refused(path, 20, "CannotBind", cwd=room)
    expect(list(room.iterdir()), [])
    name = "x" * MAX_PATH
    serving(fresh(n1=SHORT), name, cwd=room).kill()
    expect_socket(room / name)


def connect_as_another(path, groups):
    """Becomes another user who is in these groups, and connects. Returns 0, or the number of the
    error."""
    os.setgroups(groups)
    os.setgid(NOBODY)
    os.setuid(NOBODY)
    with socket.socket(socket.AF_UNIX) as connection:
        return connection.connect_ex(str(path))


def connects(path, *groups):
    """Returns true if another user who is in these groups may connect."""
    child = os.fork()
    if child == 0:
        os._exit(connect_as_another(path, groups))
    status = os.waitstatus_to_exitcode(os.waitpid(child, 0)[1])
    expect(status in (0, errno.EACCES), True, f"error {status}")
    return status == 0


def test_only_its_user_and_its_group_may_connect():
    if os.getuid():
        pytest.skip("only root can connect as another user")
    os.chmod(FOLDER.name, 0o711)
    room = fresh()
    os.chown(room, 0, GROUP)
    for mode, others in ((0o2755, True), (0o2750, False)):
        room.chmod(mode)
        server = serving(fresh(n1=SHORT), path_in(room))
        expect_socket(server.path)
        expect(server.path.stat().st_gid, GROUP, "the group of its folder")
        expect((connects(server.path), connects(server.path, GROUP)), (False, True), f"in a folder of mode {mode:o}")
        server.path.chmod(0o666)
        expect(connects(server.path), others, "its mode refused other users, or its folder does")
        server.kill()


def test_compactions_and_restarts_keep_it():
    folder, path = fresh(n1=SHORT), path_in(fresh())
    server = serving(folder, path)
    first = look(path)
    with contextlib.closing(server.connect()) as session:
        expect(ask_over(session, "POST", "/state/a", S2), (200, b""))
        expect(ask_over(session, "LOCK", "/state/a", B), (200, b""))
        before = goes_on_alone(folder)
        (folder / "compact").touch()
        goes_on_alone(folder, before)
    expect((look(path), server.ask("GET", "/state/a")), (first, (200, S2)), "the compaction keeps the socket")
    server.process.send_signal(signal.SIGTERM)
    expect(server.end()[0], -signal.SIGTERM)
    expect(list(journals(folder).values()), [REBASED])
    server = serving(folder, path)
    expect_socket(path)
    expect((server.ask("GET", "/state/a"), server.ask("LOCK", "/state/a", A)), ((200, S2), (423, B)), "the restart has state and lock")
