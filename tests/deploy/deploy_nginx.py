"""Runs the setup of deploy/ with a real nginx over a unix socket: TLS, passwords, rights, other
hosts and pages of other sites, the log, locks, bodies of 16 MiB and in chunks, clients that are
slow or many, and a name with a server of its own. If nginx, openssl or curl isn't installed, it
says so in one line and fails."""
import base64
import contextlib
import hashlib
import http.client
import json
import os
import re
import shutil
import socket
import ssl
import subprocess
import sys
import time
from pathlib import Path

from checking import S2, SECONDS, STARTED, checks_in, expect, run_checks
from folder_program import Serving
from folders import A, B, FOLDER, LOOPBACK, S1, ask_over, free_port, fresh, journals
from journal_reader import read_journal
from repository import TOP

DEPLOY, ROOM = TOP / "deploy", Path(FOLDER.name)
LOG, HOST = ROOM / "tfstated.log", "tfstated.example.com"
USER, PASSWORD = "admin", "secret words"
# The users of deploy/nginx-access.conf, and one without a line in it.
USERS = [USER, "auditor", "network-ci", "stranger"]
MAX_BODY = 16777216
# The options of the unit for the fields that nginx sets.
FIELDS = re.findall(r"--(?:user|address)-header \S+", (DEPLOY / "tfstated.service").read_text())
AROUND = """{user}
worker_processes 2;
daemon off;
pid {room}/nginx.pid;
error_log {room}/error.log;
events {{}}
http {{
    access_log off;
    client_body_temp_path {room}/bodies;
    proxy_temp_path {room}/replies;
    fastcgi_temp_path {room}/unused-1;
    uwsgi_temp_path {room}/unused-2;
    scgi_temp_path {room}/unused-3;
    include {room}/site.conf;
}}
"""


def signed(user, password=PASSWORD):
    """Returns the field with a user's password."""
    return {"Authorization": "Basic " + base64.b64encode(f"{user}:{password}".encode()).decode()}


WITH_PASSWORD = signed(USER)


def quiet(*words):
    """Returns what a command writes. The command must succeed."""
    return subprocess.run([str(word) for word in words], capture_output=True, check=True, timeout=SECONDS).stdout


def replaced(text, old, new):
    """Returns a text with one place replaced."""
    expect(text.count(old), 1, f"the file of deploy/ has once: {old}")
    return text.replace(old, new)


def make_secrets():
    """Makes a certificate of this machine, its key, a file of passwords, and the file of rights."""
    subject = ["-subj", f"/CN={HOST}", "-addext", f"subjectAltName=IP:{LOOPBACK},DNS:{HOST}"]
    files = ["-keyout", ROOM / "key.pem", "-out", ROOM / "certificate.pem"]
    key = ["-newkey", "ec", "-pkeyopt", "ec_paramgen_curve:prime256v1", "-nodes"]
    quiet("openssl", "req", "-x509", *key, "-days", "2", *subject, *files)
    hashed = quiet("openssl", "passwd", "-6", PASSWORD).decode()
    (ROOM / "passwords").write_text("".join(f"{user}:{hashed}" for user in USERS))
    shutil.copy(DEPLOY / "nginx-access.conf", ROOM / "access.conf")


def site(socket_path, port, rate=1000):
    """Returns the site of deploy/nginx.conf with a port and files of this machine, a server's
    socket, and this number of requests a second. The address is a name of the site, too, because no
    resolver knows the host's name."""
    text = (DEPLOY / "nginx.conf").read_text()
    text = replaced(text, "server unix:/run/tfstated/tfstated.sock;", f"server unix:{socket_path};")
    text = replaced(text, "listen 443 ssl;", f"listen {LOOPBACK}:{port} ssl;")
    text = replaced(text, "listen 443 ssl default_server;", f"listen {LOOPBACK}:{port} ssl default_server;")
    text = replaced(text, f"server_name {HOST};", f"server_name {HOST} {LOOPBACK};")
    text = replaced(text, "/var/log/nginx/tfstated.log", str(LOG))
    text = replaced(text, "rate=20r/s", f"rate={rate}r/s")
    return text.replace("/etc/nginx/tfstated", str(ROOM))


def spread_site(servers, port):
    """Returns the site with the lines for a second server, which has the names that begin with
    `billing.`."""
    text = replaced(site(servers[0].path, port), "# ~^billing", "~^billing")
    text = replaced(text, "# upstream tfstated_2", "upstream tfstated_2")
    return replaced(text, "server unix:/run/tfstated-2/tfstated.sock;", f"server unix:{servers[1].path};")


def serving(folder=None, path=None, workers="2"):
    """Returns a server that listens on a unix socket, on a folder of its own if none is given, with
    the unit's options for clients."""
    fields = " ".join(FIELDS).split()
    return Serving(folder or fresh(n1=b"TFJ1\n"), *fields, path=path or fresh() / "tfstated.sock", workers=workers).listens()


class Nginx:
    """A running nginx with a site, until the block ends."""

    def __init__(self, text, port):
        self.text, self.port = text, port

    def __enter__(self):
        user = "user root;" if os.getuid() == 0 else ""
        (ROOM / "site.conf").write_text(self.text)
        (ROOM / "nginx.conf").write_text(AROUND.format(user=user, room=ROOM))
        words = ["nginx", "-p", str(ROOM), "-c", str(ROOM / "nginx.conf")]
        tried = subprocess.run([*words, "-t"], capture_output=True, check=False)
        expect(tried.returncode, 0, tried.stderr.decode())
        self.process = subprocess.Popen(words, stdin=subprocess.DEVNULL, stderr=subprocess.DEVNULL)
        STARTED.append(self.process)
        while not self.answers():
            expect(self.process.poll(), None, "it runs")
            time.sleep(0.05)
        return self

    def answers(self):
        with contextlib.suppress(OSError):
            socket.create_connection((LOOPBACK, self.port), timeout=SECONDS).close()
            return True
        return False

    def __exit__(self, *fault):
        self.process.terminate()
        self.process.wait(SECONDS)

    def connect(self):
        context = ssl.create_default_context(cafile=str(ROOM / "certificate.pem"))
        return http.client.HTTPSConnection(LOOPBACK, self.port, timeout=SECONDS, context=context)

    def ask(self, method, target, body=None, headers=WITH_PASSWORD):
        """Returns the status and the body of the reply to one request, on a connection of its
        own."""
        connection = self.connect()
        try:
            return ask_over(connection, method, target, body, headers)
        finally:
            connection.close()


@contextlib.contextmanager
def served(workers="4"):
    """Runs a server with nginx in front of it."""
    server, port = serving(workers=workers), free_port()
    with Nginx(site(server.path, port), port) as proxy:
        yield server, proxy
    server.kill()


def state_of(size):
    """Returns the text of a state of this many bytes."""
    return S1[:-1] + b',"x":"' + b"y" * (size - len(S1) - 7) + b'"}'


def check_passwords_are_asked_for_over_tls():
    with served() as (server, proxy):
        wrong = {"Authorization": "Basic " + base64.b64encode(b"team:secret").decode()}
        for method in ("GET", "POST", "LOCK", "UNLOCK", "DELETE"):
            for headers in ({}, wrong):
                expect(proxy.ask(method, "/state/a", S1, headers)[0], 401, f"{method} {headers}")
        expect(proxy.ask("GET", "/state/a"), (404, b'{"error":"NoState"}'))
        plain = http.client.HTTPConnection(LOOPBACK, proxy.port, timeout=SECONDS)
        expect(ask_over(plain, "GET", "/state/a", None, WITH_PASSWORD)[0], 400, "without TLS")
        with contextlib.suppress(ssl.SSLError):
            http.client.HTTPSConnection(LOOPBACK, proxy.port, context=ssl.create_default_context()).connect()
            raise AssertionError("another certificate is taken")


def check_each_user_may_do_what_its_line_says():
    with served() as (server, proxy):
        table = [
            ("admin", "POST", "/state/other", S1, 200), ("admin", "POST", "/state/network.a", S1, 200), ("admin", "GET", "/elsewhere", None, 404),
            ("auditor", "GET", "/state/other", None, 200), ("auditor", "GET", "/impact/other/any?of=t.a", None, 404),
            ("auditor", "LOCK", "/state/other", A, 403), ("auditor", "POST", "/state/other", S1, 403),
            ("auditor", "DELETE", "/state/other", None, 403), ("auditor", "UNLOCK", "/state/other", b"", 403),
            ("network-ci", "LOCK", "/state/network.a", A, 200), ("network-ci", "GET", "/state/network.a", None, 200),
            ("network-ci", "POST", "/state/network.a?ID=A", S1, 200), ("network-ci", "UNLOCK", "/state/network.a", A, 200),
            ("network-ci", "GET", "/impact/network.a/all?of=t.a", None, 404), ("network-ci", "DELETE", "/state/network.a", None, 403),
            ("stranger", "GET", "/state/network.a", None, 403), ("stranger", "POST", "/state/stranger", S1, 403),
        ]
        for user, method, target, body, wanted in table:
            expect(proxy.ask(method, target, body, signed(user))[0], wanted, f"{user} {method} {target}")
        expect(server.ask("GET", "/state/other"), (200, S1), "what was refused has changed nothing")


def check_no_target_leads_to_the_names_of_another_team():
    targets = """/state/other /impact/other/any?of=t.a /state/network. /state/networkx /state//network.a /state/network.a/../other
/state/network.a/ /state/other?x=/state/network.a /state/%6eetwork.a /state/other#/state/network.a //state/network.a /state/other%00network.a
/impact/network.a/any/../../other/any /state/network.a%2f..%2fother /x/state/network.a /STATE/network.a"""
    with served() as (server, proxy):
        expect(proxy.ask("POST", "/state/other", S2), (200, b""))
        for target in targets.split():
            status, body = proxy.ask("GET", target, None, signed("network-ci"))
            expect((status in (400, 403, 404), S2 in body), (True, False), f"{target}: {status}")
        for target in ("/state/other", "/state/other?x=/state/network.a", "/state/networkx"):
            expect(proxy.ask("GET", target, None, signed("network-ci"))[0], 403, target)


def check_a_wrong_password_is_401_whoever_it_is():
    with served() as (server, proxy):
        for user in [*USERS, "nobody", "admin:GET:", ""]:
            expect(proxy.ask("GET", "/state/a", None, signed(user, "wrong"))[0], 401, user)
            expect(proxy.ask("LOCK", "/state/network.a", A, signed(user, ""))[0], 401, user)


def check_a_request_for_another_host_is_421():
    with served() as (server, proxy):
        expect(proxy.ask("POST", "/state/a", S1), (200, b""))
        for host in ("localhost", "evil.example", f"evil.{HOST}", f"{HOST}.evil.example", f"evil.example:{proxy.port}", "127.0.0.2", "_"):
            for method, target in (("GET", "/state/a"), ("DELETE", "/state/a"), ("GET", "/healthz"), ("GET", "/may")):
                expect(proxy.ask(method, target, None, {**WITH_PASSWORD, "Host": host})[0], 421, f"{host} {method} {target}")
        for host in (HOST, HOST.upper(), f"{HOST}:{proxy.port}"):
            expect(proxy.ask("GET", "/state/a", None, {**WITH_PASSWORD, "Host": host}), (200, S1), host)
        words = ["-k", "-o", "-", "-w", "%{http_code}", "--connect-to", f"::{LOOPBACK}:{proxy.port}"]
        expect(quiet("curl", "-s", *words, "https://evil.example/state/a")[-3:], b"421", "also where TLS asks for it")


def check_a_page_of_another_site_is_403():
    with served() as (server, proxy):
        own = f"{LOOPBACK}:{proxy.port}"
        expect(proxy.ask("POST", "/state/a", S1, {**WITH_PASSWORD, "Origin": f"https://{own}"}), (200, b""), "a page of its own")
        others = ("https://evil.example", "null", f"http://{own}", f"https://{LOOPBACK}", f"https://{own}/", f"https://{own}.evil.example",
                  f"https://evil.example/{own}", f"https://{HOST}", f"https://{own} https://evil.example")
        for origin in others:
            for method, target, body in (("GET", "/state/a", None), ("POST", "/state/a", S2), ("LOCK", "/state/a", A), ("DELETE", "/state/a", None),
                                         ("GET", "/healthz", None)):
                expect(proxy.ask(method, target, body, {**WITH_PASSWORD, "Origin": origin})[0], 403, f"{origin} {method} {target}")
        headers = {**WITH_PASSWORD, "Host": HOST, "Origin": f"https://{HOST}"}
        expect(proxy.ask("GET", "/state/a", None, headers), (200, S1), "what was refused has changed nothing")


def check_the_socket_takes_requests_without_nginx():
    with served() as (server, proxy):
        words = ["curl", "-s", "--unix-socket", server.path, "http://localhost/state/a"]
        expect(quiet(*words), b'{"error":"NoState"}')
        expect(quiet(*words, "-d", S1.decode()), b"")
        expect((proxy.ask("GET", "/state/a"), quiet(*words)), ((200, S1), S1))


def check_the_log_has_a_line_of_json_for_each_request():
    LOG.write_text("")
    with served() as (server, proxy):
        proxy.ask("POST", '/state/a.b?ID="', S1)
        proxy.ask("GET", "/state/a.b", None, signed("auditor", "wrong"))
        proxy.ask("GET", "/healthz", None, {})
        proxy.ask("DELETE", "/state/x", None, signed("auditor"))
        lines = told_in(LOG, 3)
    fields = [[line[key] for key in ("user", "method", "name", "status", "from")] for line in lines]
    wanted = [["admin", "POST", "a.b", 409, LOOPBACK], ["auditor", "GET", "a.b", 401, LOOPBACK], ["auditor", "DELETE", "x", 403, LOOPBACK]]
    expect(fields, wanted)
    expect((lines[0]["target"], 0 <= lines[0]["seconds"] < SECONDS), ('/state/a.b?ID="', True))
    expect(lines[0]["time"][:3], "202", "a time as 2026-11-26T21:30:00+00:00")


def told_in(path, count):
    """Returns the lines of a log, once there are this many."""
    end = time.monotonic() + SECONDS
    while len(path.read_text().splitlines()) < count and time.monotonic() < end:
        time.sleep(0.05)
    lines = path.read_text().splitlines()
    expect(len(lines), count, lines)
    return [json.loads(line) for line in lines]


def check_healthz_tells_whether_the_server_answers():
    server, port = serving(), free_port()
    with Nginx(site(server.path, port), port) as proxy:
        expect(proxy.ask("GET", "/healthz", None, {}), (200, b"it answers\n"))
        for method in ("POST", "DELETE", "LOCK"):
            expect(proxy.ask(method, "/healthz", S1, {})[0], 403, method)
        server.kill()
        expect(proxy.ask("GET", "/healthz", None, {})[0], 502)


def check_a_flood_is_refused_and_what_is_usual_waits():
    """Of 300 concurrent requests 101 are answered, and up to 20 more in each second of their
    arrival."""
    server, port = serving(), free_port()
    with Nginx(site(server.path, port, rate=20), port) as proxy:
        began = time.monotonic()
        expect([proxy.ask("GET", "/state/a")[0] for _ in range(30)], [404] * 30)
        expect(time.monotonic() - began > 0.5, True, "30 requests wait, and are answered")
        connections = [proxy.connect() for _ in range(300)]
        # All have their connection before the first request, so the requests come at once, however
        # slow the machine is.
        for connection in connections:
            connection.connect()
        for connection in connections:
            connection.request("GET", "/state/a", headers=WITH_PASSWORD)
        found = [connection.getresponse().status for connection in connections]
        for connection in connections:
            connection.close()
        expect((set(found), found.count(404) > 100), ({404, 429}, True), f"{found.count(429)} are refused")
    server.kill()


def check_changes_locks_and_queries_pass():
    with served() as (server, proxy):
        resources = [{"mode": "managed", "type": "t", "name": name, "instances": [{"dependencies": needs}]}
                     for name, needs in (("a", []), ("b", ["t.a"]))]
        text = json.dumps({"version": 4, "serial": 1, "lineage": "L1", "resources": resources}).encode()
        table = [
            ("LOCK", "/state/a", A, (200, b"")), ("LOCK", "/state/a", B, (423, A)), ("POST", "/state/a", text, (423, A)),
            ("POST", "/state/a?ID=A", text, (200, b"")), ("GET", "/state/a", None, (200, text)),
            ("GET", "/impact/a/any?of=t.a", None, (200, b'{"instances":["t.b"],"position":2,"serial":1}')),
            ("GET", "/impact/a/all?" + "&".join(["of=t." + "n" * 120] * 64), None, (404, b'{"error":"UnknownAddress"}')),
            ("UNLOCK", "/state/a", B, (423, A)), ("UNLOCK", "/state/a", A, (200, b"")), ("LOCK", "/state/a", A, (200, b"")),
            ("UNLOCK", "/state/a", b"", (200, b"")), ("DELETE", "/state/a", None, (200, b"")),
            ("GET", "/state/a", None, (404, b'{"error":"NoState"}')),
            ("GET", "/state/a%20b", None, (400, b'{"error":"BadName"}')),
            ("GET", "/state//a", None, (404, b'{"error":"NoRoute"}')),
            ("PUT", "/state/a", S1, (405, b'{"error":"MethodNotAllowed"}')), ("HEAD", "/state/a", None, (405, b"")),
        ]
        for method, target, body, wanted in table:
            expect(proxy.ask(method, target, body), wanted, f"{method} {target[:60]}")
        for digest, wanted in ((base64.b64encode(hashlib.md5(S1).digest()).decode(), 200), ("1B2M2Y8AsgTpgAmY7PhCfg==", 400)):
            expect(proxy.ask("POST", "/state/m", S1, {**WITH_PASSWORD, "Content-MD5": digest})[0], wanted, digest)


def check_bodies_of_16_mebibytes_pass():
    with served() as (server, proxy):
        largest = state_of(MAX_BODY)
        expect(proxy.ask("POST", "/state/a", largest), (200, b""))
        status, body = proxy.ask("GET", "/state/a")
        expect((status, body == largest), (200, True))
        with contextlib.suppress(BrokenPipeError, ConnectionResetError, ssl.SSLEOFError):
            expect(proxy.ask("POST", "/state/b", largest + b" ")[0], 413)
        expect(server.ask("GET", "/state/b")[0], 404, "one byte more isn't passed on")


def chunked(pieces):
    """Returns a body in chunks (RFC 9112, section 7.1)."""
    return b"".join(b"%x\r\n%b\r\n" % (len(piece), piece) for piece in pieces) + b"0\r\n\r\n"


def check_bodies_in_chunks_pass():
    with served() as (server, proxy):
        largest = state_of(MAX_BODY)
        table = [("one", [S1], S1), ("each byte", [bytes([byte]) for byte in S1], S1),
                 ("70,000 chunks, more than the server takes", [bytes([byte]) for byte in state_of(70000)], state_of(70000)),
                 ("the largest", [largest[place : place + 65536] for place in range(0, MAX_BODY, 65536)], largest)]
        headers = {**WITH_PASSWORD, "Transfer-Encoding": "chunked"}
        for number, (about, pieces, text) in enumerate(table):
            expect(proxy.ask("POST", f"/state/a{number}", chunked(pieces), headers), (200, b""), about)
            status, body = server.ask("GET", f"/state/a{number}")
            expect((status, body == text), (200, True), about)
        expect(proxy.ask("LOCK", "/state/l", chunked([A[:5], A[5:]]), headers), (200, b""))
        expect(proxy.ask("UNLOCK", "/state/l", chunked([]), headers), (200, b""), "a forced unlock with no bytes in chunks")


def wait_as(kind, connection):
    """Acts as a client that sends a part of a body, sends a part of a head, or doesn't read its
    reply."""
    connection.connect()
    fields = "".join(f"{name}: {value}\r\n" for name, value in {"Host": LOOPBACK, **WITH_PASSWORD}.items())
    texts = {"body": f"POST /state/a HTTP/1.1\r\n{fields}Content-Length: 1000\r\n\r\n{'x' * 10}", "head": f"GET /state/a HTTP/1.1\r\n{fields}",
             "reply": f"GET /state/a HTTP/1.1\r\n{fields}\r\n"}
    connection.sock.sendall(texts[kind].encode())


def check_clients_that_wait_hold_no_worker():
    """The server has one worker. Each client that reached it before its request is complete, or
    while its reply isn't read, would hold this worker for 10 seconds or longer, and the request
    after all of them would exceed its time limit. nginx has more patience than that here."""
    server, port = serving(workers="1"), free_port()
    text, count = re.subn(r"\b(client_header_timeout|client_body_timeout|send_timeout) \d+s", r"\1 300s", site(server.path, port))
    expect(count, 3, "limits of time for clients")
    with Nginx(text, port) as proxy, contextlib.ExitStack() as held:
        expect(proxy.ask("POST", "/state/a", state_of(MAX_BODY)), (200, b""))
        for kind in ["body", "head"] * 15 + ["reply"] * 7:
            wait_as(kind, held.enter_context(contextlib.closing(proxy.connect())))
        again = proxy.connect()
        held.callback(again.close)
        expect(ask_over(again, "GET", "/state/b", None, WITH_PASSWORD)[0], 404)
        expect(proxy.ask("POST", "/state/b", S1), (200, b""))
    server.kill()


def check_a_server_that_is_away_is_told_and_comes_back():
    server, port = serving(), free_port()
    with Nginx(site(server.path, port), port) as proxy:
        expect(proxy.ask("POST", "/state/a", S1), (200, b""))
        server.kill()
        expect(proxy.ask("GET", "/state/a")[0], 502)
        serving(server.folder, server.path)
        expect(proxy.ask("GET", "/state/a"), (200, S1))


def check_a_name_has_the_server_of_its_line_and_all_others_the_first():
    servers, port = [serving(), serving()], free_port()
    firsts = [f"net-{number}.prod" for number in range(20)] + ["billing", "xbilling.a"]
    seconds = ["billing.a", "billing.b"]
    with Nginx(spread_site(servers, port), port) as proxy:
        for name in firsts + seconds:
            expect(proxy.ask("POST", f"/state/{name}?x=/state/billing.-", S1), (200, b""), name)
        for name in firsts + seconds:
            expect(proxy.ask("GET", f"/impact/{name}/any?of=t.a"), (404, b'{"error":"UnknownAddress"}'), name)
            expect(proxy.ask("GET", f"/state/{name}"), (200, S1), name)
        expect(proxy.ask("GET", "/state/%61")[0], 400)
    for server in servers:
        server.kill()
    kept = [{name for _, name, _ in read_journal(journals(server.folder)[2])[3]} for server in servers]
    expect(kept, [set(firsts), set(seconds)])


if __name__ == "__main__":
    missing = [name for name in ("nginx", "openssl", "curl") if not shutil.which(name)]
    if missing:
        sys.exit(f"not installed: {', '.join(missing)}")
    make_secrets()
    sys.exit(run_checks(checks_in(globals())))
