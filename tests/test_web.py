"""Asks the page of `tfstatectl web` for its answers over HTTP: what they have, and what no answer
has; who sees what; requests that are refused; and a folder that changes meanwhile."""
import json
import socket
import time
import urllib.parse

import pytest

from checking import S1, S2, SECONDS, expect
from folder_program import STATUSES, Serving
from folders import LOOPBACK, all_of, fresh, goes_on_alone, named
from impact_model import impact, instances_of
from journal_reader import push_content, record_text
from past_program import WHO, some_past
from sample_states import groups, resource, text_of
from stdio_model import members_of
from web_program import PAGE, Web

pytestmark = pytest.mark.usefixtures("tfstatectl")
POLICY = ("default-src 'none'; script-src 'self'; style-src 'self'; connect-src 'self'; img-src 'self' data:; base-uri 'none'; form-action 'none'; "
          "frame-ancestors 'none'")
ODD = ['a"b', "<img src=x onerror=alert(1)>", "c\\d", "e\nf", "é\u202e"]
SECRET = "secret-in-no-answer"
STATE = text_of([
    resource("net", [{"attributes": {"password": SECRET}}]),
    resource("odd", [{"index_key": key, "attributes": {"password": SECRET}, "dependencies": ["t.net"]} for key in ODD]),
    resource("top", [{"dependencies": ["t.odd", "t.gone"], "private": SECRET}], module='module.m["x"]'),
], outputs={"token": {"value": SECRET, "type": "string"}})
ADDRESSES = ["t.net", *(f"t.odd[{json.dumps(key, ensure_ascii=False)}]" for key in ODD)]


def push(name, text, identifier=b""):
    return record_text(3, name, push_content(identifier, text))


def lock(name, info):
    return record_text(1, name, json.dumps(info).encode())


def folder_of(*records):
    return fresh(n1=b"TFJ1\n" + b"".join(records))


def some_workspaces(*names):
    return folder_of(*(push(name.encode(), S1) for name in names))


def access(*lines):
    """Returns a new access file."""
    path = fresh() / "access.conf"
    path.write_text("".join(f"{line}\n" for line in lines))
    return path


def impact_of(name, kind, addresses):
    return f"/{name}/impact?" + urllib.parse.urlencode([("kind", kind), *(("address", text) for text in addresses)])


def test_the_workspaces_with_their_states_changes_and_locks():
    with Web(some_past()) as web:
        status, answer = web.ask()
        row = answer["workspaces"][0]
        expect(isinstance(row["workspace"].pop("held"), int), True)
    expect((status, answer["position"]), (200, 3))
    expect(row, {"workspace": {"name": "a", "serial": 2, "instances": 0, "bytes": 41, "changed": 3, "holder": "x", "who": "ann@build",
                               "operation": "OperationTypeApply", "created": "2026-02-03T04:05:06Z"},
                 "changed_by": "ann@build", "changed_at": "2026-02-03T04:05:06Z"})


def test_who_made_the_last_change():
    info = {"ID": "x", "Who": "ann", "Created": "2026-02-03T04:05:06Z"}
    held = [lock(b"a", info), push(b"a", S1, b"x")]
    folder = folder_of(*held, record_text(2, b"a", b"x"), lock(b"b", info), push(b"b", S1, b"x"), record_text(2, b"b", b""), push(b"c", S1),
                       lock(b"d", info))
    with Web(folder) as web:
        found = {row["workspace"]["name"]: row["changed_by"] for row in web.ask()[1]["workspaces"]}
    expect(found, {"a": "ann", "b": None, "c": None, "d": "ann"}, "an unlock of one's own, a forced one, no lock, a lock")


def test_the_last_change_is_as_recorded_or_else_by_its_lock():
    info = {"ID": "x", "Who": "ben@laptop", "Created": "2026-02-03T01:02:03Z"}
    folder = folder_of(lock(b"a", info), push(b"a", S1, b"x"), push(b"b", S1), lock(b"c", info), push(b"c", S1, b"x"), push(b"d", S1), push(b"e", S1),
                       lock(b"f", info), push(b"f", S1, b"x"))
    log, made = folder / f"{named(1)}.who", "2026-02-03T04:04:05.006Z"
    with Web(folder) as web:
        last = lambda: {row["workspace"]["name"]: (row["changed_by"], row["changed_at"]) for row in web.ask()[1]["workspaces"]}
        locked, unknown = ("ben@laptop", "2026-02-03T01:02:03Z"), (None, None)
        expect(last(), {"a": locked, "b": unknown, "c": locked, "d": unknown, "e": unknown, "f": locked}, "no log")
        log.write_text("1 1770091445006 203.0.113.9 zoe\n2 1770091445006 203.0.113.7 ann\n3 1770091445006 203.0.113.8 -\n"
                       "6 1770091445006 - %FF%22%3Cb%3E%1B%E2%80%AE%2D%25\n7 1770091445006 - -\n9 1770091445006 - -\n")
        expect(last(), {"a": ("ann", made), "b": ("203.0.113.8", made), "c": locked, "d": ('\ufffd"<b>\x1b\u202e-%', made), "e": (None, made),
                        "f": ("ben@laptop", made)}, "a user, an address alone, no record, odd bytes, neither, neither but a lock")
        acts = {name: web.ask(f"/{name}")[1]["acts"][0] for name in "abcd"}
        expect([tuple(acts[name].get(key) for key in ("user", "address", "time")) for name in "abcd"],
               [("ann", "203.0.113.7", made), (None, "203.0.113.8", made), (None, None, None), ('\ufffd"<b>\x1b\u202e-%', None, made)])
        expect(b"\x1b" in web.send("GET", "/api/workspaces")[2], False)
        log.write_text("2 1770091445006 203.0.113.7 ann\n5 1770091445006 203.0.113.7 max")
        expect(last()["c"], locked, "an incomplete line")
        log.write_text("2 1770091445006 203.0.113.7 ann\n5 1770091445006 203.0.113.7 max\n")
        expect(last()["c"], ("max", made))


def test_a_user_sees_who_changed_its_own_workspaces_alone():
    folder = folder_of(push(b"a", S1), push(b"hidden", S1))
    (folder / f"{named(1)}.who").write_text("1 1770091445006 203.0.113.7 ann\n2 1770091445006 203.0.113.8 max\n")
    with Web(folder, "--access", access('"~^ann:GET:a$" 1;'), path=fresh() / "web.sock") as web:
        for target in ("", "/a", "/hidden"):
            _, _, body = web.send("GET", f"/api/workspaces{target}", {"X-Remote-User": "ann"})
            expect((b"max" in body, b"203.0.113.8" in body), (False, False), target)
        expect(web.ask(user="ann")[1]["workspaces"][0]["changed_by"], "ann")


def test_the_history_of_a_workspace():
    with Web(some_past()) as web:
        status, answer = web.ask("/a")
        expect((status, web.ask("/b")), (200, (404, {"error": "NoName"})))
    expect([(act["position"], act["act"]) for act in answer["acts"]], [(3, "lock"), (2, "push"), (1, "push")])
    expect(answer["current"]["workspace"]["serial"], 2)
    expect(answer["acts"][0]["who"], WHO["Who"])


def test_the_history_has_the_recorded_times_and_users():
    server = Serving(fresh(), "--first", "--user-header", "X-Remote-User").listens()
    connection = server.connect()
    connection.request("POST", "/state/a", S1, {"X-Remote-User": "ann"})
    expect(connection.getresponse().status, 200)
    connection.close()
    with Web(server.folder) as web:
        act, row = web.ask("/a")[1]["acts"][0], web.ask()[1]["workspaces"][0]
    server.kill()
    expect((act["position"], act["act"], act["user"], act["time"][:2]), (1, "push", "ann", "20"))
    expect((row["changed_by"], row["changed_at"]), ("ann", act["time"]))


def test_the_changes_between_two_positions_are_by_address():
    then, now = text_of([resource("a", [{"attributes": {"x": SECRET}}]), resource("b", [{}])], serial=1), text_of(
        [resource("a", [{"attributes": {"x": SECRET + "2"}}]), resource("c", [{"index_key": '<b>"'}])], serial=2)
    with Web(folder_of(push(b"a", then), push(b"a", now))) as web:
        expect(web.ask("/a/changes?from=1&to=2"), (200, {"changes": [
            {"change": "changed", "instance": "t.a"}, {"change": "removed", "instance": "t.b"}, {"change": "added", "instance": 't.c["<b>\\""]'}]}))
        for query, wanted in (("from=1&to=3", (404, "NoPosition")), ("from=0&to=1", (404, "NoState")), ("from=1", (400, "BadQuery")),
                              ("from=1&to=x", (400, "BadQuery")), ("from=1&to=2&to=2", (400, "BadQuery")), ("", (400, "BadQuery")),
                              ("from=1&to=18446744073709551616", (400, "BadQuery"))):
            expect(web.ask(f"/a/changes?{query}"), (wanted[0], {"error": wanted[1]}), query)


def test_the_instances_with_their_dependencies():
    with Web(folder_of(push(b"a", STATE), record_text(1, b"b", b'{"ID":"x"}'))) as web:
        status, answer = web.ask("/a/instances")
        expect((status, answer["serial"], answer["position"]), (200, 7, 2))
        expect(web.ask("/b/instances"), (404, {"error": "NoState"}))
    rows = answer["instances"]
    expect([row["address"] for row in rows[:2]], ADDRESSES[:2])
    expect([row["resource"] for row in rows], ["t.net", *["t.odd"] * len(ODD), "module.m.t.top"])
    numbers = {row["resource"]: row["number"] for row in rows}
    expect(len(set(numbers.values())), 3)
    expect([sorted(row["dependencies"]) for row in rows[:2]], [[], [numbers["t.net"]]])
    expect(numbers["t.odd"] in rows[-1]["dependencies"], True)


@pytest.mark.parametrize("kind", ["any", "all"])
def test_the_impact_is_the_servers(kind):
    text = groups(512)
    instances = instances_of(members_of(text, "BadState"))
    queries = [["t.r1"], ["t.r2[3]", "t.r4"], ["t.r7"]]
    with Web(folder_of(push(b"a", text))) as web:
        for addresses in queries:
            status, answer = web.ask(impact_of("a", kind, addresses))
            expect((status, [row["address"] for row in answer["instances"]]), (200, impact(kind, addresses, instances)), addresses)
        for addresses, wanted in (([], (400, "BadQuery")), (["t.gone"], (404, "UnknownAddress")), (["t.r1"] * 65, (400, "BadQuery"))):
            expect(web.ask(impact_of("a", kind, addresses)), (wanted[0], {"error": wanted[1]}), addresses[:2])
        expect(web.ask("/a/impact?address=t.r1")[0], 400)
        expect(web.ask(f"/a/impact?kind={kind}&kind={kind}&address=t.r1")[0], 400)


def test_no_answer_has_an_attribute_an_output_or_private_data():
    later = STATE.replace(b'"serial":7', b'"serial":8').replace(SECRET.encode(), (SECRET + "-new").encode())
    with Web(folder_of(push(b"a", STATE), push(b"a", later))) as web:
        targets = ["", "/a", "/a/changes?from=1&to=2", "/a/instances", impact_of("a", "any", ["t.net"]), impact_of("a", "all", ["t.net"])]
        for target in targets:
            status, _, body = web.send("GET", f"/api/workspaces{target}")
            expect((status, SECRET.encode() in body, b"password" in body), (200, False, False), target)


def test_odd_addresses_and_lock_information_are_texts_of_json():
    info = {"ID": "x", "Who": "<script>alert(1)</script>\x1b[31m", "Operation": "</td>\u2028", "Created": "then"}
    with Web(folder_of(push(b"a", STATE), lock(b"a", info))) as web:
        for target in ("", "/a", "/a/instances"):
            status, fields, body = web.send("GET", f"/api/workspaces{target}")
            expect((status, fields["content-type"], b"\x1b" in body), (200, "application/json", False), target)
        row = web.ask()[1]["workspaces"][0]["workspace"]
        expect((row["who"], row["operation"], row["held"]), (info["Who"], info["Operation"], None))
        expect(web.ask(impact_of("a", "any", [ADDRESSES[1]]))[1]["instances"][0]["address"], 'module.m["x"].t.top')


def test_the_head_of_each_reply():
    with Web(some_workspaces("a")) as web:
        targets = [("GET", "/"), ("GET", "/page.js"), ("GET", "/page.css"), ("GET", "/api/workspaces"), ("GET", "/none"), ("POST", "/"), ("GET", "/api/workspaces/b")]
        for method, target in targets:
            _, fields, _ = web.send(method, target)
            expect((fields["content-security-policy"], fields["x-content-type-options"], fields["referrer-policy"]), (POLICY, "nosniff", "no-referrer"), target)
            kept = "no-cache" if (method, target) in targets[:3] else "no-store"
            expect(fields["cache-control"], kept, target)
        for name in sorted(path.name for path in PAGE.iterdir()):
            target = "/" if name == "index.html" else f"/{name}"
            status, fields, body = web.send("GET", target)
            kind = {"html": "text/html", "css": "text/css", "js": "text/javascript"}[name.rpartition(".")[2]]
            expect((status, fields["content-type"], body), (200, f"{kind}; charset=utf-8", (PAGE / name).read_bytes()), name)


def test_only_get_and_head_are_answered():
    folder = some_workspaces("a")
    before = all_of(folder)
    with Web(folder) as web:
        for method in ("POST", "PUT", "DELETE", "PATCH", "LOCK", "UNLOCK", "OPTIONS", "TRACE", "get"):
            status, fields, body = web.send(method, "/api/workspaces/a")
            expect((status, fields["allow"], json.loads(body)), (405, "GET, HEAD", {"error": "MethodNotAllowed"}), method)
        status, fields, body = web.send("HEAD", "/api/workspaces/a")
        expect((status, body, int(fields["content-length"]) > 0), (200, b"", True))
    expect(all_of(folder), before, "no request changes anything")


def test_paths_that_show_nothing():
    with Web(some_workspaces("a")) as web:
        for target in ("/index.html", "/api", "/api/", "/api/workspace", "/api/workspacesa", "/api/workspaces/", "/api/workspaces//", "/api/workspaces/a/other",
                       "/api/workspaces/a/instances/", "/api/workspaces/a b", "/api/workspaces/%61", "/page.js/", "//page.js", "/../page.js",
                       "/deploy/web/page.js", "/page%2ejs", f"/api/workspaces/{'a' * 65}"):
            expect(web.send("GET", urllib.parse.quote(target, safe="/%"))[0], 404, target)
        expect(web.ask("/a/")[0], 200)


def test_bad_requests_end_their_connection_alone():
    with Web(some_workspaces("a")) as web:
        for text in (b"GET / HTTP/1.1\r\nHost: a b\r\n\r\n", b"GET /\r\n\r\n", b"\x16\x03\x01\x00\r\n\r\n", b"GET / HTTP/1.1\r\nHost: x\r\nx" + b"y" * 20_000,
                     b"GET / HTTP/1.1\r\nHost: x\r\nContent-Length: -1\r\n\r\n"):
            with socket.create_connection((LOOPBACK, web.port), timeout=SECONDS) as client:
                client.sendall(text)
                head = client.recv(100)
                expect(head.split(b" ")[1][:1], b"4", text[:40])
        idle = [socket.create_connection((LOOPBACK, web.port), timeout=SECONDS) for _ in range(4)]
        expect(web.names(), ["a"])
        end = time.monotonic() + SECONDS
        while any(client.recv(1) for client in idle) and time.monotonic() < end:
            pass
        expect(time.monotonic() < end, True, "idle connections are closed")


def test_a_page_of_another_site_gets_no_answer():
    with Web(some_workspaces("a")) as web:
        for host, wanted in ((f"localhost:{web.port}", 200), (f"127.0.0.1:{web.port}", 200), ("localhost", 200), (f"[::1]:{web.port}", 200),
                             (f"evil.example:{web.port}", 421), ("localhost.evil.example", 421), ("127.0.0.1.nip.io", 421)):
            expect(web.send("GET", "/api/workspaces", {"Host": host})[0], wanted, host)


def test_each_user_sees_what_the_access_file_says():
    file = access("# who may do what", "", r'"~^admin:" 1;', r'"~^auditor:GET:" 1;', r'  "~^net\.ci:(?:(GET|LOCK):network\.)" 1;  ', '~^plain:GET:a$ 1;',
                  '"~^pusher:(POST|LOCK):" 1;')
    folder = some_workspaces("a", "ab", "network.a", "networkxa")
    with Web(folder, "--access", file, path=fresh() / "web.sock") as web:
        seen = {"admin": ["a", "ab", "network.a", "networkxa"], "auditor": ["a", "ab", "network.a", "networkxa"], "net.ci": ["network.a"],
                "netxci": [], "plain": ["a"], "pusher": [], "stranger": [], "admi": [], "xadmin": []}
        for user, names in seen.items():
            expect(web.names(user), names, user)
            for name in ("a", "ab", "network.a", "networkxa"):
                wanted = 200 if name in names else 404
                for target in (f"/{name}", f"/{name}/instances", f"/{name}/changes?from=1&to=1", impact_of(name, "any", ["t.a"])):
                    status, answer = web.ask(target, user)
                    if wanted == 404:
                        expect((status, answer), (404, {"error": "NoName"}), f"{user} {target}")
                    else:
                        expect(answer.get("error") == "NoName", False, f"{user} {target}")


def test_a_request_without_a_valid_user_is_refused():
    file = access(r'"~^.*:" 1;')
    with Web(some_workspaces("a"), "--access", file, path=fresh() / "web.sock") as web:
        expect(web.ask(user="ann"), (200, web.ask(user="ann")[1]))
        for user in (None, "", "a b", "a:b", "a" * 65, "ann\xe9", '"'):
            expect(web.ask(user=user), (403, {"error": "NoUser"}), repr(user))
        expect(web.send("GET", "/")[0], 200, "the page itself has no data")


def test_an_access_file_is_read_at_each_request():
    file = access('"~^ann:GET:a$" 1;')
    with Web(some_workspaces("a", "b"), "--access", file, path=fresh() / "web.sock") as web:
        expect(web.names("ann"), ["a"])
        file.write_text('"~^ann:GET:b$" 1;\n')
        expect(web.names("ann"), ["b"])
        for line in ('"~^ann:" 0;', '"~*^ann:" 1;', "ann:GET:b 1;", '"~^ann:(?=GET)" 1;', '"~^ann:GET:b++" 1;', '"~^ann:[[:alpha:]]" 1;', '"~^ann:(" 1;',
                     'include other;', '"~^ann:" 1', r'"~^ann:\x41" 1;', '"~^ann:(?i)get:" 1;'):
            file.write_text(f'"~^ann:GET:b$" 1;\n{line}\n')
            expect(web.ask(user="ann"), (503, {"error": "NoAccessFile"}), line)
        file.unlink()
        expect(web.ask(user="ann"), (503, {"error": "NoAccessFile"}))


def test_the_page_follows_a_folder_that_is_served_and_compacted():
    folder = some_workspaces("a")
    server = Serving(folder).listens()
    with Web(folder) as web:
        expect(web.ask()[1]["workspaces"][0]["workspace"]["serial"], 1)
        server.ask("POST", "/state/a", S2)
        expect(web.ask()[1]["workspaces"][0]["workspace"]["serial"], 2)
        (folder / "compact").touch()
        goes_on_alone(folder, 1)
        expect(len(web.ask("/a")[1]["acts"]), 2, "the retired journal has the history")
        server.kill()
        expect(web.ask()[1]["workspaces"][0]["workspace"]["serial"], 2)
        server = Serving(folder).listens()
        server.ask("POST", "/state/b", S1)
        expect(web.names(), ["a", "b"])
        server.kill()


def test_a_folder_that_cannot_be_read():
    folder = fresh()
    with Web(folder) as web:
        expect(web.ask(), (503, {"error": "Unreadable"}))
        (folder / "journal-0000000001.tfj").write_bytes(b"TFJ1\n" + push(b"a", S1))
        expect(web.names(), ["a"])
        (folder / "journal-0000000001.tfj").write_bytes(b"TFJ1\n" + push(b"a", S1) + push(b"b", S1)[:-1] + b"\x00")
        expect(web.ask()[0], 503, "damaged")


def test_starts_that_are_refused():
    folder = some_workspaces("a")
    for how, wanted in (({"page": folder / "none"}, STATUSES["CannotRead"]), ({"place": "0.0.0.0:0"}, STATUSES["Arguments"]),
                        ({"place": "unix:"}, STATUSES["Arguments"]), ({"place": "nowhere"}, STATUSES["CannotBind"])):
        web = Web(folder, **how)
        expect((web.end(), web.line[:11]), (wanted, "tfstatectl:"), how)
    web = Web(folder, "--other")
    expect(web.end(), STATUSES["Arguments"])
