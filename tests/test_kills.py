"""Kills the server in the middle of work, and restarts it from its journal. Whatever was
acknowledged must be in the journal, in order. Some clients push all the time; others (team.py) work
as Terraform does, and some of them are killed, too."""
import json
import random
import threading
import time
from pathlib import Path

import pytest

from checking import SECONDS, expect
from serve_program import Server, asked, entries_of, fresh, run, state
from stdio_program import request_text
from team import Client, Team

pytestmark = pytest.mark.usefixtures("tfstated")


def push_on(server, name, acknowledged, told, seed):
    """Pushes rising serials to a name until the server is gone, and records what was acknowledged;
    some connections are cut."""
    rng = random.Random(seed)
    try:
        while True:
            with server.connect() as connection:
                for _ in range(rng.randrange(1, 8)):
                    text = state(acknowledged.get(name, 0) + 1, ("a",), ("b", "t.a"))
                    if rng.random() < 0.1:
                        connection.sendall(request_text("POST", f"/state/{name}", text)[: rng.randrange(60, 200)])
                        break
                    reply = asked(connection, "POST", f"/state/{name}", text)
                    if reply != (200, b""):
                        return
                    acknowledged[name] = json.loads(text)["serial"]
                    told.release()
    except OSError:
        return


def lawful(data, about):
    """Checks that the bytes of a journal are whole or torn, and lawful. Returns the path of a file
    with them."""
    file = fresh(data)
    checked = run("check", file)
    expect(checked[1] in (0, 3), True, f"{about}: check says {checked}")
    return file


def serials_in(data):
    """Returns the serials of the pushes that a journal has, in order, by names."""
    found = {}
    for kind, name, fields in entries_of(data):
        if kind == "push":
            found.setdefault(name, []).append(json.loads(fields[1])["serial"])
    return found


def expect_pushed(data, acknowledged, about):
    """Checks that every acknowledged push is in a journal, in order: the serials of a name rise by
    one. At most one more was sent and not acknowledged; it may be in the journal, and be pushed
    again."""
    serials = serials_in(data)
    for name, last in acknowledged.items():
        found = serials.get(name, [])
        expect(found, sorted(found), f"{about}: the order of {name}")
        wanted = [list(range(1, last + 1)), list(range(1, last + 2))]
        expect(sorted(set(found)) in wanted, True, f"{about}: {name} has {found[-9:]}, {last} was acknowledged")


def expect_served(old, names):
    """Checks that a server that continues a journal serves the last push of each name."""
    server, serials = Server(old=old), serials_in(Path(old).read_bytes())
    for name in names:
        status, text = server.ask("GET", f"/state/{name}")
        expect((status, json.loads(text)["serial"]), (200, serials[name][-1]), name)


def kill_often(turns, seed):
    """Starts the server this many times, each time from the journal of the last kill. A kill comes
    at a random moment after some acknowledgements, and the next push after an acknowledged one has
    the next serial."""
    old, acknowledged, rng = None, {}, random.Random(seed)
    for turn in range(turns):
        server, told = Server(workers=4, old=old), threading.Semaphore(0)
        given = [(server, f"n{k}", acknowledged, told, turn * 8 + k) for k in range(3)]
        threads = [threading.Thread(target=push_on, args=each) for each in given]
        for thread in threads:
            thread.start()
        for _ in range(rng.randrange(6)):
            expect(told.acquire(timeout=SECONDS), True, "the pushes go on")
        time.sleep(rng.random() * 0.02)
        data = server.kill()
        for thread in threads:
            thread.join()
        expect_pushed(data, acknowledged, f"turn {turn}")
        old = lawful(data, f"turn {turn}")
    expect(sum(acknowledged.values()) > turns and len(acknowledged) == 3, True, "there was something to lose")
    expect_served(old, acknowledged)


def test_a_hundred_kills_lose_nothing_acknowledged():
    kill_often(100, 1)


def test_another_hundred_kills_lose_nothing_acknowledged():
    kill_often(100, 2)


def kill_and_restart(team, about):
    """Kills the server of a team that works, looks for what was acknowledged in its journal, and
    has the team continue."""
    data = team.kill()
    team.changes.expect_in(entries_of(data), about)
    expect(team.failures, [], about)
    team.go_on(Server(workers=10, old=lawful(data, about)))


def test_a_team_whose_server_is_killed_loses_nothing():
    team, rng, end, kills = Team(Server(workers=10)), random.Random(3), time.monotonic() + 30, 0
    clients = [Client(number, team) for number in range(8)]
    for client in clients:
        client.start()
    try:
        while time.monotonic() < end:
            time.sleep(1.5 + 2 * rng.random())
            kills += 1
            kill_and_restart(team, f"kill {kills}")
        time.sleep(1)
        data = team.kill()
    finally:
        team.end()
    for client in clients:
        client.join(SECONDS)
    expect([client.number for client in clients if client.is_alive()] + team.failures, [], "at the end")
    team.changes.expect_in(entries_of(data), "at the end")
    expect(min(team.serials.values()) > 10 and len(team.serials) == 3, True, f"there was something to lose: {team.serials}")
    expect(min(kills, team.cut, team.lost) > 5, True, f"{kills} kills, {team.cut} clients cut in requests, {team.lost} lost their server")
    expect_served(lawful(data, "at the end"), team.serials)
