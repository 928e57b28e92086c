"""Sessions of `tfstated serve` that work concurrently. The answers to each must follow one journal,
by a plain model of the rules."""
import json
import threading

from checking import expect
from journal_reader import base_text
from serve_program import Server, asked, entries_of, fresh, state


def chain(serial):
    """Returns a state in which t.b depends on t.a, and t.c on t.b."""
    return state(serial, ("a", "x.y"), ("b", "t.a"), ("c", "t.b"))


def at_once(server, count, talk):
    """Returns the results of this many sessions, which talk concurrently, each on a connection of
    its own."""
    given = [None] * count

    def session(number):
        with server.connect() as connection:
            given[number] = talk(connection, number)

    threads = [threading.Thread(target=session, args=(number,)) for number in range(count)]
    for thread in threads:
        thread.start()
    for thread in threads:
        thread.join()
    return given


def asked_in_turn(number, turn, count):
    """Returns the requests of one of the sessions in a turn: pushes with serials that no other push
    has, one of them with an identifier of its own, its lock and its unlock, queries, a read, and an
    unlock of a name of its own."""
    me, serial, query = number + 1, count * turn + number + 2, ("GET", "/impact/a/any?of=t.a")
    return [("POST", "/state/a", chain(serial)), query, ("LOCK", "/state/a", b'{"ID":"%d"}' % me), ("POST", f"/state/a?ID={me}", chain(serial)), query,
            ("UNLOCK", f"/state/a?ID={me}"), ("GET", "/state/a"), ("UNLOCK", f"/state/own{number}")][turn % 8]


def entry_for(method, target, *body):
    """Returns the entry of a change that is accepted; none for another request."""
    name, _, identifier = target.removeprefix("/state/").partition("?ID=")
    carried = {"POST": ("push", [identifier.encode(), *body]), "LOCK": ("lock", [*body]), "UNLOCK": ("unlock", [identifier.encode()])}.get(method)
    return carried and (carried[0], name, carried[1])


class Standing:
    """The state of `a` and the lock information of its holder, at a position."""

    def __init__(self, text, holder=b""):
        self.text, self.holder = text, holder
        self.serial, self.held = json.loads(text)["serial"], json.loads(holder)["ID"] if holder else ""

    def after(self, kind, name, parts):
        """Returns the state and the holder after an entry."""
        if name != "a":
            return self
        return Standing(parts[1] if kind == "push" else self.text, {"push": self.holder, "lock": parts[0], "unlock": b""}[kind])

    def refusal(self, method, target, *body):
        """Returns why a change is refused; None if it isn't."""
        identifier = target.partition("?ID=")[2]
        others = {"LOCK": self.holder != b"".join(body), "UNLOCK": "own" not in target and identifier != self.held, "POST": identifier != self.held}
        if self.holder and others[method]:
            return 423, self.holder
        if method == "POST" and identifier != self.held:
            return 409, b'{"error":"LockLost"}'
        return (409, b'{"error":"SerialTooLow"}') if method == "POST" and json.loads(body[0])["serial"] < self.serial else None

    def answer(self, position, method, target, *body):
        """Returns the answer to a request that makes no entry; None for one that makes an entry."""
        if method != "GET":
            return self.refusal(method, target, *body)
        if target == "/state/a":
            return 200, self.text
        return 200, f'{{"instances":["t.b","t.c"],"position":{position},"serial":{self.serial}}}'.encode()


def standings_of(entries):
    """Returns the state and the holder of `a` at each position from 1 on, which is the base's."""
    standings = [Standing(chain(1))]
    for entry in entries:
        standings.append(standings[-1].after(*entry))
    return standings


def follow(requests, replies, entries, standings):
    """Checks that each reply is based on a prefix of the journal, no shorter than that of the
    previous reply, and that each accepted change is an entry there. Returns the number of accepted
    changes."""
    changes, seen = [entry_for(*request) for request in requests], 1
    own = [position for position, entry in enumerate(entries, 2) if entry in changes]
    count = len(own)
    for request, change, reply in zip(requests, changes, replies):
        if change and reply == (200, b""):
            expect((seen < own[0], entries[own[0] - 2]), (True, change), request)
            seen = own.pop(0)
        else:
            places = range(seen, len(standings) + 1)
            seen = next((place for place in places if standings[place - 1].answer(place, *request) == reply), None)
            expect(seen is not None, True, f"{request}: a journal over which the answer is {reply}")
    expect(own, [], "entries that no reply told")
    return count


def round_of(count, turns):
    """Has sessions make this many turns of requests each, concurrently, and checks that all answers
    follow one journal. Returns the number of accepted changes."""
    server = Server(workers=count, old=fresh(b"TFJ2\n" + base_text(1, [(b"a", b"", chain(1))])))
    asked_by = [[asked_in_turn(number, turn, count) for turn in range(turns)] for number in range(count)]
    replies = at_once(server, count, lambda connection, number: [asked(connection, *request) for request in asked_by[number]])
    entries = entries_of(server.kill())
    standings = standings_of(entries)
    accepted = sum(follow(requests, told, entries, standings) for requests, told in zip(asked_by, replies))
    expect(accepted, len(entries), "each entry is a change that was told as accepted")
    return accepted
