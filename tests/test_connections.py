"""`tfstatectl serve` with more connections than workers: they wait for their clients without a
worker, none that has sent something is forgotten, and none keeps a good client waiting."""
import asyncio
import contextlib
import random
import resource
import socket
import time
from pathlib import Path

import pytest

from checking import S1, SECONDS, expect
from folder_program import Serving
from folders import LOOPBACK, fresh
from serve_program import reply_of
from stdio_program import request_text

pytestmark = pytest.mark.usefixtures("tfstatectl")
GET, NO_STATE, LONG = request_text("GET", "/state/a"), b'{"error":"NoState"}', S1.ljust(10_000_000)
# A good client waits less than this, in seconds, on any machine. Bad clients end much later.
WAIT = 10.0
# What a worker waits for a client before it leaves the connection, in seconds.
TURN = 0.005


def started(workers, *words, **how):
    return Serving(fresh(), "--first", *words, workers=str(workers), **how).listens()


class Client:
    """A client on one connection, which is never opened again."""

    def __init__(self, streams):
        self.reader, self.writer = streams

    @classmethod
    async def of(cls, server):
        return cls(await asyncio.open_connection(LOOPBACK, server.port))

    async def answer(self):
        """Returns the status and the body of the next reply."""
        head = await asyncio.wait_for(self.reader.readuntil(b"\r\n\r\n"), SECONDS)
        [length] = [int(line.split(b":")[1]) for line in head.split(b"\r\n") if line.lower().startswith(b"content-length:")]
        return int(head.split()[1]), await asyncio.wait_for(self.reader.readexactly(length), SECONDS)

    async def ask(self, text=GET):
        """Sends a request. Returns its reply, and how long it took."""
        began = time.monotonic()
        self.writer.write(text)
        return await self.answer(), time.monotonic() - began

    async def ask_in_pieces(self, text, pauses):
        """Sends a request in pieces with a pause after each. Returns its reply."""
        size = len(text) // (len(pauses) + 1) + 1
        for at, pause in zip(range(0, len(text), size), [*pauses, 0]):
            self.writer.write(text[at : at + size])
            await asyncio.sleep(pause)
        return await self.answer()


async def keep_asking(server, count, pause):
    """Asks again and again on one connection. Returns the longest wait."""
    client, longest = await Client.of(server), 0
    for _ in range(count):
        reply, wait = await client.ask()
        expect(reply, (404, NO_STATE))
        longest = max(longest, wait)
        await asyncio.sleep(pause)
    return longest


async def good_waits(server, count=20):
    """Returns the longest wait of good clients, each on a connection of its own."""
    return max([await keep_asking(server, 1, 0.05) for _ in range(count)])


def test_forty_clients_that_keep_their_connections_share_two_workers():
    server = started(2)

    async def all_of_them():
        return await asyncio.gather(*(keep_asking(server, 20, 0.1) for _ in range(40)))
    longest = max(asyncio.run(all_of_them()))
    server.kill()
    expect(longest < WAIT, True, f"the longest wait is {longest:.2f} s")


@pytest.mark.parametrize("workers", [1, 2, 16])
def test_no_connection_that_has_sent_something_is_forgotten(workers):
    server = started(workers)

    async def ask_often(seed):
        chance, client = random.Random(seed), await Client.of(server)
        for _ in range(40):
            # The pauses are around the moment at which a worker leaves the connection.
            pauses = [chance.uniform(0, 3 * TURN) for _ in range(chance.randrange(3))]
            expect(await client.ask_in_pieces(GET, pauses), (404, NO_STATE))
            await asyncio.sleep(chance.uniform(0, 3 * TURN))

    async def all_of_them():
        await asyncio.gather(*(ask_often(seed) for seed in range(8 + 4 * workers)))
    asyncio.run(all_of_them())
    server.kill()


async def pipeline(server, ends):
    """Sends requests without waiting for replies, and reads these."""
    client = await Client.of(server)
    while not ends.is_set():
        client.writer.write(GET * 200)
        for _ in range(200):
            expect(await client.answer(), (404, NO_STATE))


async def send_slowly(server, ends):
    """Pushes at 60 KB a second."""
    client, serial, name = await Client.of(server), 0, id(ends) % 97
    while not ends.is_set():
        serial += 1
        text = request_text("POST", f"/state/s{name}{id(client)}", S1.replace(b"1 ", b"%d " % serial).ljust(30_000))
        for at in range(0, len(text), 600):
            client.writer.write(text[at : at + 600])
            await asyncio.sleep(0.01)
        expect(await client.answer(), (200, b""))


async def read_slowly(server, ends):
    """Reads a long state at 60 KB a second, and begins again once the connection is closed."""
    while not ends.is_set():
        near = socket.socket()
        near.setblocking(False)
        near.setsockopt(socket.SOL_SOCKET, socket.SO_RCVBUF, 8192)
        await asyncio.get_running_loop().sock_connect(near, (LOOPBACK, server.port))
        client = Client(await asyncio.open_connection(sock=near, limit=8192))
        client.writer.write(request_text("GET", "/state/long"))
        with contextlib.suppress(OSError):
            while not ends.is_set() and await client.reader.read(6_000):
                await asyncio.sleep(0.1)
        client.writer.transport.abort()


async def send_no_head(server, ends):
    """Sends a head byte by byte, and begins again once the connection is closed."""
    while not ends.is_set():
        client = await Client.of(server)
        with contextlib.suppress(OSError):
            for place in range(len(GET) - 3):
                client.writer.write(GET[place : place + 1])
                await client.writer.drain()
                await asyncio.sleep(0.2)
                if ends.is_set():
                    break


@pytest.mark.parametrize("work, number", [(pipeline, 16), (send_slowly, 32), (send_no_head, 64), (read_slowly, 12)])
def test_no_good_client_waits_long_beside(work, number):
    server = started(4)
    expect(server.ask("POST", "/state/long", LONG), (200, b""))

    async def beside():
        ends = asyncio.Event()
        bad = [asyncio.create_task(work(server, ends)) for _ in range(number)]
        await asyncio.sleep(0.5)
        longest = await good_waits(server)
        ends.set()
        await asyncio.gather(*bad)
        return longest
    longest = asyncio.run(beside())
    server.kill()
    expect(longest < WAIT, True, f"the longest wait beside {number} of {work.__name__} is {longest:.2f} s")


def begin_to_read(server):
    """Returns the connection of a client that has asked for the long state and reads nothing yet."""
    near = socket.socket()
    near.setsockopt(socket.SOL_SOCKET, socket.SO_RCVBUF, 8192)
    near.settimeout(SECONDS)
    near.connect((LOOPBACK, server.port))
    near.sendall(request_text("GET", "/state/long"))
    return near


def is_whole(near):
    """Returns true if the reply comes whole."""
    with near, near.makefile("rb") as file:
        return reply_of(file) == (200, LONG)


def test_of_slow_readers_the_youngest_is_not_left():
    server, readers = started(4), []
    expect(server.ask("POST", "/state/long", LONG), (200, b""))
    for _ in range(4):
        readers.append(begin_to_read(server))
        time.sleep(1)
    expect(server.ask("GET", "/state/a")[0], 404, "a client that waits for a worker")
    whole = [is_whole(near) for near in readers]
    server.kill()
    expect((all(whole), whole[-1]), (False, True), whole)


def limit_descriptors():
    resource.setrlimit(resource.RLIMIT_NOFILE, (128, 128))


def test_a_process_of_few_descriptors_keeps_fewer_connections():
    server = started(2, preexec_fn=limit_descriptors)

    async def crowd():
        clients, kept = [], 0
        for _ in range(90):
            clients.append(await Client.of(server))
            expect((await clients[-1].ask())[0], (404, NO_STATE))
            await asyncio.sleep(2 * TURN)
        for client in clients:
            with contextlib.suppress(OSError, EOFError):
                kept += (await client.ask())[0] == (404, NO_STATE)
        return kept, await good_waits(server, 3)
    kept, longest = asyncio.run(crowd())
    server.kill()
    expect((32 <= kept <= 66, longest < WAIT), (True, True), f"{kept} are kept, and a good client waits {longest:.2f} s")


def resident(server):
    """Returns the resident memory of a server, in bytes."""
    [line] = [line for line in Path(f"/proc/{server.process.pid}/status").read_text().splitlines() if line.startswith("VmRSS:")]
    return 1024 * int(line.split()[1])


def test_a_kept_connection_takes_at_most_16_kb():
    server = started(4)

    async def crowd():
        await keep_asking(server, 100, 0)
        before, clients = resident(server), [await Client.of(server) for _ in range(900)]
        for client in clients:
            expect((await client.ask())[0], (404, NO_STATE))
        await asyncio.sleep(0.5)
        return (resident(server) - before) / len(clients)
    each = asyncio.run(crowd())
    server.kill()
    expect(each <= 16_384, True, f"{each:.0f} bytes a connection")
