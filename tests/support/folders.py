"""Folders of journals, each used by one test, and requests to servers on them."""
import concurrent.futures
import hashlib
import random
import socket
import tempfile
import time
from pathlib import Path

from checking import S1, S2, SECONDS
from journal_reader import base_text, push_content, record_text

FOLDER = tempfile.TemporaryDirectory(prefix="tfstated-")
LOOPBACK = "127.0.0.1"
NUMBER, GIVEN = iter(range(10**6)), set()
A, B = b'{"ID":"A" ,"Who":""}', b'{"ID":"B"}'
S3 = S1.replace(b"1 ", b"3 ")
PUSH1, PUSH2, PUSH3 = (record_text(3, b"a", push_content(b"", text)) for text in (S1, S2, S3))
LOCK = record_text(1, b"a", B)
SHORT = b"TFJ2\n" + base_text(1, [(b"a", b"", S1)])
NEWEST = SHORT + PUSH2 + LOCK
VALUE = "00112233445566778899aabbccddeeff"
REBASED = b"TFJ2\n" + base_text(3, [(b"a", B, S2)])


def fresh(**files):
    """Returns an unused folder with these journals: `n3` is the journal of number 3."""
    folder = Path(FOLDER.name) / f"folder-{next(NUMBER)}"
    folder.mkdir()
    for name, content in files.items():
        (folder / f"{named(int(name[1:]))}.tfj").write_bytes(content)
    return folder


def named(number):
    return f"journal-{number:010}"


def journals(folder):
    """Returns the bytes of the journals of a folder, by their numbers."""
    return {int(path.stem[8:]): path.read_bytes() for path in folder.glob("*.tfj")}


def identity_text(value=VALUE, **files):
    """Returns the text of a file `identity`: the folder's value, and a mark of each journal."""
    marks = [f"{named(int(name[1:]))}.tfj {len(data)} {hashlib.md5(data).hexdigest()}\n" for name, data in files.items()]
    return f"{value}\n{''.join(marks)}"


def owned(value=VALUE, **files):
    """Returns an unused folder with these journals, and an identity with marks of them."""
    folder = fresh(**files)
    (folder / "identity").write_text(identity_text(value, **files))
    return folder


def goes_on_alone(folder, after=0):
    """Waits until a server's journal is the only one of its folder, with a number above `after`,
    and no compaction is requested. Returns the number. A server looks at its folder once a second:
    it then removes `compact`, and moves the journals before its own into `old/`."""
    end = time.monotonic() + SECONDS
    while time.monotonic() < end:
        numbers = [int(path.stem[8:]) for path in folder.glob("*.tfj")]
        if len(numbers) == 1 and numbers[0] > after and not (folder / "compact").exists():
            return numbers[0]
        time.sleep(0.05)
    raise AssertionError(f"above {after}: {sorted(path.name for path in folder.iterdir())}")


def all_of(folder):
    """Returns every file of a folder with its bytes, except for its lock."""
    paths = [path for path in folder.rglob("*") if path.is_file() and path.name != "lock"]
    return {str(path.relative_to(folder)): path.read_bytes() for path in paths}


def free_port():
    """Returns a free port of the loopback interface, below the range for connections, and not
    returned before."""
    while True:
        port = random.randrange(10_000, 32_000)
        with socket.socket() as probe:
            if port not in GIVEN and probe.connect_ex((LOOPBACK, port)) != 0:
                GIVEN.add(port)
                return port


def at_once(work, cases):
    """Does the work of each case, a few of them concurrently. Returns the
    results. Fails if one fails."""
    with concurrent.futures.ThreadPoolExecutor(8) as pool:
        return list(pool.map(work, cases))


def ask_over(connection, method, target, body=None, headers=None):
    """Returns the status and the body of the reply to one request."""
    connection.request(method, target, body, headers or {})
    reply = connection.getresponse()
    return reply.status, reply.read()
