"""Runs the built program `tfstated` over pipes."""
import fcntl
import socket
import struct
import subprocess
import termios
import threading
import time

from checking import SECONDS, STARTED, expect
from programs import TFSTATED as PROGRAM
from repository import TOP

CRATE = TOP / "crates" / "tfstated"
MAX_READ = 65536
USAGE = b"usage: tfstated stdio | check FILE | rebase OLD NEW | serve ADDR WORKERS NEW [OLD]\n"


def run(data, *arguments, **how):
    """Runs the program on all of the bytes. Returns its output, its status, and what it wrote to
    standard error."""
    words = [PROGRAM, *(arguments or ("stdio",))]
    ran = subprocess.run(words, input=data, capture_output=True, timeout=SECONDS, check=False, **how)
    return ran.stdout, ran.returncode, ran.stderr


def unread(far):
    """Returns the number of unread bytes of a pipe or a socket."""
    return struct.unpack("i", fcntl.ioctl(far, termios.FIONREAD, b"\0" * 4))[0]


class Talk:
    """The running program, whose input and output alternate."""

    def __init__(self, stdin=subprocess.PIPE, stdout=subprocess.PIPE):
        self.process = subprocess.Popen([PROGRAM, "stdio"], stdin=stdin, stdout=stdout, stderr=subprocess.PIPE, bufsize=0)
        STARTED.append(self.process)

    def give(self, piece):
        """Writes one piece, and waits until the program has read it."""
        self.process.stdin.write(piece)
        end = time.monotonic() + SECONDS
        while unread(self.process.stdin):
            if time.monotonic() > end:
                raise AssertionError("the program doesn't read")

    def take(self, count):
        """Reads this many bytes, or fewer if the program ends."""
        found = b""
        while len(found) < count:
            piece = self.process.stdout.read(count - len(found))
            if not piece:
                break
            found += piece
        return found

    def end(self):
        """Ends the input. Returns the rest of the output, the status, and what the program wrote to
        standard error."""
        output, errors = self.process.communicate(timeout=SECONDS)
        return output, self.process.returncode, errors


def request_text(method, target, body=b"", more=""):
    """Returns the bytes of a request, with additional lines of its head if any are given."""
    length = f"Content-Length: {len(body)}\r\n" if body else ""
    return f"{method} {target} HTTP/1.1\r\nHost: h\r\n{length}{more}\r\n".encode() + body


def send_all(near, pieces, is_taken):
    """Sends each piece, waits until it is read, and closes; the program may end earlier."""
    with near:
        try:
            for piece in pieces:
                near.sendall(piece)
                if not is_taken():
                    return
        except (BrokenPipeError, ConnectionResetError):
            pass


def waits_for(talk, far):
    """Returns a function that waits until the program has read all that was sent, and returns false
    if it has ended before."""
    def is_taken():
        while unread(far):
            if talk.process.poll() is not None:
                return False
        return True
    return is_taken


def run_in_pieces(pieces):
    """Runs the program on pieces of at most 65,536 bytes, the limit of one read, so that no read
    takes more than one of them. Single bytes are packets of a socket. A longer piece is sent once
    the previous one is read, because a read that asks for fewer bytes than a packet has would lose
    the packet's end. They are sent from a thread, because the program waits if its output isn't
    read."""
    expect(max(map(len, pieces)) <= MAX_READ, True, "a longer piece is no single read")
    single = max(map(len, pieces)) == 1
    near, far = socket.socketpair(socket.AF_UNIX, socket.SOCK_SEQPACKET if single else socket.SOCK_STREAM)
    talk = Talk(stdin=far)
    if single:
        far.close()
    is_taken = (lambda: True) if single else waits_for(talk, far)
    sender = threading.Thread(target=send_all, args=(near, pieces, is_taken), daemon=True)
    sender.start()
    ended = talk.end()
    sender.join()
    far.close()
    return ended
