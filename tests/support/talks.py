"""Conversations by hand over the built program and over the model's table, and their replies, byte
by byte."""
from checking import expect
from stdio_model import CLEAN, Request, Table
from stdio_program import request_text, run


A = b'{"ID":"A" ,"Who":""}'
A2 = b'{"ID":"A"}'
B = b'{"ID":"B"}'
NINE = b'{"version":4,"serial":9,"lineage":"L2"}'
ZERO = b'{"version":4,"serial":0,"lineage":"L2"}'
OK = b"HTTP/1.1 200 OK\r\nContent-Length: 0\r\n\r\n"
LOCKED_BY_A = (
    b"HTTP/1.1 423 Locked\r\nContent-Type: application/json\r\nContent-Length: 20\r\n\r\n"
    b'{"ID":"A" ,"Who":""}'
)
NO_STATE = (
    b"HTTP/1.1 404 Not Found\r\nContent-Type: application/json\r\nContent-Length: 19\r\n\r\n"
    b'{"error":"NoState"}'
)
LOCK_LOST = (
    b"HTTP/1.1 409 Conflict\r\nContent-Type: application/json\r\nContent-Length: 20\r\n\r\n"
    b'{"error":"LockLost"}'
)
LINEAGE_DIFFERS = (
    b"HTTP/1.1 409 Conflict\r\nContent-Type: application/json\r\nContent-Length: 26\r\n\r\n"
    b'{"error":"LineageDiffers"}'
)
BAD_LOCK_INFO = (
    b"HTTP/1.1 400 Bad Request\r\nContent-Type: application/json\r\nContent-Length: 23\r\n\r\n"
    b'{"error":"BadLockInfo"}'
)
BAD_STATE = (
    b"HTTP/1.1 400 Bad Request\r\nContent-Type: application/json\r\nContent-Length: 20\r\n\r\n"
    b'{"error":"BadState"}'
)
TABLE_FULL = (
    b"HTTP/1.1 507 Insufficient Storage\r\nContent-Type: application/json\r\nContent-Length: 21\r\n\r\n"
    b'{"error":"TableFull"}'
)
JOURNAL_FULL = (
    b"HTTP/1.1 507 Insufficient Storage\r\nContent-Type: application/json\r\nContent-Length: 23\r\n\r\n"
    b'{"error":"JournalFull"}'
)


def showing(body):
    """Returns the reply that shows a state."""
    head = b"HTTP/1.1 200 OK\r\nContent-Type: application/json\r\nContent-Length: %d\r\n\r\n"
    return head % len(body) + body


def locked_by(held):
    """Returns the reply that shows the holder of a lock."""
    head = b"HTTP/1.1 423 Locked\r\nContent-Type: application/json\r\nContent-Length: %d\r\n\r\n"
    return head % len(held) + held


def expect_replies(output, replies, requests, about):
    """Fails at the first reply of an output that isn't the expected one, and if more follows."""
    at = 0
    for number, reply in enumerate(replies):
        found = output[at : at + len(reply)]
        if found != reply:
            expect(found, reply, f"{about}, request {number}, {str(requests[number])[:400]}")
        at += len(reply)
    expect(output[at:], b"", f"{about}, after the last reply")


def expect_talk(rows):
    """Runs rows of method, target, body and reply as one conversation, over the program and
    over the model's table."""
    requests, wanted = [row[:3] for row in rows], [row[3] for row in rows]
    table = Table()
    expect_replies(b"".join(table.reply(Request(*request)) for request in requests), wanted, requests, "the model")
    output, status, errors = run(b"".join(request_text(*request) for request in requests))
    expect_replies(output, wanted, requests, "the program")
    expect((status, errors), (CLEAN, b""), "the program's end")
