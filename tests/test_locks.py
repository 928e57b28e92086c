"""Drives the built program over pipes: locks, unlocks, deletions and identifiers. The examples and
the expected output are written here by hand; random acts are answered by the plain model of
stdio_model.py."""
import json
import random
from collections import Counter

from hypothesis import given, settings, strategies as st
import pytest

from checking import S1, expect
from cuts import cut_at, some_pieces
import stdio_model as model
from stdio_model import CLEAN, CUT, MAX_ENTRIES, MAX_NAMES
from stdio_program import request_text, run, run_in_pieces
from talks import (A, A2, B, BAD_LOCK_INFO, BAD_STATE, JOURNAL_FULL, LINEAGE_DIFFERS, LOCK_LOST,
                   LOCKED_BY_A, NINE, NO_STATE, OK, TABLE_FULL, ZERO, expect_replies, expect_talk,
                   locked_by, showing)


pytestmark = pytest.mark.usefixtures("tfstated")


def lock_info(identifier):
    """Returns lock information with this identifier, without escapes."""
    return json.dumps({"ID": identifier}, ensure_ascii=False).encode()


def test_a_deletion_makes_room_for_another_lineage():
    expect_talk([
        ("POST", "/state/a", S1, OK),
        ("POST", "/state/a", NINE, LINEAGE_DIFFERS),
        ("DELETE", "/state/a", b"", OK),
        ("GET", "/state/a", b"", NO_STATE),
        ("POST", "/state/a", ZERO, OK),
        ("GET", "/state/a", b"", showing(ZERO)),
    ])


def test_a_lock_keeps_others_out():
    expect(len(LOCKED_BY_A), 95)
    expect_talk([
        ("LOCK", "/state/a", A, OK),
        ("LOCK", "/state/a", B, LOCKED_BY_A),
        ("LOCK", "/state/a", A, OK),
        ("LOCK", "/state/a", A2, LOCKED_BY_A),
        ("UNLOCK", "/state/a", B, LOCKED_BY_A),
        ("UNLOCK", "/state/a", A2, OK),
        ("LOCK", "/state/a", B, OK),
        ("LOCK", "/state/b", A, OK),
    ])


def test_writes_bear_the_lock():
    expect_talk([
        ("LOCK", "/state/a", A, OK),
        ("POST", "/state/a", S1, LOCKED_BY_A),
        ("POST", "/state/a?ID=B", S1, LOCKED_BY_A),
        ("POST", "/state/a?ID=", S1, LOCKED_BY_A),
        ("POST", "/state/a?ID=&ID=A", S1, LOCKED_BY_A),
        ("GET", "/state/a", b"", NO_STATE),
        ("POST", "/state/a?ID=A", S1, OK),
        ("GET", "/state/a", b"", showing(S1)),
        ("DELETE", "/state/a", b"", LOCKED_BY_A),
        ("GET", "/state/a", b"", showing(S1)),
        ("DELETE", "/state/a?ID=A", b"", OK),
        ("GET", "/state/a", b"", NO_STATE),
        ("LOCK", "/state/a", B, LOCKED_BY_A),
    ])


def test_a_forced_unlock_loses_the_lock():
    expect_talk([
        ("LOCK", "/state/a", A, OK),
        ("UNLOCK", "/state/a", b"", OK),
        ("POST", "/state/a?ID=A", S1, LOCK_LOST),
        ("DELETE", "/state/a?ID=A", b"", LOCK_LOST),
        ("UNLOCK", "/state/a", b"", OK),
        ("UNLOCK", "/state/a", B, OK),
        ("POST", "/state/a", S1, OK),
    ])


def test_an_unlock_without_a_body_looks_at_the_query():
    expect_talk([
        ("LOCK", "/state/a", A, OK),
        ("UNLOCK", "/state/a?ID=B", b"", LOCKED_BY_A),
        ("UNLOCK", "/state/a?ID=A", B, LOCKED_BY_A),
        ("UNLOCK", "/state/a", b" ", BAD_LOCK_INFO),
        ("UNLOCK", "/state/a?ID=A", b" ", BAD_LOCK_INFO),
        ("LOCK", "/state/a", B, LOCKED_BY_A),
        ("UNLOCK", "/state/a?ID=A", b"", OK),
        ("LOCK", "/state/a", A, OK),
        ("UNLOCK", "/state/a?ID=B", A2, OK),
        ("LOCK", "/state/a", A, OK),
        ("UNLOCK", "/state/a?ID=&ID=B", b"", OK),
        ("LOCK", "/state/a", B, OK),
    ])
    told = request_text("UNLOCK", "/state/a", more="Content-Length: 0\r\n")
    expect(run(request_text("LOCK", "/state/a", A) + told), (OK + OK, CLEAN, b""), "a length of 0")


BAD_INFOS = [
    b"x", b"[]", b'{"ID":""}', lock_info("i" * 257), A2 + b" " * 65527, b"", b" ", b'{"id":"A"}', b'{"ID":null}',
    b'{"ID":7}', b'{"ID":["A"]}', b'{"ID":"A","ID":null}', b'{"ID":"A"}x', b'{"ID":"\\ud800"}', b"\xef\xbb\xbf" + A2,
    lock_info("é" * 129), b'{"ID":"A","Path":' + b"[" * 127 + b"]" * 127 + b"}",
    b'{"ID":"A","Who":"\\ud800","Who":"me"}', b'{"ID":"A","Who":1e400}', b'{"ID":"A","ID":"B","ID":""}', b'"ID"',
]


@pytest.mark.parametrize("method, body", [(method, body) for method in ("LOCK", "UNLOCK") for body in BAD_INFOS if body or method == "LOCK"])
def test_lock_information_that_is_none_is_refused(method, body):
    expect_talk([(method, "/state/a", body, BAD_LOCK_INFO)])


def test_lock_information_at_its_limits_is_taken():
    most = b'{"ID":"C"}' + b" " * 65526
    expect(len(most), 65536)
    expect_talk([
        *[("LOCK", "/state/a", body, BAD_LOCK_INFO) for body in BAD_INFOS],
        ("POST", "/state/a?ID=" + "i" * 257, S1, BAD_LOCK_INFO),
        ("LOCK", "/state/a", lock_info("i" * 256), OK),
        ("LOCK", "/state/b", lock_info("é" * 128), OK),
        ("LOCK", "/state/c", most, OK),
        ("LOCK", "/state/c", most[:-1], locked_by(most)),
        ("LOCK", "/state/d", b'{"ID":7,"ID":"A","Path":' + b"[" * 126 + b"]" * 126 + b"}", OK),
        ("POST", "/state/d?ID=A", S1, OK),
    ])


@pytest.mark.parametrize("target", ["/state/a?ID=" + "i" * 257, "/state/a?I%44=" + "%C3%A9" * 129, "/state/a?ID=" + "%ff" * 86])
def test_an_identifier_that_is_too_long_is_refused_when_it_is_used(target):
    expect_talk([
        ("POST", target, b"abc", BAD_LOCK_INFO),
        ("DELETE", target, b"", BAD_LOCK_INFO),
        ("UNLOCK", target, b"", BAD_LOCK_INFO),
        ("GET", target, b"", NO_STATE),
        ("LOCK", target, A, OK),
        ("UNLOCK", target, A2, OK),
    ])


@pytest.mark.parametrize("target", ["/state/a?ID=" + "i" * 256, "/state/a?ID=" + "%C3%A9" * 128, "/state/a?ID=" + "%ff" * 85])
def test_an_identifier_of_256_bytes_is_one(target):
    expect_talk([("POST", target, S1, LOCK_LOST)])


def test_an_identifier_has_its_own_name():
    expect_talk([("POST", "/state/a?id=" + "i" * 257, S1, OK), ("POST", "/state/a?ID=A", b"abc", BAD_STATE)])


HELD = b'{"ID":"\\u0041 \\u00E9+\\""}'


@pytest.mark.parametrize("query, reply", [
    *[(query, OK) for query in ("ID=A+%C3%A9%2B%22", "ID=%41%20%c3%a9%2b%22", "ID=A%20\u00e9%2B%22", "x=y&&I%44=A+%C3%A9%2B\"&ID=B")],
    *[(query, locked_by(HELD)) for query in (
        "ID=a+%C3%A9%2B%22", "ID=A+%C3%89%2B%22", "ID=A+%C3%A9+%22", "ID=A%2B%C3%A9%2B%22", "id=A+%C3%A9%2B%22", "ID=A+e%CC%81%2B%22")],
])
def test_an_identifier_is_one_however_it_is_written(query, reply):
    expect_talk([
        ("LOCK", "/state/a", HELD, OK),
        ("POST", "/state/a?" + query, S1, reply),
        ("UNLOCK", "/state/a", lock_info('A \u00e9+"'), OK),
    ])


@pytest.mark.parametrize("query, identifier", [
    ("ID=A", "A"), ("ID=A&ID=B", "A"), ("&&ID=A&", "A"), ("x&ID=A", "A"), ("id=B&ID=A", "A"), ("%49D=A", "A"),
    ("ID=A=B", "A=B"), ("ID==", "="), ("ID=a+b", "a b"), ("ID=a%2Bb", "a+b"), ("ID=a%20b", "a b"), ("ID=+", " "),
    ("ID=%", "%"), ("ID=%4", "%4"), ("ID=%zz", "%zz"), ("ID=%25%34%31", "%41"), ("ID=a%26b", "a&b"), ("ID=A;B", "A;B"),
    ("ID=?", "?"), ("ID=/b", "/b"), ("ID=A#B", "A#B"), ("ID=\u00e9", "\u00e9"), ("ID=%FF", "\ufffd"),
    ("ID=%E2%82x", "\ufffdx"), ("ID=%ED%A0%80", "\ufffd\ufffd\ufffd"), ("ID=%F0%9F%98%80", "\U0001f600"),
    ("ID=%C3\u00e9", "\ufffd\u00e9"), ("ID=%f0%9f\u00e9", "\ufffd\u00e9"),
    ("ID=%EF%BB%BFA", "\ufeffA"), ("ID=%00", "\0"),
])
def test_a_query_is_read_as_a_form(query, identifier):
    expect_talk([
        ("POST", "/state/a?" + query, S1, LOCK_LOST),
        ("LOCK", "/state/a", lock_info(identifier), OK),
        ("POST", "/state/a?" + query, S1, OK),
        ("DELETE", "/state/a?" + query, b"", OK),
        ("UNLOCK", "/state/a?" + query, b"", OK),
        ("DELETE", "/state/a?" + query, b"", LOCK_LOST),
    ])


@pytest.mark.parametrize("query", ["", "&", "=", "ID", "ID=", "ID&ID=A", "ID=&ID=A", "id=A", "+ID=A", "ID+=A", "I%20D=A", "=ID", "x=ID=A"])
def test_a_query_without_an_identifier_gives_none(query):
    expect_talk([
        ("POST", "/state/a?" + query, S1, OK),
        ("LOCK", "/state/a", A, OK),
        ("POST", "/state/a?" + query, S1, LOCKED_BY_A),
        ("UNLOCK", "/state/a?" + query, b"", OK),
    ])


def test_a_name_that_had_an_accepted_act_counts():
    expect_talk([
        ("DELETE", "/state/z?ID=A", b"", LOCK_LOST),
        ("GET", "/state/z", b"", NO_STATE),
        *[("LOCK", f"/state/n{number}", B, OK) for number in range(MAX_NAMES)],
        ("LOCK", f"/state/n{MAX_NAMES}", B, TABLE_FULL),
        ("UNLOCK", "/state/z", b"", TABLE_FULL),
        ("DELETE", "/state/z", b"", TABLE_FULL),
        ("POST", "/state/z", S1, TABLE_FULL),
        ("POST", "/state/z", b"abc", BAD_STATE),
        ("POST", "/state/z?ID=A", S1, LOCK_LOST),
        ("LOCK", "/state/n0", A, locked_by(B)),
        ("UNLOCK", "/state/n0", B, OK),
        ("LOCK", "/state/z", A, TABLE_FULL),
        ("LOCK", "/state/n0", A, OK),
        ("POST", "/state/n1023?ID=B", S1, OK),
    ])


@pytest.mark.parametrize("method", ["UNLOCK", "DELETE"])
def test_a_name_without_a_lock_or_a_state_counts(method):
    rows = [(method, f"/state/n{number}", b"", OK) for number in range(MAX_NAMES)]
    expect_talk([*rows, ("LOCK", "/state/z", A, TABLE_FULL), ("LOCK", "/state/n5", A, OK)])


def test_a_journal_has_65536_entries():
    expect_talk([
        *[("LOCK", "/state/a", B, OK)] * MAX_ENTRIES,
        ("LOCK", "/state/z", B, JOURNAL_FULL),
        ("LOCK", "/state/a", B, JOURNAL_FULL),
        ("UNLOCK", "/state/a", B, JOURNAL_FULL),
        ("POST", "/state/a?ID=B", S1, JOURNAL_FULL),
        ("DELETE", "/state/a?ID=B", b"", JOURNAL_FULL),
        ("LOCK", "/state/a", A, locked_by(B)),
        ("POST", "/state/z?ID=B", S1, LOCK_LOST),
        ("UNLOCK", "/state/a", b"x", BAD_LOCK_INFO),
        ("GET", "/state/a", b"", NO_STATE),
    ])


def test_a_full_journal_may_have_all_names():
    expect_talk([
        *[("LOCK", f"/state/n{number}", A, OK) for number in range(MAX_NAMES)],
        *[("LOCK", "/state/n0", A, OK)] * (MAX_ENTRIES - MAX_NAMES),
        ("UNLOCK", "/state/n0", b"", JOURNAL_FULL),
        ("LOCK", "/state/z", A, TABLE_FULL),
    ])


NAMES = ["a", "b", "c"]
IDENTIFIERS = ["A", "a", "A b", "é+%"]
REQUESTS, LEAST = 24000, 20
MET = {
    "GET": ["200 and a body", "404 NoState", "404 NoRoute", "400 BadName"],
    "POST": ["200", "400 BadLockInfo", "400 BadState", "423", "409 LockLost", "409 LineageDiffers", "409 SerialTooLow",
             "409 SerialReused"],
    "DELETE": ["200", "400 BadLockInfo", "423", "409 LockLost"],
    "LOCK": ["200", "400 BadLockInfo", "423"],
    "UNLOCK": ["200", "400 BadLockInfo", "423"],
    "PUT": ["405 MethodNotAllowed"],
}


def random_state(chance):
    """Returns a state's text, now and then with other bytes under the same serial, or an invalid
    one."""
    serial, lineage = chance.randrange(4), chance.choice(["L1"] * 5 + ["L2"])
    text = f'{{"version":4,"serial":{serial},"lineage":"{lineage}"}}'.encode()
    if chance.random() < 0.1:
        return chance.choice([text + b"x", text[:-1], text.replace(b"4", b"3"), text.replace(b"L", b"\xff"), b"", b"[]", A])
    return text + chance.choice([b"", b"", b"", b" ", b"\n"])


def random_lock_info(chance):
    """Returns lock information in one of several spellings, or an invalid one."""
    if chance.random() < 0.1:
        bad = [b"x", b"[]", b" ", b'{"ID":""}', b'{"ID":1}', b'{"id":"A"}', b'{"ID":"A","ID":[]}', lock_info("i" * 257)]
        return chance.choice(bad + ([A2 + b" " * 65527] if chance.random() < 0.2 else []))
    text = chance.choice(IDENTIFIERS)
    escaped = "".join(f"\\u{ord(letter):04x}" if chance.random() < 0.5 else letter for letter in text)
    forms = ['{"ID":"%s"}', '{"ID":"%s"}', '{"ID":"%s","Who":"me"}', '{"ID":"B","ID":"%s"}', ' {"I\\u0044" : "%s"}\n']
    return (chance.choice(forms) % chance.choice([text, text, escaped])).encode()


def random_part(chance, text):
    """Returns a text as part of a query: letters are plain or percent-encoded, a space also as
    `+`."""
    written = ""
    for letter in text:
        encoded = "".join(f"%{byte:02x}" for byte in letter.encode())
        plain = {" ": "+", "+": encoded, "%": encoded}.get(letter, letter)
        written += chance.choice([plain, plain, encoded, encoded.upper()])
    return written


def random_query(chance):
    """Returns a query, with an identifier or without."""
    if chance.random() < 0.35:
        return chance.choice(["", "", "", "?", "?ID=", "?ID", "?id=A", "?ID=&ID=A", "?x=y&ID"])
    if chance.random() < 0.06:
        return "?ID=" + chance.choice(["i" * 257, "%C3%A9" * 129, "%FF", "%", "A%4", "=A", "A?"])
    pair = random_part(chance, "ID") + "=" + random_part(chance, chance.choice(IDENTIFIERS))
    return chance.choice(["?", "?", "?&", "?x=y&", "?id=A&"]) + pair + chance.choice(["", "", "&", "&ID=A", "&ID=B&x"])


def random_request(chance):
    """Returns a request of any kind: its method, target and body."""
    method = chance.choice(["GET", "POST", "POST", "POST", "DELETE", "LOCK", "UNLOCK", "UNLOCK"])
    name = chance.choice(NAMES)
    if chance.random() < 0.02:
        method, name = chance.choice([("PUT", name), ("GET", "a/b"), ("GET", "a%62"), ("LOCK", "a%62")])
    body = b""
    if method == "POST":
        body = random_state(chance)
    elif method == "LOCK" or method == "UNLOCK" and chance.random() < 0.6:
        body = random_lock_info(chance)
    elif method != "UNLOCK" and chance.random() < 0.1:
        body = chance.choice([A, S1, b"x"])
    return method, f"/state/{name}{random_query(chance)}", body


def random_pieces(chance, data):
    """Returns the bytes, cut at random places."""
    return cut_at(data, {chance.randrange(len(data)) for _ in range(chance.choice([0, 3, 300, 3000]))})


def kind_of(reply):
    """Returns the status of a reply, and the refusal's name or whether it has a body."""
    head, _, body = reply.partition(b"\r\n\r\n")
    status = head.split(b" ")[1].decode()
    if status in ("200", "423"):
        return status + " and a body" * (status == "200" and body != b"")
    return status + " " + json.loads(body)["error"]


def text_of(chance, requests):
    """Returns the bytes of requests, perhaps with the last one cut."""
    more = ["", "", "", "Content-Type: application/json\r\n"]
    data = b"".join(request_text(*request, chance.choice(more)) for request in requests)
    return data[: len(data) - chance.choice([0, 0, chance.randrange(1, 20)])]


def expect_as_the_model(requests, pieces, about):
    """Runs a conversation of these requests, in pieces, and checks that the replies are the
    model's. Returns them."""
    replies, status = model.replies_to(b"".join(pieces))
    output, found_status, errors = run_in_pieces(pieces)
    expect_replies(output, replies, requests, about)
    expect((found_status, errors, status in (CLEAN, CUT)), (status, b"", True), f"{about}, the end")
    return replies


@st.composite
def short_conversations(draw):
    """Draws a few requests, and their bytes in pieces."""
    chance = draw(st.randoms(use_true_random=False))
    requests = [random_request(chance) for _ in range(draw(st.integers(1, 20)))]
    return requests, draw(some_pieces(text_of(chance, requests), 30))


@settings(max_examples=100)
@given(short_conversations())
def test_short_conversations_are_answered_as_the_model_says(conversation):
    expect_as_the_model(*conversation, "a short conversation")


def test_random_acts_are_answered_as_the_model_says():
    chance = random.Random(20261122)
    met, count = Counter(), 0
    while count < REQUESTS:
        requests = [random_request(chance) for _ in range(chance.randrange(500, 2001))]
        pieces = random_pieces(chance, text_of(chance, requests))
        replies = expect_as_the_model(requests, pieces, f"after {count} requests")
        met.update((method, kind_of(reply)) for (method, _, _), reply in zip(requests, replies))
        count += len(replies)
    expect(sum(met.values()) >= 20000, True, "how many requests")
    for method, kinds in MET.items():
        for kind in kinds:
            expect(met[method, kind] >= LEAST, True, f"{method} is answered {kind} {met[method, kind]} times")
