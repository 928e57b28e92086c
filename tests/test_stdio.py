"""Drives the built program over pipes: `tfstated stdio` and its arguments. The expected output is
written here by hand, or computed by the plain model of stdio_model.py."""
import json
import os
import subprocess

from hypothesis import given, settings, strategies as st
import pytest

from checking import S1, S2, SECONDS, expect
from cuts import some_pieces, without_end
from journal_texts import one_in, up_to
import stdio_model as model
from stdio_model import CLEAN, CUT, DONE, REFUSED, refusal_text, reply_text
from stdio_program import PROGRAM, USAGE, Talk, request_text, run, run_in_pieces

pytestmark = pytest.mark.usefixtures("tfstated")
PUSH_HEAD = b"POST /state/a HTTP/1.1\r\nHost: h\r\nContent-Length: 41\r\n\r\n"
GET = b"GET /state/a HTTP/1.1\r\nHost: h\r\n\r\n"
PUSH_AND_GET = PUSH_HEAD + S1 + GET
REPLIES = (
    b"HTTP/1.1 200 OK\r\nContent-Length: 0\r\n\r\n"
    b"HTTP/1.1 200 OK\r\nContent-Type: application/json\r\nContent-Length: 41\r\n\r\n"
    b'{"version":4, "serial":1 ,"lineage":"L1"}'
)
NO_STATE = (
    b"HTTP/1.1 404 Not Found\r\nContent-Type: application/json\r\nContent-Length: 19\r\n\r\n"
    b'{"error":"NoState"}'
)
# Messages that framing refuses, and some that aren't complete unless more bytes follow.
BROKEN = [
    b"GET\r\n\r\n", b"\x00\n\n", b"GET /state/a HTTP/1.1\n\n", b"POST / HTTP/1.1\nHost: h\nContent-Length: x\n\n",
    b"POST / HTTP/1.1\nHost: h\nContent-Length: 9\n\n1", b"POST / HTTP/1.0\nTransfer-Encoding: chunked\n\n0\r\n\r\n",
]
MAX_READS = 1048576
MAX_BODY = 16777216


def push(body, name="a"):
    """Returns a request that pushes a state."""
    return f"POST /state/{name} HTTP/1.1\r\nHost: h\r\nContent-Length: {len(body)}\r\n\r\n".encode() + body


def state(serial, lineage="L1"):
    """Returns a state's text."""
    return f'{{"version":4,"serial":{serial},"lineage":"{lineage}"}}'.encode()


def state_of_size(size):
    """Returns a valid state of this many bytes."""
    start, end = b'{"version":4,"serial":1,"lineage":"L1","filler":"', b'"}'
    return start + b"x" * (size - len(start) - len(end)) + end


def pieces_of(data, size):
    """Returns the bytes in pieces of this size."""
    return [data[at : at + size] for at in range(0, len(data), size)]


def prefix_is(count):
    """Returns the output for this many first bytes of the two requests, and the status."""
    written = 0 if count < 96 else 38 if count < 130 else 150
    return REPLIES[:written], CLEAN if count in (0, 96, 130) else CUT, b""


def test_a_push_and_a_get_are_answered():
    expect((len(PUSH_AND_GET), len(REPLIES)), (130, 150))
    expect(run(PUSH_AND_GET), (REPLIES, CLEAN, b""))


@pytest.mark.parametrize("count", range(131))
def test_each_prefix_ends_as_it_should(count):
    expect(run(PUSH_AND_GET[:count]), prefix_is(count), f"the first {count} bytes")


@pytest.mark.parametrize("at", range(1, 130))
def test_a_cut_at_each_byte_changes_nothing(at):
    talk = Talk()
    talk.give(PUSH_AND_GET[:at])
    talk.give(PUSH_AND_GET[at:])
    expect(talk.end(), (REPLIES, CLEAN, b""), f"cut at {at}")


def test_one_byte_at_a_time_changes_nothing():
    talk = Talk()
    for byte in pieces_of(PUSH_AND_GET, 1):
        talk.give(byte)
    expect(talk.end(), (REPLIES, CLEAN, b""))


def test_a_message_is_answered_before_the_next_byte_is_there():
    talk = Talk()
    talk.give(PUSH_AND_GET[:96])
    expect(talk.take(38), REPLIES[:38])
    talk.give(GET)
    expect(talk.take(112), REPLIES[38:])
    expect(talk.end(), (b"", CLEAN, b""))


def test_a_name_with_no_state_is_reported():
    expect(len(NO_STATE), 97)
    expect(run(GET), (NO_STATE, CLEAN, b""))


def test_pushes_are_judged_by_serial_and_bytes():
    wanted = DONE + DONE + refusal_text("SerialReused") + REPLIES[38:] + refusal_text("UnknownAddress")
    query = b"GET /impact/a/any?of=t.a HTTP/1.1\r\nHost: h\r\n\r\n"
    expect(run(push(S1) + push(S1) + push(S1 + b" ") + GET + query), (wanted, CLEAN, b""))
    wanted = DONE + DONE + refusal_text("SerialTooLow") + reply_text(200, S2)
    expect(run(push(S1) + push(S2) + push(S1) + GET), (wanted, CLEAN, b""))


def test_serials_have_64_bits():
    pushes = push(state(18446744073709551615)) + push(state(0)) + push(state(18446744073709551616))
    expect(run(pushes), (DONE + refusal_text("SerialTooLow") + refusal_text("BadState"), CLEAN, b""))


def test_another_lineage_is_refused():
    expect(run(push(S1) + push(state(9, "L2"))), (DONE + refusal_text("LineageDiffers"), CLEAN, b""))


def test_states_that_are_none_are_refused():
    bad = [b'{"version":3,"serial":1,"lineage":"L1"}', state(1, ""), b"", b"abc", b"\xff", S1 + b"x", b"[4]"]
    good = b'{"version":4,"serial":0,"lineage":"L1","resources":null,"more":[1]}'
    wanted = refusal_text("BadState") * len(bad) + DONE
    expect(run(b"".join(map(push, bad)) + push(good)), (wanted, CLEAN, b""))


def with_resources(text, serial=1):
    """Returns a state's text with this list of resources."""
    return f'{{"version":4,"serial":{serial},"lineage":"L1","resources":{text}}}'.encode()


def resource(instances="[{}]", **members):
    """Returns a resource's text, with other members instead of the usual ones."""
    usual = {"mode": "managed", "type": "t", "name": "n", **members}
    parts = [f"{json.dumps(name)}:{json.dumps(value)}" for name, value in usual.items()]
    return "{" + ",".join([*parts, f'"instances":{instances}']) + "}"


@pytest.mark.parametrize("text", [
    "[]", "null", "[" + resource("null") + "]", "[" + resource() + "," + resource(mode="data", module="module.m[\"p.q]\"]") + "]",
    "[" + resource('[{"index_key":0},{"index_key":"k"},{"index_key":0,"deposed":"ab12"},{"deposed":""}]', module="") + "]",
    "[" + resource('[{"dependencies":["t.n","x.y[0]","module.m[\\"a\\"].t.n"],"index_key":null,"attributes":[null]}]') + "]",
])
def test_resources_are_read(text):
    expect(run(push(with_resources(text)) + GET), (DONE + reply_text(200, with_resources(text)), CLEAN, b""), text)


@pytest.mark.parametrize("text", [
    "{}", "[null]", "[1]", "[" + resource(mode="x") + "]", "[" + resource(mode=None) + "]", "[" + resource(type="") + "]",
    "[" + resource(name=1) + "]", "[" + resource(module="module.m[0") + "]", "[" + resource(module=1) + "]", "[" + resource("{}") + "]",
    "[" + resource("[1]") + "]", "[" + resource("[null]") + "]", "[" + resource('[{"index_key":-1}]') + "]",
    "[" + resource('[{"index_key":1.0}]') + "]", "[" + resource('[{"index_key":18446744073709551616}]') + "]",
    "[" + resource('[{"deposed":1}]') + "]", "[" + resource('[{"dependencies":{}}]') + "]",
    "[" + resource('[{"dependencies":[null]}]') + "]", "[" + resource('[{"dependencies":["a]"]}]') + "]",
    "[" + resource() + "," + resource('[{},{"dependencies":["a","b[x]"]}]') + "]",
])
def test_resources_that_are_none_are_refused(text):
    expect(run(push(with_resources(text)) + GET), (refusal_text("BadState") + NO_STATE, CLEAN, b""), text)
    expect(model.conversation(push(with_resources(text)))[0], refusal_text("BadState"), text)


def test_a_state_has_at_most_4096_instances():
    def instances(count, last="{}"):
        return with_resources("[" + resource("[" + ",".join(["{}"] * (count - 1) + [last]) + "]") + "]")

    expect(run(push(instances(4096))), (DONE, CLEAN, b""))
    expect(run(push(instances(4097))), (refusal_text("TooManyInstances"), CLEAN, b""))
    expect(run(push(instances(4097, '{"deposed":1}'))), (refusal_text("BadState"), CLEAN, b""), "another fault comes first")
    chain = [resource('[{"dependencies":["t.i%d"]}]' % (i - 1) if i else "[{}]", name=f"i{i}") for i in range(4096)]
    expect(run(push(with_resources("[" + ",".join(chain) + "]")) + GET)[0][:38], DONE, "a chain")
    expect(refusal_text("TooManyInstances"), b"HTTP/1.1 413 Content Too Large\r\nContent-Type: application/json\r\n"
           b'Content-Length: 28\r\n\r\n{"error":"TooManyInstances"}')


def test_a_body_that_is_too_large_is_refused_at_once():
    talk = Talk()
    talk.give(b"POST /state/a HTTP/1.1\r\nHost: h\r\nContent-Length: 16777217\r\n\r\n")
    wanted = refusal_text("BodyTooLarge", close=True)
    expect(talk.take(len(wanted) + 1), wanted)
    expect(talk.process.wait(timeout=SECONDS), REFUSED)
    talk.end()


@pytest.mark.parametrize("size", [64, 4096])
def test_a_body_of_16_mib_is_taken_in_pieces(size):
    body, talk = state_of_size(MAX_BODY), Talk()
    for piece in pieces_of(push(body), size):
        talk.process.stdin.write(piece)
    expect(talk.take(38), DONE, f"pieces of {size}")
    talk.process.stdin.write(GET)
    output, status, errors = talk.end()
    expect((output == reply_text(200, body), status, errors), (True, CLEAN, b""), f"pieces of {size}, GET")


def test_each_call_is_answered_at_the_limits_of_everything():
    target, held = "/state/" + "n" * 64, "?ID=" + "i" * 256
    lock = b'{"ID":"' + b"i" * 256 + b'"}'
    lock += b" " * (65536 - len(lock))
    links = [resource("[{}]", name="i0"), *(resource('[{"dependencies":["t.i%d"]}]' % (i - 1), name=f"i{i}") for i in range(1, 4096))]
    body = with_resources("[" + ",".join(links) + "]", serial=18446744073709551615)
    body += b" " * (MAX_BODY - len(body))
    reached = ",".join(f'"t.i{i}"' for i in range(1, 4096))
    answer = f'{{"instances":[{reached}],"position":2,"serial":18446744073709551615}}'.encode()
    query = "/impact/" + "n" * 64 + "/any?" + "&".join(["of=t.i0"] * 64)
    asked = [
        ("LOCK", target, lock, DONE), ("POST", target + held, body, DONE), ("GET", target, b"", reply_text(200, body)),
        ("LOCK", target, b'{"ID":"B"}', reply_text(423, lock)), ("GET", query, b"", reply_text(200, answer)),
        ("DELETE", target + held, b"", DONE), ("GET", target, b"", NO_STATE), ("UNLOCK", target, lock, DONE),
    ]
    output = b"".join(reply for *_, reply in asked)
    expect(run(b"".join(request_text(*words) for *words, _ in asked)) == (output, CLEAN, b""), True)


def test_reads_are_limited():
    short = push(S1 + b" " * (MAX_READS - 1 - len(push(S1)) - 5))
    expect(len(short), MAX_READS - 1)
    expect(run_in_pieces(pieces_of(short, 1)), (DONE, CLEAN, b""), "the last read tells the end")
    expect(run_in_pieces(pieces_of(b"\n" + short, 1)), (DONE, 1, b"tfstated: TooManyReads\n"), "one more is wanted")
    unfinished = push(state_of_size(MAX_BODY))[: MAX_READS + 1]
    expect(run_in_pieces(pieces_of(unfinished, 1)), (b"", 1, b"tfstated: TooManyReads\n"), "no reply yet")


KEYS = ['{}', '{"index_key":3}', '{"index_key":"a"}', '{"dependencies":["t.n","a["]}', '{"deposed":7}']
MODULES = ["", "module.m", "module.m[0]", "module.m[", "a]"]
RESOURCES = [f"[{resource(f'[{keys}]', module=module)}]" for keys in KEYS for module in MODULES]
RESOURCES += ["[]", "{}"] * 25 + [f"[{resource('null', mode=module)}]" for module in MODULES] * 5
# The members of a state before its lineage, sometimes resources; and invalid ones.
MEMBERS = st.sampled_from([b'"lineage"'] * 125 + [f'"resources":{text},"lineage"'.encode() for text in RESOURCES])
OTHER_STATES = [lambda text: text[:-1] + b"}", lambda text: text + b"x", lambda text: text.replace(b"4", b"4.0"),
                lambda text: b"", lambda text: b"[]", lambda text: b"\xff"]
LOOKS = st.sampled_from([lambda text: text] * 6 + OTHER_STATES)
SERIALS, LINEAGES, SPACES = st.integers(0, 3), st.sampled_from(["L1", "L1", "L2"]), st.sampled_from([0, 0, 1, 3000])
NAMES = st.sampled_from(["a", "a", "b", "c", "a/b", "a%20", "n" * 65])
METHODS, ENDS = st.sampled_from([b"GET", b"GET", b"PUT", b"HEAD"]), st.sampled_from([b"\r\n", b"\n"])


@st.composite
def some_states(draw):
    """Draws a state's text, or an invalid one."""
    text = state(draw(SERIALS), draw(LINEAGES)) + b" " * draw(SPACES)
    return draw(LOOKS)(text.replace(b'"lineage"', draw(MEMBERS)))


@st.composite
def messages(draw):
    """Draws a request as bytes; a rare one is refused by framing or isn't complete."""
    name = draw(NAMES)
    if draw(one_in(50)):
        return draw(st.sampled_from(BROKEN))
    if draw(st.booleans()):
        return push(draw(some_states()), name)
    end, start = draw(ENDS), b"\r\n" * draw(st.sampled_from([0, 0, 2]))
    line = b"%s /state/%s HTTP/1.%d" % (draw(METHODS), name.encode(), not draw(one_in(33)))
    return start + line + end + b"host:h" + end + b"X-Long: " + b"y" * draw(up_to(599)) + end + end


STREAMS = st.lists(messages(), min_size=1, max_size=40).map(b"".join)


@st.composite
def streams(draw):
    """Draws requests, perhaps without their end, in pieces."""
    return draw(some_pieces(draw(without_end(draw(STREAMS))), 30))


def test_random_streams_in_random_cuts_are_answered_as_the_model_says():
    ends = set()

    @settings(max_examples=200)
    @given(streams())
    def are_answered(pieces):
        output, status = model.conversation(b"".join(pieces))
        expect(run_in_pieces(pieces), (output, status, b""), "a stream")
        ends.add(status)

    are_answered()
    expect(ends, {CLEAN, CUT, REFUSED}, "each end is met")


def test_a_reader_of_the_output_that_goes_away_is_a_fault():
    reading, writing = os.pipe()
    os.close(reading)
    talk = Talk(stdout=writing)
    os.close(writing)
    talk.process.stdin.write(PUSH_AND_GET)
    expect(talk.end()[1:], (1, b"tfstated: Write\n"), "from the start")
    talk = Talk()
    talk.give(PUSH_AND_GET[:96])
    expect(talk.take(38), REPLIES[:38])
    talk.process.stdout.close()
    talk.process.stdout = None
    talk.process.stdin.write(GET)
    expect(talk.end()[1:], (1, b"tfstated: Write\n"), "after a reply")
    talk = Talk()
    talk.process.stdin.write(push(state_of_size(MAX_BODY)) + GET)
    expect(talk.take(38 + 1000)[:38], DONE)
    talk.process.stdout.close()
    talk.process.stdout = None
    expect(talk.end()[1:], (1, b"tfstated: Write\n"), "inside a reply")


def test_input_and_output_that_fail_are_faults():
    folder = os.open("/", os.O_RDONLY)
    expect(Talk(stdin=folder).end(), (b"", 1, b"tfstated: Read\n"))
    os.close(folder)
    with open("/dev/full", "wb") as full:
        talk = Talk(stdout=full)
    talk.process.stdin.write(PUSH_AND_GET)
    expect(talk.end()[1:], (1, b"tfstated: Write\n"))


@pytest.mark.parametrize("arguments", [
    ("",), ("stdin",), ("stdio", ""), ("stdio", "stdio"), ("Stdio",), ("stdio ",), ("--help",), (b"\xff",),
    ("stdio", b"\xff"), ("serve", "127.0.0.1:0", "1"),
])
def test_other_arguments_print_the_usage(arguments):
    expect(run(PUSH_AND_GET, *arguments), (b"", 2, USAGE), arguments)


def test_no_arguments_print_the_usage():
    bare = subprocess.run([PROGRAM], input=PUSH_AND_GET, capture_output=True, timeout=SECONDS, check=False)
    expect((bare.stdout, bare.returncode, bare.stderr), (b"", 2, USAGE), "no arguments")


@pytest.mark.parametrize("words, data, status", [("other", b"", 2), ("stdio", PUSH_AND_GET, 1)])
def test_a_standard_error_that_is_closed_leaves_the_status(words, data, status):
    shell = ["sh", "-c", '"$0" "$1" >&- 2>&-', PROGRAM, words]
    expect(subprocess.run(shell, input=data, timeout=SECONDS, check=False).returncode, status, words)
