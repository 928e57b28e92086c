"""Counts instructions, which don't change with the load of a machine. The end of a head or a trailer
is found in one pass however it is cut, and a head is parsed once. An order of rows costs little in
comparison with their closure. A push makes its index and each digest once. A rebase reads a state
and makes its index once. A journal in pieces is read once. A query finds an address without a look
at each instance, and writes consecutive addresses from the list that the version keeps."""
import base64
import hashlib
import os
import random
import shutil
import struct
import subprocess

import pytest

import folders
from checking import SECONDS, expect
from folder_program import FOLDER_PROGRAM, STATUSES
from journal_reader import base_text, push_content, record_text
from measuring import CALLGRIND, collected, instructions
from programs import preloaded
from sample_states import chain, dense, resource, text_of, written
from serve_program import fresh
from stdio_program import PROGRAM, request_text

pytestmark = pytest.mark.usefixtures("tfstated", "tfstatectl")
SIZE = 4_096
# Limits of the instructions for a byte of a push: a record takes 12, and its digest 10 of these.
RECORD, DIGEST = 15, 12


def counted(data, *arguments, **how):
    """Returns the instructions of a conversation over standard input, or of another command."""
    expect(shutil.which("valgrind") is not None, True, "valgrind, which counts instructions, is there")
    words = [*CALLGRIND, PROGRAM, *(arguments or ("stdio",))]
    ran = subprocess.run(words, input=data, capture_output=True, timeout=2 * SECONDS, check=False, **how)
    expect(ran.returncode, 0, ran.stderr[-300:])
    return collected(ran.stderr)


def long_head(fields):
    """Returns a request with this many fields of 500 bytes."""
    return request_text("GET", "/state/a", more=f"X: {'x' * 495}\r\n" * fields)


def test_the_end_of_a_head_is_sought_in_one_pass_however_it_is_cut():
    cut = {**os.environ, "LD_PRELOAD": preloaded("short_reads.c")}
    few, some, many = (counted(long_head(fields), env=cut) for fields in (8, 16, 32))
    expect(many - some < 2.2 * (some - few), True, f"one byte a read: {few:,}, {some:,} and {many:,} instructions")


def chunked(fields):
    """Returns a request whose body is empty and chunked, with a trailer of this many fields of 100
    bytes."""
    head = "POST /state/a HTTP/1.1\r\nHost: h\r\nTransfer-Encoding: chunked\r\n\r\n0\r\n"
    return (head + f"X: {'x' * 95}\r\n" * fields + "\r\n").encode()


def test_the_end_of_a_trailer_is_sought_in_one_pass_however_it_is_cut():
    cut = {**os.environ, "LD_PRELOAD": preloaded("short_reads.c")}
    few, some, many = (counted(chunked(fields), env=cut) for fields in (16, 32, 64))
    expect(many - some < 2.2 * (some - few), True, f"one byte a read: {few:,}, {some:,} and {many:,} instructions")


def test_the_head_of_a_body_that_arrives_in_pieces_is_parsed_once():
    cut = {**os.environ, "LD_PRELOAD": preloaded("short_reads.c")}
    short, long = (
        [counted(request_text("POST", "/state/a", b"x" * size, f"X: {'x' * 495}\r\n" * fields), env=cut) for size in (1_000, 3_000)]
        for fields in (1, 32)
    )
    expect(long[1] - long[0] < 1.1 * (short[1] - short[0]), True, f"2,000 bytes more, one a read: {short} and {long} instructions")


def relation(pairs):
    """Returns pairs of numbers as bytes, as the benchmark program reads them."""
    return struct.pack("<HH", SIZE, 0) + b"".join(struct.pack("<HH", *pair) for pair in pairs)


@pytest.mark.usefixtures("tfs_bench")
@pytest.mark.parametrize("targets", [1, 4, 16, 32, 64])
def test_an_order_of_rows_costs_little_compared_to_their_closure(targets):
    chance = random.Random(7)
    ordered = [(row, chance.randrange(row)) for row in range(1, SIZE) for _ in range(targets)]
    numbers = chance.sample(range(SIZE), SIZE)
    shuffled = [(numbers[row], numbers[target]) for row, target in ordered]
    walk, closure = (instructions("planes", "close", relation(pairs)) for pairs in (ordered, shuffled))
    expect(closure < 1.1 * walk, True, f"{targets} targets a row: {closure:,} instructions, and {walk:,} if the order is given")


@pytest.mark.usefixtures("tfs_bench")
@pytest.mark.parametrize("state", [dense(2_048), written(500, 10)], ids=["dense", "written"])
def test_a_push_makes_its_index_and_each_digest_once(state):
    digest = base64.b64encode(hashlib.md5(state).digest()).decode()
    nothing, plain, with_digest = (
        counted(data)
        for data in (b"", request_text("POST", "/state/a", state), request_text("POST", "/state/a", state, f"Content-MD5: {digest}\r\n"))
    )
    parts = instructions("state", "document", state) + instructions("index", "build", state)
    beyond = (plain - nothing - parts) / len(state)
    expect(0 < beyond < RECORD, True, f"{beyond:.1f} instructions a byte beyond the document and its index")
    more = (with_digest - plain) / len(state)
    expect(0 < more < DIGEST, True, f"{more:.1f} instructions a byte for Content-MD5")


def rebased(*states):
    """Returns the instructions of a rebase of a journal that pushes these states."""
    records = b"".join(record_text(3, b"a", push_content(b"", state)) for state in states)
    return counted(b"", "rebase", fresh(b"TFJ2\n" + base_text(0, []) + records), fresh())


# It costs as much as a push of the state, and the text of the base. One more index costs a third of
# the push of the dense state, and one more document two thirds of that or more.
@pytest.mark.parametrize("state, most", [(dense(2_048), 1.2), (written(500, 10), 1.5)], ids=["dense", "written"])
def test_a_rebase_reads_a_state_once_and_makes_its_index_once(state, most):
    push = counted(request_text("POST", "/state/a", state)) - counted(b"")
    times = (rebased(state) - rebased()) / push
    expect(0.5 < times < most, True, f"{times:.2f} times what a push costs")


def listed(*states):
    """Returns the instructions of `tfstatectl history` over a journal that pushes these states."""
    records = b"".join(record_text(3, b"a", push_content(b"", state)) for state in states)
    folder = folders.fresh(n1=b"TFJ2\n" + base_text(0, []) + records)
    ran = subprocess.run([*CALLGRIND, FOLDER_PROGRAM, "history", folder, "a", "--json"], capture_output=True, timeout=2 * SECONDS, check=False)
    expect(ran.returncode, 0 if states else STATUSES["NoName"], ran.stderr[-300:])
    return collected(ran.stderr)


def test_a_journal_in_pieces_is_read_once():
    state = written(500, 10)
    push = counted(request_text("POST", "/state/a", state)) - counted(b"")
    times = (listed(state) - listed()) / push
    expect(0.5 < times < 1.2, True, f"{times:.2f} times what a push costs")


def test_a_query_finds_an_address_without_a_look_at_each_instance():
    push, query = request_text("POST", "/state/a", chain(SIZE)), request_text("GET", f"/impact/a/any?of=t.r{SIZE - 1}")
    each = (counted(push + query * 11) - counted(push + query)) / 10
    expect(0 < each < 20 * SIZE, True, f"{each:,.0f} instructions a query over {SIZE:,} instances")


def each_answer(depends):
    """Returns the instructions of a query whose answer has 2,000 of 4,000 instances: those with
    these numbers."""
    texts = [resource(f"r{number}", [{"dependencies": ["t.source"] if depends(number) else []}]) for number in range(1_000, 5_000)]
    push, query = request_text("POST", "/state/a", text_of([resource("source", [{}]), *texts])), request_text("GET", "/impact/a/any?of=t.source")
    return (counted(push + query * 11) - counted(push + query)) / 10


def test_addresses_that_follow_one_another_are_written_from_the_list():
    in_a_row, every_other = each_answer(lambda number: number < 3_000), each_answer(lambda number: number % 2 == 0)
    expect(0 < 2 * in_a_row < every_other, True, f"{in_a_row:,.0f} instructions in a row, {every_other:,.0f} of every other instance")
