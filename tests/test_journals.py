"""Runs the program `tfs_probe`, which has the journal's crates over real bytes and files. What it
reads, and encodes again, is compared with a plain reader and writer: four journals with each bit
flipped, also under right MD5s, each prefix, and random journals. How prefixes, flipped bits, and
fields at their limits read is also worked out by hand (journal_rows.py). Its files are compared
with what it prints about each append: complete ones, a limit on the size of files, a full device, a
pipe, a closed descriptor. Its requests for memory are refused, one in each run."""
import os
import resource
import signal
import subprocess
import tempfile
import threading
from pathlib import Path

from hypothesis import given, settings, strategies as st
import pytest

from checking import S1, S2, SECONDS, expect
from journal_reader import base_text, lines_of, push_content, read_journal, record_text
from journal_rows import (BASES, DAMAGED_BASES, DAMAGED_RECORDS, EMPTY, FLIPPED, LONG_RECORDS,
                          PREFIXES, RECORDS, TORN_BASES, TORN_RECORDS, WHOLE_BASES)
from journal_texts import B, FIRST, SECOND, with_mistakes
from programs import TFS_PROBE as PROGRAM
from refused_requests import FOREVER, count_of, fault_of, run_counted

pytestmark = pytest.mark.usefixtures("tfs_probe")
FOLDER = tempfile.TemporaryDirectory(prefix="tfstated-")
ROWS = [(b"a", B, b""), (b"b", b"", S1)]
PUSH, LOCK = (3, b"a", push_content(b"", S1)), (1, b"a", B)
MORE_STATES = [
    S1[:-1] + b',"resources":[{"mode":"data","type":"t","name":"n","instances":[{}]}]}',
    b'{"version":4,"serial":18446744073709551615,"lineage":"\\u0000"}',
    b'{"version":4,"serial":0,"lineage":"x","resources":[{"mode":"managed","type":"t","name":"n","instances":[{}]}]}',
]
LATER = [(3, b"b", push_content(b"", S2)), (2, b"a", b"B")]
# The limits of the requests for memory to read and write the four journals below, and of the bytes
# of the longest one.
MOST_REQUESTS, MOST_BYTES = 153, 2048


def pieces_of(header, base, entries):
    """Returns the pieces of a journal's text: header and base, and the record of each entry."""
    return [header + (base_text(*base) if base else b""), *(record_text(*entry) for entry in entries)]


JOURNALS = [(FIRST, None, [PUSH, LOCK]), (SECOND, (0, []), [PUSH, LOCK]), (SECOND, (2, [(b"a", B, S1)]), []), (SECOND, (2, ROWS), LATER)]
PIECES = [pieces_of(*journal) for journal in JOURNALS]
TEXTS = [b"".join(pieces) for pieces in PIECES]


def path_of(name):
    """Returns a path without a file."""
    path = Path(FOLDER.name) / name
    path.unlink(missing_ok=True)
    return path


def run(pieces, *words, **how):
    """Runs the program on a line of hex digits for each piece. Returns its output, its status, and
    what it wrote to standard error."""
    lines = "".join(piece.hex() + "\n" for piece in pieces).encode()
    ran = subprocess.run([PROGRAM, *map(str, words or ["journal"])], input=lines, capture_output=True, timeout=SECONDS, check=False, **how)
    return ran.stdout.decode(), ran.returncode, ran.stderr.decode()


def expect_read(texts):
    """Compares how the program and the plain reader read each text, and the text of what they
    read."""
    output, status, errors = run(texts)
    expect((status, errors), (0, ""), "the program")
    lines = output.splitlines()
    expect(len(lines), 2 * len(texts), "two lines for each text")
    for text, read, again in zip(texts, lines[::2], lines[1::2]):
        expect([read, again], lines_of(text), text.hex())


def summary_of(line):
    """Returns from a reading that the program prints: the format, the position, the number of rows,
    the number of entries, and the end."""
    words = line.split()
    end = words[-1:] if words[-1] == "whole" else words[-2:]
    entries = sum(words.count(kind) for kind in ("lock", "unlock", "push", "delete"))
    return " ".join([words[1], words[3], str(words.count("row")), str(entries), *end])


def expect_summaries(texts, wanted, about):
    """Compares how the program reads each text with what is written here: one reading for each
    text, or one for all."""
    output, status, errors = run(texts)
    expect((status, errors), (0, ""), "the program")
    expect([summary_of(line) for line in output.splitlines()[::2]], wanted if isinstance(wanted, list) else [wanted] * len(texts), about)


def readings_of(runs):
    """Returns the readings of runs, one for each length or place."""
    readings = []
    for last, reading in (run.split(": ") for run in runs.split(", ")):
        readings += [reading] * (int(last) + 1 - len(readings))
    return readings


def behind(front, rows):
    """Returns texts of format 2: the header, a front, and a row of hex digits."""
    return [SECOND + bytes.fromhex(front + row) for row in rows.split("\n")[1:]]


def flipped(text):
    """Returns the text with each of its bits flipped."""
    number = int.from_bytes(text, "big")
    return [(number ^ 1 << bit).to_bytes(len(text), "big") for bit in range(8 * len(text))]


def test_the_four_journals_are_read():
    expect([len(text) for text in TEXTS], [104, 130, 92, 192], "the lengths of the document")
    expect([read_journal(text)[4] for text in TEXTS], ["whole"] * 4, "they are whole")
    expect_read(TEXTS)


def test_each_prefix_is_read():
    expect_read([text[:count] for text in TEXTS for count in range(len(text) + 1)])


def test_each_flipped_bit_is_read():
    expect_read([changed for text in TEXTS for changed in flipped(text)])


@pytest.mark.parametrize("text, prefixes, flips", zip(TEXTS, PREFIXES, FLIPPED))
def test_prefixes_and_flipped_bits_are_read_as_worked_out_by_hand(text, prefixes, flips):
    expect_summaries([text[:count] for count in range(len(text) + 1)], readings_of(prefixes), f"prefixes of {text}")
    lowest = [text[:place] + bytes([text[place] ^ 1]) + text[place + 1 :] for place in range(len(text))]
    expect_summaries(lowest, readings_of(flips), f"flipped bits of {text}")


def test_no_bit_turns_one_header_into_the_other():
    texts = [text[:3] + bytes([text[3] ^ 1 << bit]) + text[4:] for text in TEXTS[:2] for bit in range(8)]
    expect_summaries(texts, "1 0 0 0 damaged 0", "a bit of the format")


def test_what_is_read_is_what_the_text_says():
    wanted = f"format 2 base 2 row a {B.hex()} - row b - {S1.hex()} push b - {S2.hex()} unlock a {b'B'.hex()} whole"
    expect(run(TEXTS[3:])[0].splitlines()[0], wanted)


def filled(row):
    """Returns what is read, and its hex digits, with the bytes of each text filled in."""
    texts = {"S1": S1.hex(), "S2": S2.hex(), "B": B.hex()}
    return [[texts.get(word, word) for word in part.split()] for part in row.split(": ")]


def test_records_and_bases_are_those_of_the_document():
    records = list(map(filled, RECORDS.split("\n")[1:]))
    for read, base in map(filled, BASES.split("\n")[1:]):
        text = SECOND.hex() + "".join(base) + "".join("".join(digits) for _, digits in records)
        output, status, errors = run([bytes.fromhex(text)])
        found, again = output.splitlines()
        expect((status, errors), (0, ""), "the program")
        expect(found.split(), ["format", "2", *read, *(word for words, _ in records for word in words), "whole"], text)
        expect("".join(again.split()[1:]), text, "what was read is written again")


def test_two_pushes_are_read_whether_they_are_lawful_or_not():
    text = FIRST + record_text(3, b"a", push_content(b"", S2)) + record_text(3, b"a", push_content(b"", S1))
    expect(len(text), 137)
    expect_summaries([text], "1 0 0 2 whole", "a lower serial behind a higher one")


def test_names_of_a_base_rise_by_their_bytes():
    rows = [(["B", "a", "ab"], "2 0 3 0 whole"), (["b", "a"], "2 0 0 0 damaged 5"), (["a", "a"], "2 0 0 0 damaged 5")]
    texts = [SECOND + base_text(0, [(name.encode(), b"", b"") for name in names]) for names, _ in rows]
    expect_summaries(texts, [wanted for _, wanted in rows], "names")


def test_bases_at_their_limits_are_read():
    expect_summaries(behind("", TORN_BASES), "2 0 0 0 torn 5", "bases that stop")
    expect_summaries(behind("", DAMAGED_BASES), "2 0 0 0 damaged 5", "bases that are none")
    expect_summaries(behind("", WHOLE_BASES), ["2 3 1 0 whole", f"2 {2**62} 0 0 whole"], "whole bases")
    rows = [(b"%04d" % number, b"", b"") for number in range(1024)]
    text = SECOND + base_text(1024, rows)
    expect(len(text), 5 + 26 + 1024 * 13)
    expect_summaries([text], "2 1024 1024 0 whole", "as many rows as a base may have")
    expect_summaries([SECOND + base_text(1024, rows + [(b"a", b"", b"")])], "2 0 0 0 damaged 5", "a row more")


def test_records_at_their_limits_are_read():
    expect_summaries(behind(EMPTY, TORN_RECORDS), "2 0 0 0 torn 31", "records that stop")
    expect_summaries(behind(EMPTY, DAMAGED_RECORDS), "2 0 0 0 damaged 31", "records that are none")


@pytest.mark.parametrize("front, filling, back, is_read", LONG_RECORDS)
def test_records_of_the_longest_contents_are_read(front, filling, back, is_read):
    text = SECOND + bytes.fromhex(EMPTY + front) + filling + bytes.fromhex(back)
    expect_summaries([text], "2 0 0 1 whole" if is_read else "2 0 0 0 damaged 31", f"{front} and {len(filling)} bytes")


def test_each_flipped_bit_of_a_prefix_is_read():
    for text in TEXTS[2:]:
        expect_read([changed for count in range(len(text)) for changed in flipped(text[:count])[:400]])


def test_each_flipped_bit_under_a_right_digest_is_read():
    contents = [PUSH, LOCK, *LATER, (3, b"a", push_content(b"A", S1)), (4, b"a", "\u00e9".encode())]
    records = [record_text(kind, name, other) for kind, name, content in contents for other in flipped(content)]
    records += [record_text(kind, other, content) for kind, name, content in contents for other in flipped(name)]
    expect_read([FIRST + record + record_text(*LOCK) for record in records])
    bases = [base_text(2, [(b"a", holder, S1)]) for holder in flipped(B)]
    bases += [base_text(2, [(b"a", B, state)]) for state in flipped(S1)]
    bases += [base_text(2, [(name, B, S1), (b"b", b"", b"")]) for name in flipped(b"a")]
    expect_read([SECOND + base + record_text(*LOCK) for base in bases])


LETTERS = b"az09_-." * 11
NAMES = [LETTERS[first : first + length] for length in range(1, 65) for first in range(7)]
IDENTIFIERS = [b"", b"", b"B", b"a b", b"0", "\u00e9".encode(), b"x" * 256, b"\xff"]
INFOS = [B, b' {"Who":"", "ID":"\\u00e9"}\n', b'{"ID":""}', b'{"ID":"0"} ', b"[]"]
STATES = [S1, S2, S1 + b"\n", *MORE_STATES, b"{}"]
PUSHES = [(3, push_content(identifier, state)) for identifier in IDENTIFIERS for state in STATES]
# The contents of entries, each kind about as often as another: its number and its content.
CONTENTS = [(1, info) for info in INFOS] * 11 + [(kind, identifier) for kind in (2, 4) for identifier in IDENTIFIERS] * 7 + PUSHES


def entry(name, content):
    """Returns the record of an entry; about one in ten is refused."""
    return record_text(content[0], name, content[1])


ENTRIES = st.lists(st.builds(entry, st.sampled_from(NAMES), st.sampled_from(CONTENTS)), max_size=5).map(b"".join)
ROWS = st.lists(st.sampled_from([b"-", b"0.9", b"A", b"a", b"a_b", b"zz"]), unique=True, max_size=4).map(sorted)
ORDERS = st.sampled_from([lambda names: names] * 8 + [lambda names: names[::-1], lambda names: names + names[-1:]])
HELD = st.sampled_from([(holder, state) for holder in (b"", B) for state in (b"", S1, S2)])
POSITIONS = st.one_of(st.sampled_from([0, 3, 2**62, 2**62 + 1]), st.integers(0, 2**64 - 1))


@st.composite
def some_journals(draw):
    """Draws the text of a journal; one in four has a changed byte, and one in four is cut."""
    text = FIRST
    if draw(st.booleans()):
        names = draw(ORDERS)(draw(ROWS))
        text = SECOND + base_text(draw(POSITIONS), [(name, *draw(HELD)) for name in names])
    return draw(with_mistakes(text + draw(ENTRIES), 4, 4))


@settings(max_examples=300)
@given(st.lists(some_journals(), min_size=6, max_size=10))
def test_journals_at_random_are_read(texts):
    expect_read(texts)


def test_an_append_is_reported_once_its_bytes_are_in_the_file():
    path = path_of("told")
    with subprocess.Popen([PROGRAM, "append", "new", str(path)], stdin=subprocess.PIPE, stdout=subprocess.PIPE, bufsize=0) as process:
        there = b""
        for piece in PIECES[3]:
            process.stdin.write(piece.hex().encode() + b"\n")
            expect(process.stdout.readline(), b"done\n", "an append")
            there += piece
            expect(path.read_bytes(), there, "the file")
        process.kill()
    expect(path.read_bytes(), TEXTS[3], "the file after the program was killed")


def limited(kind, limit):
    """Returns a function that limits a resource before a program starts. A write past a limit on
    size is an error without a signal."""
    def set_limit():
        signal.signal(signal.SIGXFSZ, signal.SIG_IGN)
        signal.signal(signal.SIGPIPE, signal.SIG_IGN)
        resource.setrlimit(kind, (limit, limit))
    return set_limit


def expect_prefix(journal, path, whole):
    """Checks that the file of a journal reads as that journal with some first entries, whole or
    torn, or as nothing, and torn, if the file lacks a part of the journal's front."""
    text = path.read_bytes()
    form, position, rows, entries, end = read_journal(text)
    expect(end == "whole" or end.startswith("torn "), True, end)
    wanted = read_journal(TEXTS[journal])
    if len(text) >= len(PIECES[journal][0]):
        expect((form, position, rows), wanted[:3], "format and base")
    expect(entries, wanted[3][: len(entries)], "the entries")
    expect(len(entries) >= whole - 1, True, "each entry that was told as done")
    expect_read([text])


@pytest.mark.parametrize("journal", range(len(PIECES)))
def test_a_limit_on_the_size_is_one_fault_and_leaves_a_prefix(journal):
    pieces = PIECES[journal]
    ends = [len(b"".join(pieces[: count + 1])) for count in range(len(pieces))]
    for limit in range(len(TEXTS[journal]) + 1):
        path = path_of("limited")
        output, status, errors = run(pieces, "append", "new", path, preexec_fn=limited(resource.RLIMIT_FSIZE, limit))
        whole = sum(end <= limit for end in ends)
        expect(output, "done\n" * whole + "fault\n" * (whole < len(pieces)), f"a limit of {limit} bytes")
        expect((status, errors), (0, ""), "the program")
        expect(path.read_bytes(), TEXTS[journal][:limit], "the bytes up to the limit")
        expect_prefix(journal, path, whole)


def test_a_full_device_is_a_fault():
    expect(run(PIECES[1], "append", "over", "/dev/full"), ("fault\n", 0, ""), "no byte is taken")
    expect(run([b"", *PIECES[1]], "append", "over", "/dev/full"), ("done\nfault\n", 0, ""), "no bytes are appended without a write")


def test_a_descriptor_that_is_closed_for_writing_is_a_fault():
    path = path_of("closed")
    path.write_bytes(TEXTS[0])
    expect(run(PIECES[1], "append", "closed", path), ("fault\n", 0, ""), "a file that is open for reading")
    expect(path.read_bytes(), TEXTS[0], "it stays")


def test_a_file_that_is_not_synced_is_a_fault():
    path = path_of("pipe")
    os.mkfifo(path)
    found = []
    reader = threading.Thread(target=lambda: found.append(path.read_bytes()), daemon=True)
    reader.start()
    expect(run(PIECES[1], "append", "over", path), ("fault\n", 0, ""), "a pipe can't be synced")
    reader.join(SECONDS)
    expect(found, [PIECES[1][0]], "what the pipe was given before")


def test_a_pipe_that_nobody_reads_is_a_fault():
    path = path_of("unread")
    os.mkfifo(path)
    reader = os.open(path, os.O_RDONLY | os.O_NONBLOCK)
    with subprocess.Popen([PROGRAM, "append", "over", str(path)], stdin=subprocess.PIPE, stdout=subprocess.PIPE,
                          preexec_fn=limited(resource.RLIMIT_CORE, 0)) as process:
        process.stdin.write(b"\n")
        process.stdin.flush()
        expect(process.stdout.readline(), b"done\n", "no bytes are appended without a write")
        os.close(reader)
        output, _ = process.communicate(PIECES[1][0].hex().encode() + b"\n", timeout=SECONDS)
    expect((output, process.returncode), (b"fault\n", 0), "nobody reads")


def test_each_request_for_memory_is_refused_once():
    data = "".join(text.hex() + "\n" for text in TEXTS).encode()
    ample = "".join(line + "\n" for text in TEXTS for line in lines_of(text)).encode()
    requests = range(1, count_of([PROGRAM, "journal"], ample, data) + 1)
    expect(len(requests) <= MOST_REQUESTS, True, f"{len(requests)} requests")
    longest = run_counted([PROGRAM, "journal"], 0, 0, data)[1].longest
    expect(longest <= MOST_BYTES, True, f"a request for {longest} bytes")
    for last in (0, FOREVER):
        faults = {fault_of([PROGRAM, "journal"], ample, request, max(request, last), data)[1] for request in requests}
        expect([fault for fault in faults if fault and b"memory" not in fault], [], "memory runs out")
        expect(len(faults - {b""}) > 0, True, "some are told")


def test_a_file_that_is_there_or_can_not_be_made_is_refused():
    path = path_of("there")
    path.write_bytes(TEXTS[0])
    for words in [("new", path), ("new", path / "below"), ("closed", path_of("none")), ("other", path), ("new",)]:
        output, status, errors = run(PIECES[1], "append", *words)
        expect((output, status, bool(errors)), ("", 1, True), f"{words}")
    expect(path.read_bytes(), TEXTS[0], "the file stays")
