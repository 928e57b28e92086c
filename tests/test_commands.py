"""Runs `tfstated check` and `tfstated rebase` on files. The expected output is written here by
hand; for random journals a plain reader (journal_reader.py) and the plain table (stdio_model.py)
give it."""
import resource
import signal
import subprocess
import tempfile
from pathlib import Path

from hypothesis import given, settings
import pytest

from checking import S1, S2, SECONDS, expect
from journal_reader import base_text, push_content, read_journal, record_text
from journal_texts import B, FIRST, SECOND, journal_texts
from refused_requests import FOREVER, run_refused
from replay import replay
from stdio_program import PROGRAM, USAGE

pytestmark = pytest.mark.usefixtures("tfstated")
FOLDER = tempfile.TemporaryDirectory(prefix="tfstated-")
PUSH, LOCK = record_text(3, b"a", push_content(b"", S1)), record_text(1, b"a", B)
UNLOCK, DELETE = record_text(2, b"a", b"B"), record_text(4, b"a", b"")
PUSH_BY_B = record_text(3, b"a", push_content(b"B", S1))
TEXT = FIRST + PUSH + LOCK
REBASED = SECOND + base_text(2, [(b"a", B, S1)])
STATUSES = {"whole": 0, "torn": 3, "damaged": 4}
MAX_POSITION, MAX_NAMES = 2**62, 1024


def path_of(name, content=None):
    """Returns the path of a file with this content, or a path without a file."""
    path = Path(FOLDER.name) / name
    path.unlink(missing_ok=True)
    if content is not None:
        path.write_bytes(content)
    return str(path)


def run(*words, **how):
    """Runs the program. Returns its output, its status, and what it wrote to standard error."""
    how = {"stdout": subprocess.PIPE, **how}
    ran = subprocess.run([PROGRAM, *words], stderr=subprocess.PIPE, stdin=subprocess.DEVNULL, timeout=SECONDS, check=False, **how)
    return ran.stdout, ran.returncode, ran.stderr


def told(*lines):
    """Returns the bytes of lines."""
    return "".join(line + "\n" for line in lines).encode()


def check(data):
    """Returns what `check` prints about these bytes."""
    return run("check", path_of("journal", data))


def rebase(data):
    """Returns what `rebase` prints about these bytes, and the bytes of the new file."""
    new = path_of("new")
    return *run("rebase", path_of("old", data), new), Path(new).read_bytes()


CHANGED, LATER = TEXT[:20] + bytes([TEXT[20] ^ 1]) + TEXT[21:], record_text(3, b"a", push_content(b"", S2))
PUSHED = SECOND + base_text(0, []) + PUSH + LATER


@pytest.mark.parametrize("data, lines, status", [
    (TEXT, ["1 push a", "2 lock a", "whole"], 0), (TEXT[:90], ["1 push a", "torn 71"], 3), (CHANGED, ["damaged 5"], 4),
    (b"", ["torn 0"], 3), (b"TFJ", ["torn 0"], 3), (FIRST, ["whole"], 0), (b"TFJ3\n", ["damaged 0"], 4),
    (FIRST + LATER + PUSH, ["1 push a", "2 push a", "unlawful 2"], 5), (REBASED, ["base 2 1", "whole"], 0),
    (REBASED + LATER, ["base 2 1", "1 push a", "unlawful 1"], 5), (REBASED[:91], ["torn 5"], 3),
    (REBASED + LOCK[:20], ["base 2 1", "torn 92"], 3), (REBASED + b"\0", ["base 2 1", "damaged 92"], 4),
    (REBASED + UNLOCK + LATER, ["base 2 1", "1 unlock a", "2 push a", "whole"], 0),
    ((FIRST + LATER + PUSH)[:-1], ["1 push a", "torn 71"], 3), (FIRST + PUSH + LATER, ["1 push a", "2 push a", "whole"], 0),
    (FIRST + LOCK + PUSH_BY_B + DELETE, ["1 lock a", "2 push a", "3 delete a", "unlawful 3"], 5),
    (FIRST + PUSH_BY_B, ["1 push a", "unlawful 1"], 5), (REBASED + b"\3", ["base 2 1", "torn 92"], 3), (b"TFK", ["damaged 0"], 4),
    (SECOND + base_text(2, [(b"a", B, b""), (b"b", b"", S1)]) + record_text(3, b"b", push_content(b"", S2)) + UNLOCK,
     ["base 2 2", "1 push b", "2 unlock a", "whole"], 0),
    (PUSHED[:31], ["base 0 0", "whole"], 0), (PUSHED[:81], ["base 0 0", "torn 31"], 3), (PUSHED[:97], ["base 0 0", "1 push a", "whole"], 0),
    (PUSHED[:147], ["base 0 0", "1 push a", "torn 97"], 3), (PUSHED, ["base 0 0", "1 push a", "2 push a", "whole"], 0),
])
def test_records_and_their_end_are_listed(data, lines, status):
    expect(check(data), (told(*lines), status, b""), data)


def test_the_1025th_name_is_unlawful():
    locks = [record_text(1, b"n%d" % number, B) for number in range(MAX_NAMES + 1)]
    lines = [f"{number + 1} lock n{number}" for number in range(MAX_NAMES + 1)]
    expect(check(FIRST + b"".join(locks[:-1])), (told(*lines[:-1], "whole"), 0, b""), "1,024 names")
    expect(check(FIRST + b"".join(locks)), (told(*lines, f"unlawful {MAX_NAMES + 1}"), 5, b""), "one more")


ONE_ROW, NO_ROW = SECOND + base_text(1, [(b"a", b"", S1)]), SECOND + base_text(0, [])


@pytest.mark.parametrize("data, numbers, new", [
    (TEXT, "2 1", REBASED), (TEXT[:90], "1 1", ONE_ROW), (TEXT[:71], "1 1", ONE_ROW), (TEXT[:70], "0 0", NO_ROW), (FIRST, "0 0", NO_ROW),
    (b"TFJ", "0 0", NO_ROW), (b"", "0 0", NO_ROW), (REBASED, "2 1", REBASED), (REBASED + b"\3", "2 1", REBASED)])
def test_a_journal_continues_from_a_base(data, numbers, new):
    expect(len(REBASED), 92)
    expect(rebase(data), (told("rebased " + numbers), 0, b"", new), data)


MOST = SECOND + base_text(MAX_POSITION, [])
UNLAWFUL = FIRST + record_text(3, b"a", push_content(b"", S2)) + PUSH


def test_a_journal_at_the_last_position_is_rebased():
    expect(rebase(MOST), (told(f"rebased {MAX_POSITION} 0"), 0, b"", MOST))


@pytest.mark.parametrize("data, status, name", [
    (REBASED[:30] + bytes([REBASED[30] ^ 1]) + REBASED[31:], 4, b"Damaged"), (b"TFK", 4, b"Damaged"),
    (TEXT[:20] + b"x" + TEXT[21:], 4, b"Damaged"), *[(REBASED[:count], 3, b"TornBase") for count in (5, 50, 91)],
    (UNLAWFUL, 5, b"Unlawful"), (UNLAWFUL + b"\t", 4, b"Damaged"), (MOST + PUSH, 1, b"TooFar")])
def test_faults_of_a_rebase(data, status, name):
    expect(rebase(data), (b"", status, b"tfstated: " + name + b"\n", b""), name)


def test_files_that_arent_there_or_are():
    old, new, none = path_of("old", TEXT), path_of("new", b"kept"), path_of("none")
    for words in [("check", none), ("check", FOLDER.name), ("rebase", none, none + "2")]:
        expect(run(*words), (b"", 1, b"tfstated: CannotRead\n"), words)
    expect(Path(none + "2").exists(), False, "nothing is made before the old file is read")
    for path in (new, none + "/new"):
        expect(run("rebase", old, path), (b"", 1, b"tfstated: CannotCreate\n"), path)
    expect(Path(new).read_bytes(), b"kept", "a file that is there stays")


def test_a_full_standard_output_is_a_fault():
    with open("/dev/full", "wb") as full:
        expect(run("check", path_of("journal", TEXT), stdout=full), (None, 1, b"tfstated: Write\n"))
        new = path_of("new")
        expect(run("rebase", path_of("old", TEXT), new, stdout=full), (None, 1, b"tfstated: Write\n"))
    expect(Path(new).read_bytes(), REBASED, "the new journal stays")


def limited(size):
    """Returns a function that limits the size of files before the program starts. A write past the
    limit is an error without a signal."""
    def limit():
        signal.signal(signal.SIGXFSZ, signal.SIG_IGN)
        resource.setrlimit(resource.RLIMIT_FSIZE, (size, size))
    return limit


@pytest.mark.parametrize("size", [0, 1, 5, 50, len(REBASED) - 1])
def test_a_new_file_that_cant_grow_is_a_fault_of_the_sink(size):
    old, new = path_of("old", TEXT), path_of("new")
    expect(run("rebase", old, new, preexec_fn=limited(size)), (b"", 1, b"tfstated: SinkFault\n"))
    left = Path(new).read_bytes()
    expect((len(left) <= size, REBASED.startswith(left)), (True, True), "the new file stays, with first bytes of it at most")
    expect(run("check", new)[1], 3, "what is left is torn")
    expect(run("rebase", old, new), (b"", 1, b"tfstated: CannotCreate\n"), "it is in the way")
    expect(Path(new).read_bytes(), left, "it stays as it is")
    expect(Path(old).read_bytes(), TEXT, "the old file stays")


def test_a_new_file_that_can_just_grow_enough_is_made():
    old, new = path_of("old", TEXT), path_of("new")
    expect(run("rebase", old, new, preexec_fn=limited(len(REBASED))), (told("rebased 2 1"), 0, b""), "just enough")
    expect((Path(new).read_bytes(), Path(old).read_bytes()), (REBASED, TEXT))


@pytest.mark.parametrize("arguments", [
    ("check",), ("check", "a", "b"), ("rebase",), ("rebase", "a"), ("rebase", "a", "b", "c"), ("Check", "a"), ("stdio", "x"), ("check", b"\xff")])
def test_other_arguments(arguments):
    expect(run(*arguments), (b"", 2, USAGE), arguments)


def refused_runs(*words):
    """Yields the outcomes of the program if each of its requests for memory is refused, alone, and
    with all after it, without a file `new` before. Each has the bytes of that file afterwards."""
    requests = run_refused([PROGRAM, *words], 0, 0)[3]
    for first in range(1, requests + 2):
        for last in (first, FOREVER):
            new = Path(path_of("new"))
            *ran, _, others = run_refused([PROGRAM, *words], first, last)
            expect(others, 0, f"requests {first} to {last}: those of others")
            yield first > requests, (*ran, new.read_bytes() if new.exists() else None)


def expect_refused(words, ample, faults):
    """Checks that each refused request for memory of a command is reported, or does no harm."""
    runs, usage = list(refused_runs(*words)), (b"", 2, USAGE, None)
    expect({ran for is_ample, ran in runs if is_ample}, {ample}, "no further request")
    seen = {ran for _, ran in runs}
    expect(seen <= {usage, ample} | faults, True, f"{words[0]}: {seen}")
    expect(seen >= {usage} | faults, True, f"{words[0]} is refused memory at each place: {seen}")


NO_MEMORY = (b"", 1, b"tfstated: NoMemory\n")


def test_refused_memory_of_a_check_is_reported_or_does_no_harm():
    listed = (told("1 push a", "2 lock a", "whole"), 0, b"", None)
    expect_refused(("check", path_of("journal", TEXT)), listed, {(*NO_MEMORY, None)})


def test_refused_memory_of_a_rebase_is_reported_or_does_no_harm():
    made = (told("rebased 2 1"), 0, b"", REBASED)
    expect_refused(("rebase", path_of("old", TEXT), path_of("new")), made, {(*NO_MEMORY, new) for new in (None, b"")})


def checked(data):
    """Returns what `check` prints about these bytes, by the plain programs."""
    form, position, rows, entries, end = read_journal(data)
    lines = [f"base {position} {len(rows)}"] if form == 2 and end not in ("torn 5", "damaged 5") else []
    lines += [f"{number} {kind} {name}" for number, (kind, name, _) in enumerate(entries, 1)]
    _, number = replay(rows, entries)
    if number:
        return told(*lines, f"unlawful {number}"), 5, b""
    return told(*lines, end), STATUSES[end.split()[0]], b""


def rebased(data):
    """Returns what `rebase` prints about these bytes, and the bytes of the new file, by the plain
    programs."""
    form, position, rows, entries, end = read_journal(data)
    table, number = replay(rows, entries)
    position += len(entries)
    faults = [("Damaged", 4, end.startswith("damaged")), ("TornBase", 3, form == 2 and end == "torn 5"), ("Unlawful", 5, number),
              ("TooFar", 1, position > MAX_POSITION)]
    for name, status, holds in faults:
        if holds:
            return b"", status, f"tfstated: {name}\n".encode(), b""
    left = [(name.encode(), table.holders.get(name, ("", b""))[1], table.states.get(name, ("", 0, b""))[2]) for name in sorted(table.names)]
    return told(f"rebased {position} {len(left)}"), 0, b"", SECOND + base_text(position, left)


def test_random_journals_are_reported_as_the_plain_programs_say():
    statuses, faults = set(), set()

    @settings(max_examples=500)
    @given(journal_texts())
    def is_told(data):
        expect(check(data), checked(data), "check")
        expect(rebase(data), rebased(data), "rebase")
        statuses.add(checked(data)[1])
        faults.add(rebased(data)[2])
        if not rebased(data)[1]:
            expect(check(rebased(data)[3])[1], 0, "a rebased journal is whole")

    is_told()
    expect(statuses, {0, 3, 4, 5}, "each end is met")
    expect({fault.split()[-1] for fault in faults if fault}, {b"Damaged", b"TornBase", b"Unlawful", b"TooFar"}, "each fault is met")
