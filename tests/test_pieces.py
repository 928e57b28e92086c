"""Runs the commands of `tfstatectl` that read journals in pieces, on journals with far more bytes
than the commands may use of memory: what they hold is the newest states and one piece. Each command
prints what it prints without the limit."""
import json
import subprocess
from resource import RLIMIT_AS, setrlimit

import pytest

from checking import SECONDS, expect
from folder_program import FOLDER_PROGRAM, run
from folders import fresh, journals, named
from journal_reader import base_text, push_content, record_text
from past_program import state

pytestmark = pytest.mark.usefixtures("tfstatectl")
MEMORY, PUSHES = 48 << 20, 4096
LAST = state(PUSHES) + b" " * 16384
LONG = b"TFJ1\n" + b"".join(record_text(3, b"a", push_content(b"", state(serial) + b" " * 16384)) for serial in range(1, PUSHES + 1))
LOCK = record_text(1, b"a", b'{"ID":"x"}')
NEXT = b"TFJ2\n" + base_text(PUSHES + 1, [(b"a", b'{"ID":"x"}', LAST)])


def limit_memory():
    """Limits the address space of a program before it starts."""
    setrlimit(RLIMIT_AS, (MEMORY, MEMORY))


def limited(*words):
    """Runs the program within little memory. Returns its status, output and errors."""
    ran = subprocess.run([FOLDER_PROGRAM, *words], capture_output=True, timeout=SECONDS, check=False, preexec_fn=limit_memory)
    return ran.returncode, ran.stdout.decode(), ran.stderr.decode()


def long_folder(**files):
    """Returns a folder whose newest journal, and a retired one, are long."""
    folder = fresh(n2=LONG + LOCK, **files)
    (folder / "old").mkdir()
    (folder / "old" / f"{named(1)}.tfj").write_bytes(LONG)
    return folder


def test_check_holds_no_whole_journal():
    folder = long_folder(n3=NEXT[:-1])
    expect(limited("check", folder), (0, (
        f"old/{named(1)}.tfj: base 0, position {PUSHES}, 1 names, whole\n{named(2)}.tfj: base 0, position {PUSHES + 1}, 1 names, whole\n"
        f"{named(3)}.tfj: the journal ends inside its base\n{named(3)}.tfj was left by a start that failed\n"
        f"a start continues {named(2)}.tfj at position {PUSHES + 1}\n"), ""))


@pytest.mark.parametrize("words", [("holder", "a"), ("show", "a"), ("impact", "a", "any", "x.y"), ("impact", "a", "--across", "--json")])
def test_commands_about_the_newest_states_hold_no_whole_journal(words):
    folder = long_folder()
    asked = (words[0], folder, *words[1:])
    expect(limited(*asked), run(*asked), words)
    expect(limited("show", folder, "a"), (0, LAST.decode(), ""))
    expect(json.loads(limited("holder", folder, "a")[1])["ID"], "x")


def test_a_copy_holds_no_whole_journal():
    source, target = long_folder(), fresh()
    for content in (LONG + LOCK, LONG + LOCK + record_text(4, b"a", b"x")):
        (source / f"{named(2)}.tfj").write_bytes(content)
        position = PUSHES + (1 if content.endswith(LOCK) else 2)
        expect(limited("copy", source, target), (0, f"copied {named(2)}.tfj up to position {position}\n", ""))
        expect(journals(target), {2: content})
