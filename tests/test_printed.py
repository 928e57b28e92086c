"""Texts from clients, as the tables, the JSON and the pictures of `tfstatectl` print them:
characters of the Unicode categories Cc, Cf, Zl and Zp in lock information and in addresses of
instances are escaped. No output is coloured."""
import json
import os
import pty
import subprocess
import sys
import unicodedata

import pytest

from checking import SECONDS, expect
from folder_program import FOLDER_PROGRAM
from folders import fresh
from impact_model import instances_of
from journal_reader import push_content, record_text
from past_program import bytes_of, drawn, rows_in, told
from sample_states import resource, text_of
from stdio_model import json_of

pytestmark = pytest.mark.usefixtures("tfstatectl")
CATEGORIES = ("Cc", "Cf", "Zl", "Zp")
# Characters of each category by their numbers. (Unicode, UnicodeData.txt)
SAMPLES = {"Cc": [0x00, 0x09, 0x0A, 0x1B, 0x7F, 0x85, 0x9B], "Zl": [0x2028], "Zp": [0x2029],
           "Cf": [0xAD, 0x061C, 0x180E, 0x200B, 0x200E, 0x202E, 0x2066, 0x2069, 0xFEFF, 0xFFFB, 0x110BD, 0x1BCA0, 0x1D173, 0xE0001, 0xE0020, 0xE007F]}
HIDDEN = [chr(number) for numbers in SAMPLES.values() for number in numbers]
# Characters of other categories: a letter, a combining mark, spaces, a symbol, a private and an
# unassigned one, and the last ones of planes.
SHOWN = ["\u00e9", "\u0301", "\u00a0", "\u2003", "\u3000", "\U0001f600", "\ue000", "\u0378", "\ufffd", "\U00010000", "\U0010fffd"]


def every_hidden():
    """Returns the samples, and all characters that Python lists in these categories."""
    return sorted({*HIDDEN, *(chr(number) for number in range(sys.maxunicode + 1) if unicodedata.category(chr(number)) in CATEGORIES)})


def escaped(text, hidden, slashes="\\"):
    """Returns a text with each of these characters replaced by its number."""
    return "".join(f"{slashes}u{{{ord(c):x}}}" if c in hidden else c for c in text)


def expect_clean(text, hidden):
    """Checks that a text has none of these characters except the ends of its lines."""
    expect([hex(ord(c)) for c in text if c in hidden and c != "\n"], [])


def test_the_samples_are_of_their_categories():
    for category, numbers in SAMPLES.items():
        expect({unicodedata.category(chr(number)) for number in numbers}, {category})
    expect([c for c in SHOWN if unicodedata.category(c) in CATEGORIES], [])


def locked(**words):
    """Returns a folder whose workspace `a` is locked with this information."""
    return fresh(n1=b"TFJ1\n" + record_text(1, b"a", json.dumps(words).encode()))


@pytest.mark.parametrize("c", [*HIDDEN, *SHOWN], ids=lambda c: f"{ord(c):x}")
def test_each_character_of_lock_information_is_printed_or_escaped(c):
    words = {"ID": f"i{c}d", "Who": f"who{c}", "Operation": f"{c}op", "Created": f"cr{c}{c}ed"}
    folder = locked(**words)
    for asked in (("list", folder), ("history", folder, "a")):
        text = bytes_of(*asked).decode()
        expect_clean(text, HIDDEN)
        expect([word for word in words.values() if escaped(word, HIDDEN) not in text], [], f"{ord(c):x}: {text}")
        text = bytes_of(*asked, "--json").decode()
        expect_clean(text, HIDDEN)
        row = rows_in(asked[0], text)[0]
        expect([row.get("holder", row.get("id")), row["who"], row["operation"], row["created"]], list(words.values()))


def test_all_characters_of_these_categories_are_escaped():
    hidden = every_hidden()
    who = "x".join(["", *hidden, ""])
    folder = locked(ID="1", Who=who)
    text = bytes_of("list", folder).decode()
    expect(escaped(who, hidden) in text, True, text)
    expect_clean(text, hidden)
    text = bytes_of("list", folder, "--json").decode()
    expect_clean(text, hidden)
    expect((told(folder, "list")[0]["who"], text.count("\n")), (who, 1))


def keyed(keys):
    """Returns a folder with a state whose instances have these keys, and the instances as the model
    reads them."""
    data = text_of([resource("a", [{"index_key": key} for key in keys]), resource("b", [{"index_key": key, "dependencies": ["t.a"]} for key in keys])])
    return fresh(n1=b"TFJ1\n" + record_text(3, b"a", push_content(b"", data))), instances_of(dict(json_of(data)))


def test_each_character_of_an_address_is_printed_or_escaped():
    folder, instances = keyed([f"k{c}y" for c in (*HIDDEN, *SHOWN)])
    words = ("impact", folder, "a", "any", "t.a")
    chosen = [place for place, instance in enumerate(instances) if instance.address.startswith("t.b")]
    wanted = [instances[place].address for place in chosen]
    text = bytes_of(*words).decode()
    expect_clean(text, HIDDEN)
    expect(text.split("\n")[1:-1], [escaped(address, HIDDEN) for address in wanted])
    text = bytes_of(*words, "--json").decode()
    expect_clean(text, HIDDEN)
    expect([row["instance"] for row in json.loads(text)], wanted)
    for more, among in ((("--dot",), range(len(instances))), (("--dot", "--answer-only"), chosen)):
        text = bytes_of(*words, *more).decode()
        expect_clean(text, HIDDEN)
        expect(text.split("\n")[:-1], [escaped(line, HIDDEN, "\\\\") for line in drawn(instances, among, chosen)])


def printed_to_a_terminal(*words):
    """Returns what a command writes to a terminal that has colours."""
    ours, its = pty.openpty()
    how = {"stdin": its, "stdout": its, "stderr": its, "env": {**os.environ, "TERM": "xterm-256color"}}
    with subprocess.Popen([FOLDER_PROGRAM, *map(str, words)], **how) as ran:
        os.close(its)
        text = b""
        try:
            while piece := os.read(ours, 4096):
                text += piece
        except OSError:
            pass  # A terminal that nobody has open any more ends by an error.
        ran.wait(SECONDS)
    os.close(ours)
    return text


def test_no_output_is_coloured():
    """Nothing would change with the variable NO_COLOR."""
    folder, _ = keyed(["k"])
    for words in (("--help",), ("impact", "--help"), ("--wrong",), ("list", folder), ("list", folder / "none"), ("check", folder), ("history", folder, "a"),
                  ("impact", folder, "a", "any", "t.a"), ("impact", folder, "a", "--across"), ("stats", folder)):
        text = printed_to_a_terminal(*words)
        expect((text != b"", b"\x1b" in text), (True, False), (words, text))
