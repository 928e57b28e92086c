"""Has the program `tfs_probe` read texts of addresses, states and locks. The expected readings of
the rows are written by hand; texts with random mistakes must read as the plain reader of
state_reader.py reads them, and so must all rows."""
import subprocess

from hypothesis import given, settings, strategies as st
import pytest

from checking import SECONDS, expect
from impact_model import json_text
from mistakes import LOCK, STATE, texts_with_mistakes
from programs import TFS_PROBE as PROGRAM
import reading_rows as rows
from state_reader import lock_words, state_words
from written_state import WRITTEN, WRITTEN_LINES

pytestmark = pytest.mark.usefixtures("tfs_probe")
UNCLOSED, STRAY = "a bracket is opened, and no key follows that ends", "a bracket is closed, and was not opened"


def told(lines):
    """Returns what the program prints about each line."""
    ran = subprocess.run([PROGRAM, "texts"], input="".join(f"{line}\n" for line in lines).encode(), capture_output=True, timeout=SECONDS, check=False)
    expect((ran.returncode, ran.stderr), (0, b""))
    return ran.stdout.decode().splitlines()


def hexed(text):
    """Returns the hex digits of a text or of bytes."""
    return (text if isinstance(text, bytes) else text.encode()).hex()


def text_of(digits):
    """Returns the text of hex digits; a dash is an empty one."""
    return bytes.fromhex(digits.replace("-", "")).decode()


def words_of(line):
    """Returns a line of the program in words: a text in quotes, a lock's identifier, a state, or a
    fault."""
    kind, rest = line.split(" ", 1)
    if kind == "state":
        front, *instances = rest.split(" instance ")
        serial, lineage = front.split(" ")
        return "\n".join([f"{serial} {json_text(text_of(lineage))}", *map(instance_words, instances)])
    return {"text": lambda: f"'{text_of(rest)}'", "lock": lambda: json_text(text_of(rest)), "fault": lambda: rest}[kind]()


def instance_words(part):
    """Returns the line of an instance."""
    address, config, *numbers = part.split(" ")
    return f"{text_of(address)} of {text_of(config)}:" + "".join(f" {number}" for number in numbers)


def pairs_of(table):
    """Returns the two sides of each row of a table."""
    return [row.split(" => ") for row in table.splitlines()]


def expect_rows(lines, wanted):
    """Compares what the program prints about lines with words."""
    found = list(map(words_of, told(lines)))
    expect(len(found), len(wanted))
    for line, one, other in zip(lines, found, wanted):
        expect(one, other, line[:400])


def strip_of(text):
    return f"strip {hexed(text)}"


def config_of(text, mode="managed"):
    return f"config {mode} {hexed(text)}"


def test_keys_are_left_out():
    expect_rows([strip_of(text) for text, _ in pairs_of(rows.STRIPPED)], [wanted for _, wanted in pairs_of(rows.STRIPPED)])


def test_configuration_addresses_have_no_keys():
    modules = pairs_of(rows.CONFIGURATIONS)
    expect_rows([config_of(module, mode) for module, _ in modules for mode in ("managed", "data")], " ".join(both for _, both in modules).split(" "))


@pytest.mark.parametrize("text, fault", [
    *[(text, STRAY) for text in rows.STRAY.splitlines()], *[(text, UNCLOSED) for text in rows.UNCLOSED.splitlines()]])
def test_the_first_bracket_without_a_key_is_refused(text, fault):
    expect_rows([strip_of(text), config_of(text)], [fault] * 2)


def test_instance_addresses_have_their_module_as_it_came_and_their_keys():
    hard = "a\"b\\c\0\x01\b\t\n\x0b\f\r\x0e\x1f \x7f\u00e9\U0001f600]/"
    # RFC 8259, section 7: a quote and a backslash are escaped, and a control character has its
    # code.
    told_hard = 't.n["a\\"b\\\\c\\u0000\\u0001\\b\\t\\n\\u000b\\f\\r\\u000e\\u001f \x7f\u00e9\U0001f600]/"]'
    given = [
        ("", "", "", "t.n"), ("", "n0", "", "t.n[0]"), ("", f"n{2**64 - 1}", "", "t.n[18446744073709551615]"), ("", "t" + hexed("k"), "", 't.n["k"]'),
        ("", "t", "", 't.n[""]'), ("", "", "t" + hexed("ab12"), "t.n (deposed ab12)"), ("", "n0", "t" + hexed("ab12"), "t.n[0] (deposed ab12)"),
        ("", "", "t", "t.n (deposed )"), ("module.m[7]", "", "", "module.m[7].t.n"), ("[0]", "", "", "[0].t.n"), ("a]", "", "", "a].t.n"),
        ("", "t" + hexed(hard), "", told_hard),
    ]
    expect_rows([f"instance {hexed(module)} {key} {deposed}" for module, key, deposed, _ in given], [f"'{wanted}'" for *_, wanted in given])
    expect_rows([strip_of(told_hard)], ["'t.n'"])


@pytest.mark.parametrize("count", [2**16, 2**20])
def test_large_texts_are_stripped(count):
    part, bare = 'module.m["a\\"]"].aws_\u00e9[10].', "module.m.aws_\u00e9."
    texts = [part * count, bare * count, f'a["{bare * count}"]b', f"{part * count}]", f'a["{bare * count}"']
    expect_rows(list(map(strip_of, texts)), [f"'{bare * count}'", f"'{bare * count}'", "'ab'", STRAY, UNCLOSED])
    expect_rows(list(map(config_of, texts[3:])), [STRAY, UNCLOSED])


# What a fault of a state prints after its name.
SAYS = {
    "NotJson": "the state is no JSON text", "Version": "the state's version isn't 4", "Serial": "the state's serial isn't an unsigned 64-bit whole number",
    "Lineage": "the state's lineage isn't a text, or is empty", "Resource": "resource {} of the state isn't one",
    "Instance": "instance {1} of resource {0} of the state isn't one",
    "Dependency": "dependency {2} of instance {1} of resource {0} of the state is no address", "TooManyInstances": "the state has more than 4096 instances",
}


def said(words):
    """Returns what the program prints about a state with these words; for a fault, with its
    text."""
    name, _, numbers = words.rstrip(")").partition("(")
    return f"{words}: {SAYS[name].format(*numbers.split(', '))}" if name in SAYS else words


def state_line(text):
    return f"state {hexed(text)}"


def expect_states(texts, fronts):
    """Compares what states read as with the plain reader's words, whose first line is written by
    hand."""
    words = [state_words(text if isinstance(text, bytes) else text.encode()) for text in texts]
    expect([word.split("\n")[0] for word in words], list(fronts), "by the plain reader")
    expect_rows(list(map(state_line, texts)), list(map(said, words)))


def state_of(resources):
    """Returns a state's text with this text of its resources."""
    return f'{{"version":4,"serial":1,"lineage":"L1","resources":{resources}}}'


def test_a_state_is_read_or_has_its_first_fault():
    texts, fronts = zip(*pairs_of(rows.STATES))
    expect_states(texts, fronts)
    resources, faults = zip(*pairs_of(rows.RESOURCES))
    expect_states(list(map(state_of, resources)), faults)


def test_faults_of_instances_and_dependencies_have_their_numbers():
    front = '[{"mode":"managed","type":"t","name":"n","instances":[{},{"dependencies":'
    wrong = rows.NO_INSTANCES.splitlines()
    expect_states([state_of(f"{front}null}},{text},null]}}]") for text in wrong], ["Instance(0, 2)"] * len(wrong))
    wrong = rows.NO_DEPENDENCIES.splitlines()
    expect_states([state_of(f'{front}["a","a[0]",{text},7]}},7]}}]') for text in wrong], ["Dependency(0, 1, 2)"] * len(wrong))
    wrong = '[{"mode":"data","type":"t","name":"n","instances":[' + ",".join(["{}"] * 4097) + "]}]"
    expect_states([state_of(wrong)], ["TooManyInstances"])


def test_values_nest_at_most_127_deep():
    texts = [state_of(f'null,"x":{"[" * count}{"]" * count}') for count in (126, 127)]
    expect_states(texts, ['1 "L1"', "NotJson"])


def expect_listing(resources, listing):
    """Compares the lines of the instances of resources with lines by hand."""
    text = state_of(resources) if not resources.startswith("{") else resources
    words = state_words(text.encode())
    expect(words.partition("\n")[2], listing, resources[:400])
    expect_rows([state_line(text)], [words])


@pytest.mark.parametrize("resources, listing", [
    *pairs_of(rows.MODULES), *[(resources, "") for resources in rows.EMPTY.splitlines()],
    (rows.KEYS, rows.KEYS_LINES), (rows.DEPENDENT, rows.DEPENDENT_LINES), (rows.KEYED_MODULES, rows.KEYED_MODULES_LINES),
])
def test_instances_have_their_addresses_and_dependencies(resources, listing):
    expect_listing(resources, listing.rstrip("\n"))


def test_a_long_module_is_stripped_of_its_keys():
    path, bare = "module.m[0]." * 20_000, "module.m." * 20_000
    deep = f'[{{"module":"{path}x","mode":"data","type":"t","name":"n","instances":[{{"index_key":7}}]}}]'
    expect_listing(deep, f"{path}x.data.t.n[7] of {bare}x.data.t.n:")


def test_a_state_as_terraform_writes_it_is_read():
    expect_states([WRITTEN], ['42 "9b1c7f1e-2f0a-4b8e-9d55-0c8a6d1f7e21"'])
    expect_listing(WRITTEN, WRITTEN_LINES.rstrip("\n"))


@pytest.mark.parametrize("before, front", [
    ('{"version":4,"serial":9,"lineage":"' + "\\u00e9\\n" * 1_000 + '"}', "9 " + json_text("\u00e9\n" * 1_000)),
    ('{"version":4,"serial":9,"lineage":"\\u00e9\\u004d\\t\\u00', "NotJson"),
])
def test_a_state_after_a_long_one_and_a_refused_one_is_read_as_it_is_alone(before, front):
    # One run reads all of its states with one scratch buffer.
    texts, fronts = zip(*pairs_of(rows.STATES))
    expect_states([text for own in texts for text in (before, own)], [one for own in fronts for one in (front, own)])


def test_states_with_mistakes_are_read_as_the_plain_reader_reads_them():
    words = []

    @settings(max_examples=250)
    @given(st.lists(texts_with_mistakes(STATE), min_size=8, max_size=16))
    def are_read(texts):
        found = list(map(state_words, texts))
        expect_rows(list(map(state_line, texts)), list(map(said, found)))
        words.extend(found)

    are_read()
    expect(len(words) // 10 < sum("\n" in word for word in words) < len(words) // 2, True, "some are states")
    expect(set(SAYS) - {word.partition("(")[0] for word in words}, {"TooManyInstances"}, "each other fault comes")


def expect_locks(texts, wanted):
    """Compares what lock texts read as with words by hand, and with the plain reader's."""
    texts = [text if isinstance(text, bytes) else text.encode() for text in texts]
    expect(list(map(lock_words, texts)), list(wanted), "by the plain reader")
    expect_rows([f"lock {hexed(text)}" for text in texts], list(wanted))


def test_a_lock_text_is_read_or_has_its_first_fault():
    expect_locks(*zip(*pairs_of(rows.LOCKS)))
    filled = pairs_of(rows.FILLED)
    expect_locks([text.replace("#", "a" * 257) for text, _ in filled], [wanted for _, wanted in filled])


def test_lock_texts_are_utf8():
    texts = {b'"L\xc3\xa9"': "NotObject", b'{"ID":"L\xc3\xa9"}': json_text("L\u00e9")}
    texts |= {text: "NotJson" for text in (b"\xff", b'"L\xff"', b'"L\xc3"', b'"\xed\xa0\x80"', b'{"ID":"L\xff"}', b'{"ID":"\xed\xa0\x80"}')}
    expect_locks(*zip(*texts.items()))


def test_white_space_may_be_between_tokens_and_at_both_ends():
    texts = {b' \t\r\n{ "L"\n:\r1\t} \r\n\t': "NoId", b' \t\r\n{ "ID"\n:\r"1"\t} \r\n\t': '"1"', b"": "NotJson"}
    texts |= {text: "NotJson" for text in (b'"L\n1"', b"\x0b{}", b"\xef\xbb\xbf{}", b'\x0b{"ID":"1"}', b'\xef\xbb\xbf{"ID":"1"}')}
    expect_locks(*zip(*texts.items()))


def test_the_length_of_an_identifier_is_that_after_decoding():
    texts = [f'{{"ID":"{part * count}"}}' for part, count in (("\\u0041", 256), ("\\u0041", 257), ("\\u00e9", 129))]
    expect_locks(texts, [f'"{"A" * 256}"', "TooLong", "TooLong"])


def test_lock_texts_with_mistakes_are_read_as_the_plain_reader_reads_them():
    words = []

    @settings(max_examples=100)
    @given(st.lists(texts_with_mistakes(LOCK), min_size=6, max_size=10))
    def are_read(texts):
        found = list(map(lock_words, texts))
        expect_locks(texts, found)
        words.extend(found)

    are_read()
    expect(len(words) // 10 < sum(word.startswith('"') for word in words) < 2 * len(words) // 3, True, "some are lock texts")


def test_a_digest_is_that_of_the_published_vectors():
    # The vectors are published with FNV-1a (RFC 9923).
    vectors = {"": 0xCBF29CE484222325, "a": 0xAF63DC4C8601EC8C, "b": 0xAF63DF4C8601F1A5, "foobar": 0x85944171F73967E8}
    expect(told([f"digest {hexed(text)}" for text in vectors]), [f"digest {value}" for value in vectors.values()])
