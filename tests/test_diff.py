"""Runs `tfstatectl diff` on journals with two states: chosen ones, with each option and fault, and
random ones, compared with a plain model."""
import json
import shutil

from hypothesis import given, settings, strategies as st
import pytest

from checking import expect
from diff_model import diff_rows, value_rows
from folder_program import STATUSES, run
from folders import at_once, fresh
from journal_reader import push_content, record_text
from past_program import bytes_of, refused, some_past, told
from sample_states import resource, text_of

pytestmark = pytest.mark.usefixtures("tfstatectl")


def pushes(*texts, name=b"a"):
    """Returns a folder whose journal pushes these states, the first at position 1."""
    return fresh(n1=b"TFJ1\n" + b"".join(record_text(3, name, push_content(b"", text)) for text in texts))


def server(**attributes):
    """Returns a list of one instance with these attributes."""
    return [{"attributes": attributes}]


OLD = text_of([resource("gone", server(id="1")), resource("same", server(id="2", size=None)),
               resource("web", [{"index_key": "x", "attributes": {"id": "3", "tags": {"k": "v"}, "ports": [80]}}])])
NEW = text_of([resource("web", [{"index_key": "x", "attributes": {"id": "3", "tags": {"k": "w"}, "ports": [80, 443], "enabled": True}}]),
               resource("same", server(id="2")), resource("new", server(id="4", secret="s"))])
ROWS = [{"change": "removed", "instance": "t.gone", "attributes": []},
        {"change": "changed", "instance": 't.web["x"]', "attributes": ["tags", "ports", "enabled"]},
        {"change": "added", "instance": "t.new", "attributes": []}]
NONE = {"attribute": None, "from": None, "to": None}
VALUES = [{"change": "removed", "instance": "t.gone", **NONE},
          {"change": "changed", "instance": 't.web["x"]', "attribute": "tags", "from": {"k": "v"}, "to": {"k": "w"}},
          {"change": "changed", "instance": 't.web["x"]', "attribute": "ports", "from": [80], "to": [80, 443]},
          {"change": "changed", "instance": 't.web["x"]', "attribute": "enabled", "from": None, "to": True},
          {"change": "added", "instance": "t.new", **NONE}]


def test_a_diff_has_what_was_added_removed_and_changed():
    folder = pushes(OLD, NEW)
    expect(told(folder, "diff", "a", 1, 2), ROWS)
    lines = [line.split(maxsplit=2) for line in bytes_of("diff", folder, "a", 1, 2).decode().splitlines()]
    expect(lines, [["change", "instance", "attributes"], ["removed", "t.gone", "-"], ["changed", 't.web["x"]', "tags, ports, enabled"],
                   ["added", "t.new", "-"]])


def test_a_diff_has_no_value_unless_it_is_asked_for():
    folder = pushes(OLD, NEW)
    for words in ((), ("--json",)):
        text = bytes_of("diff", folder, "a", 1, 2, *words)
        expect([word for word in (b"443", b"secret", b'"w"') if word in text], [], text)


def test_values_are_printed_where_they_are_asked_for():
    folder = pushes(OLD, NEW)
    expect(told(folder, "diff", "a", 1, 2, "--values"), VALUES)
    lines = bytes_of("diff", folder, "a", 1, 2, "--values").decode().splitlines()
    expect([line.split() for line in lines[:2]], [["change", "instance", "attribute", "from", "to"], ["removed", "t.gone", "-", "-", "-"]])
    expect(lines[2].split(), ["changed", 't.web["x"]', "tags", '{"k":"v"}', '{"k":"w"}'])


def test_the_other_way_round_added_and_removed_change_places():
    folder = pushes(OLD, NEW)
    back = {(row["change"], row["instance"]) for row in told(folder, "diff", "a", 2, 1)}
    expect(back, {("removed", "t.new"), ("changed", 't.web["x"]'), ("added", "t.gone")})
    for at in (1, 2):
        expect(told(folder, "diff", "a", at, at), [])
    expect(len(bytes_of("diff", folder, "a", 1, 1).splitlines()), 1, "the names of the columns alone")


@pytest.mark.parametrize("old, new, names", [
    (b'{"v":null}', b"{}", []), (b'{"v":null}', b'{"v":""}', ["v"]), (b'{"v":1}', b'{"v": 1 }', []), (b'{"v":1}', b'{"v":1.0}', ["v"]),
    (b'{"v":[1,2]}', b'{"v":[2,1]}', ["v"]), (b'{"v":{"a":1}}', b'{"v":{ "a" : 1 }}', []), (b'{"v":"\\u00e9"}', b'{"v":"\xc3\xa9"}', []),
    (b'{"v":false}', b'{"v":0}', ["v"]), (b'{"v":"1"}', b'{"v":1}', ["v"]), (b'{"a":1,"v":2}', b'{"v":2,"a":1}', []), (b"null", b'{"v":1}', ["v"]),
    (b"[1]", b"null", []), (b'{"v":{"w":null}}', b'{"v":{}}', ["v"])])
def test_values_are_compared_as_compact_json(old, new, names):
    states = [b'{"version":4,"serial":1,"lineage":"L","resources":[{"mode":"data","type":"t","name":"n","instances":[{"attributes":%s}]}]}' % text
              for text in (old, new)]
    wanted = [{"change": "changed", "instance": "data.t.n", "attributes": names}] if names else []
    expect(told(pushes(*states[:1], states[1].replace(b":1,", b":2,", 1)), "diff", "a", 1, 2), wanted)


def test_what_a_terminal_does_not_print_is_escaped():
    old, new = (text_of([resource("n", server(**{"a\x1b": value}))]) for value in ("x", "\x1b[31m\u202e"))
    folder = pushes(old, new)
    text = bytes_of("diff", folder, "a", 1, 2, "--values").decode()
    expect(("\x1b" in text or "\u202e" in text, "a\\u{1b}" in text, "\\u{1b}[31m\\u{202e}" in text), (False, True, True), text)
    text = bytes_of("diff", folder, "a", 1, 2, "--values", "--json").decode()
    expect(("\x1b" in text or "\u202e" in text, json.loads(text)[0]["to"]), (False, "\x1b[31m\u202e"), text)


def test_versions_of_retired_journals_are_compared():
    folder = some_past()
    expect(told(folder, "diff", "a", 1, 2), [])
    refused("NoState", folder, "diff", "a", "0", "1")
    (folder / "old").rename(folder / "away")
    refused("BeforeOldest", folder, "diff", "a", "0", "2")


@pytest.mark.parametrize("words, fault", [
    (("a", "1", "4"), "BehindNewest"), (("a", "4", "1"), "BehindNewest"), (("b", "1", "2"), "NoName"), (("no name", "1", "2"), "NoName"),
    (("a", "0", "1"), "NoState"), (("a", "yesterday", "1"), "BadTime"), (("a", "1", "2026-13-03T04:05:06Z"), "BadTime"),
    (("a", "1", "18446744073709551616"), "BadTime"), (("a", "2020-01-01T00:00:00Z", "1"), "NoTime"), (("b", "1", "2026-02-03T04:05:06Z"), "NoName")])
def test_a_diff_that_is_refused(words, fault):
    refused(fault, some_past(), "diff", *words)


@pytest.mark.parametrize("words", [(), ("a",), ("a", "1"), ("a", "1", "2", "3"), ("a", "1", "2", "--unknown")])
def test_wrong_arguments(words):
    status, output, errors = run("diff", some_past(), *words)
    expect((status, output, bool(errors)), (STATUSES["Arguments"], "", True), words)


def test_a_name_may_begin_with_a_hyphen():
    folder = pushes(OLD, NEW, name=b"-x")
    expect(json.loads(bytes_of("diff", "--json", "--", folder, "-x", 1, 2)), ROWS)
    expect(bytes_of("show", "--position", 1, "--", folder, "-x"), OLD)


TEXTS = st.sampled_from(["", "a", "b", "e\nf", "é", "\u2028"])
NUMBERS = st.sampled_from([0, 1, -1, 2**53 + 1, 0.5])
SCALARS = st.one_of(st.none(), st.booleans(), NUMBERS, TEXTS)
JSON = st.recursive(SCALARS, lambda inner: st.one_of(st.lists(inner, max_size=2), st.dictionaries(TEXTS, inner, max_size=2)), max_leaves=4)
ATTRIBUTES = st.one_of(st.none(), st.just([1]), st.dictionaries(st.sampled_from(["id", "size", "tags", "ü"]), JSON, max_size=3))


@st.composite
def states(draw):
    """Returns the text of a state with a few resources, whose names recur in other states."""
    resources = []
    for name in draw(st.lists(st.sampled_from("abcd"), max_size=3, unique=True)):
        keys = draw(st.lists(st.sampled_from([None, 0, 1, "x", 'q"']), min_size=0, max_size=2, unique=True))
        instances = [{**({} if key is None else {"index_key": key}), "attributes": draw(ATTRIBUTES)} for key in keys]
        more = draw(st.sampled_from([{}, {"module": 'module.m["k"]'}, {"mode": "data"}]))
        resources.append({**resource(name, instances), **more})
    return text_of(resources)


def expect_as_the_model(pair):
    old, new = pair
    folder = pushes(old, new.replace(b'"serial":7', b'"serial":8', 1))
    expect(told(folder, "diff", "a", 1, 2), diff_rows(old, new), pair)
    expect(told(folder, "diff", "a", 1, 2, "--values"), value_rows(old, new), pair)
    shutil.rmtree(folder)
    return bool(diff_rows(old, new))


def test_random_states_differ_as_the_model_says():
    met = set()

    @settings(max_examples=40)
    @given(st.lists(st.tuples(states(), states()), min_size=4, max_size=6))
    def differ(pairs):
        met.update(at_once(expect_as_the_model, pairs))

    differ()
    expect(met, {True, False})
