"""Runs `tfstatectl impact --across` on folders whose states read one another: chosen ones, with
each fault, and random ones, compared with a plain model."""
import json
import shutil

from hypothesis import given, settings, strategies as st
import pytest

from across_model import name_in, readers
from checking import expect
from folder_program import STATUSES, run
from folders import at_once, fresh
from journal_reader import push_content, record_text
from past_program import bytes_of, refused, told
from sample_states import resource, text_of

pytestmark = pytest.mark.usefixtures("tfstatectl")
HOST = "http://127.0.0.1:8080/state/"


def data_source(*configs, backend="http", **members):
    """Returns a data source with an instance for each of these configurations."""
    instances = [{"index_key": number, "attributes": {"backend": backend, "config": config}} for number, config in enumerate(configs)]
    return {**resource("other", instances), "mode": "data", "type": "terraform_remote_state", **members}


def wrapped(address):
    """Returns the configuration with an address, as Terraform writes it."""
    return {"value": {"address": address}, "type": ["object", {"address": "string"}]}


def reading(*names):
    """Returns the text of a state that reads these workspaces."""
    return text_of([data_source(*(wrapped(HOST + name) for name in names))])


def pushed(states):
    """Returns a folder whose journal pushes these states, in this order."""
    return fresh(n1=b"TFJ1\n" + b"".join(record_text(3, name.encode(), push_content(b"", text)) for name, text in states.items()))


def rows(*names, direct=()):
    """Returns the rows of readers; those in `direct` read the workspace themselves."""
    return [{"direct": name in direct, "name": name} for name in names]


@pytest.mark.parametrize("read, wanted", [
    ({"net": [], "app": []}, []),
    ({"net": [], "app": ["net"]}, rows("app", direct=["app"])),
    ({"net": [], "web": ["app"], "app": ["net"]}, rows("app", "web", direct=["app"])),
    ({"net": [], "app": ["net", "net"]}, rows("app", direct=["app"])),
    ({"net": ["app"], "app": ["net"]}, rows("app", "net", direct=["app"])),
    ({"net": ["net"]}, rows("net", direct=["net"])),
    ({"net": [], "app": ["gone"], "web": ["gone", "net"]}, rows("web", direct=["web"])),
    ({"net": ["db"], "db": [], "app": ["db"]}, []),
    ({"z": ["net"], "B": ["net"], "a": ["B"], "net": []}, rows("B", "a", "z", direct=["B", "z"])),
    ({"net": [], "a": ["b", "net"], "b": ["a"]}, rows("a", "b", direct=["a"])),
])
def test_the_readers_of_a_workspace(read, wanted):
    states = {name: reading(*names) for name, names in read.items()}
    expect(told(pushed(states), "impact", "net", "--across"), wanted, read)
    expect(readers(states, "net"), wanted, "the model")


@pytest.mark.parametrize("address, name", [
    (HOST + "net", "net"), ("https://u:p@example.com/tf/state/net", "net"), (HOST + "net?x=/state/other", "net"), (HOST + "net#/x", "net"),
    (HOST + "n%65t", "net"), (HOST + "n%65t%", None), (HOST + "net/", None), (HOST + "net/x", None), ("http://state/net", None),
    ("/state/net", None), ("state/net", None), ("http:/state/net", None), (HOST + "%2Fnet", None), (HOST + "Net", None), (HOST, None),
    ("http://h/states/net", None), ("http://h/xstate/net", None), ("http://h/state/state/net", "net"), ("http://h//state/net", "net"), ("", None)])
def test_an_address_names_a_workspace(address, name):
    for config in (wrapped(address), {"address": address}):
        states = {"net": reading(), "app": text_of([data_source(config)])}
        expect(told(pushed(states), "impact", "net", "--across"), rows("app", direct=["app"]) if name else [], config)
    expect(name_in(address) == b"net", bool(name), "the model")


@pytest.mark.parametrize("sources", [
    data_source(wrapped(HOST + "net"), backend="s3"), data_source(wrapped(HOST + "net"), mode="managed"),
    data_source(wrapped(HOST + "net"), type="other"), data_source(None), data_source({}), data_source([HOST + "net"]),
    data_source({"value": {"path": HOST + "net"}}), data_source({"value": [], "address": HOST + "net"}), data_source({"address": 1})])
def test_what_is_no_reference(sources):
    expect(told(pushed({"net": reading(), "app": text_of([sources])}), "impact", "net", "--across"), [])


def test_only_newest_states_count():
    texts = [reading("net"), reading().replace(b'"serial":7', b'"serial":8')]
    records = [(b"net", reading()), *((b"app", text) for text in texts)]
    folder = fresh(n1=b"TFJ1\n" + b"".join(record_text(3, name, push_content(b"", text)) for name, text in records))
    expect(told(folder, "impact", "net", "--across"), [])


def test_a_table_has_the_names_in_order():
    folder = pushed({"net": reading(), "web": reading("app"), "app": reading("net")})
    lines = [line.split() for line in bytes_of("impact", folder, "net", "--across").decode().splitlines()]
    expect(lines, [["name", "direct"], ["app", "true"], ["web", "false"]])


def test_names_without_a_state_are_refused():
    lock = record_text(1, b"locked", b'{"ID":"x"}')
    folder = fresh(n1=b"TFJ1\n" + lock)
    refused("NoState", folder, "impact", "locked", "--across")
    refused("NoName", folder, "impact", "unknown", "--across")
    refused("NoName", folder, "impact", "no name", "--across")


@pytest.mark.parametrize("words", [
    ("--across",), ("net", "any", "--across"), ("net", "any", "t.a", "--across"), ("net", "--across", "--dot"), ("net", "--across", "--answer-only"),
    ("net",), ("net", "any")])
def test_wrong_arguments(words):
    status, output, errors = run("impact", pushed({"net": reading()}), *words)
    expect((status, output, bool(errors)), (STATUSES["Arguments"], "", True), words)


NAMES = ["a", "b", "c", "d", "E", "f.1"]
ADDRESSES = st.one_of(st.sampled_from(NAMES).map(lambda name: HOST + name),
                      st.sampled_from(["https://h/tf/state/a?x#y", "http://h/state/%62", "http://h/a", "http://h/state/gone", "c"]))
CONFIGS = st.one_of(ADDRESSES.map(wrapped), ADDRESSES.map(lambda address: {"address": address}), st.sampled_from([None, {}, {"value": 1}]))
STATES = st.dictionaries(st.sampled_from(NAMES), st.lists(CONFIGS, max_size=3), min_size=1)


def expect_as_the_model(read):
    states = {name: text_of([data_source(*configs)]) for name, configs in read.items()}
    folder, found = pushed(states), []
    for name in states:
        found += readers(states, name)
        expect(json.loads(bytes_of("impact", folder, name, "--across", "--json")), readers(states, name), (read, name))
    shutil.rmtree(folder)
    return {row["direct"] for row in found}


def test_random_workspaces_are_read_as_the_model_says():
    met = set()

    @settings(max_examples=40)
    @given(st.lists(STATES, min_size=4, max_size=6))
    def read(cases):
        for directs in at_once(expect_as_the_model, cases):
            met.update(directs)

    read()
    expect(met, {True, False})
