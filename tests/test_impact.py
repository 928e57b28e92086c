"""Drives `tfstated stdio` with queries for the impact of changes. The expected output is written
here by hand; random queries over random states are answered by the plain models of stdio_model.py
and impact_model.py."""
import json
from urllib.parse import quote, quote_plus

from hypothesis import given, settings, strategies as st
import pytest

from checking import expect
from relations import NAMED, at_random, pairs_of, reached
import stdio_model as model
from stdio_model import CLEAN, DONE, refusal_text, reply_text
from stdio_program import request_text, run

pytestmark = pytest.mark.usefixtures("tfstated")


def resource(name, *instances, **members):
    """Returns a resource of type t with these instances."""
    return {"mode": "managed", "type": "t", "name": name, "instances": list(instances), **members}


def depending(*texts, **members):
    """Returns an instance with these dependencies."""
    return {"dependencies": list(texts), **members}


def state(*resources, serial=1):
    """Returns the bytes of a state."""
    return json.dumps({"version": 4, "serial": serial, "lineage": "L1", "resources": list(resources)}, ensure_ascii=False).encode()


def ask(kind, *texts, name="a"):
    """Returns the bytes of a query."""
    return request_text("GET", f"/impact/{name}/{kind}?" + "&".join("of=" + quote(text) for text in texts))


def answer(*instances, position=1, serial=1):
    """Returns the reply to a query, with a body written without a JSON reader or writer."""
    names = ",".join(f'"{name}"' for name in instances)
    return reply_text(200, f'{{"instances":[{names}],"position":{position},"serial":{serial}}}'.encode())


CHAIN = state(resource("a", depending("x.y")), resource("b", depending("t.a")), resource("c", depending("t.b")), serial=2)
FIVE = state(resource("a", {}), resource("b", {}), resource("c", depending("t.a")), resource("d", depending("t.a", "t.b")),
             resource("e", depending("t.b")))
UNKNOWN = refusal_text("UnknownAddress")


def expect_answers(pushed, asked):
    """Pushes a state, and sends the queries in one conversation."""
    output = b"".join(reply for _, reply in asked)
    expect(run(request_text("POST", "/state/a", pushed) + b"".join(text for text, _ in asked)), (DONE + output, CLEAN, b""), pushed)


def test_a_change_reaches_what_depends_on_it():
    both = answer("t.b", "t.c", serial=2)
    expect(both, b"HTTP/1.1 200 OK\r\nContent-Type: application/json\r\nContent-Length: 51\r\n\r\n"
           b'{"instances":["t.b","t.c"],"position":1,"serial":2}')
    expect_answers(CHAIN, [
        (ask("any", "t.a"), both), (ask("all", "t.a"), both), (ask("any", "t.c"), answer(serial=2)),
        (ask("any", "x.y"), UNKNOWN), (ask("any", ""), UNKNOWN), (ask("all", "t.a", "t.a[0]"), UNKNOWN),
        (ask("any"), refusal_text("NoAddress")), (ask("any", "t.a", name="b"), refusal_text("NoState")),
    ])
    cycle = state(resource("a", depending("t.b")), resource("b", depending("t.a")))
    expect_answers(cycle, [(ask("any", "t.a"), answer("t.a", "t.b"))])


def test_all_meets_what_any_unites():
    texts = ["t.a"] * 64
    expect_answers(FIVE, [
        (ask("any", "t.a"), answer("t.c", "t.d")), (ask("any", "t.b", "t.a"), answer("t.c", "t.d", "t.e")),
        (ask("all", "t.b", "t.a"), answer("t.d")), (ask("all", "t.c"), answer()),
        (ask("all", *texts), answer("t.c", "t.d")), (ask("all", *texts, "t.a"), refusal_text("TooManyAddresses")),
        (ask("any", *texts, "x"), refusal_text("TooManyAddresses")), (ask("any", "t.a", "x.y"), UNKNOWN),
    ])


def depends(name, *texts):
    """Returns the text of a resource with one instance, without blanks."""
    listed = ",".join(f'"{text}"' for text in texts)
    return f'{{"mode":"managed","type":"t","name":"{name}","instances":[{{"dependencies":[{listed}]}}]}}'


def written(serial, *resources):
    """Returns the bytes of a state, without blanks."""
    return f'{{"version":4,"serial":{serial},"lineage":"L1","resources":[{",".join(resources)}]}}'.encode()


def test_states_without_blanks_are_asked():
    expect_answers(written(2, depends("a", "x.y"), depends("b", "t.a"), depends("c", "t.b")), [
        (ask("any", "t.a"), answer("t.b", "t.c", serial=2)), (ask("any", "t.c"), answer(serial=2)),
        (ask("any", "x.y"), UNKNOWN), (ask("any", "t.a", name="z"), refusal_text("NoState")),
    ])
    expect_answers(written(1, depends("a", "t.b"), depends("b", "t.a")), [(ask("any", "t.a"), answer("t.a", "t.b"))])
    ends = depends("a"), depends("b"), depends("c", "t.a"), depends("e", "t.b")
    texts = ["t.a"] * 64
    expect_answers(written(1, *ends[:3], depends("d", "t.a", "t.b"), ends[3]), [
        (ask("all", "t.a", "t.b"), answer("t.d")), (ask("all", *texts), answer("t.c", "t.d")),
        (ask("all", *texts, "t.a"), refusal_text("TooManyAddresses")),
        (request_text("GET", "/impact/a/all"), refusal_text("NoAddress")),
    ])
    expect_answers(written(1, *ends), [(ask("all", "t.a", "t.b"), answer())])


def test_keys_of_modules_are_taken_out():
    def one(module):
        return '{"module":"%s","mode":"managed","type":"t","name":"n","instances":[{}]}' % module

    keyed = one(r'module.m[\"p.q]\"]')
    expect_answers(written(1, keyed, one("module.m[0]"), depends("z", "module.m[7].t.n")), [
        (request_text("GET", "/impact/a/any?of=module.m%5B0%5D.t.n"), answer("t.z")),
        (request_text("GET", "/impact/a/any?of=module.m.t.n"), answer("t.z")), (request_text("GET", "/impact/a/any?of=t.z"), answer()),
    ])
    open_key = written(1, keyed, one("module.m[0"), depends("z", "module.m[7].t.n"))
    expect(run(request_text("POST", "/state/a", open_key)), (refusal_text("BadState"), CLEAN, b""))


def both_kinds(wanted_any, wanted_all, *texts):
    """Returns both queries of these texts, with their answers: texts of instances, or a refusal's
    name."""
    def told(wanted):
        return refusal_text(wanted) if isinstance(wanted, str) else answer(*wanted)
    return [(ask("any", *texts), told(wanted_any)), (ask("all", *texts), told(wanted_all))]


def expect_both(resources, *rows):
    """Pushes a state, and queries any and all of each row of texts. A row with one answer has it
    for both."""
    expect_answers(state(*resources), [asked for texts, *wanted in rows for asked in both_kinds(wanted[0], wanted[-1], *texts)])


def test_instances_of_a_cycle_reach_themselves():
    cycles = resource("a", depending("t.b")), resource("b", depending("t.a")), resource("c", depending("t.c[5]", "t.c")), resource("d", depending())
    both = ("t.a", "t.b")
    expect_both(cycles, (["t.a"], both), (["t.b", "t.a"], both), (["t.c"], ("t.c",)), (["t.d"], ()))


def test_texts_name_by_either_address():
    modules = (resource("n", {}, module='module.m["p.q]"]'), resource("n", {}, module="module.m[0]"), resource("z", depending("module.m[7].t.n")))
    known = ["module.m[0].t.n", 'module.m["p.q]"].t.n', "module.m.t.n"]
    unknown = ["module.m[7].t.n", "module.m.t.n ", "module.m", "t.n", "module.m[0].t.n\0"]
    expect_both(modules, *(([text], ("t.z",)) for text in known), (["t.z"], ()), *((["t.z", text], "UnknownAddress") for text in unknown))


def test_a_resource_with_keys_is_named_as_a_whole_or_by_one():
    keys = {"index_key": 0}, {"index_key": "k", "dependencies": ["t.a"]}, {"index_key": 0, "deposed": "ab12"}
    resources = resource("n", *keys), resource("a", {}), resource("n", depending("t.n", "t.n"), mode="data")
    source, with_key = ("data.t.n",), (r't.n[\"k\"]', "data.t.n")
    one = [(["t.n"], source), (["t.n[0]"], source), (['t.n["k"]'], source), (["t.n[0] (deposed ab12)"], source), (["data.t.n"], ())]
    expect_both(resources, *one, (["t.a"], with_key), (["t.a", "t.n[0]"], with_key, source))


def test_what_no_text_has_in_common_is_none():
    resources = [*map(json.loads, (depends("a"), depends("b"), depends("c", "t.a"), depends("d", "t.a", "t.b"), depends("e", "t.b")))]
    resources += [resource("a", {}, type="u"), resource("b", depending("u.a"), type="u")]
    rows = [(["t.a", "t.c"], ("t.c", "t.d"), ()), (["t.a", "u.a"], ("t.c", "t.d", "u.b"), ()), (["t.a", "t.b"], ("t.c", "t.d", "t.e"), ("t.d",))]
    refused = [(["t.a", "x.y"], "UnknownAddress"), (["t.a", "x.y", "z"], "UnknownAddress"), (["x.y"] * 65, "TooManyAddresses"), ([], "NoAddress")]
    expect_both(resources, *rows, *refused)
    expect_both([], ([], "NoAddress"), (["t.a"], "UnknownAddress"))


def chain_of(count):
    """Returns a state in which each instance except the first depends on the previous one."""
    return written(1, *(depends(f"i{i}", *([f"t.i{i - 1}"] if i else [])) for i in range(count)))


@pytest.mark.parametrize("count", [1, 63, 64, 65, 511, 512, 513, 2048, 2049, 4096])
def test_each_of_a_chain_reaches_all_later_ones(count):
    expect_answers(chain_of(count), [(ask("any", f"t.i{i}"), answer(*(f"t.i{j}" for j in range(i + 1, count)))) for i in (0, count // 2, count - 1)])


def test_a_chain_of_none_and_one_of_too_many():
    expect_answers(chain_of(0), [(ask("any", "t.i0"), UNKNOWN)])
    expect(run(request_text("POST", "/state/a", chain_of(4097))), (refusal_text("TooManyInstances"), CLEAN, b""))


def expect_closure(relates, size, step):
    """Queries what the last number of a relation and each multiple of a step reach, when the second
    number of a pair depends on the first."""
    pairs, pushed = pairs_of(relates, size), {j: [] for j in range(size)}
    for i, j in pairs:
        pushed[j].append(f"t.i{i}")
    rows = [i for i in range(size) if i % step == 0 or i + 1 == size]
    expect_answers(written(1, *(depends(f"i{j}", *texts) for j, texts in pushed.items())),
                   [(ask("any", f"t.i{i}"), answer(*(f"t.i{j}" for j in reached(pairs, i)))) for i in rows])


def test_random_relations_reach_what_the_plain_search_finds():
    for size in range(1, 201):
        expect_closure(at_random, size, 1 if size < 41 else size // 2)


@pytest.mark.parametrize("name, size, step", [
    *[(name, size, max(size // 2, 1)) for name in NAMED for size in (0, 1, 2, 63, 64, 65)],
    *[(name, 130, 43) for name in ("chain", "falling chain", "layers of eight")],
])
def test_relations_with_a_name_reach_what_the_plain_search_finds(name, size, step):
    expect_closure(NAMED[name], size, step)


@pytest.mark.parametrize("more", range(12))
def test_long_answers_are_whole_wherever_their_pieces_end(more):
    module, shown = 'module.m["' + "x" * more + "\u00e9\\u0001" * 3000 + '"]', 'module.m[\\"' + "x" * more + "\u00e9\\\\u0001" * 3000 + '\\"]'
    pushed = state(resource("a", {}), resource("b", *(depending("t.a", index_key=key) for key in ["\x01", "\n\"", *range(20)]), module=module))
    keys = ['\\"\\\\u0001\\"', '\\"\\\\n\\\\\\"\\"', *range(20)]
    expect_answers(pushed, [(ask("any", "t.a"), answer(*(f"{shown}.t.b[{key}]" for key in keys)))])


def test_addresses_are_printed_as_json_texts():
    keys = state(resource("n", {"index_key": "\u00e9\"\n"}, {"index_key": 7, "deposed": "ab"}, module="module.m[\"p.q]\"]"),
                 resource("z", depending("module.m.t.n"), {"dependencies": ["module.m[8].t.n"], "deposed": ""}, mode="data"),
                 resource("y", {"index_key": "\u00e9\"\n", "dependencies": ["data.t.z"]}))
    told = ("data.t.z", "data.t.z", 't.y[\\"\u00e9\\\\\\"\\\\n\\"]')
    by_key = 'module.m["p.q]"].t.n["\u00e9\\"\\n"]'
    names = ["module.m.t.n", by_key, 'module.m["p.q]"].t.n[7] (deposed ab)']
    expect_answers(keys, [(ask("any", name), answer(*told)) for name in names] + [(ask("any", 'module.m["p.q]"].t.n[7]'), UNKNOWN)])


@pytest.mark.parametrize("query, reply", [
    ("any?of=t.a", answer("t.c", "t.d")), ("any?%6F%66=t%2Ea", answer("t.c", "t.d")), ("any?ID=x&&of=t.a&b=c", answer("t.c", "t.d")),
    ("any?Of=t.a", refusal_text("NoAddress")), ("any", refusal_text("NoAddress")), ("any?of", UNKNOWN), ("any?of=t.a+", UNKNOWN),
    ("all?of=t.a?of=t.b", UNKNOWN), ("any?of=%FF", UNKNOWN),
])
def test_queries_are_read_as_forms(query, reply):
    expect_answers(FIVE, [(request_text("GET", "/impact/a/" + query), reply)])


ALLOWED = b"HTTP/1.1 405 Method Not Allowed\r\nAllow: GET\r\nContent-Type: application/json\r\nContent-Length: 28\r\n\r\n"


@pytest.mark.parametrize("method", ["POST", "DELETE", "LOCK", "UNLOCK", "get"])
def test_impact_routes_have_one_method(method):
    expect(run(request_text(method, "/impact/a/any?of=t.a")), (ALLOWED + b'{"error":"MethodNotAllowed"}', CLEAN, b""), method)


def test_the_head_of_an_impact_route_has_no_body():
    expect(run(request_text("HEAD", "/impact/a/all")), (ALLOWED, CLEAN, b""))


@pytest.mark.parametrize("target, name", [
    *[(target, "NoRoute") for target in (
        "/impact/a", "/impact/a/", "/impact//any", "/impact/a/ANY", "/impact/a/any/", "/impact/a/b/any", "/impact/a/some")],
    ("/impact/a%20b/any", "BadName"), ("/impact/any/any", "NoState"), ("/impact/all/all?of=x", "NoState"),
])
def test_impact_routes_have_a_name_and_a_kind(target, name):
    expect(run(request_text("GET", target)), (refusal_text(name), CLEAN, b""), target)


def test_the_digest_of_a_query_is_looked_at():
    digest = request_text("GET", "/impact/a/any?of=t.a", more="Content-MD5: ?\r\n")
    expect(run(digest), (refusal_text("BadDigest"), CLEAN, b""))


def test_answers_follow_the_state_of_the_day():
    other = state(resource("b", {}), resource("c", depending("t.b")), serial=0)
    locked, info = request_text("LOCK", "/state/b", b'{"ID":"B"}'), b'{"ID":"A"}'
    steps = [
        (request_text("POST", "/state/a", CHAIN), DONE), (locked, DONE), (ask("any", "t.b"), answer("t.c", position=2, serial=2)),
        (request_text("DELETE", "/state/a"), DONE), (ask("any", "t.b"), refusal_text("NoState")),
        (request_text("POST", "/state/a", other), DONE), (ask("any", "t.b"), answer("t.c", position=4, serial=0)),
        (ask("any", "t.a"), UNKNOWN), (request_text("LOCK", "/state/a", info), DONE),
        (request_text("POST", "/state/a", FIVE), reply_text(423, info)), (ask("all", "t.b"), answer("t.c", position=5, serial=0)),
    ]
    expect(run(b"".join(text for text, _ in steps)), (b"".join(reply for _, reply in steps), CLEAN, b""))


MODULES = ["", "module.m", "module.m[0]", 'module.m["x]"]', "[0]"]
KEYS = [None, None, 0, 1, "k", 'q"\u00e9']


ADDRESSES = st.lists(st.sampled_from([
    (module, kind, f"t.{letter}") for module in MODULES for kind in ("", "", "", "data.") for letter in "abcdef"]), min_size=6, max_size=6)
KEYS_OF_ONE = st.lists(st.integers(0, len(KEYS) - 1), unique=True, max_size=3)
DEPOSED = st.sampled_from([{}] * 8 + [{"deposed": ""}, {"deposed": "ab12"}])
COUNTS = st.sampled_from([1, 1, 1, 1, 2, 2, 3, 64, 65, 0])
QUERIES = st.sampled_from([
    (method, name, kind, encode, more) for method in ["GET"] * 19 + ["POST"] for name in "aaaab" for kind in ("any", "all")
    for encode in (quote, quote_plus) for more in [[]] * 9 + [["ID=x"]]])
STEPS = st.lists(st.sampled_from(["query"] * 15 + ["push"] * 4 + ["delete"]), min_size=1, max_size=24)


@st.composite
def graphs(draw):
    """Draws a state of a few resources, with many dependencies among them, and texts that may name
    them."""
    names = draw(ADDRESSES)
    known = [(module + "." if module else "") + kind + name for module, kind, name in names]
    resources, texts = [], known + ["x.y", "t.a[0]", "module.m.t.b", ""]
    dependencies = st.lists(st.sampled_from(known + ["x.y", "module.m[3].t.a", "t.b[5]"]), max_size=2)
    for (module, kind, name), full in zip(names, known):
        keys = [KEYS[number] for number in draw(KEYS_OF_ONE)]
        owned = [depending(*draw(dependencies)) | draw(DEPOSED) | ({"index_key": key} if key is not None else {}) for key in keys]
        texts += [full + ("" if key is None else f"[{json.dumps(key, ensure_ascii=False)}]") for key in keys]
        members = {"module": module} if module or draw(st.booleans()) else {}
        resources.append({**resource(name[2:], *owned, **members), "mode": "data" if kind else "managed"})
    return state(*resources, serial=draw(st.integers(0, 1))), texts


@st.composite
def queries(draw, texts):
    """Draws the bytes of a query."""
    count, (method, name, kind, encode, more) = draw(COUNTS), draw(QUERIES)
    chosen = draw(st.lists(st.sampled_from(texts), min_size=min(count, 3), max_size=min(count, 3))) * (count if count > 3 else 1)
    return request_text(method, f"/impact/{name}/{kind}?" + "&".join([f"of={encode(text)}" for text in chosen[:count]] + more))


@st.composite
def conversations(draw):
    """Draws queries over states that are pushed and deleted between them."""
    requests, texts = [], ["t.a"]
    for step in draw(STEPS):
        if step == "push":
            pushed, texts = draw(graphs())
            requests.append(request_text("POST", f"/state/{draw(st.sampled_from('ab'))}", pushed))
        else:
            requests.append(request_text("DELETE", "/state/a") if step == "delete" else draw(queries(texts)))
    return b"".join(requests)


def test_random_queries_are_answered_as_the_models_say():
    met, lengths = set(), set()

    @settings(max_examples=200)
    @given(conversations())
    def are_answered(data):
        replies, status = model.replies_to(data)
        expect(run(data), (b"".join(replies), status, b""), "queries")
        met.update(name for name in model.STATUSES if any(b'"%s"' % name.encode() in reply for reply in replies))
        lengths.update(reply.count(b'","') for reply in replies if b'"instances":["' in reply)

    are_answered()
    wanted = {"NoState", "NoAddress", "TooManyAddresses", "UnknownAddress", "MethodNotAllowed"}
    expect(wanted - met, set(), "each refusal is met")
    expect(max(lengths) >= 4, True, "answers of many instances are met")
