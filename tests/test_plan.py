"""Runs `tfstatectl impact --plan` on plans and states: chosen ones, with each form, option and
fault, and random ones, compared with a search over the state. The plans have the form that
`terraform show -json` prints (Terraform documentation: JSON output format)."""
import itertools
import json
import re
import subprocess

from hypothesis import given, settings, strategies as st
import pytest

from checking import SECONDS, expect
from folder_program import FOLDER_PROGRAM, STATUSES, run
from folders import fresh
from impact_model import instances_of
from journal_reader import push_content, record_text
from plan_texts import STATE, change, on, plan_of
from sample_states import resource, text_of

pytestmark = pytest.mark.usefixtures("tfstatectl")

MARKER = "<!-- tfstatectl impact -->"
WORDS = {("delete",): "destroyed", ("create", "delete"): "replaced", ("delete", "create"): "replaced", ("update",): "updated",
         ("forget",): "forgotten", ("create", "forget"): "replaced"}


def asked(plan, *words, state=STATE):
    """Runs the command on the texts of a plan and a state. Returns its status, and what it
    wrote."""
    folder = fresh()
    (folder / "plan.json").write_bytes(plan)
    (folder / "state.json").write_bytes(state)
    return run("impact", "--plan", folder / "plan.json", "--state", folder / "state.json", *words)


def printed(plan, *words, state=STATE):
    """Returns what the command prints. It must succeed."""
    status, output, errors = asked(plan, *words, state=state)
    expect((status, errors), (0, ""), words)
    return output


def told(plan, *words, state=STATE):
    """Returns the JSON that the command prints."""
    return json.loads(printed(plan, "--json", *words, state=state))


def effects(plan, *words, state=STATE):
    """Returns the effect, the address and the chain of each row."""
    return [(row["effect"], row["instance"], row["chain"]) for row in told(plan, *words, state=state)["instances"]]


def test_what_goes_away_comes_first_then_updates_then_what_they_reach():
    plan = plan_of(change("t.other", "update"), change("t.new", "create"), change("t.web", "update"), change("t.vpc", "no-op"),
                   change('t.subnet["b"]', "delete", "create"), change('t.subnet["a"]', "delete"), change("data.t.x", "read"))
    expect(told(plan), {
        "removed": 2, "updated": 2, "created": 1, "reached": 1, "unknown": 0, "instances": [
            {"effect": "replaced", "instance": 't.subnet["b"]', "chain": []}, {"effect": "destroyed", "instance": 't.subnet["a"]', "chain": []},
            {"effect": "updated", "instance": "t.other", "chain": []}, {"effect": "updated", "instance": "t.web", "chain": []},
            {"effect": "reached", "instance": "t.dns", "chain": ['t.subnet["b"]', "t.dns"]}], "left_out": 0})


@pytest.mark.parametrize("actions", [*WORDS, ("no-op",), ("create",), ("read",)])
def test_each_action_has_its_effect(actions):
    rows = effects(plan_of(change("t.web", *actions)))
    reached = [("reached", "t.dns", ["t.web", "t.dns"])]
    expect(rows, [(WORDS[actions], "t.web", []), *reached] if actions in WORDS else [], actions)


def test_a_chain_has_each_instance_between_the_changed_and_the_reached_one():
    state = text_of([resource("a", on()), resource("b", on("t.a")), resource("c", on("t.b")), resource("d", on("t.c", "t.e")),
                     resource("e", on("t.d"))])
    expect(effects(plan_of(change("t.a", "delete")), state=state), [
        ("destroyed", "t.a", []), ("reached", "t.b", ["t.a", "t.b"]), ("reached", "t.c", ["t.a", "t.b", "t.c"]),
        ("reached", "t.d", ["t.a", "t.b", "t.c", "t.d"]), ("reached", "t.e", ["t.a", "t.b", "t.c", "t.d", "t.e"])])


def test_an_instance_that_both_reach_is_shown_with_one_that_goes_away():
    plan = plan_of(change("t.web", "update"), change("t.vpc", "delete", "create"), change('t.subnet["a"]', "no-op"))
    rows = {name: chain for effect, name, chain in effects(plan) if effect == "reached"}
    expect(rows, {'t.subnet["a"]': ["t.vpc", 't.subnet["a"]'], 't.subnet["b"]': ["t.vpc", 't.subnet["b"]'], "t.dns": ["t.vpc", "t.dns"]})


def test_moved_instances_have_their_new_addresses():
    plan = plan_of(change("t.net", "update", previous_address="t.vpc"), change("module.m.t.web", "no-op", previous_address="t.web"))
    expect(effects(plan), [
        ("updated", "t.net", []), ("reached", 't.subnet["a"]', ["t.net", 't.subnet["a"]']), ("reached", 't.subnet["b"]', ["t.net", 't.subnet["b"]']),
        ("reached", "module.m.t.web", ["t.net", "module.m.t.web"]), ("reached", "t.dns", ["t.net", "t.dns"])])
    expect(effects(plan_of(change("t.web", "no-op", previous_address="t.old"))), [])


def test_a_deposed_object_changes_nothing():
    expect(effects(plan_of(change("t.vpc", "delete", deposed="00000001"))), [])


def test_an_address_that_the_state_lacks_is_named():
    plan = plan_of(change("t.gone", "delete"), change("t.web", "update"), change("t.subnet", "update"),
                   change("t.new", "update", previous_address="t.old"))
    expect(effects(plan), [("updated", "t.web", []), ("unknown", "t.gone", []), ("unknown", "t.subnet", []), ("unknown", "t.old", []),
                           ("reached", "t.dns", ["t.web", "t.dns"])])
    expect(told(plan)["unknown"], 3)
    for words in ((), ("--markdown",)):
        expect("3 aren't in this state: plan again." in printed(plan, *words), True, words)


TAGS = {"tags": {"a": "1"}, "tags_all": {"a": "1"}, "size": 1}


@pytest.mark.parametrize("after, unknown, is_left_out", [
    ({"tags": {"a": "2"}}, {}, True), ({"tags": None, "tags_all": {}}, {}, True), ({"size": 2}, {}, False), ({"tags": {}, "size": 2}, {}, False),
    ({"size": "1"}, {}, False), ({"more": 1}, {}, False), ({}, {"tags_all": True}, True), ({}, {"size": True}, False),
    ({}, {"list": [False, {"x": True}]}, False), ({}, {"list": [False, {"x": False}]}, True), ({}, {}, True)])
def test_updates_of_ignored_attributes_alone_are_left_out(after, unknown, is_left_out):
    update = plan_of(change("t.web", "update", before=TAGS, after={**TAGS, **after}, unknown=unknown))
    shown = [("updated", "t.web", []), ("reached", "t.dns", ["t.web", "t.dns"])]
    expect(effects(update, "--ignore", "tags,tags_all"), [] if is_left_out else shown)
    expect(effects(update), shown, "without the option nothing is left out")
    replaced = plan_of(change("t.web", "delete", "create", before=TAGS, after={**TAGS, **after}, unknown=unknown))
    expect(effects(replaced, "--ignore", "tags,tags_all")[0][0], "replaced")


def test_one_of_two_names_ignores_only_its_attribute():
    plan = plan_of(change("t.other", "update", before=TAGS, after={**TAGS, "tags_all": {}}))
    expect((effects(plan, "--ignore", "tags_all"), effects(plan, "--ignore", "tags")), ([], [("updated", "t.other", [])]))
    before = {key: value for key, value in TAGS.items() if key != "tags"}
    expect(effects(plan_of(change("t.other", "update", before=before, after=TAGS)), "--ignore", "tags"), [], "it is added")
    expect(effects(plan_of(change("t.other", "update", before=TAGS, after=before)), "--ignore", "tags"), [], "it is removed")
    expect(effects(plan_of(change("t.other", "update", before=before, after=TAGS)), "--ignore", "size"), [("updated", "t.other", [])])


SOME = plan_of(change('t.subnet["a"]', "delete", "create"), change("t.other", "update"), change("t.gone", "delete"), change("t.new", "create"))
SUMMARY = "1 destroyed or replaced, 1 updated, 1 created; 2 beyond the plan depend on them. 1 aren't in this state: plan again."


def test_lines_for_people():
    expect(printed(SOME).splitlines(), [
        SUMMARY, 'replaced   t.subnet["a"]', "updated    t.other", "unknown    t.gone",
        'reached    t.web by t.subnet["a"] -> t.web', 'reached    t.dns by t.subnet["a"] -> t.dns'])


def test_a_comment_begins_with_its_marker():
    expect(printed(SOME, "--markdown").splitlines(), [
        MARKER, f"**Impact of the plan**: {SUMMARY}", "", '- replaced `t.subnet["a"]`', "- updated `t.other`", "- unknown `t.gone`",
        '- reached `t.web` by `t.subnet["a"]` → `t.web`', '- reached `t.dns` by `t.subnet["a"]` → `t.dns`'])
    expect(printed(plan_of(), "--markdown").splitlines()[0], MARKER)


def test_a_picture_for_mermaid():
    expect(printed(SOME, "--mermaid").splitlines(), [
        "flowchart LR", "  classDef removed fill:#f99", "  classDef updated fill:#fd9", "  classDef unknown stroke-dasharray:4",
        '  n1["t.subnet[#quot;a#quot;]"]:::removed', '  n5["t.other"]:::updated', '  x2["t.gone"]:::unknown', '  n3["t.web"]',
        '  n3 --> n1["t.subnet[#quot;a#quot;]"]', '  n4["t.dns"]', '  n4 --> n1["t.subnet[#quot;a#quot;]"]'])


def test_a_picture_for_graphviz():
    expect(printed(SOME, "--dot").splitlines(), [
        "digraph {", '  "t.subnet[\\"a\\"]" [style=filled, fillcolor="#ff9999"];', '  "t.other" [style=filled, fillcolor="#ffdd99"];',
        '  "t.gone" [style=dashed];', '  "t.web";', '  "t.web" -> "t.subnet[\\"a\\"]";', '  "t.dns";', '  "t.dns" -> "t.subnet[\\"a\\"]";', "}"])


MANY = text_of([resource("base", on()), resource("part", [{"index_key": number, "dependencies": ["t.base"]} for number in range(500)])])


FORMS = ["--markdown", "--mermaid", "--dot", "--json"]


@pytest.mark.parametrize("one, other", itertools.permutations(FORMS, 2))
def test_two_forms_at_once_are_refused(one, other):
    status, output, errors = asked(SOME, one, other)
    expect((status, output), (STATUSES["Arguments"], ""), errors)
    expect(errors.splitlines()[0] in (f"error: the argument '{a}' cannot be used with '{b}'" for a, b in ((one, other), (other, one))), True, errors)


@pytest.mark.parametrize("form", [(), *((form,) for form in FORMS)])
@pytest.mark.parametrize("limit", [1000, 1777, 5000])
def test_a_longer_output_is_cut_with_the_number_left_out(form, limit):
    plan = plan_of(change("t.base", "update"))
    whole = printed(plan, *form, state=MANY)
    output = printed(plan, *form, "--bytes", limit, state=MANY)
    expect(limit - 120 < len(output.encode()) <= limit, True, f"{form}: {len(output.encode())} of {limit}")
    rows = {(): "reached ", ("--markdown",): "- reached ", ("--mermaid",): " --> ", ("--dot",): " -> ", ("--json",): '"effect":"reached"'}[form]
    left_out = json.loads(output)["left_out"] if form == ("--json",) else int(re.search(r"(\d+) more", output)[1])
    expect((whole.count(rows), output.count(rows) + left_out, 0 < left_out), (500, 500, True), form)
    expect(printed(plan, *form, "--bytes", len(whole.encode()), state=MANY), whole, "it fits")
    expect(printed(plan, *form, "--bytes", len(whole.encode()) - 1, state=MANY) == whole, False, "it is one byte too long")


def test_the_default_limit_is_60000_bytes():
    state = text_of([resource("base", on()), resource("p" * 60, [{"index_key": number, "dependencies": ["t.base"]} for number in range(1000)])])
    output = printed(plan_of(change("t.base", "update")), "--markdown", state=state)
    expect(59_800 < len(output.encode()) <= 60_000, True, len(output))


ODD = ['say "hi"', "a\\b", "${x}", "%{y}", "$${z}", "`tick`", "``", "<b>&#x", "\u202eé", "tab\tline\n"]


def spelled(name, key):
    """Returns the address of an instance in a plan: Terraform doubles the marks of templates."""
    text = json.dumps(key, ensure_ascii=False).replace("${", "$${").replace("%{", "%%{")
    return f"t.{name}[{text}]"


def test_odd_keys_are_found_and_escaped():
    state = text_of([resource("a", [{"index_key": key} for key in ODD]), resource("b", on("t.a"))])
    plan = plan_of(*(change(spelled("a", key), "update") for key in ODD))
    expect(effects(plan, state=state)[:-1], [("updated", f"t.a[{json.dumps(key, ensure_ascii=False)}]", []) for key in ODD])
    for words in ((), *((form,) for form in FORMS)):
        output = printed(plan, *words, state=state)
        expect([c for c in "\u202e\t\x00" if c in output], [], words)
        expect(output.isascii(), False, "é is printed")
    lines = printed(plan, "--markdown", state=state).splitlines()
    expect('- updated `` t.a["`tick`"] ``' in lines and '- updated ``` t.a["``"] ```' in lines, True, lines)
    expect("#lt;b#gt;#amp;#35;x" in printed(plan, "--mermaid", state=state), True)


def given_input(data, *words):
    """Runs the command with this standard input."""
    ran = subprocess.run([FOLDER_PROGRAM, "impact", *map(str, words)], input=data, capture_output=True, timeout=SECONDS, check=False)
    return ran.returncode, ran.stdout.decode(), ran.stderr.decode()


def test_each_source_of_the_state_gives_the_same():
    wanted = printed(SOME)
    folder = fresh(n1=b"TFJ1\n" + record_text(3, b"net", push_content(b"", STATE)))
    plan, state = folder / "plan.json", folder / "state.json"
    plan.write_bytes(SOME)
    state.write_bytes(STATE)
    expect(given_input(STATE, "--plan", plan, "--state", "-"), (0, wanted, ""))
    expect(given_input(SOME, "--plan", "-", "--state", state), (0, wanted, ""))
    expect(given_input(SOME, "--plan", "-", "--folder", folder, "net"), (0, wanted, ""))
    expect(given_input(b"", "--plan", plan, "--folder", folder, "net"), (0, wanted, ""))
    expect(given_input(SOME, "--plan", "-", "--state", "-")[0], STATUSES["OneInput"])
    expect(given_input(SOME, "--plan", "-")[0], STATUSES["NoSource"])
    for fault, name in (("NoName", "none"),):
        status, output, errors = given_input(b"", "--plan", plan, "--folder", folder, name)
        expect((status, output, f"{folder}: {name}: {fault}: " in errors), (STATUSES[fault], "", True), errors)


BAD = [(b"", "NotJson"), (b"{", "NotJson"), (b"[]", "NotPlan"), (b'{"format_version":"1.2"}', "NotPlan"), (STATE, "NotPlan"),
       (plan_of(format_version="0.2"), "NotPlan"), (plan_of(format_version="2.0"), "NotPlan"), (plan_of(resource_changes={}), "Changes"),
       (plan_of({}), "Address"), (plan_of(change("t.a", "update", previous_address=1)), "PreviousAddress"),
       (plan_of(change("t.a", "update", deposed=True)), "Deposed"), (plan_of(change("t.a")), "Actions"),
       (plan_of(change("t.a", "delete", "update")), "Actions"), (plan_of(change("t.a", "no-op"), change("t.b", "explode")), "Actions")]


@pytest.mark.parametrize("plan, fault", BAD)
def test_each_fault_of_a_plan_is_reported(plan, fault):
    status, output, errors = asked(plan)
    expect((status, output), (STATUSES["BadPlan"], ""), errors)
    expect(errors.startswith(f"tfstatectl: --plan: BadPlan: {fault}: "), True, errors)
    expect(len(errors.splitlines()), 1)


def test_a_plan_without_changes_reaches_nothing():
    for plan in (plan_of(), plan_of(resource_changes=None), json.dumps({"format_version": "1.0", "planned_values": {}}).encode()):
        expect(told(plan), {"removed": 0, "updated": 0, "created": 0, "reached": 0, "unknown": 0, "instances": [], "left_out": 0})


def test_faults_of_files_and_options_are_reported():
    for state in (b"", b"{}", b'{"version":3,"serial":1,"lineage":"x"}'):
        status, output, errors = asked(SOME, state=state)
        expect((status, output, errors.startswith("tfstatectl: --state: BadState: ")), (STATUSES["BadState"], "", True), errors)
    folder = fresh()
    status, output, errors = run("impact", "--plan", folder / "none", "--state", folder / "none")
    expect((status, output, errors.startswith("tfstatectl: --plan: NoFile: ")), (STATUSES["NoFile"], "", True), errors)
    for words in (("--state", "x"), ("--markdown", folder, "a", "any", "t.a"), ("--plan", "x", "--state", "y", "--folder", folder, "a"),
                  ("--plan", "x", "--folder", folder), ("--plan", "x", folder, "a", "any", "t.a"), ("--plan", "x", "--state", "y", "--bytes", "999")):
        expect(run("impact", *words)[0], STATUSES["Arguments"], words)


def test_a_state_has_at_most_16777216_bytes():
    longest = STATE + b" " * (16_777_216 - len(STATE))
    expect(printed(SOME, state=longest), printed(SOME))
    status, output, errors = asked(SOME, state=longest + b" ")
    expect((status, output, errors.startswith("tfstatectl: --state: LargeState: ")), (STATUSES["LargeState"], "", True), errors)


NAMES = st.sampled_from("abcdefgh")


@st.composite
def networks(draw):
    """Returns resources with random dependencies, and the actions of a random plan."""
    names = draw(st.lists(NAMES, unique=True, min_size=1))
    links = {name: draw(st.lists(NAMES, unique=True, max_size=3)) for name in names}
    counts = {name: draw(st.integers(1, 2)) for name in names}
    actions = draw(st.dictionaries(st.sampled_from(names), st.sampled_from([*WORDS, ("no-op",)])))
    return names, links, counts, actions


def distances(starts, instances):
    """Returns the number of dependencies from some of these instances to each one that they
    reach, on a shortest chain."""
    found, last = {}, set(starts)
    while last:
        names = {instances[i].configuration for i in last}
        last = {i for i, instance in enumerate(instances) if not instance.dependencies.isdisjoint(names)} - set(found)
        found.update(dict.fromkeys(last, 1 + max(found.values(), default=0)))
    return found


@given(network=networks())
@settings(max_examples=60)
def test_random_plans_reach_what_a_search_finds(network):
    names, links, counts, actions = network
    instances = [resource(name, [{"index_key": key, "dependencies": [f"t.{other}" for other in links[name]]} for key in range(counts[name])])
                 for name in names]
    state = text_of(instances)
    model = instances_of(json.loads(state))
    numbers = {instance.address: number for number, instance in enumerate(model)}
    plan = plan_of(*(change(f"t.{name}[0]", *words) for name, words in actions.items()))
    rows = effects(plan, state=state)
    changed = [f"t.{name}[0]" for name, words in actions.items() if words in WORDS]
    starts = {numbers[address] for address in changed}
    nearest = distances(starts, model)
    beyond = sorted(set(nearest) - starts)
    expect([name for effect, name, _ in rows if effect == "reached"], [model[number].address for number in beyond])
    removed = [f"t.{name}[0]" for name, words in actions.items() if words in WORDS and words != ("update",)]
    expect([name for effect, name, _ in rows if effect != "reached"], removed + [name for name in changed if name not in removed])
    from_removed = distances({numbers[address] for address in removed}, model)
    for effect, name, chain in rows:
        if effect == "reached":
            links_hold = all(model[numbers[a]].configuration in model[numbers[b]].dependencies for a, b in zip(chain, chain[1:]))
            expect((chain[-1], chain[0] in changed, links_hold), (name, True, True), chain)
            expect(chain[0] in removed, numbers[name] in from_removed, chain)
            expect(len(chain) - 1, from_removed.get(numbers[name], nearest[numbers[name]]), chain)
