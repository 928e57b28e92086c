"""Runs the commands of `tfstatectl` that read a folder: on small folders by hand, and on random
folders, while servers write, against a plain model. Nothing in a folder is changed."""
import json
import os
import shutil
import subprocess
import threading

from hypothesis import given, settings, strategies as st
import pytest

from checking import S1, S2, SECONDS, expect
from folder_model import Fault, number_of
from folder_program import FOLDER_PROGRAM, STATUSES, Serving, run
from folder_texts import folder_files
from folders import LOOPBACK, NEWEST, PUSH1, PUSH2, REBASED, SHORT, at_once, fresh, named
from impact_model import impact
from journal_reader import push_content, record_text
from journal_texts import up_to
from metrics import read_metrics
from past_program import bytes_of, drawn, graph, put_away, refused, rows_in, some_past, state, told
from repository import TOP
from version_model import as_json, counts, history, listing, newest_version, restored, version

pytestmark = pytest.mark.usefixtures("tfstatectl")
TURNS = int(os.environ.get("VERSION_TURNS", "100"))


def test_a_list_has_each_name_with_its_holder():
    rows = told(some_past(), "list")
    held = rows[0].pop("held")
    expect(rows, [{"name": "a", "serial": 2, "instances": 0, "bytes": 41, "changed": 3, "holder": "x", "who": "ann@build",
                   "operation": "OperationTypeApply", "created": "2026-02-03T04:05:06Z"}])
    expect(isinstance(held, int), True, held)
    expect(bytes_of("list", fresh(n1=b"TFJ1\n"), "--json"), b"[]\n")
    expect(len(bytes_of("list", fresh(n1=b"TFJ1\n")).splitlines()), 1, "the names of the columns alone")


def test_versions_are_printed_byte_for_byte():
    folder = some_past()
    expect([bytes_of("show", folder, "a", *words) for words in ((), ("--position", 1), ("--position", 2), ("--position", 3))], [S2, S1, S2, S2])
    hard = b'{ "version" :4,\r\n\t"serial":7,"lineage":"\\u00e9\xc3\xa9","resources":null, "x":1e400000}'.replace(b"1e400000", b"1.50")
    gone = record_text(4, b"a", b"")
    folder = fresh(n3=SHORT + gone + record_text(3, b"a", push_content(b"", hard)) + gone)
    expect(bytes_of("show", folder, "a", "--position", "3"), hard)
    refused("NoState", folder, "show", "a")
    refused("NoState", folder, "show", "a", "--position", "2")
    expect(bytes_of("restore", folder, "a", "--position", "3"), hard, "there is no state now")


def test_faults_name_what_is_not_there():
    folder = some_past()
    errors = refused("BehindNewest", folder, "show", "a", "--position", "4")
    expect("newest position is 3" in errors, True, errors)
    for words in (("show", "b"), ("show", "b", "--position", "2"), ("history", "b"), ("restore", "b", "--position", "1"), ("history", "no name")):
        refused("NoName", folder, *words)
    refused("NoState", folder, "show", "a", "--position", "0")
    (folder / "old" / f"{named(2)}.tfj").unlink()
    errors = refused("BeforeOldest", folder, "show", "a", "--position", "0")
    expect("versions before position 1 are no longer kept" in errors, True, errors)
    expect(bytes_of("show", folder, "a", "--position", "1"), S1, "the base has it")
    refused("NotKept", put_away(fresh(n4=REBASED), n2=b"TFJ1\n" + PUSH1), "show", "a", "--position", "2")
    refused("NoJournal", fresh(), "list")
    refused("NoFolder", fresh() / "none", "list")


@pytest.mark.parametrize("words", [
    ("list",), ("history", "F"), ("restore", "F", "a"), ("show", "F", "a", "--position", "x"), ("list", "F", "more"), ("unknown", "F")])
def test_wrong_arguments(words):
    folder = some_past()
    status, output, errors = run(*(folder if word == "F" else word for word in words))
    expect((status, output, bool(errors)), (STATUSES["Arguments"], "", True), words)


def test_a_folder_that_may_not_be_entered():
    folder = some_past()
    if os.geteuid() == 0:
        shutil.rmtree(folder)
        folder.write_bytes(b"")
        refused("NotFolder", folder, "list")
        return
    folder.chmod(0)
    status, _, errors = run("list", folder)
    folder.chmod(0o700)
    expect((status, "NotAllowed" in errors), (STATUSES["NotAllowed"], True), errors)


@pytest.mark.parametrize("data, fault", [(NEWEST[:-1] + bytes([NEWEST[-1] ^ 1]), "Damaged"), (SHORT + PUSH2 + PUSH1, "Unlawful")])
def test_what_is_whole_is_shown_before_a_damage(data, fault):
    folder = fresh(n3=data)
    status, output, errors = run("history", folder, "a", "--json")
    serials = [row["serial"] for row in rows_in("history", output)]
    expect((status, serials, f"{named(3)}.tfj: {fault}" in errors), (STATUSES[fault], [2], True), errors)
    refused(fault, folder, "list")
    expect(bytes_of("show", folder, "a", "--position", "2"), S2)


def test_what_failed_starts_and_torn_writes_left_is_passed_over():
    refused("TornBase", fresh(n3=NEWEST[:40]), "history", "a")
    folder = fresh(n3=NEWEST, n4=REBASED[:40])
    expect((told(folder, "list")[0]["serial"], len(told(folder, "history", "a"))), (2, 2), "what a failed start left is passed over")
    torn = fresh(n3=NEWEST[:-5])
    expect((told(torn, "list")[0]["holder"], len(told(torn, "history", "a"))), (None, 1), "a record that is being written")


def test_restored_states_differ_in_their_serial():
    other = record_text(3, b"a", push_content(b"", state(9, b"L2")))
    gone = record_text(4, b"a", b"")
    expect(bytes_of("restore", fresh(n3=NEWEST), "a", "--position", "1"), S1.replace(b"1 ", b"3 "))
    refused("LineageDiffers", fresh(n3=SHORT + gone + other), "restore", "a", "--position", "1")
    top = record_text(3, b"a", push_content(b"", state(2**64 - 1)))
    refused("SerialAtLimit", fresh(n3=SHORT + top), "restore", "a", "--position", "1")
    near = record_text(3, b"a", push_content(b"", state(2**64 - 2)))
    expect(bytes_of("restore", fresh(n3=SHORT + near), "a", "--position", "1"), S1.replace(b"1 ", b"18446744073709551615 "))


@pytest.mark.parametrize("text, was, new", [
    (b'{"serial":"x","version":4,"serial":[1,{"serial":2}],"lineage":"L1","serial":3,"z":{"serial":4}}', b'"serial":3', b'"serial":5'),
    (b'{"version":4,"lineage":"L1","\\u0073erial"  :\t3\n,"x":"3"}', b":\t3", b":\t5"), (b'{"version":4,"lineage":"L1","serial":3}', b"3}", b"5}"),
    (b'{"a":"\\"serial\\":3","version":4,"lineage":"L1","serial":3 , "b":[3,"serial"]}', b":3 ,", b":5 ,")])
def test_the_serial_of_a_restored_state_is_found(text, was, new):
    push, last = (record_text(3, b"a", push_content(b"", pushed)) for pushed in (text, state(4)))
    expect(bytes_of("restore", fresh(n1=b"TFJ1\n" + push + last), "a", "--position", "1"), text.replace(was, new), text)


EDGES = [edge + more for edge in (*(10**digits for digits in range(2, 20)), 2**32, 2**53, 2**63) for more in (-2, -1, 0)]


@pytest.mark.parametrize("serial", [*range(1, 65), *sorted(EDGES)])
def test_each_serial_of_the_newest_state_is_restored_over(serial):
    records = (record_text(3, b"a", push_content(b"", text)) for text in (state(0), state(serial)))
    expect(bytes_of("restore", fresh(n1=b"TFJ1\n" + b"".join(records)), "a", "--position", "1"), state(serial + 1))


def test_a_restored_state_is_taken_by_a_push():
    folder = some_past()
    server = Serving(folder).listens()
    text = bytes_of("restore", folder, "a", "--position", "1")
    expect(server.ask("UNLOCK", "/state/a"), (200, b""))
    expect(server.ask("POST", "/state/a", text), (200, b""))
    expect(server.ask("GET", "/state/a"), (200, S1.replace(b"1 ", b"3 ")))
    expect([row["act"] for row in told(folder, "history", "a")], ["push", "force-unlock", "lock", "push", "push"], "while it is served")


@pytest.fixture(name="folder", scope="module")
def folder_with_a_graph(tfstatectl):
    """Returns a folder whose workspace `a` has the state of `graph`."""
    return fresh(n1=b"TFJ1\n" + record_text(3, b"a", push_content(b"", graph()[0])))


@pytest.mark.parametrize("kind, texts", [
    ("any", ["t.a"]), ("all", ["t.a", "t.d"]), ("any", ["t.a[0]", "t.d"]), ("any", ["t.e"]), ("all", ['t.c["x"]'])])
def test_an_impact_is_that_of_the_server_and_of_the_model(folder, kind, texts):
    _, instances = graph()
    words, wanted = ("impact", folder, "a", kind, *texts), impact(kind, texts, instances)
    expect([row["instance"] for row in json.loads(bytes_of(*words, "--json"))], wanted, texts)
    expect(bytes_of(*words).decode().splitlines()[1:], [address.replace("\n", "\\u{a}") for address in wanted], texts)
    chosen = [u for u, instance in enumerate(instances) if instance.address in wanted]
    expect(bytes_of(*words, "--dot").decode().splitlines(), drawn(instances, range(len(instances)), chosen), texts)
    expect(bytes_of(*words, "--dot", "--answer-only").decode().splitlines(), drawn(instances, chosen, chosen), texts)


def test_an_impact_that_is_refused(folder):
    refused("UnknownAddress", folder, "impact", "a", "any", "t.a", "t.unknown")
    refused("TooManyAddresses", folder, "impact", "a", "any", *["t.a"] * 65)
    refused("NoName", folder, "impact", "b", "any", "t.a")
    for words in (("any",), ("other", "t.a"), (), ("any", "t.a", "--json", "--dot"), ("any", "t.a", "--answer-only", "--json")):
        expect(run("impact", folder, "a", *words)[0], STATUSES["Arguments"], words)


class Project:
    """A configuration whose state is on a server, and Terraform in its folder."""

    def __init__(self, port):
        self.folder = fresh()
        address = f"http://{LOOPBACK}:{port}/state/prod"
        (self.folder / "backend.tf").write_text(f'terraform {{\n  backend "http" {{\n    address = "{address}"\n    lock_address = "{address}"\n'
                                                f'    unlock_address = "{address}"\n    retry_max = 0\n  }}\n}}\n')

    def run(self, script):
        """Returns what a script of the page prints. The script must succeed."""
        tool = self.folder / "bin"
        tool.mkdir(exist_ok=True)
        if not (tool / "tfstatectl").exists():
            (tool / "tfstatectl").symlink_to(os.path.abspath(FOLDER_PROGRAM))
        variables = {**os.environ, "PATH": f"{tool}:{os.environ['PATH']}", "CHECKPOINT_DISABLE": "1", "TF_IN_AUTOMATION": "1", "HOME": str(self.folder),
                     "TF_CLI_ARGS": "-no-color", "TF_CLI_CONFIG_FILE": "/dev/null"}
        how = {"cwd": self.folder, "env": variables, "stdin": subprocess.DEVNULL, "capture_output": True, "timeout": SECONDS}
        ran = subprocess.run(["sh", "-e", "-c", script], check=False, **how)
        expect(ran.returncode, 0, f"{script}: {ran.stdout.decode()} {ran.stderr.decode()}")
        return ran.stdout.decode()

    def apply(self, value):
        (self.folder / "main.tf").write_text(f'resource "terraform_data" "a" {{ input = "{value}" }}\n'
                                             'resource "terraform_data" "b" { input = terraform_data.a.id }\n')
        self.run("terraform apply -auto-approve")


def test_the_page_goes_back_with_terraform():
    if not shutil.which("terraform"):
        pytest.skip("terraform isn't installed")
    commands = [line.strip() for line in (TOP / "docs" / "VERSIONS.md").read_text().splitlines() if line.startswith("    ")]
    folder = fresh(n1=b"TFJ1\n")
    server = Serving(folder).listens()
    project = Project(server.port)
    project.run("terraform init")
    project.apply("first")
    project.apply("second")
    across = commands.pop(9)
    expect((len(commands), commands.pop(3)), (12, "tfstatectl holder /var/lib/tfstated/journal prod"), commands)
    expect(across, "tfstatectl impact /var/lib/tfstated/journal network --across")
    commands.append(across.replace("network", "prod"))
    status, output, errors = run("holder", folder, "prod")
    expect((status, output, ": NotLocked" in errors), (STATUSES["NotLocked"], "", True), errors)
    printed = {line: project.run(line.replace("/var/lib/tfstated/journal", str(folder))) for line in commands}
    expect([row["act"] for row in told(folder, "history", "prod")][-6:], ["unlock", "push", "lock"] * 2)
    expect(printed["tfstatectl diff /var/lib/tfstated/journal prod 2 5"].split()[3:6], ["changed", "terraform_data.a", "input,"])
    expect("terraform_data.b" in printed["tfstatectl impact /var/lib/tfstated/journal prod any terraform_data.a"], True, printed)
    then, newest = (json.loads((project.folder / name).read_text()) for name in ("then.json", "newest.json"))
    current = json.loads(server.ask("GET", "/state/prod")[1])
    expect((current["serial"] > newest["serial"], current["resources"]), (True, then["resources"]), current)
    expect('"first" -> "second"' in printed["terraform plan"], True, printed["terraform plan"])


def test_closed_output_is_reported():
    folder = some_past()
    for words in (("list", folder), ("history", folder, "a"), ("show", folder, "a")):
        with open("/dev/full", "wb") as full:
            ran = subprocess.run([FOLDER_PROGRAM, *map(str, words)], stdout=full, stderr=subprocess.PIPE, timeout=SECONDS, check=False)
        expect((ran.returncode, b": Write" in ran.stderr), (STATUSES["Write"], True), words)


def outcome(work):
    """Returns what the model gives: the output, or a fault and the number of its journal."""
    try:
        return work(), None
    except Fault as fault:
        return None, fault.args


def read_by(command):
    """Returns the function that reads the output of a command."""
    return {"show": bytes, "restore": bytes, "stats": counted, "list": listed}.get(command, lambda output: as_json(rows_in(command, output)))


def listed(output):
    """Returns the rows of `list` without the age of each lock, which depends on the clock."""
    rows = json.loads(output)
    for row in rows:
        expect((row["held"] is None) or row["held"] >= 0, True, row)
    return as_json([{name: value for name, value in row.items() if name != "held"} for row in rows])


def counted(output):
    """Returns the numbers of `stats`, except for ages."""
    return {name: value for name, (value, _) in read_metrics(output.decode()).items() if "_age_" not in name}


def compare(about, folder, words, wanted, fault):
    """Checks that a command prints what the model says, and ends as it says."""
    ran = subprocess.run([FOLDER_PROGRAM, words[0], folder, *words[1:]], stdin=subprocess.DEVNULL, capture_output=True, timeout=SECONDS, check=False)
    printed = read_by(words[0])(ran.stdout) if ran.stdout else b""
    expect(printed, wanted if wanted is not None else b"", f"{about} {words}: {ran.stderr}")
    expect(ran.returncode, STATUSES[fault[0]] if fault else 0, f"{about} {words}: {ran.stderr}")
    if fault:
        parts = [f": {fault[0]}", f"{named(fault[1])}.tfj"] if fault[1] is not None else [f": {fault[0]}"]
        expect([part for part in parts if part.encode() not in ran.stderr], [], f"{about} {words}: {ran.stderr}")
    return fault[0] if fault else "told"


FOLDERS = folder_files()
FILTERS = [((), {}), (("--act", "push", "--last", "2"), {"act": "push", "last": 2})]
ARE_AWAY = st.sampled_from([True] * 3 + [False] * 2)
POSITIONS = st.lists(st.sampled_from([*range(12), 2**62 - 1, 2**62, 2**64 - 1]), min_size=3, max_size=3, unique=True)


@st.composite
def cases(draw):
    """Draws the files of a folder, some of whose first journals were retired, and the requested
    positions for each name."""
    files = draw(FOLDERS)
    names = sorted(files)
    away = names[: draw(up_to(len(names)))] if draw(ARE_AWAY) else []
    here = {name: files[name] for name in names if name not in away}
    return here, {name: files[name] for name in away}, {name: draw(POSITIONS) for name in ("a", "b")}


def folder_of(files, away):
    """Returns a folder of these files, with some of them in `old/`."""
    folder = fresh()
    (folder / "old").mkdir()
    for below, content in ((folder, files), (folder / "old", away)):
        for name, data in content.items():
            (below / name).write_bytes(data)
    return folder


def numbered(files):
    """Returns the journals among files, by their numbers."""
    return {number_of(name): data for name, data in files.items() if number_of(name) is not None}


def expect_as_the_model(case):
    """Checks that the commands on a folder report what the model says. Returns the ends that
    occurred."""
    files, away, asked = case
    folder, about, here = folder_of(files, away), f"folder {files} {away}", numbered(files)
    whole = {**numbered(away), **here}
    met = {compare(about, folder, ("list", "--json"), *outcome(lambda: as_json(listing(here, whole))))}
    found, fault = outcome(lambda: counts(here))
    met.add(compare(about, folder, ("stats",), found[0] if found else None, fault or found[1]))
    for name in (*asked, None):
        for words, wanted in FILTERS:
            rows, fault = outcome(lambda own=name, by=wanted: history(whole, own, **by))
            printed = as_json(rows[0]) if rows and rows[0] else None
            met.add(compare(about, folder, ("history", name or "--all", "--json", *words), printed, fault or rows[1]))
    for name, positions in asked.items():
        met.add(compare(about, folder, ("show", name), *outcome(lambda own=name: newest_version(here, own))))
        for position in positions:
            words = (name, "--position", str(position))
            met.add(compare(about, folder, ("show", *words), *outcome(lambda own=name, at=position: version(whole, own, at))))
            met.add(compare(about, folder, ("restore", *words), *outcome(lambda own=name, at=position: restored(here, whole, own, at))))
    return met


def test_random_folders_are_reported_as_the_model_says():
    met = set()

    @settings(max_examples=TURNS // 3)
    @given(st.lists(cases(), min_size=4, max_size=8))
    def are_told(folders):
        met.update(*at_once(expect_as_the_model, folders))

    are_told()
    expect(met >= {"told", "NoJournal", "Damaged", "Unlawful", "TornBase", "NoName", "NoState", "BeforeOldest", "BehindNewest"}, True, met)


def test_reading_during_writes_and_restarts_of_a_server():
    folder, done = fresh(n1=b"TFJ1\n"), threading.Event()
    acknowledged, faults = [0], []

    def read():
        while not done.is_set():
            least = acknowledged[0]
            rows = told(folder, "history", "a")
            if [row["serial"] for row in rows] != [*range(len(rows), 0, -1)] or len(rows) < least:
                faults.append((least, rows))

    server = Serving(folder).listens()
    expect(server.ask("POST", "/state/a", state(1)), (200, b""))
    reader = threading.Thread(target=read)
    reader.start()
    for serial in range(2, 61):
        if serial % 20 == 0:
            server.kill()
            server = Serving(folder).listens()
        expect(server.ask("POST", "/state/a", state(serial)), (200, b""))
        acknowledged[0] = serial
    done.set()
    reader.join()
    expect(faults, [])
