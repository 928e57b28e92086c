"""Runs the commands of `tfstatectl` that read a folder, on folders whose past is known."""
import json
import subprocess

from checking import SECONDS, expect
from folder_program import FOLDER_PROGRAM, STATUSES, run
from folders import PUSH1, PUSH2, SHORT, all_of, fresh, named
from impact_model import instances_of
from journal_reader import record_text
from sample_states import resource, text_of
from stdio_model import json_of


HARD = ['a"b', "c\\d", "e\nf", "é"]
WHO = {"ID": "x", "Operation": "OperationTypeApply", "Who": "ann@build", "Created": "2026-02-03T04:05:06Z", "Info": "", "Path": ""}


def bytes_of(*words):
    """Returns what the program writes to standard output. The program must succeed."""
    ran = subprocess.run([FOLDER_PROGRAM, *map(str, words)], stdin=subprocess.DEVNULL, capture_output=True, timeout=SECONDS, check=False)
    expect((ran.returncode, ran.stderr), (0, b""), words)
    return ran.stdout


def told(folder, *words):
    """Returns the rows that a command prints as JSON."""
    return rows_in(words[0], bytes_of(words[0], folder, *words[1:], "--json"))


def rows_in(command, text):
    """Returns the rows of a command's JSON: `history` prints one per line, the others a list."""
    return [json.loads(line) for line in text.splitlines()] if command == "history" else json.loads(text)


def refused(fault, folder, *words, output=None):
    """Runs a command that must end with a fault and change nothing. Returns its report."""
    before = all_of(folder) if folder.is_dir() else None
    status, written, errors = run(words[0], folder, *words[1:])
    expect((status, f": {fault}" in errors, len(errors.splitlines())), (STATUSES[fault], True, 1), f"{words}: {errors}")
    if output is None:
        expect(written, "", words)
    expect(all_of(folder) if before is not None else None, before, f"{words}: nothing is changed")
    return errors


def state(serial, lineage=b"L1"):
    return b'{"version":4, "serial":%d ,"lineage":"%s"}' % (serial, lineage)


def put_away(folder, **files):
    """Returns the folder, with journals in its `old/`."""
    (folder / "old").mkdir()
    for name, data in files.items():
        (folder / "old" / f"{named(int(name[1:]))}.tfj").write_bytes(data)
    return folder


def some_past():
    """Returns a folder with two journals; the older one was retired."""
    return put_away(fresh(n3=SHORT + PUSH2 + record_text(1, b"a", json.dumps(WHO).encode())), n2=b"TFJ1\n" + PUSH1)


def graph():
    """Returns a state in which instances depend on others, and the instances as the model reads
    them."""
    texts = [resource("a", [{"index_key": key} for key in (0, 1, *HARD)])]
    texts += [resource("b", [{"dependencies": ["t.a"]}]), resource("c", [{"index_key": key, "dependencies": ["t.b", "t.none"]} for key in ("x", "y")])]
    data = text_of([*texts, resource("d", [{}]), resource("e", [{"dependencies": ["t.d", "t.e"]}])])
    return data, instances_of(dict(json_of(data)))


def quoted(instance):
    return '"' + instance.address.replace("\\", "\\\\").replace('"', '\\"').replace("\n", "\\n") + '"'


def drawn(instances, among, chosen):
    """Returns the lines of a picture, by the model."""
    nodes = [f"  {quoted(instances[u])}{' [style=filled]' if u in chosen else ''};" for u in among]
    edges = [f"  {quoted(instances[u])} -> {quoted(instances[v])};" for u in among for v in among
             if instances[v].configuration in instances[u].dependencies]
    return ["digraph {", *nodes, *edges, "}"]
