"""Tests the gate itself: what collecting the tests does, which of them count as failed, which
packages it needs, that a program older than its sources is built again, and that a proof cites a
trusted lemma only if it is listed."""
import ast
import os
import re
import resource
import subprocess
import sys
from pathlib import Path

import pytest

import built
import checks
from checking import expect
from packages import COMMANDS, FILES, MODULES
from repository import TOP
from trusted_lemmas import wrong_citations

COLLECTING_SECONDS = 5
REPORT = """<testsuites><testsuite>
<testcase name="test_good" /><testcase name="test_bad"><failure message="no" /></testcase>
<testcase name="test_cases[1]"><skipped message="no disk" /></testcase>
<testcase name="test_cases[2]"><error message="no" /></testcase>
<testcase name="test_late" /><testcase name="test_late"><error message="at its end" /></testcase>
</testsuite></testsuites>"""
NAMES = ["test_good", "test_bad", "test_cases[1]", "test_cases[2]", "test_late", "test_missing"]


def test_collecting_builds_nothing_and_is_quick(tmp_path):
    called = tmp_path / "called"
    tool = tmp_path / "rt"
    tool.write_text(f"#!/bin/sh\necho \"$@\" >>{called}\nexit 1\n")
    tool.chmod(0o755)
    names = ("TFSTATED", "TFSTATECTL", "TFS_PROBE", "TFS_BENCH")
    surroundings = {name: value for name, value in os.environ.items() if name not in names}
    surroundings["PATH"] = f"{tmp_path}:{surroundings['PATH']}"
    before = resource.getrusage(resource.RUSAGE_CHILDREN)
    words = [sys.executable, "-m", "pytest", "--collect-only", "--quiet", "tests"]
    how = {"cwd": TOP, "env": surroundings, "stdout": subprocess.PIPE, "text": True}
    ran = subprocess.run(words, check=False, **how)
    after = resource.getrusage(resource.RUSAGE_CHILDREN)
    expect((ran.returncode, called.exists()), (0, False), ran.stdout[-1000:])
    seconds = after.ru_utime + after.ru_stime - before.ru_utime - before.ru_stime
    expect(seconds < COLLECTING_SECONDS, True, f"{seconds:.1f} s of processor time")


def counted(tmp_path, monkeypatch, names, report, status, page=""):
    """Returns the counts of a file's tests over a report, and its lines."""
    monkeypatch.setattr(checks, "REPORTS", tmp_path)
    monkeypatch.setattr(checks, "may_be_skipped", lambda: set(re.findall(r"`(test_[^`]+)`", page)))
    lines = []
    if report:
        (tmp_path / "test_x.xml").write_text(report)
    return checks.count_of(Path("test_x.py"), names)("", status, lines.append), lines


def test_what_is_not_reported_as_passed_failed(tmp_path, monkeypatch):
    count, lines = counted(tmp_path, monkeypatch, NAMES, REPORT, 1)
    expect((count, sum("FAILED" in line for line in lines)), ((1, 5), 5), lines)


def test_a_skipped_test_counts_as_neither_if_a_page_names_it(tmp_path, monkeypatch):
    count, lines = counted(tmp_path, monkeypatch, NAMES, REPORT, 1, "`test_cases[1]`")
    expect((count, "skipped test_x::test_cases[1]: no disk" in lines), ((1, 4), True), lines)


@pytest.mark.parametrize("names, report, status", [
    (["test_good"], REPORT, 3), (["test_good"], "", 0), ([], REPORT, 0), (["test_good"], "", -9)])
def test_a_run_that_does_not_end_well_failed(tmp_path, monkeypatch, names, report, status):
    (_, failed), lines = counted(tmp_path, monkeypatch, names, report, status)
    expect(failed, 1, lines)


def test_a_run_of_passed_tests_passes(tmp_path, monkeypatch):
    expect(counted(tmp_path, monkeypatch, ["test_good"], REPORT, 0), ((1, 0), []))


def test_each_name_of_a_test_is_one_line_of_ascii():
    names = [name for names in checks.collected().values() for name in names]
    broken = [name for name in names if not re.fullmatch(r"test_\w+(\[[ -~]*\])?", name, re.A)]
    expect((len(names) > 1_000, broken), (True, []))


def test_the_tests_that_may_be_skipped_are_there():
    named = {name.partition("[")[0] for name in checks.may_be_skipped()}
    texts = [path.read_text(encoding="utf-8") for path in checks.files()]
    there = {name for text in texts for name in re.findall(r"^def (test_\w+)\(", text, re.M)}
    expect((len(named) > 3, named - there), (True, set()))


def test_the_packages_are_those_of_the_readme_and_of_ci():
    wanted = {*COMMANDS, *FILES, *MODULES}
    text = (TOP / ".ci" / "run").read_text(encoding="utf-8")
    expect(set(re.search(r"packages=\(([^)]*)\)", text)[1].split()), wanted, ".ci/run")
    text = (TOP / "README.md").read_text(encoding="utf-8")
    expect(set(re.search(r"`apt-get install ([^`]*)`", text)[1].split()), wanted, "README.md")


def imported(path):
    """Yields the modules that a file imports."""
    for node in ast.walk(ast.parse(path.read_text(encoding="utf-8"))):
        if isinstance(node, ast.ImportFrom):
            yield node.module
        elif isinstance(node, ast.Import):
            yield from (alias.name for alias in node.names)


def test_no_test_imports_from_another():
    names = [(path.name, name) for path in checks.files() for name in imported(path)]
    expect([(file, name) for file, name in names if name.startswith("test_")], [])


@pytest.mark.parametrize("built_at, is_built", [(None, True), (1_000, True), (3_000, False)])
def test_an_older_program_is_built_again(tmp_path, monkeypatch, capsys, built_at, is_built):
    source, builds = tmp_path / "crates/low/src/lib.rt", []
    program = tmp_path / "crates/tfs_probe/out/tfs_probe"
    for path, seconds in ((source, 2_000), (tmp_path / "crates.txt", 500), (program, built_at)):
        path.parent.mkdir(parents=True, exist_ok=True)
        if seconds:
            path.touch()
            os.utime(path, (seconds, seconds))
    monkeypatch.setattr(built, "TOP", tmp_path)
    monkeypatch.setattr(built, "build", builds.append)
    monkeypatch.delenv("TFS_PROBE", raising=False)
    expect((built.program("tfs_probe"), builds), (str(program), ["tfs_probe"] * is_built))
    expect("the variable TFS_PROBE" in capsys.readouterr().err, is_built, "a notice before")


FACTS = """pub IsDone : Nat -> Type 0
IsDone n = Unit {0}

pub done : (n : Nat)
    -> IsDone n
unfolding IsDone
done n = tt
"""
ACT = "#[tactic(auto, using(low::specs::Facts::done))]\nfn act() {}\n"


@pytest.mark.parametrize("path, text, wrong", [
    ("low/src/lib.rt", "// done\n" + ACT, 0),
    ("low/src/lib.rt", ACT + ACT, 1),
    ("low/src/lib.rt", ACT.replace("auto, ", "auto,\n"), 2),
    ("low/src/lib.rt", ACT.replace("fn", "impl A for B {\nfn"), 2),
    ("low/src/lib.rt", "fn act() {}\n", 1),
    ("low/proofs/lib/act/Answers.antt", "use Rattle.low.specs.Facts.{done}\n", 1),
    ("high/proofs/Lemmas.antt", "use Rattle.low.specs.Facts as facts\nmade n = facts.done n\n", 1),
    ("high/src/lib.rt", ACT, 1),
    ("high/proofs/Lemmas.antt", "-- It is done.\nmade n = undone n\n", 0),
    ("low/specs/Facts.antt", FACTS.replace("pub IsDone", "abbrev pub IsDone"), 1),
    ("low/specs/Facts.antt", FACTS + "\npub made : IsDone 0\nmade = done 0\n", 0)])
def test_a_proof_cites_only_the_trusted_lemmas_that_are_listed(tmp_path, path, text, wrong):
    places = tmp_path / "places.txt"
    places.write_text("Facts.done low/src/lib.rt act 1: it is done\n")
    for name, content in (("low/specs/Facts.antt", FACTS), ("low/src/lib.rt", ACT), (path, text)):
        file = tmp_path / "crates" / name
        file.parent.mkdir(parents=True, exist_ok=True)
        file.write_text(content)
    expect(len(list(wrong_citations(tmp_path / "crates", places))), wrong, path)
