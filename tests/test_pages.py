"""Checks all pages: links and paths lead to files, commands work over the built program, and names
of calls, clauses and definitions are those of the crates. A block of the language `sh` is run, and
a block of the language `text` or `json` directly after it is its output."""
import re
import shutil
import subprocess
import tempfile
from pathlib import Path

import pytest

from checking import SECONDS, expect
from repository import TOP, crate_lines
from serve_program import Server
from stdio_program import PROGRAM

pytestmark = pytest.mark.usefixtures("tfstated")
FOLDERS = ("crates", "docs", "deploy", "tests", "tools", "bench", "specs", "src", "proofs")
FILE = re.compile(r"^[\w.*-][\w.*/-]*\.(?:rt|antt|py|md|sh|conf|service|svg|txt|edit)$")
MADE = re.compile(r"crates/\w+/out/|^out/")
PLACEHOLDER = re.compile(r"[A-Z]{4}|\.\.")
# Pages for readers of the code: each name in them is one of the repository's.
PRECISE = ("docs/ARCHITECTURE.md", "docs/DECISIONS.md", "docs/GUARANTEES.md", "docs/MODEL.md", "crates/*/README.md")
ADDRESS, BUILT = "http://127.0.0.1:8080", "crates/tfstated/out/tfstated"
# How pages send requests to the package's server. The program that runs here listens only on an
# address.
SOCKET = re.compile(r"--unix-socket /run/tfstated/tfstated\.sock ('?)http://localhost")


def pages():
    """Returns the text of each page, by its path."""
    found = [path for path in sorted(TOP.rglob("*.md")) if not {"out", ".git"} & set(path.relative_to(TOP).parts)]
    return {path: path.read_text() for path in found}


PAGES = pages()


def without_blocks(text):
    return re.sub(r"```.*?```", "", text, flags=re.S)


def is_there(path, folders):
    """Returns true if a path, perhaps with stars, leads somewhere from one of the folders."""
    return any(any(folder.glob(path)) for folder in folders if folder.is_dir())


def test_each_link_leads_to_a_file():
    links = [(page, target) for page, text in PAGES.items() for target in re.findall(r"\]\(([^)\s]+)\)", without_blocks(text))]
    expect(len(links) > 30, True, "links")
    local = [(page, target) for page, target in links if not re.match(r"https?://", target)]
    expect([(str(page), target) for page, target in local if not (page.parent / target.partition("#")[0]).exists()], [])


def paths_of(line):
    """Yields the paths in a line between backquotes: paths of files, and paths below a folder of
    the repository."""
    for word in re.findall(r"`([^`\s]+)`", line):
        named = FILE.match(word) or word.partition("/")[0] in FOLDERS and "/" in word
        if named and not PLACEHOLDER.search(word) and not MADE.search(word):
            yield word.rstrip("/")


def missing_paths(page, line):
    """Yields the paths of a line that lead nowhere. A path may continue in the folder of a
    previous one, and a path of a crate is looked for in all crates."""
    folders = [page.parent, TOP, TOP / "crates", TOP / "tests", TOP / "tests" / "models", TOP / "tests" / "support"]
    if TOP / "crates" not in page.parents:
        folders += TOP.glob("crates/*")
    for path in paths_of(line):
        if not is_there(path, folders):
            yield path
        folders += [TOP / "crates" / Path(path).parent, TOP / Path(path).parent, page.parent / Path(path).parent]


def test_each_path_is_there():
    wrong = []
    for page, text in PAGES.items():
        for line in without_blocks(text).splitlines():
            wrong += [f"{page.relative_to(TOP)}: {path}" for path in missing_paths(page, line)]
        whole = re.findall(r"(?<![\w./-])(?:deploy|tests|tools|docs|bench)/[\w/-]+\.\w+", text)
        wrong += [f"{page.relative_to(TOP)}: {path}" for path in whole if not (TOP / path).exists()]
    expect(wrong, [])


def test_each_page_that_code_names_is_there():
    patterns = ("crates/*/src/**/*.rt", "crates/*/specs/*.antt", "tests/**/*.py", "tools/*.py", "deploy/**/*", "Makefile")
    files = [path for pattern in patterns for path in TOP.glob(pattern) if path.is_file()]
    named = {(page, path) for path in files for page in re.findall(r"\b(?:docs|deploy)/\w+\.md\b", path.read_text())}
    expect(len(named) > 5, True, "pages that are named")
    expect(sorted(f"{path.relative_to(TOP)}: {page}" for page, path in named if not (TOP / page).is_file()), [])


def test_each_crate_is_listed():
    named = {name for text in PAGES.values() for name in re.findall(r"\b(?:tfs_[a-z_]+[a-z]|tfstated)\b(?!\.)", without_blocks(text))}
    expect(sorted(named - set(crate_lines())), [])


def words_of_code():
    """Returns all words of the crates, the scripts and the list of crates."""
    patterns = ("crates/*/src/**/*.rt", "crates/*/specs/*.antt", "crates/*/proofs/*.antt", "tests/**/*.py", "tools/*.py")
    files = [path for pattern in patterns for path in TOP.glob(pattern)]
    return set(re.findall(r"\w+", "\n".join(path.read_text() for path in [*files, TOP / "crates.txt", TOP / "Makefile"])))


def test_each_name_is_one_of_the_code():
    words, wrong = words_of_code(), []
    for page in [page for pattern in PRECISE for page in TOP.glob(pattern)]:
        for code in re.findall(r"`([A-Za-z_][\w:]*)`", without_blocks(PAGES[page])):
            parts = [part for part in code.split("::") if "_" in part or re.search(r"[a-z][A-Z]", part) or "::" in code]
            wrong += [f"{page.relative_to(TOP)}: {code}" for part in parts if part not in words]
    expect(wrong, [])


def clauses():
    """Returns the names of the clauses of each function."""
    found = {}
    for path in TOP.glob("crates/*/src/**/*.rt"):
        for name, contract in re.findall(r"\bfn (\w+)(.*?)(?=\n\s*\{\n|\{\}\n|;\n\}|;\n\n|\n\n)", path.read_text(), re.S):
            found.setdefault(name, set()).update(re.findall(r"\bensures (\w+) \{", contract))
    return found


def test_each_clause_is_in_its_contract():
    known = clauses()
    rows = re.findall(r"`(?:\w+::)?(\w+)` \(((?:`\w+`(?:, )?)+)\)", PAGES[TOP / "docs" / "GUARANTEES.md"])
    expect(len(rows) > 50, True, "calls with clauses")
    expect([(name, listed) for name, listed in rows if not set(re.findall(r"\w+", listed)) <= known.get(name, set())], [])


def test_each_name_of_a_worked_change_is_in_a_file_of_it():
    """Each file that a change of CONTRIBUTING.md names exists, and each other name is a word of one
    of them."""
    changes = PAGES[TOP / "CONTRIBUTING.md"].split("\n## Worked changes\n")[1].split("\n## ")[0].split("\n### ")[1:]
    expect(len(changes), 4, "worked changes")
    for change in changes:
        paths = re.findall(r"`((?:crates|tests)/[\w./]+\.\w+)`", change)
        words = set(re.findall(r"\w+", "\n".join((TOP / path).read_text() for path in paths)))
        named = re.findall(r"`([A-Za-z_]\w*(?:::\w+)*)`", change)
        expect((len(paths) > 2, len(named) > 2), (True, True), change)
        expect([name for name in named if not set(name.split("::")) <= words], [], change.partition("\n")[0])


def test_each_target_is_one_of_the_makefile():
    targets = set(re.findall(r"^\.PHONY: (.*)$", (TOP / "Makefile").read_text(), re.M)[0].split())
    named = {target for text in PAGES.values() for target in re.findall(r"(?:`|^)make ([a-z-]+)", text, re.M)}
    expect(len(named) > 5, True, "targets")
    expect(sorted(named - targets), [])


def test_each_command_of_the_kit_is_known():
    if not shutil.which("rt"):
        pytest.skip("rt isn't installed")
    told = subprocess.run(["rt", "help"], stdout=subprocess.PIPE, stderr=subprocess.STDOUT, text=True, check=False).stdout
    named = {word for text in PAGES.values() for word in re.findall(r"`rt ([a-z-]+)", text)}
    expect(sorted(named - set(re.findall(r"[a-z-]+", told))), [])


def test_each_search_that_a_page_shows_finds_something():
    searches = [" ".join(found.split()) for text in PAGES.values() for found in re.findall(r"`(grep -rn [^`]+)`", text)]
    expect(len(searches) > 2, True, "searches")
    expect([words for words in searches if subprocess.run(words, shell=True, cwd=TOP, stdout=subprocess.DEVNULL, check=False).returncode], [])


def blocks(text):
    """Returns the blocks that are run, each with its expected output, which is empty if the page
    doesn't give it."""
    return re.findall(r"^```sh\n(.*?)^```$(?:\n\n```(?:text|json)\n(.*?)^```$)?", text, re.M | re.S)


def is_of_make(content):
    """Returns true if a block has only targets of make."""
    return all(line.startswith("make ") for line in content.splitlines())


def can_run(content):
    """Returns true if a block is for the built program: not only targets of make, and no missing
    program."""
    return not is_of_make(content) and ("terraform " not in content or shutil.which("terraform") is not None)


def run_block(content, server, folder):
    """Returns the output of a block, run with a server and in a folder of its own."""
    script = SOCKET.sub(rf"\1{ADDRESS}", content).replace(ADDRESS, f"http://{server.address}").replace(BUILT, str(PROGRAM))
    how = {"cwd": folder, "stdin": subprocess.DEVNULL, "stdout": subprocess.PIPE, "timeout": SECONDS}
    ran = subprocess.run(["sh", "-e", "-c", script], check=False, **how)
    expect(ran.returncode, 0, content)
    return ran.stdout.decode()


def run_page(text):
    """Runs the blocks of a page in order, with one server, up to the first that can't be run."""
    with tempfile.TemporaryDirectory(prefix="tfstated-") as folder:
        server = Server(workers=2)
        for content, printed in blocks(text):
            if "terraform " in content and not can_run(content):
                pytest.skip("terraform isn't installed: the blocks from its first one on aren't run")
            if can_run(content):
                found = run_block(content, server, folder)
                expect(found.strip() if printed else "", printed.strip(), content)


# The pages that have a block for the built program.
SHOWN = [str(page.relative_to(TOP)) for page, text in PAGES.items() if any(not is_of_make(content) for content, _ in blocks(text))]


def test_some_pages_have_commands():
    expect(len(SHOWN) >= 3, True, "pages with commands")


@pytest.mark.parametrize("page", SHOWN)
def test_the_commands_of_a_page_work(page):
    expect(shutil.which("curl") is not None, True, "curl, which pages use, is there")
    run_page(PAGES[TOP / page])
