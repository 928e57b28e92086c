"""Checks all Python and shell files of the repository without running them, and the library's code:
its faults of memory and of sinks, its requests for room, and the trusted lemmas that its proofs
cite. The last line is `N passed, M failed`, out of five: Python, shell, these faults, these
requests, and these lemmas."""
import os
import shutil
import subprocess
import sys
import tempfile
from pathlib import Path

from fault_places import unlisted
from repository import TOP
from room_requests import wrong_requests
from trusted_lemmas import wrong_citations

MADE = {".git", "out", "__pycache__"}


def first_line(path):
    with open(path, "rb") as file:
        return file.readline(200).decode(errors="replace")


def language(path):
    """Returns the language of a file, by its extension, or by its first line if it has none."""
    if path.suffix in (".py", ".sh"):
        return path.suffix
    line = first_line(path) if not path.suffix else ""
    if not line.startswith("#!"):
        return None
    return ".py" if "python" in line else ".sh" if "sh" in line else None


def files():
    """Returns the files of both languages, by language, except for generated ones."""
    found = {".py": [], ".sh": []}
    for folder, folders, names in os.walk(TOP):
        folders[:] = sorted(set(folders) - MADE)
        for path in (Path(folder, name) for name in sorted(names)):
            if path.is_file() and language(path):
                found[language(path)].append(str(path.relative_to(TOP)))
    return found


def passes(command):
    """Returns true if a command succeeds; its output is passed on."""
    with tempfile.TemporaryDirectory(prefix="tfstated-lint-") as room:
        environment = dict(os.environ, PYTHONPYCACHEPREFIX=room)
        return subprocess.run(command, cwd=TOP, env=environment, stdin=subprocess.DEVNULL, check=False).returncode == 0


def passes_linter(name, paths):
    """Returns true if a linter has no complaints about files."""
    if not shutil.which(name):
        print(f"lint: FAILED: {name} isn't installed", flush=True)
        return False
    return passes([name, *paths])


def is_good_python(paths):
    print(f"lint: {len(paths)} Python files, by py_compile and pyflakes3", flush=True)
    is_compiled = passes([sys.executable, "-m", "py_compile", *paths])
    return passes_linter("pyflakes3", paths) and is_compiled


def is_good_shell(paths):
    print(f"lint: {len(paths)} shell files, by bash -n and shellcheck", flush=True)
    are_parsed = [passes(["bash", "-n", path]) for path in paths]
    return passes_linter("shellcheck", paths) and all(are_parsed)


def makes_listed_faults():
    wrong = list(unlisted())
    print("lint: places of faults, by tools/fault_places.txt", *wrong, sep="\n", flush=True)
    return not wrong


def asks_for_plain_room():
    wrong = list(wrong_requests())
    print("lint: requests for room, by tools/room_requests.py", *wrong, sep="\n", flush=True)
    return not wrong


def cites_listed_lemmas():
    wrong = list(wrong_citations())
    print("lint: trusted lemmas, by tools/trusted_lemmas.txt", *wrong, sep="\n", flush=True)
    return not wrong


def main():
    found = files()
    code = [makes_listed_faults(), asks_for_plain_room(), cites_listed_lemmas()]
    results = [is_good_python(found[".py"]), is_good_shell(found[".sh"]), *code]
    print(f"{results.count(True)} passed, {results.count(False)} failed", flush=True)
    return 0 if all(results) else 1


if __name__ == "__main__":
    sys.exit(main())
