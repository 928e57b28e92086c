"""Tries one must-fail edit of a crate, by `rt must-fail` over a copy that has no other edit:
`try_edit.py CRATE EDIT`. What earlier runs proved of the lower crates is copied too. The exit
status is 0 if the prover refuses the edit."""
import shutil
import subprocess
import sys
import tempfile
from pathlib import Path

from repository import TOP, chosen, crate_lines


def with_lower(crate, lines):
    """Returns a crate and all crates of the repository below it."""
    found = [crate]
    for name in found:
        found += [low for low in lines[name].partition(":")[2].split() if low in lines and low not in found]
    return found


def main(crate, edit):
    lines = crate_lines()
    chosen([crate], lines, "crate")
    edits = {path.stem: path for path in sorted((TOP / "crates" / crate / "must-fail").glob("*.edit"))}
    chosen([edit], edits, f"edit of {crate} named")
    with tempfile.TemporaryDirectory(prefix="tfstated-edit-") as room:
        names = with_lower(crate, lines)
        for name in names:
            left_out = shutil.ignore_patterns("incremental", "must-fail", *(["out"] if name == crate else []))
            shutil.copytree(TOP / "crates" / name, Path(room, "crates", name), ignore=left_out)
        must_fail = Path(room, "crates", crate, "must-fail")
        must_fail.mkdir()
        shutil.copy(edits[edit], must_fail)
        Path(room, "crates.txt").write_text("".join(lines[name] + "\n" for name in names))
        shutil.copy(TOP / "HANDLES", room)
        return subprocess.run(["rt", "must-fail", crate], cwd=room, check=False).returncode


if __name__ == "__main__":
    if len(sys.argv) != 3:
        sys.exit("usage: try_edit.py CRATE EDIT")
    sys.exit(main(*sys.argv[1:]))
