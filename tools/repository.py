"""The facts about the repository that scripts use: its folder, and its crates."""
import sys
from pathlib import Path

TOP = Path(__file__).resolve().parent.parent


def crate_lines():
    """Returns the line of each crate in crates.txt, by its name."""
    lines = [line.partition("#")[0].strip() for line in (TOP / "crates.txt").read_text().splitlines()]
    return {line.partition(":")[0].split()[0]: line for line in lines if line}


def chosen(wanted, named, what):
    """Returns the wanted names, or all if none is given. Ends the script if one is unknown."""
    for name in wanted:
        if name not in named:
            sys.exit(f"there is no {what} {name}; there are: {', '.join(named) or 'none'}")
    return wanted or list(named)
