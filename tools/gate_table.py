"""Prints the time of the last `make test`, from out/gate-times.json: by crates, the slowest one
first, and by commands."""
import json
import sys

from gate import PROOFS, TIMES
from gate_times import PARTS
from repository import TOP


def row(name, *cells):
    print(f"{name:<36}" + "".join(f"{cell:>14}" for cell in cells))


def pair(times):
    """Returns wall and processor time, in seconds."""
    return f"{times['wall']:.0f} / {times['processor']:.0f}" if times["processor"] else ""


def processor(crate):
    return sum(crate[part]["processor"] for part in PARTS)


def print_crates(crates):
    row("Crate", "proof, s", "tests, s", "edits", "all edits, s", "an edit, s", "sum, s")
    for name, crate in sorted(crates.items(), key=lambda it: -processor(it[1])):
        count, edits = crate["count"], crate["edits"]
        one = f"{edits['processor'] / count:.0f}" if count else ""
        row(name, pair(crate["proof"]), pair(crate["tests"]), count, pair(edits), one, f"{processor(crate):.0f}")
    count = sum(crate["count"] for crate in crates.values())
    proof, tests, edits = (f"{sum(crate[part]['processor'] for crate in crates.values()):.0f}" for part in PARTS)
    row("all", proof, tests, count, edits, "", f"{sum(map(processor, crates.values())):.0f}")


def print_steps(told):
    """Prints a line for each command of the gate, and one for the time of `rt ci` outside the parts
    of its crates."""
    row("Command", "wall / processor, s")
    for name, times in told["steps"].items():
        row(name, pair(times) or f"{times['wall']:.0f} / 0")
    rest = told["steps"][" ".join(PROOFS)]["processor"] - sum(map(processor, told["crates"].values()))
    row("rt ci beside its crates' parts", f"{rest:.0f}")


def main():
    if not TIMES.is_file():
        sys.exit(f"there is no {TIMES.relative_to(TOP)}: run make test")
    told = json.loads(TIMES.read_text())
    print(f"{told['date']}, {told['cores']} cores, {told['kit']}: {told['passed']} passed, {told['failed']} failed, {told['wall'] / 60:.0f} minutes, "
          f"{told['processor'] / 60:.0f} of processor time, {told['memory'] / 1e9:.1f} GB at most\n")
    print_crates(told["crates"])
    print()
    print_steps(told)


if __name__ == "__main__":
    main()
