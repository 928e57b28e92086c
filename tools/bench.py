"""Runs the benchmarks of bench/: the named ones, and prints what they find; or all of them, and
prints the page docs/PERFORMANCE.md with their figures, and what they find on standard error. Each
folder with a script `run` is one."""
import os
import subprocess
import sys

from repository import TOP, chosen

sys.path.append(str(TOP / "bench"))

from page import page, read_noted

FIGURES = TOP / "out" / "bench-figures"
# The order of the page.
ORDER = (
    "serve",
    "folders",
    "compactions",
    "reports",
    "memory",
    "shared",
    "waits",
    "state",
    "journal",
    "table",
    "index",
    "planes",
)


def where():
    """Returns what the measurements run on: the number of processors and their name."""
    with open("/proc/cpuinfo", encoding="utf-8") as file:
        names = [line.partition(":")[2].strip() for line in file if line.startswith("model name")]
    return f"{os.cpu_count()} cores, {names[0] if names else 'an unknown processor'}"


def run_all(wanted, output, variables):
    """Runs benchmarks. Returns the names of the failed ones."""
    failed = []
    for name in wanted:
        print(f"== {name}", file=output, flush=True)
        how = {
            "cwd": TOP,
            "stdin": subprocess.DEVNULL,
            "stdout": output,
            "env": {**os.environ, **variables},
        }
        if subprocess.run([str(TOP / "bench" / name / "run")], check=False, **how).returncode:
            failed.append(name)
    return failed


def main(wanted):
    named = [path.parent.name for path in (TOP / "bench").glob("*/run")]
    if wanted:
        failed = run_all(chosen(wanted, named, "benchmark"), sys.stdout, {})
    else:
        FIGURES.parent.mkdir(exist_ok=True)
        FIGURES.write_text("")
        order = [*ORDER, *sorted(set(named) - set(ORDER))]
        failed = run_all(order, sys.stderr, {"FIGURES": str(FIGURES)})
        print(page(where(), read_noted(FIGURES)), end="")
    if failed:
        sys.exit(f"failed: {', '.join(failed)}")


if __name__ == "__main__":
    main(sys.argv[1:])
