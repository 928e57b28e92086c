"""Runs the black-box tests: all of them, or the tests of the named files (`locks` for
tests/test_locks.py). The last line is `N passed, M failed`."""
import sys

from checks import files, jobs
from packages import say_missing
from repository import chosen
from screen import Screen, run_heard


def main(wanted):
    named = {path.stem[len("test_"):]: path for path in files()}
    paths = [named[name] for name in chosen(wanted, named, "file of tests")]
    if say_missing():
        print(f"FAILED: {say_missing()}\n0 passed, 1 failed", flush=True)
        return 1
    screen, counts = Screen(), []
    for command, count in jobs(paths):
        screen.show("$ " + " ".join(command))
        counts.append(run_heard(command, screen.hear, count=count)[0])
    passed, failed = map(sum, zip(*counts))
    print(f"{passed} passed, {failed} failed", flush=True)
    return 1 if failed else 0


if __name__ == "__main__":
    sys.exit(main(sys.argv[1:]))
