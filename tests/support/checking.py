"""Runs and counts checks, and has the helpers of tests that need no program."""
import signal
import traceback

SECONDS = 60
S1 = b'{"version":4, "serial":1 ,"lineage":"L1"}'
S2 = S1.replace(b"1 ", b"2 ")
# The programs that checks have started; those left running are ended.
STARTED = []


def expect(found, wanted, about=""):
    """Fails if two values differ."""
    if found != wanted:
        raise AssertionError(f"{about}: found {str(found)[:400]}, wanted {str(wanted)[:400]}")


class TooLong(BaseException):
    """Raised when a test waits too long. No handler of a test's errors catches it."""


def stop(number, frame):
    """Fails a test that waits too long."""
    raise TooLong


def end_all():
    """Ends each program that a failed check has left running."""
    for process in STARTED:
        process.kill()
        process.wait()
    STARTED.clear()


def run_checks(checks):
    """Runs the checks, prints the count as the last line, and returns the exit status."""
    signal.signal(signal.SIGALRM, stop)
    failed = 0
    for check in checks:
        signal.alarm(2 * SECONDS)
        try:
            check()
        except (Exception, TooLong):
            failed += 1
            print(f"FAILED {check.__name__}\n{traceback.format_exc(limit=3)}", flush=True)
        finally:
            signal.alarm(0)
            end_all()
    print(f"{len(checks) - failed} passed, {failed} failed", flush=True)
    return 1 if failed else 0


def checks_in(names):
    """Returns the functions of a module whose names begin with `check_`, in the order of the
    module."""
    return [value for name, value in names.items() if name.startswith("check_") and callable(value)]
