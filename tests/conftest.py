"""The fixtures of the tests: the built programs, a limit on each test's time, and an end of the
programs that it has started.

A test that runs a program uses the fixture of its name, which finds it in `crates/*/out/`, or by
the variable of its name in capitals, such as `TFSTATED`. If it isn't built or is older than its
sources, the fixture proves and builds it, after a notice. Collecting tests does neither."""
import contextlib
import os
import signal

import pytest
from hypothesis import HealthCheck, settings
from hypothesis.configuration import set_hypothesis_home_dir

from checking import SECONDS, end_all, stop
from programs import TFS_BENCH, TFS_PROBE, TFSTATECTL, TFSTATED
from repository import TOP

set_hypothesis_home_dir(str(TOP / "out" / "hypothesis"))
settings.register_profile(
    "gate", derandomize=True, deadline=None, database=None, max_examples=100,
    suppress_health_check=[HealthCheck.too_slow, HealthCheck.data_too_large])
settings.load_profile("gate")


def found(request, program):
    """Returns the path of a program. The notice of a proof is visible to the user before the proof
    begins."""
    capture = request.config.pluginmanager.getplugin("capturemanager")
    with capture.global_and_fixture_disabled() if capture else contextlib.nullcontext():
        return os.fspath(program)


@pytest.fixture(scope="session")
def tfstated(request):
    """Returns the path of `tfstated`."""
    return found(request, TFSTATED)


@pytest.fixture(scope="session")
def tfstatectl(request):
    """Returns the path of `tfstatectl`."""
    return found(request, TFSTATECTL)


@pytest.fixture(scope="session")
def tfs_probe(request):
    """Returns the path of `tfs_probe`."""
    return found(request, TFS_PROBE)


@pytest.fixture(scope="session")
def tfs_bench(request):
    """Returns the path of `tfs_bench`."""
    return found(request, TFS_BENCH)


@pytest.hookimpl(hookwrapper=True)
def pytest_runtest_call():
    """Fails a test that takes too long, and ends each program that it has left running."""
    signal.signal(signal.SIGALRM, stop)
    signal.alarm(2 * SECONDS)
    yield
    signal.alarm(0)
    end_all()


def pytest_make_parametrize_id(val):
    """Returns a short name of a case that is a text or bytes, in printed ASCII, so that a list of
    names or a report has each on a line of its own. pytest numbers those of one name."""
    if isinstance(val, bytes):
        val = val.decode("latin-1")
    return ascii(val)[1:-1][:40] if isinstance(val, str) else None
