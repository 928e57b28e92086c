"""Makes the same random calls to the stand-in for etcd and to Debian's etcd, over unix sockets, and
compares statuses and replies. It needs the package etcd-server."""
import contextlib
import random
import subprocess
import sys
import time

from checking import SECONDS, checks_in, expect, run_checks
from etcd_calls import call, random_call
from etcd_stand_in import etcd
from folders import free_port, fresh

CALLS, SEEDS = 400, 5


@contextlib.contextmanager
def real_etcd():
    """Runs etcd with one member. Yields its socket's path."""
    folder, peer = fresh(), f"http://127.0.0.1:{free_port()}"
    # etcd takes a relative path, with the port as a part of the file's name.
    words = ["etcd", "--data-dir", "data", "--initial-cluster", f"default={peer}"]
    words += [f"--listen-client-urls={'unix://etcd:0'}", f"--advertise-client-urls={'unix://etcd:0'}"]
    words += [f"--listen-peer-urls={peer}", f"--initial-advertise-peer-urls={peer}"]
    with open(folder / "log", "wb") as log, subprocess.Popen(words, cwd=folder, stdout=log, stderr=log) as process:
        try:
            yield ready(folder / "etcd:0")
        finally:
            process.kill()


def ready(path):
    """Waits until etcd answers."""
    until = time.monotonic() + SECONDS
    while True:
        with contextlib.suppress(OSError):
            if call(path, "kv/range", key="YQ==")[0] == 200:
                return path
        if time.monotonic() > until:
            raise AssertionError("etcd does not answer")
        time.sleep(0.1)


class Renamed:
    """Replies without what differs between clusters: their names, and the numbers of leases, which
    are counted as they are granted. Revisions are counted from the first."""

    def __init__(self, path):
        self.path, self.leases = path, []
        self.first = int(call(path, "kv/range", key="YQ==")[1]["header"]["revision"])

    def make(self, what, request):
        """Returns the status and the renamed reply. A lease in the request is given by its number in
        the order of grants."""
        return self.renamed(call(self.path, what, **self.own(request)))

    def own(self, value):
        """Returns a request with this cluster's leases and revisions."""
        if isinstance(value, list):
            return [self.own(item) for item in value]
        if not isinstance(value, dict):
            return value
        return {name: self.own_field(name, field) for name, field in value.items()}

    def own_field(self, name, field):
        if name in ("ID", "lease") and int(field) < len(self.leases):
            return self.leases[int(field)]
        if name == "mod_revision" and int(field):
            return str(int(field) + self.first)
        return self.own(field)

    def renamed(self, value, name=""):
        if isinstance(value, (list, tuple)):
            return [self.renamed(item) for item in value]
        if isinstance(value, dict):
            return {key: self.renamed(item, key) for key, item in value.items() if key not in ("cluster_id", "member_id", "raft_term")}
        if name.endswith("revision"):
            return int(value) - self.first
        if name in ("ID", "lease") and value in self.leases:
            return self.leases.index(value)
        return value

    def granted(self, request):
        """Grants a lease."""
        status, reply = call(self.path, "lease/grant", **request)
        self.leases.append(reply["ID"])
        return status, reply["TTL"]


def check_the_stand_in_replies_as_etcd_does():
    for seed in range(SEEDS):
        chosen, path = random.Random(seed), fresh() / "stand-in"
        with real_etcd() as real, etcd(path):
            both = Renamed(real), Renamed(path)
            for number in range(CALLS):
                what, request = random_call(chosen, [str(place) for place in range(len(both[0].leases))])
                found, wanted = [one.granted(request) if what == "lease/grant" else one.make(what, request) for one in both[::-1]]
                expect(found, wanted, f"seed {seed}, call {number}: {what} {request}")


def check_a_lease_ends_alike():
    path = fresh() / "stand-in"
    with real_etcd() as real, etcd(path):
        for one in (real, path):
            lease = call(one, "lease/grant", TTL="2")[1]["ID"]
            call(one, "kv/put", key="YQ==", value="YQ==", lease=lease)
            expect(call(one, "kv/range", key="YQ==")[1]["count"], "1")
            time.sleep(5)
            expect(call(one, "kv/range", key="YQ==")[1].get("count"), None, str(one))


if __name__ == "__main__":
    sys.exit(run_checks(checks_in(globals())))
