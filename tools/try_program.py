"""Compiles the program by `rt try`, without any proof, has a conversation with its server, and
leaves the server running until it is stopped. ADDRESS names its address. With ONCE=1 it is stopped
after the conversation."""
import http.client
import json
import os
import signal
import socket
import subprocess
import sys
import tempfile
import time

from repository import TOP

DEFAULT, WORKERS, YEAR = "127.0.0.1:8080", "4", 365 * 86400
RESOURCES = [
    ("aws_vpc", "main", []),
    ("aws_subnet", "a", ["aws_vpc.main"]),
    ("aws_instance", "web", ["aws_subnet.a"]),
]


def state():
    """Returns a network, a subnet in it, and a machine in the subnet."""
    listed = [
        {"mode": "managed", "type": kind, "name": name, "instances": [{"dependencies": needs}]}
        for kind, name, needs in RESOURCES
    ]
    return json.dumps({"version": 4, "serial": 1, "lineage": "first", "resources": listed})


def requests():
    """Returns requests of two runs of Terraform, each with its expected status."""
    ann, bob = '{"ID":"1","Who":"ann"}', '{"ID":"2","Who":"bob"}'
    return [
        (200, "LOCK", "/state/example", ann),
        (404, "GET", "/state/example", ""),
        (200, "POST", "/state/example?ID=1", state()),
        (423, "LOCK", "/state/example", bob),
        (423, "DELETE", "/state/example", ""),
        (200, "GET", "/impact/example/any?of=aws_vpc.main", ""),
        (200, "UNLOCK", "/state/example", ann),
        (409, "POST", "/state/example", state().replace('"first"', '"other"')),
        (200, "GET", "/state/example", ""),
    ]


def shorter(text):
    return text if len(text) <= 110 else f"{text[:60]} .. ({len(text)} bytes)"


def place():
    """Returns host and port of the server's address."""
    host, _, port = (os.environ.get("ADDRESS") or DEFAULT).rpartition(":")
    return host, int(port)


def is_open():
    """Returns true if something listens at the address."""
    with socket.socket() as probe:
        return probe.connect_ex(place()) == 0


def is_answered():
    """Sends the requests and prints them with their replies. Returns true if each has its
    status."""
    found = []
    for _, method, target, body in requests():
        connection = http.client.HTTPConnection(*place(), timeout=60)
        connection.request(method, target, body.encode())
        reply = connection.getresponse()
        text = reply.read().decode()
        connection.close()
        print(
            f"  {method} {target} {shorter(body)}".rstrip()
            + f"\n      {reply.status} {shorter(text)}".rstrip(),
            flush=True,
        )
        found.append(reply.status)
    return found == [wanted for wanted, *_ in requests()]


def has_started(tried):
    """Waits until the server listens. Returns false if it ended before."""
    while tried.poll() is None:
        if is_open():
            return True
        time.sleep(0.2)
    return False


def show_rest(tried):
    """Prints how to connect Terraform to the server, and waits until it is stopped."""
    url = f"http://{':'.join(map(str, place()))}/state/prod"
    print(
        "\nThe server listens until you stop it (Ctrl-C); its journal is removed then. "
        "Lead Terraform to it by\n\n"
        f"export TF_HTTP_ADDRESS={url} TF_HTTP_LOCK_ADDRESS={url} TF_HTTP_UNLOCK_ADDRESS={url}\n",
        flush=True,
    )
    if os.environ.get("ONCE") != "1":
        tried.wait()
        print("The server has ended.")


def run(folder, log):
    """Compiles and starts the server, with a journal in a folder, and shows it. Returns a
    status."""
    words = [
        "rt",
        "try",
        "--seconds",
        str(YEAR),
        "--",
        "serve",
        ":".join(map(str, place())),
        WORKERS,
        f"{folder}/journal",
    ]
    how = {"stdin": subprocess.DEVNULL, "stdout": log, "stderr": log}
    tried = subprocess.Popen(words, cwd=TOP / "crates" / "tfstated", **how)
    try:
        is_good = has_started(tried) and is_answered()
        if not is_good:
            log.seek(0)
            print(
                log.read().decode()[-2000:]
                + "\nThe server ended, or a reply is another than it should be."
            )
            return 1
        print("Each reply has the status that it should have.")
        show_rest(tried)
        return 0
    finally:
        tried.terminate()
        tried.wait()


def main():
    if is_open():
        sys.exit(
            "something listens at this address: name another one, as in: "
            "make try ADDRESS=127.0.0.1:8081"
        )
    signal.signal(signal.SIGTERM, lambda *_: sys.exit(143))
    print(
        "Nothing is proved by this: rt try compiles the program with checks and leaves the proofs "
        "out. It takes a minute or two.",
        flush=True,
    )
    with tempfile.TemporaryDirectory(prefix="tfstated-") as folder, open(
        f"{folder}/log", "w+b"
    ) as log:
        try:
            return run(folder, log)
        except KeyboardInterrupt:
            return 0


if __name__ == "__main__":
    sys.exit(main())
