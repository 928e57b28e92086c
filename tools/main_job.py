"""Builds the program from proved crates, and shows a team's day with it: one run locks, pushes and
asks what a change reaches, another one is refused meanwhile, the server is killed and continues
from its journal. Each request and reply is printed."""
import http.client
import json
import sys

from checking import end_all
from serve_program import Server, fresh


def state(serial):
    """Returns a network, two subnets in it, and a machine in both."""
    made = [("aws_vpc", "main", []), ("aws_subnet", "a", ["aws_vpc.main"]), ("aws_subnet", "b", ["aws_vpc.main"]),
            ("aws_instance", "web", ["aws_subnet.a", "aws_subnet.b"])]
    resources = [{"mode": "managed", "type": kind, "name": name, "instances": [{"dependencies": needs}]} for kind, name, needs in made]
    return json.dumps({"version": 4, "serial": serial, "lineage": "prod", "resources": resources})


def shorter(text):
    return text if len(text) <= 110 else f"{text[:60]} .. ({len(text)} bytes)"


class Day:
    """Sends requests to one server after another, prints them with their replies, and counts the
    unexpected replies."""

    def __init__(self):
        self.server, self.surprises = None, 0

    def start(self, why, old=None):
        self.server = Server(workers=2, old=old)
        print(f"\n{why}: tfstated serve {self.server.address} 2 NEW{' OLD' if old else ''}")

    def ask(self, who, wanted, method, target, body=None):
        connection = http.client.HTTPConnection(self.server.address, timeout=10)
        connection.request(method, target, body)
        reply = connection.getresponse()
        text = reply.read().decode()
        connection.close()
        print(f"  {who}: {method} {target}{' ' + shorter(body) if body else ''}\n      {reply.status} {reply.reason} {shorter(text)}".rstrip())
        self.surprises += reply.status != wanted


def main():
    day, ann, bob = Day(), '{"ID":"1","Who":"ann","Operation":"OperationTypeApply"}', '{"ID":"2","Who":"bob","Operation":"OperationTypePlan"}'
    day.start("A new journal")
    day.ask("ann", 200, "LOCK", "/state/prod", ann)
    day.ask("ann", 404, "GET", "/state/prod")
    day.ask("ann", 200, "POST", "/state/prod?ID=1", state(1))
    day.ask("bob", 423, "LOCK", "/state/prod", bob)
    day.ask("bob", 423, "POST", "/state/prod", state(2))
    day.ask("bob", 200, "GET", "/state/prod")
    day.ask("bob", 200, "GET", "/impact/prod/any?of=aws_subnet.a")
    day.ask("bob", 200, "GET", "/impact/prod/all?of=aws_vpc.main&of=aws_subnet.b")
    day.ask("ann", 200, "UNLOCK", "/state/prod", ann)
    journal = fresh(day.server.kill())
    day.start("The server was killed. It goes on from its journal", journal)
    day.ask("bob", 200, "GET", "/state/prod")
    day.ask("bob", 200, "LOCK", "/state/prod", bob)
    day.ask("bob", 409, "POST", "/state/prod?ID=2", state(1).replace("prod", "other"))
    day.ask("bob", 200, "POST", "/state/prod?ID=2", state(2))
    day.ask("bob", 200, "UNLOCK", "/state/prod", bob)
    day.server.kill()
    print(f"\n{'Every reply was as it should be.' if not day.surprises else f'{day.surprises} replies were other than they should be.'}")
    return 1 if day.surprises else 0


if __name__ == "__main__":
    try:
        sys.exit(main())
    finally:
        end_all()
