"""A folder as a team leaves it: workspaces with a few versions each, locks, and the log of clients."""
import datetime
import json

from folders import fresh, named
from journal_reader import push_content, record_text
from sample_states import text_of

DAY = 24 * 60
NETWORK, DATABASE, WEB = "module.network", "module.database", "module.web"


def part(module, kind, name, *needs, keys=(None,), size="small"):
    """Returns a resource with an instance for each key."""
    instances = [{**({} if key is None else {"index_key": key}), "attributes": {"size": size}, "dependencies": list(needs)} for key in keys]
    return {**({"module": module} if module else {}), "mode": "managed", "type": kind, "name": name, "instances": instances}


def shop(serial, servers=6, size="small", has_alarm=True):
    """Returns the state of a shop: a network, a database and web servers."""
    vpc, private, public = (f"{NETWORK}.{name}" for name in ("aws_vpc.main", "aws_subnet.private", "aws_subnet.public"))
    balancer, servers_of = f"{WEB}.aws_lb.main", f"{WEB}.aws_instance.server"
    zones = ("eu-1a", "eu-1b", "eu-1c")
    parts = [
        part(NETWORK, "aws_vpc", "main"),
        part(NETWORK, "aws_subnet", "private", vpc, keys=zones),
        part(NETWORK, "aws_subnet", "public", vpc, keys=zones),
        part(NETWORK, "aws_nat_gateway", "main", public, keys=zones),
        part(DATABASE, "aws_security_group", "main", vpc),
        part(DATABASE, "aws_db_subnet_group", "main", private),
        part(DATABASE, "aws_db_instance", "main", f"{DATABASE}.aws_db_subnet_group.main", f"{DATABASE}.aws_security_group.main", size=size),
        part(WEB, "aws_security_group", "main", vpc),
        part(WEB, "aws_lb", "main", public, f"{WEB}.aws_security_group.main"),
        part(WEB, "aws_instance", "server", private, f"{WEB}.aws_security_group.main", keys=range(servers)),
        part(WEB, "aws_lb_listener", "https", balancer),
        part(WEB, "aws_lb_target", "server", servers_of, keys=range(servers)),
        part(None, "aws_route53_record", "www", balancer),
        part(None, "aws_iam_role", "server"),
        part(None, "aws_s3_bucket", "assets"),
    ]
    if has_alarm:
        parts.append(part(None, "aws_cloudwatch_alarm", "load", servers_of))
    return text_of(parts, serial=serial)


def small(serial, count):
    """Returns a state with this many instances."""
    return text_of([part(None, "aws_resource", f"part_{number}") for number in range(count)], serial=serial)


class Past:
    """The changes of a team, oldest first: records of a journal, and lines of its log."""

    def __init__(self, now):
        self.now, self.records, self.lines = now, [], []

    def add(self, minutes, user, kind, name, content):
        """Adds a change that a user made some minutes ago."""
        millis = int((self.now - minutes * 60) * 1000) + 137 * len(self.records) % 1000
        self.records.append(record_text(kind, name.encode(), content))
        self.lines.append(f"{len(self.records)} {millis} 203.0.113.{20 + len(user)} {user}\n")

    def lock(self, minutes, user, name, operation="OperationTypeApply"):
        """Adds a lock. Returns its identifier."""
        created = datetime.datetime.fromtimestamp(self.now - minutes * 60, datetime.timezone.utc).strftime("%Y-%m-%dT%H:%M:%SZ")
        identifier = f"{name}-{len(self.records)}"
        self.add(minutes, user, 1, name, json.dumps({"ID": identifier, "Operation": operation, "Who": f"{user}@build", "Created": created}).encode())
        return identifier

    def apply(self, minutes, user, name, text):
        """Adds a push under a lock, which is unlocked then."""
        identifier = self.lock(minutes + 3, user, name).encode()
        self.add(minutes + 1, user, 3, name, push_content(identifier, text))
        self.add(minutes, user, 2, name, identifier)

    def folder(self):
        folder = fresh(n1=b"TFJ1\n" + b"".join(self.records))
        (folder / f"{named(1)}.who").write_text("".join(self.lines))
        return folder


def team_folder(now):
    """Returns the folder as it is now. The shop's newest version is its fourth."""
    past = Past(now)
    for number, (name, count) in enumerate((("dns", 41), ("iam", 118), ("monitoring", 27), ("network.prod", 64), ("network.staging", 64), ("warehouse", 212))):
        past.apply((40 - 3 * number) * DAY + 71 * number, ("ann", "ben", "carla")[number % 3], name, small(11 + 7 * number, count))
    past.apply(21 * DAY + 95, "carla", "shop.prod", shop(1, servers=2, has_alarm=False))
    past.apply(9 * DAY + 612, "ann", "shop.prod", shop(2, servers=3, size="medium", has_alarm=False))
    past.apply(3 * DAY + 207, "ben", "shop.staging", shop(9, servers=2))
    past.apply(2 * DAY + 431, "pipeline", "shop.prod", shop(3, servers=7, has_alarm=False))
    past.apply(DAY + 18, "ben", "dns", small(12, 43))
    past.apply(122, "pipeline", "shop.prod", shop(4, size="large"))
    past.lock(14, "ann", "network.staging")
    past.lock(4, "pipeline", "shop.staging", "OperationTypePlan")
    return past.folder()
