"""A plain model of the impact of changes: the instances of a state, from its JSON value, and what a
query chooses among them.

It is written from docs/MODEL.md: addresses, dependency, walk and reach, impact."""
import json
import re

MAX_TEXTS = 64
KEY = re.compile(r'\[[0-9]+\]|\["(?:[^"\\]|\\.)*"\]', re.DOTALL)


class QueryFault(Exception):
    """The name of a fault of a query."""


def json_text(value):
    """Returns the compact JSON text of a value, with characters outside ASCII unescaped."""
    return json.dumps(value, ensure_ascii=False, separators=(",", ":"))


class Instance:
    """An instance of a resource: its two addresses, and its dependencies without their keys."""

    def __init__(self, resource, own):
        module, key, deposed = resource.get("module") or "", own.get("index_key"), own.get("deposed")
        kind = "data." if resource["mode"] == "data" else ""
        plain = f"{kind}{resource['type']}.{resource['name']}"
        self.configuration = (KEY.sub("", module) + "." if module else "") + plain
        self.address = (module + "." if module else "") + plain
        self.address += "" if key is None else f"[{json_text(key)}]"
        self.address += f" (deposed {deposed})" if deposed else ""
        self.dependencies = {KEY.sub("", text) for text in own.get("dependencies") or []}


def instances_of(top):
    """Returns the instances of a state with these members, in order."""
    resources = map(dict, top.get("resources") or [])
    return [Instance(resource, dict(own)) for resource in resources for own in resource.get("instances") or []]


def named_by(text, instances):
    """Returns the numbers of the instances that a text names."""
    return [i for i, instance in enumerate(instances) if text == instance.address or text == instance.configuration]


def reached_by(starts, instances):
    """Returns the numbers of the instances that some of these reach, by one dependency or more."""
    reached, last = set(), set(starts)
    while last:
        names = {instances[i].configuration for i in last}
        last = {i for i, instance in enumerate(instances) if not instance.dependencies.isdisjoint(names)} - reached
        reached |= last
    return reached


def impact(kind, texts, instances):
    """Returns the addresses of the instances that a query chooses, or raises its fault."""
    if not texts:
        raise QueryFault("NoAddress")
    if len(texts) > MAX_TEXTS:
        raise QueryFault("TooManyAddresses")
    named = [named_by(text, instances) for text in texts]
    if not all(named):
        raise QueryFault("UnknownAddress")
    sets = [reached_by(numbers, instances) for numbers in named]
    chosen = set.union(*sets) if kind == "any" else set.intersection(*sets)
    return [instances[i].address for i in sorted(chosen)]
