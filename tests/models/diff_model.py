"""A plain model of `diff`, written from docs/VERSIONS.md: the instances that differ between two
states, and the attributes that differ in each."""
import json

from impact_model import Instance, json_text


class Literal(str):
    """A number as written in the text."""


def read(text):
    """Returns the members of a JSON object, the last one of each name."""
    return json.loads(text, parse_int=Literal, parse_float=Literal)


def compact(value):
    """Returns the compact JSON text of a value, with its numbers as written."""
    if isinstance(value, Literal):
        return str(value)
    if isinstance(value, dict):
        return "{" + ",".join(f"{json_text(name)}:{compact(member)}" for name, member in value.items()) + "}"
    if isinstance(value, list):
        return "[" + ",".join(map(compact, value)) + "]"
    return json_text(value)


def plain(own):
    """Returns an instance with its key as a number or a text of Python."""
    key = own.get("index_key")
    return {**own, "index_key": int(key) if isinstance(key, Literal) else key}


def instances_of(text):
    """Returns the texts of the attributes of each instance of a state, by its address."""
    found = {}
    for resource in read(text).get("resources") or []:
        for own in resource.get("instances") or []:
            attributes = own.get("attributes")
            attributes = attributes if isinstance(attributes, dict) else {}
            values = {name: compact(value) for name, value in attributes.items() if value is not None}
            found.setdefault(Instance(resource, plain(own)).address, values)
    return found


def changes(old, new):
    """Returns the changes between two states: the kind, the address, and the attributes that
    differ, each with both texts or None."""
    old, new = instances_of(old), instances_of(new)
    rows = []
    for address, before in old.items():
        after = new.get(address)
        if after is None:
            rows.append(("removed", address, []))
            continue
        names = [*before, *(name for name in after if name not in before)]
        differing = [(name, before.get(name), after.get(name)) for name in names if before.get(name) != after.get(name)]
        if differing:
            rows.append(("changed", address, differing))
    return rows + [("added", address, []) for address in new if address not in old]


def diff_rows(old, new):
    """Returns the rows of `diff`."""
    return [{"change": kind, "instance": address, "attributes": [name for name, _, _ in differing]} for kind, address, differing in changes(old, new)]


def value_rows(old, new):
    """Returns the rows of `diff --values`."""
    rows = []
    for kind, address, differing in changes(old, new):
        for name, before, after in differing or [(None, None, None)]:
            values = {"from": before and json.loads(before), "to": after and json.loads(after)}
            rows.append({"change": kind, "instance": address, "attribute": name, **values})
    return rows
