"""A plain reader of states and lock texts, from their JSON values: what they read as, in words. It
is written from docs/MODEL.md."""
from impact_model import Instance, json_text
from stdio_model import MAX_IDENTIFIER, MAX_INSTANCES, Members, json_of, reads_in_pieces


class Fault(Exception):
    """The name of a fault, with its numbers."""


def value_of(text):
    """Returns the JSON value of a text."""
    try:
        return json_of(text)
    except (ValueError, RecursionError):
        raise Fault("NotJson") from None


def is_absent_or(value, kind):
    """Returns true if a value is null, or of this type."""
    return value is None or type(value) is kind


def is_whole(value):
    """Returns true if a value is a whole number of 64 bits."""
    return type(value) is int and value < 2**64


def is_filled(value):
    """Returns true if a value is a text that isn't empty."""
    return isinstance(value, str) and value != ""


def require(is_so, name, *numbers):
    """Raises a fault unless the condition holds."""
    if not is_so:
        raise Fault(f"{name}({', '.join(map(str, numbers))})" if numbers else name)


def instance_of(resource, value, i, j):
    """Returns instance j of resource i."""
    require(type(value) is Members, "Instance", i, j)
    own = dict(value)
    key, listed = own.get("index_key"), own.get("dependencies")
    require(key is None or isinstance(key, str) or is_whole(key), "Instance", i, j)
    require(is_absent_or(own.get("deposed"), str) and is_absent_or(listed, list), "Instance", i, j)
    for k, text in enumerate(listed or []):
        require(isinstance(text, str) and reads_in_pieces(text), "Dependency", i, j, k)
    return Instance(resource, own)


def instances_of(value, i):
    """Returns the instances of resource i."""
    require(type(value) is Members, "Resource", i)
    own = dict(value)
    module, listed = own.get("module"), own.get("instances")
    require(module is None or isinstance(module, str) and reads_in_pieces(module), "Resource", i)
    require(own.get("mode") in ("managed", "data") and is_filled(own.get("type")) and is_filled(own.get("name")), "Resource", i)
    require(is_absent_or(listed, list), "Resource", i)
    return [instance_of(own, instance, i, j) for j, instance in enumerate(listed or [])]


def document_of(text):
    """Returns the serial, the lineage and the instances of a state."""
    value = value_of(text)
    top = dict(value) if type(value) is Members else {}
    serial, lineage, listed = top.get("serial"), top.get("lineage"), top.get("resources")
    require(type(top.get("version")) is int and top["version"] == 4, "Version")
    require(is_whole(serial), "Serial")
    require(is_filled(lineage), "Lineage")
    require(is_absent_or(listed, list), "Resource", 0)
    instances = [instance for i, resource in enumerate(listed or []) for instance in instances_of(resource, i)]
    require(len(instances) <= MAX_INSTANCES, "TooManyInstances")
    return serial, lineage, instances


def state_words(text):
    """Returns the serial and the lineage of a state, and a line for each instance: its addresses,
    and the numbers of its dependencies; or the first fault."""
    try:
        serial, lineage, instances = document_of(text)
    except Fault as fault:
        return str(fault)
    lines = [f"{serial} {json_text(lineage)}"]
    for instance in instances:
        numbers = [f" {v}" for v, other in enumerate(instances) if other.configuration in instance.dependencies]
        lines.append(f"{instance.address} of {instance.configuration}:{''.join(numbers)}")
    return "\n".join(lines)


def lock_words(text):
    """Returns the identifier of a lock text, or its fault."""
    try:
        value = value_of(text)
        require(type(value) is Members, "NotObject")
        identifier = dict(value).get("ID")
        require(is_filled(identifier), "NoId")
        require(len(identifier.encode()) <= MAX_IDENTIFIER, "TooLong")
        return json_text(identifier)
    except Fault as fault:
        return str(fault)
