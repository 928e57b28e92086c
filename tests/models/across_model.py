"""A plain model of `impact --across`, written from docs/VERSIONS.md: the workspaces that a state
reads, and the workspaces from which a walk of reads leads to one."""
import json
import re
from urllib.parse import unquote_to_bytes

URL = re.compile(r"[^:]*://[^/]*/(?:.*/)?state/([^/]*)", re.DOTALL)


def member(value, name):
    """Returns a member of an object; None for another value."""
    return value.get(name) if isinstance(value, dict) else None


def elements(value, name):
    """Returns the elements of a member that is a list; none for another value."""
    found = member(value, name)
    return found if isinstance(found, list) else []


def name_in(address):
    """Returns the name of the workspace in an address of a state, or None."""
    if not isinstance(address, str):
        return None
    found = URL.fullmatch(address.split("#")[0].split("?")[0])
    return found and unquote_to_bytes(found[1])


def names_read(text):
    """Returns the names of the workspaces that a state reads."""
    names = set()
    for resource in elements(json.loads(text), "resources"):
        if (member(resource, "mode"), member(resource, "type")) == ("data", "terraform_remote_state"):
            for instance in elements(resource, "instances"):
                attributes = member(instance, "attributes")
                if member(attributes, "backend") == "http":
                    config = member(attributes, "config")
                    inner = member(config, "value")
                    names.add(name_in(member(config if inner is None else inner, "address")))
    return {name.decode("latin-1") for name in names - {None}}


def readers(states, name):
    """Returns the rows of the workspaces that read a workspace, by name. `states` has the text of
    each workspace's newest state."""
    read = {own: names_read(text) & set(states) for own, text in states.items()}
    found, more = set(), {name}
    while more:
        more = {own for own in states if read[own] & more} - found
        found |= more
    return [{"direct": name in read[own], "name": own} for own in sorted(found)]
