"""The texts of plans, and a state that they change."""
import json

from sample_states import resource, text_of


def on(*texts):
    """Returns a list of one instance that depends on these addresses."""
    return [{"attributes": {}, "dependencies": list(texts)}]


# A machine and its name in two subnets of a network, and one resource that nothing depends on.
STATE = text_of([resource("vpc", on()), resource("subnet", [{"index_key": key, "dependencies": ["t.vpc"]} for key in ("a", "b")]),
                 resource("web", on("t.subnet", "t.vpc")), resource("dns", on("t.web", "t.subnet", "t.vpc")), resource("other", on())])


def change(address, *actions, before=None, after=None, unknown=None, **members):
    """Returns a change of a plan."""
    return {"address": address, "mode": "managed", **members,
            "change": {"actions": list(actions), "before": before or {}, "after": after or {}, "after_unknown": unknown or {}}}


def plan_of(*changes, **members):
    """Returns the text of a plan with these changes."""
    return json.dumps({"format_version": "1.2", "planned_values": {}, "resource_changes": list(changes), **members}).encode()
