"""Turns a state, and the answer of an impact query over it, into a picture of its resource
instances for Graphviz.

    python3 tools/picture.py STATE [ANSWER] >picture.dot

An arrow goes from an instance to one that depends on it. The instances of the answer are filled."""
import json
import sys
from pathlib import Path

sys.path.append(str(Path(__file__).resolve().parent.parent / "tests" / "models"))

from impact_model import instances_of


def quoted(text):
    """Returns a text as DOT has it between quotation marks."""
    return '"' + text.replace("\\", "\\\\").replace('"', '\\"').replace("\n", "\\n") + '"'


def arrows(instances):
    """Returns the pairs of addresses in which the second depends on the first."""
    named = {}
    for instance in instances:
        named.setdefault(instance.configuration, []).append(instance.address)
    needs = [(text, instance.address) for instance in instances for text in sorted(instance.dependencies)]
    return [(needed, address) for text, address in needs for needed in named.get(text, [])]


def picture(state, answer=None):
    """Yields the lines of the picture."""
    instances, chosen = instances_of(state), set((answer or {}).get("instances", []))
    unknown = chosen - {instance.address for instance in instances}
    if unknown:
        raise ValueError(f"the answer is of another state: it has no {sorted(unknown)[0]}")
    yield "digraph impact {"
    yield "  rankdir=LR;"
    yield '  node [shape=box, style=filled, fillcolor=white, fontname="sans-serif"];'
    for address in dict.fromkeys(instance.address for instance in instances):
        yield f"  {quoted(address)}{' [fillcolor=orange]' if address in chosen else ''};"
    for needed, dependent in dict.fromkeys(arrows(instances)):
        yield f"  {quoted(needed)} -> {quoted(dependent)};"
    yield "}"


def read(path):
    with open(path, encoding="utf-8") as file:
        return json.load(file)


def main(paths):
    if len(paths) not in (1, 2):
        print("usage: python3 tools/picture.py STATE [ANSWER]", file=sys.stderr)
        return 2
    try:
        lines = list(picture(*map(read, paths)))
    except (OSError, ValueError) as fault:
        print(f"picture: {fault}", file=sys.stderr)
        return 1
    print("\n".join(lines))
    return 0


if __name__ == "__main__":
    sys.exit(main(sys.argv[1:]))
