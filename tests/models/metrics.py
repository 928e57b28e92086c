"""Reads the text format of Prometheus (prometheus.io/docs/instrumenting/exposition_formats), as far
as numbers without times need it."""
import re

NAME = "[a-zA-Z_:][a-zA-Z0-9_:]*"
HELP = re.compile(rf"# HELP ({NAME}) ((?:[^\\\n]|\\\\|\\n)+)")
TYPE = re.compile(rf"# TYPE ({NAME}) (counter|gauge|histogram|summary|untyped)")
SAMPLE = re.compile(rf"({NAME}) ([0-9]+(?:\.[0-9]+)?)")
LABELED = re.compile(rf"({NAME})(?:\{{((?:{NAME}=\"[^\"\\\n]*\",?)*)\}})? ([0-9]+(?:\.[0-9]+)?)")
LABEL = re.compile(rf"({NAME})=\"([^\"]*)\"")


def number_in(text):
    """Returns the number in a text, exactly if it is whole."""
    return int(text) if text.isdigit() else float(text)


def read_metrics(text):
    """Returns the value and the type of each metric by its name. Each has one help text, then one
    type, then one value; a count of events is a counter, and its name ends in `_total`."""
    if not text.endswith("\n"):
        raise ValueError("the last line has no end")
    lines, found = text[:-1].split("\n"), {}
    for three in zip(lines[::3], lines[1::3], lines[2::3], strict=True):
        parts = [form.fullmatch(line) for form, line in zip((HELP, TYPE, SAMPLE), three)]
        if None in parts or len({part[1] for part in parts}) != 1 or parts[0][1] in found:
            raise ValueError(f"not a number's lines: {three}")
        name, kind = parts[0][1], parts[1][2]
        if (kind == "counter") != name.endswith("_total"):
            raise ValueError(f"{name} is a {kind}")
        found[name] = (number_in(parts[2][2]), kind)
    return found


def read_families(text):
    """Returns the type of each metric by its name, and the value of each sample by its name and its
    labels. Each metric has one help text, then one type, then its samples."""
    if not text.endswith("\n"):
        raise ValueError("the last line has no end")
    kinds, samples, helped = {}, {}, None
    for line in text[:-1].split("\n"):
        if part := HELP.fullmatch(line):
            helped = part[1]
        elif part := TYPE.fullmatch(line):
            if part[1] != helped or helped in kinds:
                raise ValueError(f"not a type's line: {line}")
            kinds[helped] = part[2]
        elif part := LABELED.fullmatch(line):
            labels = frozenset(LABEL.findall(part[2] or ""))
            if not part[1].startswith(helped) or (part[1], labels) in samples:
                raise ValueError(f"not a sample's line: {line}")
            samples[part[1], labels] = number_in(part[3])
        else:
            raise ValueError(f"not a line: {line}")
    return kinds, samples
