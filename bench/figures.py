"""Collects the figures of a run of `make bench` for the page that it prints. Benchmarks note rows,
which are appended to the file that the variable FIGURES names, one a line."""
import json
import os


def note(table, row, *cells):
    """Adds a row to a table of the page, if there is a page."""
    if "FIGURES" in os.environ:
        with open(os.environ["FIGURES"], "a", encoding="utf-8") as file:
            file.write(json.dumps([table, row, *cells]) + "\n")


def rate(value):
    """Returns a rate as the page has it, with a digit after the point if it is small."""
    return f"{value:,.0f}" if value >= 100 else f"{value:.1f}"


def times_as_fast(own, other):
    """Returns the ratio of an own rate to another one."""
    return f"{own / other:.2f}"


def note_rates(what, own, peers):
    """Adds a row for a rate on each number of connections, with its ratios to each peer's."""
    ratios = [
        f"{peer} {', '.join(map(times_as_fast, own, others))}"
        for peer, others in peers.items()
        if len(others) == len(own)
    ]
    note("rates", what, *(rate(value) for value in own), "; ".join(ratios))


def span(values):
    """Returns the lowest and the highest of some ratios."""
    return f"{min(values):.2f} to {max(values):.2f}"
