"""Bytes in pieces, for Hypothesis and by hand."""
import functools

from hypothesis import strategies as st

from stdio_program import MAX_READ


# The number of missing last bytes.
LACKING = st.sampled_from([0] * 120 + [*range(1, 40)])


def cut_at(data, places):
    """Returns the bytes, cut at these places. No piece is longer than one read."""
    starts = sorted({0, *places, *range(0, len(data), MAX_READ)})
    return [data[start:end] for start, end in zip(starts, [*starts[1:], len(data)])]


def some_pieces(data, most):
    """Returns a strategy for the bytes, cut at some places."""
    places = st.sets(st.integers(0, len(data) - 1), max_size=most)
    return places.map(functools.partial(cut_at, data))


def shortened(data, count):
    """Returns the bytes without this many of the last ones; at least one stays."""
    return data[: max(1, len(data) - count)]


def without_end(data):
    """Returns a strategy for the bytes, or a beginning that lacks some of the last ones."""
    return LACKING.map(functools.partial(shortened, data))
