"""Journals of up to three names for Hypothesis; some are cut, changed or unlawful."""
import functools

from hypothesis import strategies as st

from checking import S1, S2
from journal_reader import MAX_POSITION, base_text, push_content, record_text

FIRST, SECOND = b"TFJ1\n", b"TFJ2\n"
A, B = b'{"ID":"A" ,"Who":""}', b'{"ID":"B"}'
BYTES = st.integers(0, 255)


@functools.lru_cache(maxsize=None)
def up_to(most):
    """Returns a strategy for the numbers from 0 to this one."""
    return st.integers(0, most)


@functools.lru_cache(maxsize=None)
def one_in(count):
    """Returns a strategy for true once in this many times."""
    return st.sampled_from([False] * (count - 1) + [True])


@st.composite
def with_mistakes(draw, text, changed, cut):
    """Draws the text; one in `changed` has another byte, and one in `cut` is cut."""
    if draw(one_in(changed)):
        place = draw(up_to(len(text) - 1))
        text = text[:place] + bytes([draw(BYTES)]) + text[place + 1 :]
    return text[: draw(up_to(len(text) - 1))] if draw(one_in(cut)) else text


def contents_of(identifier):
    """Returns kinds of acts by this identifier with their contents, each as often as it is to
    occur."""
    pushes = [(3, push_content(identifier, state)) for state in (S1, S2, S2 + b" ")]
    locks = [(1, A)] * 10 + [(1, B)] * 19 + [(1, b"[]")]
    return pushes * 30 + locks + [(2, identifier), (4, identifier)] * 30


# The record of an act.
RECORDS = st.sampled_from([
    record_text(kind, name, content)
    for name in (b"a", b"a", b"b") for identifier in (b"", b"", b"B", b"A")
    for kind, content in contents_of(identifier)])
HELD = [(holder, state) for holder in (b"", B) for state in (b"", S1, S2)]
ROWS = st.lists(st.sampled_from(HELD), max_size=3)
POSITIONS = st.sampled_from([0, 3, MAX_POSITION - 1, MAX_POSITION])
ENTRIES = st.lists(RECORDS, max_size=8).map(b"".join)


@st.composite
def journal_texts(draw):
    """Draws the text of a journal of either format."""
    front = FIRST
    if draw(one_in(3)):
        rows = [(name, *row) for name, row in zip((b"a", b"b", b"c"), draw(ROWS))]
        front = SECOND + base_text(draw(POSITIONS), rows)
    return draw(with_mistakes(front + draw(ENTRIES), 10, 5))
