"""Files of folders for Hypothesis: journals that follow one another, most of them valid. Some are
cut, grown, swapped or renamed, or end in zeros."""
from hypothesis import strategies as st

from folder_model import Fault, compacted, started
from folders import named
from journal_texts import RECORDS, journal_texts, one_in, up_to


JOURNALS = journal_texts()
COUNTS = st.sampled_from([0, 1, 2, 2, 2, 3, 3, 4])
SOME = [
    st.lists(st.integers(1, 29), unique=True, min_size=count, max_size=count) for count in range(5)]
MORE = st.sampled_from([0, 0, 1, 2])
KINDS = st.sampled_from(["none", "none", "cut", "cut last", "grow", "swap", "rename", "zeros", "zeros last"])
WRITERS = st.sampled_from([started, compacted])
OTHER_NAMES = st.sampled_from([f"{named(31)}.tfj.part", "copy", f"{named(31)}.tfj"])


def is_sound(data):
    """Returns true if a start can continue a journal."""
    try:
        return bool(started(0, data))
    except Fault:
        return False


def sound(draw, made):
    """Draws from a strategy, most of the time until the journal is valid."""
    data = draw(made)
    while not is_sound(data) and not draw(one_in(20)):
        data = draw(made)
    return data


@st.composite
def followed_files(draw):
    """Draws the files of a folder in which each journal follows its predecessor."""
    journal, files = sound(draw, JOURNALS), {}
    for number in sorted(draw(SOME[draw(COUNTS)])):
        for _ in range(draw(MORE)):
            journal = sound(draw, RECORDS.map(journal.__add__))
        files[f"{named(number)}.tfj"] = journal
        if not is_sound(journal):
            journal = sound(draw, JOURNALS)
        elif not draw(one_in(20)):
            journal = draw(WRITERS)(number, journal)
    return files


@st.composite
def folder_files(draw):
    """Draws the same folder, in which a file is sometimes cut, grown, swapped or renamed, or end in zeros."""
    files = draw(followed_files())
    names = sorted(files)
    kind = draw(KINDS) if names else "none"
    if kind in ("cut", "cut last"):
        name = names[-1] if kind == "cut last" else draw(st.sampled_from(names))
        files[name] = files[name][: draw(up_to(len(files[name])))]
    elif kind in ("zeros", "zeros last"):
        name = names[-1] if kind == "zeros last" else draw(st.sampled_from(names))
        files[name] += bytes(draw(st.integers(1, 40)))
    elif kind == "grow":
        files[draw(st.sampled_from(names))] += draw(RECORDS)
    elif kind == "swap":
        first, second = draw(st.sampled_from(names)), draw(st.sampled_from(names))
        files[first], files[second] = files[second], files[first]
    elif kind == "rename":
        files[draw(OTHER_NAMES)] = files.pop(draw(st.sampled_from(names)))
    return files
