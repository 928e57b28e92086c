"""A plain model of a folder of journals: which journal a start of `tfstatectl serve` continues, and
what it writes. It is written from docs/JOURNAL.md, reads each journal whole, and never runs out of
memory."""
import re

from journal_reader import MAX_POSITION, base_text, read_journal
from replay import replay

NAME = re.compile(r"journal-([0-9]{10})\.tfj")


class Fault(Exception):
    """The name of a fault, and the number of the journal that shows it."""


def number_of(name):
    """Returns the number in a journal's name, or None."""
    found = NAME.fullmatch(name)
    return int(found[1]) if found else None


def opened(number, data):
    """Returns the position at which a journal ends, and its rows at that position."""
    form, position, rows, entries, end = read_journal(data)
    table, unlawful = replay(rows, entries)
    if end.startswith("damaged"):
        raise Fault("Damaged", number)
    if end == "torn 0" or form == 2 and end == "torn 5":
        raise Fault("TornBase", number)
    if unlawful:
        raise Fault("Unlawful", number)
    left = [(name.encode(), table.holders.get(name, ("", b""))[1], table.states.get(name, ("", 0, b""))[2]) for name in sorted(table.names)]
    return position + len(entries), left


def started(number, data):
    """Returns the text that a start writes to continue a journal."""
    position, rows = opened(number, data)
    if position > MAX_POSITION:
        raise Fault("TooFar", number)
    return b"TFJ2\n" + base_text(position, rows)


def compacted(number, data):
    """Returns the text that a compaction writes to continue a journal: without the names that have
    neither a state nor a holder."""
    position, rows = opened(number, data)
    return b"TFJ2\n" + base_text(position, [row for row in rows if any(row[1:])])


def without_zeros(data):
    """Returns the bytes of a damaged journal before the zeros in which it ends, or None."""
    kind, *at = read_journal(data)[4].split()
    at = int(at[0]) if kind == "damaged" else 0
    return data[:at] if at > 5 and not any(data[at:]) else None


def chosen(files, least=0):
    """Returns the choice of a start, which cuts zeros at the end of a damaged journal, unless the
    journals diverge without them."""
    try:
        return chosen_among(files, least)
    except Fault as fault:
        name, number = fault.args
        file = f"journal-{number or 0:010}.tfj"
        front = without_zeros(files[file]) if name == "Damaged" else None
        if front is None:
            raise
        try:
            return chosen_among({**files, file: front}, least)
        except Fault as again:
            raise fault if again.args[0] == "Diverged" else again


def chosen_among(files, least):
    """Returns the number and the bytes of the journal that a start continues, and the number of a
    journal that a failed start left, or None."""
    journals = sorted((number_of(name), data) for name, data in files.items() if number_of(name) is not None)
    if not journals:
        raise Fault("NoJournal", None)
    own, left = journals[-1], None
    for before, after in zip(journals, journals[1:]):
        texts = started(*before), compacted(*before)
        if not after[1].startswith(texts):
            if after != own or not any(text.startswith(after[1]) for text in texts):
                opened(*after)
                raise Fault("Diverged", after[0])
            own, left = before, after[0]
            break
    if opened(*own)[0] < least:
        raise Fault("NotAtLeast", own[0])
    started(*own)
    return *own, left
