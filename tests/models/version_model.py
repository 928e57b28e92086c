"""A plain model of the past of a folder as `tfstatectl` reports it: rows, versions, and faults. It
is written from docs/VERSIONS.md and docs/JOURNAL.md, reads each journal whole, and never runs out
of memory."""
import calendar
import json
import re

from folder_model import Fault, without_zeros
from impact_model import instances_of
from journal_reader import read_journal
from replay import replay
from stdio_model import document_of, locked_by, members_of

LIMIT = 2**64 - 1
SERIAL = re.compile(rb'("serial"\s*:\s*)([0-9]+)')
TIME = re.compile(r"(\d{4})-(\d\d)-(\d\d)T(\d\d):(\d\d):(\d\d)(?:\.\d+)?Z")
WORDS = {"who": "Who", "operation": "Operation", "created": "Created"}


class Opened:
    """A journal as it is read: its position, its entries up to the first unlawful one, their
    result, its fault, or None, and whether it is only that a start would cut zeros."""

    def __init__(self, data):
        form, self.base, self.rows, entries, end = read_journal(data)
        self.bytes = len(data)
        self.table, unlawful = replay(self.rows, entries)
        self.is_cut = end == "torn 0" or form == 2 and end == "torn 5"
        self.has_base = not self.is_cut and end not in ("damaged 0", "damaged 5")
        self.read, self.entries = entries, entries[: unlawful - 1] if unlawful else entries
        self.damage = "Damaged" if end.startswith("damaged") else None
        self.fault = "TornBase" if self.is_cut else "Unlawful" if unlawful else self.damage
        self.has_zeros = self.fault == "Damaged" and without_zeros(data) is not None

    def has(self, name):
        return any(name == row[0] for row in self.rows) or any(name == entry[1] for entry in self.read)


def opened(files):
    """Returns the journals by their numbers, in ascending order, except for a newest one that is
    cut off inside its base."""
    journals = [(number, Opened(data)) for number, data in sorted(files.items())]
    return journals[:-1] if len(journals) > 1 and journals[-1][1].is_cut else journals


def words_of(info):
    """Returns the members of lock information."""
    members = members_of(info, "BadLockInfo")
    return {word: value if isinstance(value := members.get(member), str) else None for word, member in WORDS.items()}


def numbers_of(state):
    """Returns the serial, the number of instances and the length in bytes of a state."""
    top = members_of(state, "BadState")
    return {"serial": top["serial"], "instances": len(instances_of(top)), "bytes": len(state)}


def act_of(kind, fields):
    """Returns the name of an act: an unlock without an identifier is forced."""
    return "force-unlock" if kind == "unlock" and not fields[0] else kind


def row_of(position, kind, fields):
    """Returns the row of an act."""
    row = {"position": position, "act": act_of(kind, fields)}
    if kind == "lock":
        return {**row, "id": locked_by(fields[0]), **words_of(fields[0])}
    return {**row, **(numbers_of(fields[1]) if kind == "push" else {}), "id": fields[0].decode() or None}


def kept_from(position):
    """Returns the member of a row with the position from which on versions are kept, unless that is
    0."""
    return {"kept_from": position} if position else {}


def past(files, name):
    """Returns the acts of a name, or of all names if it is None, oldest first, and the fault after
    them with its journal's number, or None. Each act has its position, its name, the position from
    which on versions are kept, and the lock under which it was made, or None."""
    acts, is_there, reached, least, held = [], name is None, 0, 0, {}
    journals = opened(files)
    if not journals:
        raise Fault("NoJournal", None)
    for number, journal in journals:
        is_there = is_there or journal.has(name)
        if reached < journal.base:
            least, held = journal.base, {}
        reached = reached if journal.is_cut else journal.base + len(journal.entries)
        for place, (kind, own, fields) in enumerate(journal.entries, 1):
            if name not in (None, own):
                continue
            if kind == "lock":
                held[own] = fields[0]
            acts.append((journal.base + place, own, kind, fields, least, None if act_of(kind, fields) == "force-unlock" else held.get(own)))
            if kind == "unlock":
                held.pop(own, None)
        if journal.fault and not journal.has_zeros:
            if not is_there:
                raise Fault(journal.fault, number)
            return acts, (journal.fault, number)
    if not is_there:
        raise Fault("NoName", None)
    return acts, None


def seconds_of(text):
    """Returns the whole seconds since 1970 of a time in UTC, or None."""
    found = TIME.fullmatch(text or "")
    return calendar.timegm(tuple(map(int, found.groups()))) if found else None


def is_made(lock, who, since, until):
    """Returns true if an act under a lock, or None if that is unknown, matches the holder and the
    limits of time that are given."""
    words = words_of(lock) if lock else dict.fromkeys(WORDS)
    time = seconds_of(words["created"])
    if who is not None and words["who"] != who or time is None and (since, until) != (None, None):
        return False
    return (since is None or since <= time) and (until is None or time <= until)


def history(files, name, act=None, who=None, since=None, until=None, last=None):
    """Returns the rows of a name, or of all names if it is None, newest first, and the fault after
    them with its journal's number, or None."""
    acts, fault = past(files, name)
    rows = [{**row_of(position, kind, fields), **({"name": own} if name is None else {}), **kept_from(least)}
            for position, own, kind, fields, least, lock in acts
            if act in (None, act_of(kind, fields)) and is_made(lock, who, since, until)]
    return rows[::-1][:last], fault


def position_at(files, name, time):
    """Returns the position of the last act of a name under a lock of this time or earlier."""
    acts, fault = past(files, name)
    if fault:
        raise Fault(*fault)
    found = [position for position, _, _, _, _, lock in acts if is_made(lock, None, None, time)]
    if not found:
        raise Fault("NoTime", None)
    return found[-1]


def state_at(journal, name, position):
    """Returns the state of a name at a position of a journal, or None."""
    state = next((row[2] for row in journal.rows if row[0] == name), b"") or None
    for kind, own, fields in journal.read[: position - journal.base]:
        if own == name and kind in ("push", "delete"):
            state = fields[1] if kind == "push" else None
    return state


def version(files, name, position):
    """Returns the bytes of a version."""
    journals = opened(files)
    if not journals:
        raise Fault("NoJournal", None)
    for number, journal in reversed(journals):
        if not journal.has_base:
            raise Fault(journal.fault, number)
        if journal.base <= position:
            if position > journal.base + len(journal.read):
                newest = number == journals[-1][0]
                raise Fault(journal.damage or ("BehindNewest" if newest else "NotKept"), number if journal.damage else None)
            state = state_at(journal, name, position)
            if state is None:
                raise Fault("NoState" if journal.has(name) else "NoName", None)
            return state
    raise Fault("BeforeOldest", None)


def newest(files):
    """Returns the newest journal of the folder itself."""
    journals = opened(files)
    if not journals:
        raise Fault("NoJournal", None)
    number, journal = journals[-1]
    if journal.damage or journal.fault:
        raise Fault(journal.damage or journal.fault, number)
    return journal


def newest_version(files, name):
    """Returns the bytes of the newest version."""
    journal = newest(files)
    if not journal.has(name):
        raise Fault("NoName", None)
    if name not in journal.table.states:
        raise Fault("NoState", None)
    return journal.table.states[name][2]


def restored(here, files, name, position):
    """Returns the bytes that restore a version."""
    old = version(files, name, position)
    current = newest(here).table.states.get(name)
    if not current:
        return old
    lineage, serial, _ = document_of(old)[0], current[1], None
    if lineage != current[0]:
        raise Fault("LineageDiffers", None)
    if serial == LIMIT:
        raise Fault("SerialAtLimit", None)
    found = list(SERIAL.finditer(old))[-1]
    return old[: found.start(2)] + b"%d" % (serial + 1) + old[found.end(2) :]


def listing(here, whole):
    """Returns the rows of the names, over all journals."""
    journal, rows, least = newest(here), [], Opened(whole[min(whole)]).base
    names = dict.fromkeys([row[0] for row in journal.rows] + [entry[1] for entry in journal.entries])
    for name in sorted(names):
        state, holder = journal.table.states.get(name), journal.table.holders.get(name)
        numbers = numbers_of(state[2]) if state else {"serial": None, "instances": None, "bytes": None}
        words = {"holder": holder[0], **words_of(holder[1])} if holder else {"holder": None, **{word: None for word in WORDS}}
        changed = max((journal.base + place for place, entry in enumerate(journal.entries, 1) if entry[1] == name), default=None)
        rows.append({"name": name, **numbers, "changed": changed, **words, **kept_from(least)})
    return rows


def counts(here):
    """Returns the metrics of the valid part of the newest journal, and the fault after it with the
    journal's number, or None."""
    journals = opened(here)
    if not journals:
        raise Fault("NoJournal", None)
    number, journal = journals[-1]
    fault = journal.damage or journal.fault
    if not journal.has_base:
        raise Fault(fault, number)
    table, size = journal.table, len(journal.entries)
    names = {row[0] for row in journal.rows} | {entry[1] for entry in journal.entries}
    found = {"tfstated_journal_bytes": journal.bytes, "tfstated_journal_entries": size, "tfstated_changes_total": journal.base + size,
             "tfstated_workspaces": len(names), "tfstated_workspaces_limit": 1024, "tfstated_instances": sum(numbers_of(state[2])["instances"] for state in table.states.values()),
             "tfstated_locks": len(table.holders)}
    return found, (fault, number) if fault else None


def as_json(rows):
    """Returns rows as they are compared with the printed ones."""
    return json.loads(json.dumps(rows))
