"""Replays the entries of a journal over the plain table of stdio_model.py."""
from stdio_model import Locked, Refused, Table, document_of, locked_by


METHODS = {"lock": "LOCK", "unlock": "UNLOCK", "push": "POST", "delete": "DELETE"}


def act_of(kind, fields):
    """Returns the identifier of an entry, or none, and its content."""
    if kind == "lock":
        return locked_by(fields[0]), fields[0]
    return fields[0].decode() or None, document_of(fields[1]) if kind == "push" else None


def replay(rows, entries):
    """Returns the table after a base and entries, and the number of the first unlawful entry, or
    None."""
    table = Table()
    for name, holder, state in rows:
        table.names.add(name)
        table.holders |= {name: (locked_by(holder), holder)} if holder else {}
        table.states |= {name: document_of(state)} if state else {}
    for number, (kind, name, fields) in enumerate(entries, 1):
        try:
            table.take(METHODS[kind], name, *act_of(kind, fields))
        except (Refused, Locked):
            return table, number
    return table, None
