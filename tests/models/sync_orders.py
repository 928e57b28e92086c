"""All orders in which three threads each write a byte and then wait until it is durable, and a
device ends each sync, by a plain model. A sync covers what was written before it began. It begins
as soon as a thread waits for a byte that no sync has covered. No thread waits after the first sync
that covers its byte. After a sync that fails, all waiting threads are refused. The table of
`crates/tfs_tests/src/orders.rt` has the orders, one a line; `python3 tests/models/sync_orders.py`
prints them."""
from typing import NamedTuple

THREADS = 3
NOTHING, WRITTEN, WAITS, DURABLE, REFUSED = ".=~+-"


class Model(NamedTuple):
    """A model: the outcome of each thread's steps, the bytes up to its own, and counts of bytes and
    syncs."""
    outcomes: tuple = (NOTHING,) * THREADS
    marks: tuple = (0,) * THREADS
    written: int = 0
    durable: int = 0
    syncing: int = 0
    begun: int = 0
    has_failed: bool = False

    def shown(self):
        return "".join(self.outcomes) + str(self.begun)


def begins(model):
    """Returns the model once a sync has begun, if a thread waits and no sync runs."""
    if model.syncing or WAITS not in model.outcomes:
        return model
    return model._replace(syncing=model.written, begun=model.begun + 1)


def outcome_after(model, outcome, mark):
    """Returns the outcome of a thread's steps once a sync has ended."""
    if outcome != WAITS:
        return outcome
    if model.has_failed:
        return REFUSED
    return DURABLE if mark <= model.durable else WAITS


def ended(model):
    """Returns the model once all threads continue that an ended sync covers or refuses."""
    outcomes = tuple(outcome_after(model, outcome, mark) for outcome, mark in zip(model.outcomes, model.marks))
    return begins(model._replace(outcomes=outcomes))


def changed(values, place, value):
    return values[:place] + (value,) + values[place + 1 :]


def waiting(model, thread):
    """Returns the model once a thread waits, unless the answer is known."""
    if model.has_failed:
        return model._replace(outcomes=changed(model.outcomes, thread, REFUSED))
    if model.marks[thread] <= model.durable:
        return model._replace(outcomes=changed(model.outcomes, thread, DURABLE))
    return begins(model._replace(outcomes=changed(model.outcomes, thread, WAITS)))


def thread_step(model, thread):
    """Returns the model after the next step of a thread: it writes, or it waits; None after
    these."""
    outcome = model.outcomes[thread]
    if outcome == NOTHING:
        written = model.written + 1
        return model._replace(outcomes=changed(model.outcomes, thread, WRITTEN), marks=changed(model.marks, thread, written), written=written)
    return waiting(model, thread) if outcome == WRITTEN else None


def steps(model):
    """Yields each possible next step with the model after it. Threads are numbered in the order of
    their first steps."""
    for thread in range(THREADS):
        is_next = thread == 0 or model.outcomes[thread - 1] != NOTHING
        after = thread_step(model, thread) if is_next else None
        if after:
            yield str(thread), after
    if model.syncing:
        yield "+", ended(model._replace(durable=model.syncing, syncing=0))
        yield "-", ended(model._replace(syncing=0, has_failed=True))


def orders(model=Model(), line=()):
    """Yields each complete order: its steps, each with what is shown after it."""
    further = list(steps(model))
    if not further:
        yield " ".join(line)
    for step, after in further:
        yield from orders(after, (*line, f"{step}:{after.shown()}"))


if __name__ == "__main__":
    print(*orders(), sep="\n")
