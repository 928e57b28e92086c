"""Makes the page docs/PERFORMANCE.md from the figures that a run of `make bench` noted."""
import json

INTRODUCTION = """# Performance

One run of `make bench`: {where}. Times vary twofold between machines.

A ratio says by what factor tfstated is faster: below 1 it is slower. A figure is the median of at
least three rounds, in which the compared subjects take turns."""
PEERS = """nginx serves files and WebDAV's PUT, and syncs nothing. The responder is a C program that
answers fixed bytes. The bare work is two MD5s of a state, a scan of its JSON, an append, its sync,
and the responder's time. PostgreSQL changes a row for each name under an advisory lock, and syncs.
Journals are on disk."""
ARENAS = """The C library gives each worker a memory arena, and an arena keeps its freed memory.
With `MALLOC_ARENA_MAX=1` in the server's environment all workers share one, and large
pushes wait for one another."""
REPEAT = """## How to repeat it

```sh
make bench
make bench BENCH=serve
```

The first prints this page, and what each part measures on standard error. The second prints what
one part measures. Each part proves and builds its program first: run it twice. PostgreSQL and
valgrind are left out if they aren't installed. `make bench` needs nginx, 30 GB of disk space, and a
machine that does nothing else."""
# Each table: its heading, the text before it, and the titles of its columns.
TABLES = {
    "rates": ("Requests a second", "", ("What", "1 connection", "4", "16", "Times as fast as")),
    "times": ("Times and memory", ARENAS, ("What", "Figure", "Compared with", "Times as fast")),
    "ratios": ("Calls", "", ("What", "Compared with", "Times as fast")),
    "waits": (
        "What good clients wait because of bad ones",
        "Good clients ask `tfstatectl serve` once a second. Bad ones reconnect once they are disconnected.",
        ("Bad clients", "At a time", "Longest wait of 20 good ones", "With nginx"),
    ),
}


def table(columns, rows):
    """Returns the lines of a table. A row that is shorter ends with empty cells."""
    filled = [[*row, *[""] * (len(columns) - len(row))] for row in rows]
    lines = [f"|{'|'.join(cells)}|" for cells in (columns, *filled)]
    return "\n".join([lines[0], "|---" * len(columns) + "|", *lines[1:]])


def page(where, noted):
    """Returns the text of the page for noted rows, each with the name of its table."""
    parts = [INTRODUCTION.format(where=where), PEERS]
    for name, (heading, text, columns) in TABLES.items():
        rows = [row[1:] for row in noted if row[0] == name]
        if rows:
            parts += [f"## {heading}", *([text] if text else []), table(columns, rows)]
    return "\n\n".join([*parts, REPEAT]) + "\n"


def read_noted(path):
    """Returns the rows of a file."""
    return [json.loads(line) for line in path.read_text(encoding="utf-8").splitlines()]
