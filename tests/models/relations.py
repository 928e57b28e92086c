"""Relations over numbers below a size, and a plain search over lists of their pairs."""

ALL_ONES = 2**64 - 1


def mixed(i, j, size):
    """Returns a number without a pattern."""
    first = ((i * 8192 + j) * 8192 + size) * 0x9E3779B97F4A7C15 & ALL_ONES
    return ((first ^ first >> 29) * 0xBF58476D1CE4E5B9 & ALL_ONES) >> 32


def groups_relate(i, j):
    """Returns true if the group of ten of a number is related to another number's. No group leads
    back to itself."""
    left, right = i // 10 * 7 % 23, j // 10 * 7 % 23
    return left > right and (left - right) % 3 == 1


# Functions that return true if a relation of a size has a pair. Five have no cycle, except for a
# number that is related to itself, and three have one.
NAMED = {
    "chain": lambda i, j, size: j == i + 1,
    "falling chain": lambda i, j, size: i == j + 1,
    "layers of eight": lambda i, j, size: j // 8 == i // 8 + 1 and (i * 7 + j * 5) % 3 == 0,
    "groups": lambda i, j, size: groups_relate(i, j),
    "groups with self pairs": lambda i, j, size: groups_relate(i, j) or (i == j and i % 3 == 0),
    "half of all pairs": lambda i, j, size: mixed(i, j, 1) % 2 == 0,
    "groups with a cycle": lambda i, j, size: groups_relate(i, j) or (i + 1 == size and j == 0) or (j + 1 == size and i == 0),
    "a cycle of two": lambda i, j, size: i < 2 and j < 2 and i != j,
}


def at_random(i, j, size):
    """Returns about two pairs for each number."""
    return mixed(i, j, size) % max(size, 1) < 2


def pairs_of(relates, size):
    """Returns the pairs of a relation."""
    return [(i, j) for i in range(size) for j in range(size) if relates(i, j, size)]


def reached(pairs, start):
    """Returns the numbers to which a walk over pairs leads, in order."""
    found, last = set(), {start}
    while last:
        last = {j for i, j in pairs if i in last} - found
        found |= last
    return sorted(found)
