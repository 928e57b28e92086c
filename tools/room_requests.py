"""Finds requests for room in src/ that no machine may grant. A contract can't distinguish a refused
request from one that asks for too much, so a body that gives up for one length would pass. The room
of a request is one length, one constant or one name, or a sum of these. In its function nothing is
multiplied or shifted, no length is compared with a number, and no number is over 32 MiB. A constant
is at most 64 KiB, so that what hasn't arrived yet gets no more.

A function that copies or appends, or makes a fault of tools/fault_places.py, picks no length: it
compares a length only with 0, and whether it is over or under a constant."""
import re

from fault_places import FAULT, code_lines, sources
from repository import TOP

MOST, MOST_ROOM = 1 << 25, 1 << 16
REQUEST = re.compile(r"\b(?:with_capacity|try_reserve|try_reserve_exact|reserve|reserve_exact|resize|repeat)\(|\bvec!\[in ")
TERM = re.compile(r"1|[A-Za-z_]\w*(?:(?:\.|::)\w+)*(?:\(\w*\))?(?:\.len\(\))?")
GROWS = re.compile(r"\b(?:from_slice|from_str|extend_from_slice|push_str|push|insert)\(")
CONSTANT = re.compile(r"\bconst ([A-Z][A-Z0-9_]*): \w+ = ([^;{}]+);")
NAMES = re.compile(r"\b[A-Z][A-Z0-9_]+\b(?!\.len\(\))")
PRODUCT = re.compile(r"[\w.)\]]+ (?:\*|<<) \S+|\b\w*(?:mul|pow|shl)\w*\(")
LENGTH = r"(?:\.len\(\)|\b(?:len|length|count|size)\b)"
NUMBER = r"(?:\d[\d_]*|[A-Z][A-Z0-9_]+)\b"
HUGE = re.compile(r"\w*::MAX\b|(?<![\w.])(?:0[xob][\da-fA-F_]+|\d[\d_]*)(?:[ui](?:8|16|32|64|128|size))?\b|!0\b|\bwrapping_\w+|\b[ui]\w+::BITS\b")
COMPARED = re.compile(rf"{LENGTH} (?:==|!=|<=?|>=?|%) {NUMBER}|\b{NUMBER} (?:==|!=|<=?|>=?) [^&|]*{LENGTH}|\bmatch [^{{]*{LENGTH} \{{|\bmatches!\([^,]*{LENGTH},")

PLAIN = re.compile(r"(?:==|!=) 0$|(?:<=?|>=?) [A-Z][A-Z0-9_]+$|^(?:0 (?:==|!=|<)|[A-Z][A-Z0-9_]+ (?:<=?|>=?)) ")


def inner(text, start):
    """Returns the text of the brackets that are opened before a place, and its parts between commas
    or semicolons."""
    depth, parts, last = 1, [], start
    for place in range(start, len(text)):
        letter = text[place]
        depth += (letter in "([{") - (letter in ")]}")
        if depth == 0 or (depth == 1 and letter in ",;"):
            parts.append(text[last:place].strip())
            last = place + 1
        if depth == 0:
            break
    return parts


def rooms(body):
    """Yields the room of each request in the text of a function."""
    for found in REQUEST.finditer(body):
        parts = inner(body, found.end())
        if found.group().startswith("vec!") or found.group().startswith("with_capacity"):
            yield parts[-1] if parts[-1] else parts[-2]
        else:
            yield parts[0]


def constants():
    """Returns the values of the constants of all crates, by name; for a repeated name, the
    highest."""
    texts = {}
    for path in sources():
        for name, text in CONSTANT.findall(path.read_text(encoding="utf-8")):
            texts.setdefault(name, []).append(text)
    values = {}
    for _ in range(4):
        for name, all_texts in texts.items():
            known = [value_of(text, values) for text in all_texts]
            values[name] = None if None in known else max(known)
    return values


def value_of(text, values):
    """Returns the value of an expression of numbers and constants, or None."""
    plain = re.sub(r"\b(?:\w+::)*([A-Z][A-Z0-9_]+)\b", lambda found: str(values.get(found.group(1))), text)
    if not re.fullmatch(r"[\d_ +*()<\-]+", plain):
        return None
    return eval(plain, {"__builtins__": {}})  # pylint: disable=eval-used


def is_plain(room):
    """Returns true if a room is a sum of single lengths, constants and names; the highest number of
    a type isn't one."""
    return "::MAX" not in room and all(TERM.fullmatch(term) for term in re.sub(r"\.saturating_add\((\w+)\)", r" + \1", room).split(" + "))


def is_small(word):
    """Returns true if a word is a number of at most 32 MiB."""
    digits = re.sub(r"[ui](?:8|16|32|64|128|size)$", "", word.replace("_", ""))
    return re.fullmatch(r"\d+|0[xob][\da-fA-F]+", digits) is not None and int(digits, 0) <= MOST


def functions(path):
    """Returns the text of each function of a file, without comments and contracts."""
    bodies = {}
    for function, line in code_lines(path.read_text(encoding="utf-8")):
        bodies.setdefault(function, []).append(line)
    return {function: " ".join(lines) for function, lines in bodies.items() if function}


def wrong_rooms(body, values):
    """Yields what is wrong with the requests of a function."""
    found = list(rooms(body))
    for room in found:
        if not is_plain(room):
            yield f"room for `{room}`, which is no sum of lengths, constants and names"
        for name in NAMES.findall(room):
            if values.get(name) is None or values[name] > MOST_ROOM:
                yield f"room for `{room}`, which is over 64 KiB or unknown"
    if found and PRODUCT.search(body):
        yield f"a product beside a request for room: `{PRODUCT.search(body).group()}`"
    if found:
        yield from (f"a number over 32 MiB beside a request for room: `{word}`" for word in HUGE.findall(body) if not is_small(word))
    if found and COMPARED.search(body):
        yield f"a length that is compared with a number beside a request for room: `{COMPARED.search(body).group()}`"
    elif GROWS.search(body) or FAULT.search(body):
        picked = (compared.group() for compared in COMPARED.finditer(body))
        yield from (f"a length that is picked beside a copy or a fault: `{each}`" for each in picked if not PLAIN.search(each))


def wrong_requests():
    """Yields the wrong requests, a line each."""
    values = constants()
    for path in sources():
        for function, body in functions(path).items():
            for wrong in wrong_rooms(body, values):
                yield f"{path.relative_to(TOP)}: {function}: {wrong}"


if __name__ == "__main__":
    print(*wrong_requests(), sep="\n")
