"""Finds proofs that cite a trusted lemma and are not listed.

Some facts, such as that a file was synced, are definitions of specs/ that do not unfold in other
files: they are known only from the lemmas of their file, which say what a call of the system is
trusted to do. A proof that cites such a lemma for another call would claim what never happened, and
be accepted. So tools/trusted_lemmas.txt lists each citation, and any other one is reported here.
No definition of these files may unfold in another file."""
import re

from fault_places import FUNCTION
from repository import TOP

PLACES = TOP / "tools" / "trusted_lemmas.txt"
OPENED = re.compile(r"\bunfold(?:ing)?\b")
DEFINED = re.compile(r"^(?:\w+ )*?pub ((?:\w+ )*)([^\s:]+) :((?:.*\n)(?:[ \t]+.*\n)*)", re.M)
UNFOLDS = re.compile(r"^(?:abbrev|unfoldable)\b.*", re.M)
LETTER = r"[\w\u2100-\u2bff'-]"
FILES = ("src/**/*.rt", "specs/**/*.antt", "proofs/**/*.antt")


def fact_files(crates):
    """Yields the files of specs/ with a proof that opens a definition, and their texts."""
    for path in sorted(crates.glob("*/specs/**/*.antt")):
        text = path.read_text(encoding="utf-8")
        if OPENED.search(text):
            yield path, text


def lemmas_of(text):
    """Returns the public names of a file of facts, except for types."""
    found = DEFINED.findall(text)
    return [name for kind, name, type_text in found if kind.strip() not in ("data", "record") and not type_text.rstrip().endswith("Type 0")]


def function_below(lines, number):
    """Returns the function that an attribute is on, or `-` for anything else."""
    while lines[number].lstrip().startswith("#["):
        number += 1
        found = FUNCTION.match(lines[number])
        if found:
            return found.group(1)
    return "-"


def cited(lemmas, path):
    """Yields each lemma that a file cites, with the function whose attribute it is in."""
    lines = path.read_text(encoding="utf-8").split("\n")
    names = "|".join(re.escape(name) for name in sorted(lemmas, key=len, reverse=True))
    citation = re.compile(rf"(?<!{LETTER})(?:{names})(?!{LETTER})")
    for number, line in enumerate(lines):
        if not line.lstrip().startswith(("-- ", "// ", "/// ", "//! ")):
            yield from ((name, function_below(lines, number)) for name in citation.findall(line))


def citations(crates):
    """Returns how often each trusted lemma is cited, by (lemma, file, function)."""
    found = {}
    files = sorted(path for kind in FILES for path in crates.glob(f"*/{kind}"))
    for facts, text in fact_files(crates):
        lemmas = lemmas_of(text)
        for path in files if lemmas else []:
            for name, function in cited(lemmas, path) if path != facts else []:
                key = (f"{facts.stem}.{name}", path.relative_to(crates).as_posix(), function)
                found[key] = found.get(key, 0) + 1
    return found


def listed(places):
    """Returns the same as the list has it; each row is `LEMMA FILE FUNCTION COUNT: what the call
    does`."""
    rows = {}
    for line in places.read_text(encoding="utf-8").split("\n"):
        if line and not line.startswith("#"):
            place, _, reason = line.partition(": ")
            *key, count = place.split(" ")
            rows[tuple(key)] = int(count) if reason.strip() else 0
    return rows


def wrong_citations(crates=TOP / "crates", places=PLACES):
    """Yields what is wrong with the citations and the files of facts, a line each."""
    found, known = citations(crates), listed(places)
    for key in sorted(set(found) | set(known)):
        if found.get(key, 0) != known.get(key, 0):
            yield f"{' '.join(key)}: cited {found.get(key, 0)} times, listed {known.get(key, 0)} times"
    for path, text in fact_files(crates):
        yield from (f"{path.relative_to(crates)}: unfolds in other files: {line}" for line in UNFOLDS.findall(text))


if __name__ == "__main__":
    print(*wrong_citations(), sep="\n")
