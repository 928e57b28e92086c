"""Finds where src/ makes a fault of memory, of a source, of a sink, of a sync, of a connection or
of a copy as a value, and where a file is emptied or made twice over.

A contract can't distinguish a refused request for memory, or a failed read, from one that was never
made. So tools/fault_places.txt lists each place that makes such a fault, or notes one for later,
with what it passes on, and any other place is reported here. tools/room_requests.py checks the
requests themselves. `set_len`, `File::create(` and `try_clone` occur nowhere in src/, because no
contract says what they do to a file. A listener, and a registry of descriptors, is no file."""
import re

from repository import TOP

PLACES = TOP / "tools" / "fault_places.txt"
BEFORE = r"(?:\(|return |=> |\| |= )"
FAULT = re.compile(
    r"\b(?!ErrorKind)\w+::(?:Source|OutOfMemory|NoMemory|SinkFault|SyncFault|NoCopy|NoPlace|JournalFault|JournalStopped|AcceptFault|Lost|Unplaced)\b"
    r"|\blost = true\b|\breason(?: =|:) None\b"
    rf"|{BEFORE}(?:AllocError|SinkFault|SyncFault|AcceptFault|LentFault|OutOfMemory|NoMemory|NoCopy|NoPlace|JournalFault|JournalStopped)\b"
)
CALLS = re.compile(r"\bset_len\b|\bFile::create\(|(?<!\blistener\.)(?<!\bregistry\(\)\.)\btry_clone\b")
FUNCTION = re.compile(r"^\s*(?:pub(?:\([a-z]+\))? )?(?:const )?(?:unsafe )?fn (\w+)")
LEFT_OUT = ("tfs_tests", "tfs_bench", "tfs_probe")


def sources():
    """Yields the files of src/ that the programs are built from."""
    for crate in sorted((TOP / "crates").iterdir()):
        if not crate.name.startswith(LEFT_OUT):
            yield from (path for path in sorted((crate / "src").rglob("*.rt")) if "tests" not in path.relative_to(crate).as_posix())


def code_lines(text):
    """Yields lines of code with the function that they are in, without comments, contracts and
    imports."""
    function, ghost = "", False
    for line in text.split("\n"):
        found = FUNCTION.match(line)
        if found:
            function = found.group(1)
        plain = line.strip()
        if re.match(r"(requires|ensures|ghost)\b", plain):
            ghost = plain.count("{") > plain.count("}")
        elif ghost:
            ghost = not plain.endswith("}")
        elif not plain.startswith(("//", "use ", "pub use ", "| ")):
            yield function, plain.split(" // ")[0].rpartition(" => ")[-1] if plain.startswith(("Err(", "Some(", "Refusal::")) else plain


def fault_places():
    """Returns how often each function makes each fault, by (file, function, fault)."""
    found = {}
    for path in sources():
        name = path.relative_to(TOP / "crates").as_posix()
        for function, line in code_lines(path.read_text(encoding="utf-8")):
            for match in FAULT.finditer(line):
                key = (name, function, re.sub(f"^{BEFORE}", "", match.group(0)).replace(" ", ""))
                found[key] = found.get(key, 0) + 1
    return found


def listed_places():
    """Returns the same as the list has it; each row is `FILE FUNCTION FAULT COUNT: what is passed
    on`."""
    rows = {}
    for line in PLACES.read_text(encoding="utf-8").split("\n"):
        if line and not line.startswith("#"):
            place, _, reason = line.partition(": ")
            name, function, fault, count = place.split(" ")
            rows[name, function, fault] = int(count) if reason.strip() else 0
    return rows


def wrong_calls():
    """Yields calls in src/ that empty a file or make one twice over."""
    for path in sources():
        for function, line in code_lines(path.read_text(encoding="utf-8")):
            if CALLS.search(line):
                yield f"{path.relative_to(TOP)}: {function}: {line}"


def unlisted():
    """Yields what is wrong with the places, a line each."""
    found, listed = fault_places(), listed_places()
    for key in sorted(set(found) | set(listed)):
        if found.get(key, 0) != listed.get(key, 0):
            yield f"{' '.join(key)}: made {found.get(key, 0)} times, listed {listed.get(key, 0)} times"
    yield from wrong_calls()
