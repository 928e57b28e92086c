"""Measures what the parts of `rt ci` cost, by looking at its processes four times a second (Linux,
/proc).

A part is the proof, the tests or the edits of one crate. The folder and the words of a process
identify its part: a check in the crate's own folder is its proof, or its tests if it has the word
`--test`; a check of the crate elsewhere belongs to an edit, which is tried on a copy; processes
that run as `bin/NAME` are the tests and the program."""
import collections
import os
import re
import threading
import time
from pathlib import Path

from repository import TOP, crate_lines

EVERY = 0.25
MINUTE = 60
PARTS = ("proof", "tests", "edits")
PROVED = re.compile(r"rt: (\w+) proved")
RUN = re.compile(r"/rt-run-[^/]*/bin/(\w+)")

# A process: when it began, its parent, and the seconds of processor time of it and of the children
# that it has waited for.
Process = collections.namedtuple("Process", "began parent processor")


def processes():
    """Returns every process, by its number."""
    ticks, found = os.sysconf("SC_CLK_TCK"), {}
    for name in filter(str.isdigit, os.listdir("/proc")):
        try:
            with open(f"/proc/{name}/stat", "rb") as file:
                fields = file.read().rpartition(b")")[2].split()
        except OSError:
            continue
        found[int(name)] = Process(int(fields[19]), int(fields[1]), sum(map(int, fields[11:15])) / ticks)
    return found


def memory_of(number):
    """Returns the bytes of memory of a process that no file holds."""
    try:
        with open(f"/proc/{number}/statm", "rb") as file:
            _, resident, shared, *_ = map(int, file.read().split())
    except (OSError, ValueError):
        return 0
    return (resident - shared) * os.sysconf("SC_PAGE_SIZE")


def family_of(top, children):
    """Returns a process and all below it."""
    family = [top]
    for number in family:
        family += children[number]
    return family


def words_of(number):
    """Returns the words and the folder of a process, as far as they can be read."""
    words, folder = [], ""
    try:
        with open(f"/proc/{number}/cmdline", "rb") as file:
            words = file.read().decode(errors="replace").split("\0")
        folder = os.readlink(f"/proc/{number}/cwd")
    except OSError:
        pass
    return words, folder


def part_of(words, folder, crates):
    """Returns the crate and the part that a process works for, if `crates` has the folder of each
    crate; None if they aren't known."""
    for program in filter(None, map(RUN.fullmatch, words)):
        for name in crates:
            if program.group(1) in (name, f"{name}_tests"):
                return name, "tests"
    if not any(os.path.basename(word).startswith("rattle") for word in words):
        return None
    for name, home in crates.items():
        if folder == home:
            return name, "tests" if "--test" in words or f"out/{name}_tests" in words else "proof"
        if folder and ("--crate-name", name) in zip(words, words[1:]):
            return name, "edits"
    return None


class Watch:
    """Looks at the processes below one process until it ends, and sums up what each part takes."""

    def __init__(self, screen):
        self.screen = screen
        self.crates = {name: str(TOP / "crates" / name) for name in crate_lines()}
        self.edits = {name: len(list(Path(home, "must-fail").glob("*.edit"))) for name, home in self.crates.items()}
        self.proved, self.at_work, self.memory = set(), [], 0
        self.parts, self.processor, self.wall = {}, {}, collections.Counter()
        self.ended = threading.Event()
        self.thread = threading.Thread(target=self.look_on, daemon=True)

    def begin(self, root):
        self.root = root
        self.last = time.monotonic()
        self.thread.start()

    def end(self):
        self.ended.set()
        self.thread.join()

    def hear(self, line):
        """Takes a line of `rt ci`."""
        found = PROVED.fullmatch(line)
        if found:
            self.proved.add(found.group(1))
        self.screen.hear(line)

    def look_on(self):
        """Looks until the end, and prints once a minute how far `rt ci` is."""
        told = time.monotonic()
        while not self.ended.wait(EVERY):
            self.look()
            if self.last - told >= MINUTE:
                told = self.last
                self.screen.show(self.how_far())

    def look(self):
        """Looks once. A process that the root started counts with all below it."""
        found, children = processes(), collections.defaultdict(list)
        for number, process in found.items():
            children[process.parent].append(number)
        at_work, memory = [], 0
        for top in children[self.root]:
            key = top, found[top].began
            if self.parts.get(key) is None:
                self.parts[key] = part_of(*words_of(top), self.crates)
            family = family_of(top, children)
            processor = sum(found[it].processor for it in family)
            self.processor[key] = max(processor, self.processor.get(key, 0))
            memory += sum(map(memory_of, family))
            if self.parts[key] and self.parts[key] not in at_work:
                at_work.append(self.parts[key])
        now = time.monotonic()
        for part in at_work:
            self.wall[part] += now - self.last
        self.last, self.at_work, self.memory = now, at_work, max(memory, self.memory)

    def tried(self, name):
        """Returns how many of a crate's edits have begun. One more check than edits comes last, for
        the crate itself."""
        return min(list(self.parts.values()).count((name, "edits")), self.edits[name])

    def how_far(self):
        tried, of_all = sum(map(self.tried, self.crates)), sum(self.edits.values())
        now = [f"{name} {part}" + f" {self.tried(name)} of {self.edits[name]}" * (part == "edits") for name, part in self.at_work]
        return f"proved {len(self.proved)} of {len(self.crates)} crates, edits begun {tried} of {of_all}; now: {', '.join(now)}"

    def times(self):
        """Returns the number of edits of each crate, and the seconds of wall time and of processor
        time of each of its parts."""
        told = {name: {"count": self.edits[name]} for name in self.crates}
        for name, part in ((name, part) for name in self.crates for part in PARTS):
            processor = sum(self.processor[key] for key, it in self.parts.items() if it == (name, part))
            told[name][part] = {"wall": round(self.wall[name, part], 1), "processor": round(processor, 1)}
        return told
