"""Builds the program `tfstatectl` if it is older than its sources, and serves on 127.0.0.1:8080
with it, with journals in the folder `journal` at the top of the repository, until it is stopped.
Arguments replace address and workers."""
import os
import sys

from built import program
from repository import TOP

FOLDER = TOP / "journal"


def main(more):
    built = program("tfstatectl")
    words = [built, "serve", str(FOLDER)]
    for option, word in zip(("--listen", "--workers"), more):
        words += [option, word]
    if not any(FOLDER.glob("journal-*.tfj")):
        words.append("--first")
    os.execv(built, words)


if __name__ == "__main__":
    sys.exit(main(sys.argv[1:]))
