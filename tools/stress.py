"""Has 16 sessions of `tfstated serve` make all kinds of requests concurrently for some seconds, and
compares each answer with the journal, by a plain model of the rules (sessions.py). Usage:
tools/stress.py [SECONDS]"""
import sys
import time

from sessions import round_of

SESSIONS, TURNS = 16, 400


def main(words):
    seconds = int(words[0]) if words else 60
    requests, changes, end = 0, 0, time.monotonic() + seconds
    while time.monotonic() < end:
        requests, changes = requests + SESSIONS * TURNS, changes + round_of(SESSIONS, TURNS)
    print(f"{requests:,} requests, {changes:,} changes: each answer is the journal's")


if __name__ == "__main__":
    main(sys.argv[1:])
