#!/usr/bin/env python3
"""Has Spin explore the models of how lanes and their keeper wait for each other (waiting.pml), and of how calls wait
(blocked.pml), and some wrong protocols.

    run.py              Debian: apt-get install spin gcc

The protocol has to hold, and in each wrong one Spin has to find an error. It prints a line for each. The last line is
'N passed, M failed'; the status is 1 if M > 0. Spin and the compiler are installed if they aren't there.
"""
import os
import re
import subprocess
import sys
import tempfile

sys.path.append(os.path.join(os.path.dirname(__file__), "../scripts"))
from needs import need  # noqa: E402

FOLDER = os.path.dirname(os.path.abspath(__file__))
WRONG = ["the keeper doesn't say that it sleeps", "the keeper says that it sleeps behind its last look",
         "the keeper says which lanes are at rest behind its last looks", "no notice at a submit",
         "no notice at a take", "a lane doesn't say that it sleeps", "a keeper that is dropped gives no token",
         "a notice comes behind the word above it", "a lane isn't woken though its next call has no room for its answer"]


# Calls that wait: a name, the number of what is wrong, and how many calls each client makes.
BLOCKED = [
    ("calls that wait without end", 0, ["-DREADS=2", "-DADDS=2", "-DOTHERS=0"]),
    ("calls that wait, beside others", 0, ["-DREADS=1", "-DADDS=2", "-DOTHERS=0"]),
    ("two clients that wait", 0, ["-DBOTH", "-DREADS=1", "-DADDS=1", "-DOTHERS=1"]),
    ("calls that wait for a time", 0, ["-DTIMES", "-DREADS=2", "-DADDS=0", "-DOTHERS=1"]),
    ("calls whose clients end their wait", 0, ["-DHURRY", "-DREADS=2", "-DADDS=0", "-DOTHERS=1"]),
    ("a turn over some lanes counts as one over all", 1, ["-DREADS=1", "-DADDS=2", "-DOTHERS=0"]),
    ("lanes behind one that cuts a turn short are passed over", 2, ["-DREADS=1", "-DADDS=1", "-DOTHERS=1"]),
    ("a call that waits isn't looked at after an addition", 3, ["-DREADS=1", "-DADDS=1", "-DOTHERS=0"]),
    ("the keeper parks without end while calls wait", 4, ["-DTIMES", "-DREADS=1", "-DADDS=0", "-DOTHERS=0"]),
    ("the keeper parks before it has read the clock", 5, ["-DTIMES", "-DREADS=1", "-DADDS=0", "-DOTHERS=1"]),
    ("a turn isn't cut short: a new read overtakes", 6, ["-DBOTH", "-DREADS=1", "-DADDS=1", "-DOTHERS=1"]),
    ("the younger of two that wait is served first", 7, ["-DBOTH", "-DREADS=1", "-DADDS=1", "-DOTHERS=1"]),
    ("a client ends its wait without a notice", 8, ["-DHURRY", "-DREADS=1", "-DADDS=0", "-DOTHERS=0"]),
]


def errors_of(file, words):
    """How many errors Spin finds in the model of this file with these definitions; it stops at the first."""
    with tempfile.TemporaryDirectory() as folder:
        subprocess.run(["spin", "-a", *words, os.path.join(FOLDER, file)], cwd=folder, check=True, capture_output=True)
        subprocess.run(["cc", "-w", "-O2", "-DSAFETY", "-DMEMLIM=6000", "-o", "pan", "pan.c"], cwd=folder, check=True)
        said = subprocess.run(["./pan", "-m20000000"], cwd=folder, capture_output=True, text=True).stdout
    found = re.search(r"errors: (\d+)", said)
    states = re.search(r"(\d\S*) states, stored", said)
    if not found or not states or "max search depth too small" in said or "Search not completed" in said and found[1] == "0":
        raise SystemExit(f"the search wasn't completed:\n{said}")
    return int(found[1]), int(float(states[1]))


def main():
    need("spin", "spin gcc", installs=True)
    need("cc", "gcc", installs=True)
    passed = failed = 0
    models = [("waiting.pml", "the protocol", 0, []),
              ("waiting.pml", "the protocol, with two places in a ring", 0, ["-DDEPTH=2"]),
              ("waiting.pml", "the protocol, with a keeper that is dropped", 0, ["-DDROPS"])]
    models += [("waiting.pml", name, place, ["-DDROPS"] if place == 7 else []) for place, name in enumerate(WRONG, 1)]
    models += [("blocked.pml", *model) for model in BLOCKED]
    for file, name, place, words in models:
        errors, states = errors_of(file, [f"-DWRONG={place}", *words])
        good = (errors > 0) == (place > 0)
        print(f"{name}: {'an error is found' if errors else 'no error'}, {states} states", flush=True)
        passed, failed = passed + good, failed + (not good)
    print(f"{passed} passed, {failed} failed")
    return 1 if failed else 0


if __name__ == "__main__":
    sys.exit(main())
