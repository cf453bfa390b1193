#!/usr/bin/env python3
"""Counts the instructions of works over streams in two programs, say before and after a change.

    two_programs.py [--only WORD] [--entries N] PROGRAM PROGRAM

Debian: apt-get install valgrind

Each work begins behind its filling: valgrind counts a script of the filling alone and one of both, and the difference is
told for each command. Other work on the machine doesn't change that.
"""
import argparse
import os
import random
import re
import subprocess
import sys
import tempfile

sys.path.append(os.path.join(os.path.dirname(__file__), "../scripts"))
from needs import need  # noqa: E402

ONE = (1, 1, 60)
FIVE = (5, 10, 20)


def fields(shape):
    """So many fields, with names and values of so many bytes."""
    count, name, value = shape
    return " ".join(f"{chr(97 + k) * name} {'v' * value}" for k in range(count))


def lines(commands):
    return "".join(f"1 a {command}\n" for command in commands)


class Works:
    def __init__(self, entries):
        self.size = entries
        self.random = random.Random(7)

    def filling(self, shape=ONE):
        return [f"XADD s {k}-0 {fields(shape)}" for k in range(1, self.size + 1)]

    def read(self):
        return self.filling() + ["XGROUP CREATE s g 0", "XREADGROUP GROUP g c STREAMS s >"]

    def any_id(self):
        return f"{self.random.randrange(1, self.size)}-0"

    def ranges(self, count, shape=ONE, calls=5000):
        return self.filling(shape), [f"XRANGE s {self.any_id()} + COUNT {count}" for _ in range(calls)]

    def ranges_down(self):
        return self.filling(), [f"XREVRANGE s {self.any_id()} - COUNT 10" for _ in range(5000)]

    def deletions(self, shape=ONE):
        ids = self.random.sample(range(1, self.size + 1), self.size // 2)
        return self.filling(shape), [f"XDEL s {k}-0" for k in ids]

    def trims_by_one(self, shape=ONE):
        return self.filling(shape), [f"XTRIM s MAXLEN {self.size - k}" for k in range(1, self.size // 2 + 1)]

    def bounded(self, shape=ONE):
        later = range(self.size + 1, self.size + self.size // 2 + 1)
        return self.filling(shape), [f"XADD s MAXLEN 1000 {k}-0 {fields(shape)}" for k in later]

    def reads(self, noack):
        read = f"XREADGROUP GROUP g c COUNT 100 {noack}STREAMS s >"
        return self.filling() + ["XGROUP CREATE s g 0"], [read] * (self.size // 100)

    def own(self):
        return self.read(), [f"XREADGROUP GROUP g c COUNT 100 STREAMS s {100 * k}-0" for k in range(self.size // 100)]

    def claims(self, ids):
        return self.read(), [f"XCLAIM s g d 0 {' '.join(ids(k) for k in range(10 * c, 10 * c + 10))}"
                             for c in range(self.size // 10)]

    def each(self):
        """Title, the filling, and the commands that are counted."""
        yield "XADD, one field of 60 bytes", [], self.filling()
        yield "XADD, five of 10 + 20", [], self.filling(FIVE)
        yield "XADD MAXLEN 1000", *self.bounded()
        yield "XADD MAXLEN 1000, five", *self.bounded(FIVE)
        yield "XRANGE COUNT 1", *self.ranges(1)
        yield "XRANGE COUNT 10", *self.ranges(10)
        yield "XRANGE COUNT 100", *self.ranges(100, calls=1000)
        yield "XRANGE COUNT 10, five", *self.ranges(10, FIVE)
        yield "XREVRANGE COUNT 10", *self.ranges_down()
        yield "XREADGROUP COUNT 100", *self.reads("")
        yield "XREADGROUP COUNT 100 NOACK", *self.reads("NOACK ")
        yield "own entries, COUNT 100", *self.own()
        yield "XCLAIM of ten in a row", *self.claims(lambda k: f"{k + 1}-0")
        yield "XCLAIM of ten at random", *self.claims(lambda _: self.any_id())
        yield "XDEL at random", *self.deletions()
        yield "XDEL at random, five", *self.deletions(FIVE)
        yield "XTRIM by one", *self.trims_by_one()
        yield "XTRIM by one, five", *self.trims_by_one(FIVE)
        yield "XTRIM by half", self.filling(), [f"XTRIM s MAXLEN {self.size // 2}"]
        yield "XTRIM to a tenth", self.filling(), [f"XTRIM s MAXLEN {self.size // 10}"]


def instructions(program, commands):
    with tempfile.TemporaryFile("w+") as script:
        script.write(lines(commands))
        script.seek(0)
        run = subprocess.run(
            ["valgrind", "--tool=callgrind", "--callgrind-out-file=/dev/null", program, "script"],
            stdin=script, stdout=subprocess.DEVNULL, stderr=subprocess.PIPE, text=True, check=True)
    return int(re.search(r"Collected : (\d+)", run.stderr).group(1))


def main():
    asked = argparse.ArgumentParser(description=__doc__, formatter_class=argparse.RawDescriptionHelpFormatter)
    asked.add_argument("--only", default="")
    asked.add_argument("--entries", type=int, default=20_000)
    asked.add_argument("programs", nargs=2, metavar="PROGRAM")
    given = asked.parse_args()
    need("valgrind", "valgrind")
    fillings = {}
    for title, filling, commands in Works(given.entries).each():
        if given.only not in title:
            continue
        counts = []
        for program in given.programs:
            key = program, "".join(filling)
            if key not in fillings:
                fillings[key] = instructions(program, filling)
            counts.append((instructions(program, filling + commands) - fillings[key]) / len(commands))
        first, second = counts
        print(f"{title:30} {first:12,.0f} {second:12,.0f} {second / first:6.2f}", flush=True)


if __name__ == "__main__":
    main()
