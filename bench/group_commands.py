#!/usr/bin/env python3
"""Measures the program beside a real Redis 7.0, in one run: works of groups.

    group_commands.py [--runs N] [--commands N] [--only WORD] [--instructions] PROGRAM

Debian: apt-get install redis-server gcc, and valgrind for --instructions

bench/beside_redis.py says how. Each work is of so many commands or rows, on a stream of 10,000 and one of 1,000,000
entries. Where the stream has fewer entries than that, it has so many more groups, and each has its turn. What a work
needs is filled first: entries, groups, and, but for reads of new entries, all entries delivered to a hundred consumers
of each group in reads of a hundred. The least idle time of claims and rows is 0, which everybody meets at once, or some
thirty years, which nobody meets; so idle times play no other part, and the moments of a script may stand still. What
finds nothing looks at ten times as many rows, since it is short.
"""
import beside_redis
import bench

CONSUMERS = 100
# A step through the entries that meets each once: it has no divisor but 1 with the sizes.
STEP = 7919
# In milliseconds, about thirty years.
LONG = 10**12


class Bench:
    """So many rows on a stream of so many entries."""

    def __init__(self, rows, size):
        self.rows, self.size, self.groups = rows, size, max(1, rows // size)

    def entries(self):
        yield from bench.additions(self.size)
        for group in range(self.groups):
            yield f"XGROUP CREATE s g{group} 0"

    def delivered(self):
        yield from self.entries()
        for group in range(self.groups):
            for first in range(0, self.size, 100):
                yield f"XREADGROUP GROUP g{group} {self.owner(first)} COUNT 100 STREAMS s >"

    def owner(self, entry):
        return f"c{entry // 100 % CONSUMERS}"

    def places(self, rows, at_once, step=1):
        """The groups and their entries in turn, so many at once, in order or in an order that jumps."""
        for number in range(rows // at_once):
            entry = number * at_once
            yield f"g{entry // self.size % self.groups}", entry * step % self.size

    def additions_and_reads(self):
        for number in range(self.rows // 2):
            yield f"XADD s {self.size + number + 1}-0 f {bench.VALUE}"
            yield f"XREADGROUP GROUP g0 c{number % CONSUMERS} COUNT 1 STREAMS s >"

    def reads(self, limit, options=""):
        for group, entry in self.places(self.rows, limit):
            yield f"XREADGROUP GROUP {group} c{entry // limit % CONSUMERS} COUNT {limit}{options} STREAMS s >"

    def acknowledgements(self):
        return (f"XACK s {group} {entry + 1}-0" for group, entry in self.places(self.rows, 1, STEP))

    def own_reads(self):
        for group, entry in self.places(self.rows, 10, STEP):
            yield f"XREADGROUP GROUP {group} {self.owner(entry)} COUNT 10 STREAMS s {entry}-0"

    def summaries(self):
        return (f"XPENDING s {group}" for group, _ in self.places(self.rows, CONSUMERS, STEP))

    def pending(self):
        return (f"XPENDING s {group} {entry + 1}-0 + 10" for group, entry in self.places(self.rows, 10, STEP))

    def own_pending(self):
        for group, entry in self.places(self.rows, 10, STEP):
            yield f"XPENDING s {group} {entry + 1}-0 + 10 {self.owner(entry)}"

    def idle_for_long(self):
        return (f"XPENDING s {group} IDLE {LONG} - + 10" for group, _ in self.places(10 * self.rows, self.size))

    def claims(self):
        for group, entry in self.places(self.rows, 10, STEP):
            ids = " ".join(f"{entry + number}-0" for number in range(1, 11))
            yield f"XCLAIM s {group} d{entry // 10 % CONSUMERS} 0 {ids}"

    def scans(self):
        for group, entry in self.places(self.rows, 100):
            yield f"XAUTOCLAIM s {group} d{entry // 100 % CONSUMERS} 0 {entry + 1}-0 COUNT 100"

    def scans_of_nothing(self):
        for group, entry in self.places(10 * self.rows, 1000):
            yield f"XAUTOCLAIM s {group} d {LONG} {entry + 1}-0 COUNT 100"

    def removals(self):
        for group in range(self.groups):
            for consumer in range(CONSUMERS):
                yield f"XGROUP DELCONSUMER s g{group} c{consumer}"


def works(count):
    """Title, what is filled first, commands, and that Redis does it too."""
    for size in (10_000, 1_000_000):
        one = Bench(count, size)
        yield f"XADD and XREADGROUP COUNT 1 in turn, {size:,}", one.entries, one.additions_and_reads, True
        for limit in (1, 10, 100):
            yield f"XREADGROUP COUNT {limit}, {size:,}", one.entries, lambda: one.reads(limit), True
            yield f"XREADGROUP COUNT {limit} NOACK, {size:,}", one.entries, lambda: one.reads(limit, " NOACK"), True
        yield f"XACK one by one, jumping, {size:,}", one.delivered, one.acknowledgements, True
        yield f"XREADGROUP of own entries, COUNT 10, {size:,}", one.delivered, one.own_reads, True
        yield f"XPENDING short, 100 consumers, {size:,}", one.delivered, one.summaries, True
        yield f"XPENDING long, ten rows, {size:,}", one.delivered, one.pending, True
        yield f"XPENDING long, ten rows of a consumer, {size:,}", one.delivered, one.own_pending, True
        yield f"XPENDING IDLE that nobody meets, {size:,}", one.delivered, one.idle_for_long, True
        yield f"XCLAIM of ten, {size:,}", one.delivered, one.claims, True
        yield f"XAUTOCLAIM COUNT 100, all idle, {size:,}", one.delivered, one.scans, True
        yield f"XAUTOCLAIM COUNT 100, none idle, {size:,}", one.delivered, one.scans_of_nothing, True
        yield f"DELCONSUMER, {size:,}", one.delivered, one.removals, True


if __name__ == "__main__":
    beside_redis.main(__doc__, works)
