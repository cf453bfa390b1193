#!/usr/bin/env python3
"""Measures the program beside a real Redis 7.0, in one run: works of streams.

    bench.py [--runs N] [--commands N] [--only WORD] [--instructions] PROGRAM

Debian: apt-get install redis-server gcc, and valgrind for --instructions

bench/beside_redis.py says how.
"""
import beside_redis

VALUE = "v" * 60


def additions(count):
    for k in range(1, count + 1):
        yield f"XADD s {k}-0 f {VALUE}"


def mix(count):
    """Additions, ranges, deletions and trims in turn."""
    for k in range(1, count // 4 + 1):
        yield f"XADD s {k}-0 f {VALUE}"
        yield f"XRANGE s {max(1, k - 20)} + COUNT 10"
        yield f"XDEL s {max(1, k - 10)}-0"
        yield "XTRIM s MAXLEN 1000"


def bounded_additions(count, size, most):
    """Additions to a stream of this size that keep so many entries."""
    for k in range(size + 1, size + count + 1):
        yield f"XADD s MAXLEN {most} {k}-0 f {VALUE}"


def ranges(count, size):
    """Ranges of ten entries all over a stream of this size."""
    for k in range(count):
        yield f"XRANGE s {1 + k * 7919 % size} + COUNT 10"


def pings(count):
    for _ in range(count):
        yield "PING"


def works(count):
    """Title, what is filled first, commands, and whether Redis does it too."""
    yield "additions", None, lambda: additions(count), True
    yield "a mix", None, lambda: mix(count), True
    for size in (10_000, 1_000_000):
        def filling(size=size):
            return additions(size)

        yield f"MAXLEN 1000 after {size:,} entries", filling, lambda: bounded_additions(count, size, 1000), True
        yield f"MAXLEN {size:,} of {size:,} entries", filling, lambda: bounded_additions(count, size, size), True
        yield f"XRANGE COUNT 10 of {size:,} entries", filling, lambda: ranges(count, size), True
    yield "200 MB of PING", None, lambda: pings(200_000_000 // len("1 a PING\n")), False


if __name__ == "__main__":
    beside_redis.main(__doc__, works)
