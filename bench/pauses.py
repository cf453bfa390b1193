#!/usr/bin/env python3
"""Measures clients that pipeline and pause, beside a real Redis 7.0, over TCP, in one run.

    pauses.py [--paces N/MS,N/MS,..] [--seconds N] [--runs N] PROGRAM

Debian: apt-get install redis-server

One connection sends N additions of one field of 60 bytes at once each MS milliseconds, and takes all replies before its
next batch. It asks `PROGRAM serve`, `PROGRAM run` and a redis-server that keeps nothing on disk, in turn. A line of the
table tells how long a batch waits for its last reply, in the middle and at 99 %, and the processor time of the server
for a request, each the median of the runs; then the ratios to Redis. Client and server share the machine.
"""
import argparse
import contextlib
import os
import socket
import statistics
import sys
import time
from dataclasses import dataclass

from paced import REQUEST, wait_until
from tcp import Server, free_port

sys.path.append(os.path.join(os.path.dirname(__file__), "../scripts"))
from needs import need  # noqa: E402

# An addition's reply has two lines, the second of which is the id.
LINES = 2
SERVERS = {
    "serve": ["PROGRAM", "serve", "--port", "PORT", "--workers", "5", "--each", "1000000"],
    "run": ["PROGRAM", "run", "--port", "PORT", "--workers", "5"],
    "Redis": ["redis-server", "--port", "PORT", "--save", "", "--appendonly", "no"],
}


@dataclass
class Waits:
    """What the batches of a run took, in microseconds: to the last reply, in the middle and at 99 %, and processor time
    of the server for a request."""

    middle: float
    late: float
    used: float


@contextlib.contextmanager
def all_servers(program):
    """A server of each kind, which end with the block."""
    with contextlib.ExitStack() as begun:
        made = {}
        for name, words in SERVERS.items():
            port = free_port()
            given = {"PROGRAM": program, "PORT": str(port)}
            made[name] = Server([given.get(word, word) for word in words], port, None)
            begun.callback(made[name].end)
        yield made


def batch(stream, count):
    """Sends so many additions, and takes their replies. It gives the microseconds up to the last."""
    began, lines = time.perf_counter(), 0
    stream.sendall(REQUEST * count)
    while lines < LINES * count:
        got = stream.recv(65_536)
        if not got or b"-ERR" in got:
            raise SystemExit(f"{got[:100]!r} came")
        lines += got.count(b"\n")
    return (time.perf_counter() - began) * 1e6


def waits_at(server, count, millis, seconds):
    """What batches of so many additions take at this pace."""
    with socket.create_connection(("127.0.0.1", server.port)) as stream:
        stream.setsockopt(socket.IPPROTO_TCP, socket.TCP_NODELAY, 1)
        stream.sendall(b"*2\r\n$3\r\nDEL\r\n$1\r\ns\r\n")
        stream.recv(100)
        batch(stream, count)
        took, used, began = [], server.used(), time.perf_counter()
        for turn in range(int(seconds * 1000 / millis)):
            wait_until(began + turn * millis / 1000)
            took.append(batch(stream, count))
        used = server.used() - used
    took.sort()
    return Waits(took[len(took) // 2], took[len(took) * 99 // 100], used / len(took) / count * 1e6)


def medians(runs):
    """The median of each figure."""
    return Waits(*(statistics.median(getattr(one, name) for one in runs) for name in ("middle", "late", "used")))


def line(count, millis, told):
    """A line of the table: what each server took, and by Redis what those of the program took."""
    redis = told["Redis"]
    figures = [f"{one.middle:,.0f} / {one.late:,.0f} / {one.used:.1f}" for one in told.values()]
    ratios = [f"{one.middle / redis.middle:.2f} / {one.late / redis.late:.2f} / {one.used / max(redis.used, 0.01):.2f}"
              for name, one in told.items() if name != "Redis"]
    return f"| {count} each {millis} ms | {' | '.join(figures + ratios)} |"


def main():
    parser = argparse.ArgumentParser(description=__doc__, formatter_class=argparse.RawDescriptionHelpFormatter)
    parser.add_argument("--paces", default="16/5,100/10,500/20")
    parser.add_argument("--seconds", type=float, default=5)
    parser.add_argument("--runs", type=int, default=3)
    parser.add_argument("program")
    asked = parser.parse_args()
    need("redis-server", "redis-server")
    ratios = [f"{name} by Redis" for name in SERVERS if name != "Redis"]
    print("Median, 99 % and processor time for a request, in µs:\n")
    print(f"| Additions | {' | '.join([*SERVERS, *ratios])} |\n|{'---|' * (1 + len(SERVERS) + len(ratios))}")
    with all_servers(asked.program) as servers:
        for pace in asked.paces.split(","):
            count, millis = map(int, pace.split("/"))
            runs = {name: [] for name in servers}
            for _ in range(asked.runs):
                for name, server in servers.items():
                    runs[name].append(waits_at(server, count, millis, asked.seconds))
            print(line(count, millis, {name: medians(some) for name, some in runs.items()}), flush=True)


if __name__ == "__main__":
    sys.exit(main())
