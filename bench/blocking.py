#!/usr/bin/env python3
"""Measures readers that wait, beside a real Redis 7.0, over TCP, in one run.

    blocking.py [--runs N] [--rounds N] [--seconds N] PROGRAM

Debian: apt-get install redis-server redis-tools gcc

Both servers are started once, `PROGRAM run` and a redis-server that keeps nothing on disk; each work begins with a new
stream. The first lines tell the processor time of the server while 16 and 60 consumers read with BLOCK 5000 and nothing
comes: both servers are measured over the same 10 seconds. The next tell the time from sending an addition to the reply
of the consumer that has waited longest, with 1 and with 60 of them, over plain sockets from one Python process; the
servers take turns, round by round, and a round begins when all have waited for a millisecond. The last tell how many
jobs 60 consumers (COUNT 10, BLOCK) acknowledge in a second if 3 producers add as fast as they can, one at a time and 16
together, and the processor time of the server for such a job; bench/blocking_driver.c asks, and the last column tells
which part of the time the busier of its two threads had the processor here and with Redis: near 1 it is what is
measured. Client and server share the machine. Each figure is the median of the runs with the least and the greatest;
the ratios are those of the runs.
"""
import argparse
import contextlib
import os
import select
import socket
import statistics
import subprocess
import sys
import tempfile
import time

from tcp import Server, free_port, spread

sys.path.append(os.path.join(os.path.dirname(__file__), "../scripts"))
from needs import need  # noqa: E402

HERE = os.path.dirname(os.path.abspath(__file__))
WORKERS = 64
BLOCK = 5000
# How many seconds a client that has gone keeps its worker at most.
NOTICED = 2.5
NOTHING = b"*-1\r\n"


def request(text):
    words = text.encode().split(b" ")
    return b"*%d\r\n" % len(words) + b"".join(b"$%d\r\n%s\r\n" % (len(word), word) for word in words)


ADD = request("XADD s * f " + "v" * 60)


def read_by(name):
    return request(f"XREADGROUP GROUP g {name} COUNT 1 BLOCK {BLOCK} STREAMS s >")


@contextlib.contextmanager
def servers(program, driver):
    """Both servers, which end with the block."""
    with contextlib.ExitStack() as begun:
        both = []
        for words in ([program, "run", "--port", "PORT", "--workers", str(WORKERS)],
                      ["redis-server", "--port", "PORT", "--save", "", "--appendonly", "no"]):
            port = free_port()
            server = Server([str(port) if word == "PORT" else word for word in words], port, driver)
            begun.callback(server.end)
            both.append(server)
        yield both


def begin(server):
    """A new stream, once the clients of the last work have left their workers."""
    time.sleep(NOTICED)
    server.say("DEL", "s")
    server.say("XGROUP", "CREATE", "s", "g", "0", "MKSTREAM")


class Consumers(contextlib.ExitStack):
    """Connections to a server, each of which has sent a read that waits, and one that adds."""

    def __init__(self, server, count):
        super().__init__()
        begin(server)
        self.server = server
        self.producer = self.connect()
        self.streams = [self.connect() for _ in range(count)]
        for name, stream in enumerate(self.streams):
            stream.sendall(read_by(f"c{name}"))
            time.sleep(0.005)

    def connect(self):
        one = self.enter_context(socket.create_connection(("127.0.0.1", self.server.port), timeout=20))
        one.setsockopt(socket.IPPROTO_TCP, socket.TCP_NODELAY, 1)
        return one

    def read_again(self, name):
        """Takes a reply of nothing, and sends the next read."""
        if self.streams[name].recv(100) != NOTHING:
            raise SystemExit("something came")
        self.streams[name].sendall(read_by(f"c{name}"))

    def latency(self, name):
        """The microseconds from sending an addition to this consumer's reply, which it acknowledges and reads again."""
        stream = self.streams[name]
        began = time.perf_counter()
        self.producer.sendall(ADD)
        got = stream.recv(1000)
        took = time.perf_counter() - began
        self.producer.recv(100)
        if got == NOTHING:
            raise SystemExit("the wait was over too early")
        stream.sendall(request(f"XACK s g {got.split()[7].decode()}"))
        if stream.recv(100) != b":1\r\n":
            raise SystemExit("nothing was acknowledged")
        stream.sendall(read_by(f"c{name}"))
        return took * 1e6


def idle_cost(both, count, seconds):
    """The milliseconds of processor time of each server while consumers wait in vain again and again."""
    poll, found = select.poll(), {}
    with contextlib.ExitStack() as open_ones:
        for server in both:
            consumers = open_ones.enter_context(Consumers(server, count))
            for name, stream in enumerate(consumers.streams):
                poll.register(stream, select.POLLIN)
                found[stream.fileno()] = consumers, name
        time.sleep(0.5)
        before, end = [server.used() for server in both], time.monotonic() + seconds
        while (left := end - time.monotonic()) > 0:
            for number, _ in poll.poll(left * 1000):
                consumers, name = found[number]
                consumers.read_again(name)
        return [(server.used() - used) * 1000 for server, used in zip(both, before)]


def latencies(both, count, rounds):
    """The latencies of each server, sorted."""
    taken = [[] for _ in both]
    with contextlib.ExitStack() as open_ones:
        sides = [open_ones.enter_context(Consumers(server, count)) for server in both]
        for place in range(rounds):
            for one, consumers in zip(taken, sides):
                time.sleep(0.001)
                one.append(consumers.latency(place % count))
    return [sorted(one) for one in taken]


def load(server, deep, seconds):
    """Jobs a second, microseconds of processor time of the server for one, and how busy the driver was."""
    begin(server)
    before = server.used()
    acknowledged, _, took, busier = server.drive(60, 3, deep, [str(seconds)])
    return acknowledged / took, (server.used() - before) / acknowledged * 1e6, busier


def line(title, unit, pairs, form, note=""):
    """A line of the table, from the figures of both in each run."""
    here, there = zip(*pairs)
    by = [one / max(other, 1e-9) for one, other in pairs]
    cells = title, unit, spread(here, form), spread(there, form), spread(by, ".2f"), note
    print(f"| {' | '.join(cells)} |", flush=True)


def tell_idle(both, asked):
    for count in (16, 60):
        costs = [idle_cost(both, count, asked.seconds) for _ in range(asked.runs)]
        line(f"{count} consumers wait in vain for {asked.seconds:g} s", "ms of processor time", costs, ".1f")


def tell_latencies(both, asked):
    for count in (1, 60):
        runs = [latencies(both, count, asked.rounds) for _ in range(asked.runs)]
        for title, part in (("median", 0.5), ("at 99 %", 0.99)):
            pairs = [[one[int(len(one) * part)] for one in run] for run in runs]
            line(f"from an addition to the reply, {count} waiting, {title}", "µs", pairs, ",.0f")


def tell_load(both, asked):
    for deep in (1, 16):
        runs = [[load(server, deep, asked.seconds / 2) for server in both] for _ in range(asked.runs)]
        busy = [statistics.median(run[side][2] for run in runs) for side in range(2)]
        title = f"60 consumers, 3 producers, {deep} together"
        rates, costs = ([[one[part] for one in run] for run in runs] for part in (0, 1))
        line(title, "jobs a second", rates, ",.0f", f"{busy[0]:.2f} / {busy[1]:.2f}")
        line(title, "µs of processor time a job", costs, ".1f")


def main():
    parser = argparse.ArgumentParser(description=__doc__, formatter_class=argparse.RawDescriptionHelpFormatter)
    parser.add_argument("--runs", type=int, default=3)
    parser.add_argument("--rounds", type=int, default=3000)
    parser.add_argument("--seconds", type=float, default=10)
    parser.add_argument("program")
    asked = parser.parse_args()
    need("redis-server", "redis-server")
    need("redis-cli", "redis-tools")
    need("cc", "gcc")
    with tempfile.TemporaryDirectory() as folder:
        driver = os.path.join(folder, "blocking_driver")
        subprocess.run(["cc", "-O2", "-pthread", "-o", driver, os.path.join(HERE, "blocking_driver.c")], check=True)
        print("| Work | Unit | Here | Redis | Here by Redis | How busy the driver was |\n|---|---|---|---|---|---|")
        with servers(asked.program, driver) as both:
            tell_idle(both, asked)
            tell_latencies(both, asked)
            tell_load(both, asked)


if __name__ == "__main__":
    sys.exit(main())
