#!/usr/bin/env python3
"""Measures the server beside a real Redis 7.0, over TCP, in one run.

    tcp.py [--runs N] [--connections N,N,..] [--deep N,N,..] [--works NAME,..] [--busy N] PROGRAM

Debian: apt-get install redis-server redis-tools gcc

Each work is asked by bench/tcp_driver.c of `PROGRAM serve`, with four workers more than there are connections, and of a
redis-server that keeps nothing on disk, in turn; both are started anew for each number of connections and each depth,
and the keys are removed and filled before each work. Each connection sends 10,000 requests at least (200 of 100 KB).
Client and server share the machine. A line of the table tells requests a second, processor time of the server for a
request, the ratios of both to Redis, and latencies in the middle, at 99 % and at 99.9 %: the median of the runs, with
the least and the greatest. Before the table stands what an idle server takes, with 50 connections that have been
served. With --busy so many other processes only count meanwhile.
"""
import argparse
import contextlib
import os
import socket
import statistics
import subprocess
import sys
import tempfile
import time
from dataclasses import dataclass

import beside_redis
from busy import busy

sys.path.append(os.path.join(os.path.dirname(__file__), "../scripts"))
from needs import need  # noqa: E402

HERE = os.path.dirname(os.path.abspath(__file__))
VALUE = "v" * 60
ADD = ["XADD", "s", "*", "f", VALUE]
IDLE_SECONDS = 5
LEAST_EACH = 10_000


@dataclass
class Work:
    """What the driver is told, how much shorter it is than others, and how many entries there have to be before."""

    words: list
    shorter: int = 1
    filled: int = 0


QUEUE = "XREADGROUP COUNT 1 and XACK in turn"
WORKS = {
    "XADD": Work(["same", *ADD]),
    QUEUE: Work(["queue", "s", "g"]),
    "XRANGE COUNT 10": Work(["same", "XRANGE", "s", "-", "+", "COUNT", "10"], filled=100),
    "XADD of 1 KB": Work(["same", "XADD", "s", "*", "f", "v" * 1000]),
    "XADD of 100 KB": Work(["same", "XADD", "s", "*", "f", "v" * 100_000], shorter=50),
}


def free_port():
    with socket.socket() as one:
        one.bind(("127.0.0.1", 0))
        return one.getsockname()[1]


@dataclass
class Asked:
    """What one run of a work told."""

    rate: float
    used: float
    latencies: list


class Server:
    """A server that is asked, and ended by its process id. It has to listen within so many seconds."""

    def __init__(self, words, port, driver, within=5):
        self.port = port
        self.driver = driver
        self.child = subprocess.Popen(words, stdout=subprocess.DEVNULL, stderr=subprocess.DEVNULL)
        for _ in range(20 * within):
            try:
                socket.create_connection(("127.0.0.1", port)).close()
                return
            except OSError:
                time.sleep(0.05)
        raise SystemExit(f"{words[0]} doesn't listen")

    def used(self):
        return beside_redis.used(self.child.pid)

    def say(self, *words):
        subprocess.run(["redis-cli", "-p", str(self.port), *words], stdout=subprocess.DEVNULL, check=True)

    def drive(self, connections, deep, count, words):
        done = subprocess.run([self.driver, str(self.port), str(connections), str(deep), str(count), *words],
                              capture_output=True, text=True)
        if done.returncode != 0:
            raise SystemExit(done.stderr)
        return [float(told) for told in done.stdout.split()]

    def ask(self, work, count, connections, deep):
        """Requests a second, processor time of the server for one and latencies, both in microseconds."""
        self.say("DEL", "s")
        self.say("XGROUP", "CREATE", "s", "g", "$", "MKSTREAM")
        filled = count if work.words[0] == "queue" else work.filled
        if filled:
            self.drive(4, 16, filled + 64, ["same", *ADD])
        before = self.used()
        answered, seconds, *latencies = self.drive(connections, deep, count, work.words)
        return Asked(answered / seconds, (self.used() - before) / answered * 1e6, latencies)

    def end(self):
        self.child.kill()
        self.child.wait()


@contextlib.contextmanager
def servers(program, connections, driver):
    """Both servers, which end with the block."""
    with contextlib.ExitStack() as begun:
        both = []
        for words in ([program, "serve", "--port", "PORT", "--workers", str(connections + 4), "--each", "1000000"],
                      ["redis-server", "--port", "PORT", "--save", "", "--appendonly", "no"]):
            port = free_port()
            server = Server([str(port) if word == "PORT" else word for word in words], port, driver)
            begun.callback(server.end)
            both.append(server)
        yield both


def spread(values, form):
    return f"{statistics.median(values):{form}} ({min(values):{form}} to {max(values):{form}})"


def latencies(asked):
    """At 50 %, at 99 % and at 99.9 %: the medians of the runs."""
    return " / ".join(f"{statistics.median(one.latencies[place] for one in asked):,.0f}" for place in range(3))


def line(name, connections, deep, here, there):
    by = [one.rate / other.rate for one, other in zip(here, there)]
    cost = [one.used / max(other.used, 0.01) for one, other in zip(here, there)]
    slower = [one.latencies[1] / other.latencies[1] for one, other in zip(here, there)]
    return (f"| {name} | {connections} | {deep} | {spread([one.rate for one in here], ',.0f')} "
            f"| {spread([one.rate for one in there], ',.0f')} | {spread(by, '.2f')} "
            f"| {spread([one.used for one in here], '.1f')} | {spread(cost, '.2f')} "
            f"| {latencies(here)} | {latencies(there)} | {spread(slower, '.2f')} |")


def measure(asked, connections, deep, driver):
    count = (40_000 if deep == 1 else 200_000) // (2 if connections == 1 else 1)
    with servers(asked.program, connections, driver) as both:
        taken = {name: ([], []) for name in asked.works.split(",")}
        for _ in range(asked.runs):
            for name, sides in taken.items():
                for side, server in zip(sides, both):
                    some = max(max(count, LEAST_EACH * connections) // WORKS[name].shorter, 2 * deep * connections)
                    side.append(server.ask(WORKS[name], some, connections, deep))
    for name, (here, there) in taken.items():
        print(line(name, connections, deep, here, there), flush=True)


def tell_idle(program, driver):
    """What a server takes that has been asked and has 50 connections, of which nothing comes."""
    with servers(program, 50, driver) as both, contextlib.ExitStack() as open_ones:
        for name, server in zip(("This server", "Redis"), both):
            server.ask(WORKS["XADD"], 10_000, 50, 1)
            for _ in range(50):
                one = open_ones.enter_context(socket.create_connection(("127.0.0.1", server.port)))
                one.sendall(b"*1\r\n$4\r\nPING\r\n")
                one.recv(7)
            time.sleep(1)
            before = server.used()
            time.sleep(IDLE_SECONDS)
            print(f"{name}, idle for {IDLE_SECONDS} s: {(server.used() - before) * 1000:.2f} ms of processor time")


def main():
    parser = argparse.ArgumentParser(description=__doc__, formatter_class=argparse.RawDescriptionHelpFormatter)
    parser.add_argument("--runs", type=int, default=3)
    parser.add_argument("--connections", default="1,4,8,16,50")
    parser.add_argument("--deep", default="1,16")
    parser.add_argument("--works", default=",".join(WORKS))
    parser.add_argument("--busy", type=int, default=0)
    parser.add_argument("program")
    asked = parser.parse_args()
    need("redis-server", "redis-server")
    need("redis-cli", "redis-tools")
    need("cc", "gcc")
    with busy(asked.busy), tempfile.TemporaryDirectory() as folder:
        driver = os.path.join(folder, "tcp_driver")
        subprocess.run(["cc", "-O2", "-pthread", "-o", driver, os.path.join(HERE, "tcp_driver.c")], check=True)
        tell_idle(asked.program, driver)
        print("\n| Work | Connections | Deep | Requests a second here | of Redis | here by Redis "
              "| Processor time of the server for a request, in µs | here by Redis "
              "| Latency here, in µs, in the middle, at 99 % and 99.9 % | of Redis | at 99 %, here by Redis |")
        print("|---|---|---|---|---|---|---|---|---|---|---|")
        for connections in map(int, asked.connections.split(",")):
            for deep in map(int, asked.deep.split(",")):
                measure(asked, connections, deep, driver)


if __name__ == "__main__":
    sys.exit(main())
