#!/usr/bin/env python3
"""Measures what a request costs that comes at a pace, beside a real Redis 7.0, over TCP, in one run.

    paced.py [--rates N,N,..] [--connections N] [--seconds N] [--runs N] PROGRAM

Debian: apt-get install redis-server redis-tools

So many additions a second, of one field of 60 bytes, are sent over the connections in turn, each at its moment. A line
of the table tells the processor time of the server for a request, and its voluntary context switches for one: of all
its threads, and of the one that has most, which is the keeper here. Each figure is the median of the runs.
"""
import argparse
import os
import socket
import statistics
import sys
import time
from dataclasses import dataclass

from tcp import Server, free_port

sys.path.append(os.path.join(os.path.dirname(__file__), "../scripts"))
from needs import need  # noqa: E402

REQUEST = b"*5\r\n$4\r\nXADD\r\n$1\r\ns\r\n$1\r\n*\r\n$1\r\nf\r\n$60\r\n" + b"v" * 60 + b"\r\n"
SPIN = 0.0002


def switches(process):
    """The voluntary context switches of each thread so far."""
    counts = {}
    for thread in os.listdir(f"/proc/{process}/task"):
        with open(f"/proc/{process}/task/{thread}/status", encoding="ascii") as status:
            counts[thread] = next(int(line.split()[1]) for line in status if line.startswith("voluntary"))
    return counts


@dataclass
class Cost:
    """What a request took: processor time in microseconds, switches of all threads, and of the busiest one."""

    used: float
    switched: float
    busiest: float


def wait_until(due):
    """Sleeps, and looks at the clock all the time in the last moments."""
    while (left := due - time.perf_counter()) > 0:
        if left > SPIN:
            time.sleep(left - SPIN)


def send_at(rate, seconds, connections):
    """Sends the requests, each at its moment, and takes the reply to the one before on the same connection first."""
    count = int(rate * seconds)
    began = time.perf_counter()
    for place in range(count):
        one = connections[place % len(connections)]
        if place >= len(connections) and not one.recv(256).startswith(b"$"):
            raise SystemExit("no id came")
        wait_until(began + place / rate)
        one.sendall(REQUEST)
    for place in range(min(count, len(connections))):
        connections[place].recv(256)
    return count


def cost_at(server, rate, asked):
    """What a request costs a server at this rate."""
    server.say("DEL", "s")
    connections = [socket.create_connection(("127.0.0.1", server.port)) for _ in range(asked.connections)]
    for one in connections:
        one.setsockopt(socket.IPPROTO_TCP, socket.TCP_NODELAY, 1)
    used, switched = server.used(), switches(server.child.pid)
    count = send_at(rate, asked.seconds, connections)
    after = switches(server.child.pid)
    more = [after[thread] - switched.get(thread, 0) for thread in after]
    cost = Cost((server.used() - used) / count * 1e6, sum(more) / count, max(more) / count)
    for one in connections:
        one.close()
    return cost


def medians(costs):
    """The median of each figure."""
    return Cost(*(statistics.median(getattr(one, name) for one in costs) for name in ("used", "switched", "busiest")))


def main():
    parser = argparse.ArgumentParser(description=__doc__, formatter_class=argparse.RawDescriptionHelpFormatter)
    parser.add_argument("--rates", default="200,1000,5000,20000")
    parser.add_argument("--connections", type=int, default=16)
    parser.add_argument("--seconds", type=float, default=5)
    parser.add_argument("--runs", type=int, default=3)
    parser.add_argument("program")
    asked = parser.parse_args()
    need("redis-server", "redis-server")
    need("redis-cli", "redis-tools")
    ports = free_port(), free_port()
    here = Server([asked.program, "serve", "--port", str(ports[0]), "--workers", str(asked.connections + 4),
                   "--each", "1000000"], ports[0], None)
    there = Server(["redis-server", "--port", str(ports[1]), "--save", "", "--appendonly", "no"], ports[1], None)
    print("| Requests a second | Processor time here, in µs | of Redis | by Redis "
          "| Switches here | of the keeper | of Redis |\n|---|---|---|---|---|---|---|")
    try:
        for rate in map(int, asked.rates.split(",")):
            costs = [(cost_at(here, rate, asked), cost_at(there, rate, asked)) for _ in range(asked.runs)]
            ours, theirs = medians([one for one, _ in costs]), medians([one for _, one in costs])
            by = statistics.median(one.used / other.used for one, other in costs)
            print(f"| {rate:,} | {ours.used:.1f} | {theirs.used:.1f} | {by:.2f} "
                  f"| {ours.switched:.2f} | {ours.busiest:.2f} | {theirs.switched:.2f} |", flush=True)
    finally:
        here.end()
        there.end()


if __name__ == "__main__":
    sys.exit(main())
