#!/usr/bin/env python3
"""Measures the server with a log, beside a real Redis 7.0 with its append-only file, over TCP, in one run.

    log.py [--runs N] [--pairs CxD,..] [--works NAME,..] [--seconds N] [--records N] [--folder FOLDER] PROGRAM

Debian: apt-get install redis-server redis-tools gcc

The first line, and that behind the first table, tell how long one fdatasync takes here, behind an append of 100 bytes:
on a shared disk that may change within a minute. The first table tells requests a second, so many connections sending
so many at once, of `PROGRAM run --log FOLDER --sync always` and of a redis-server with `appendfsync always`; the second
and third those of `--sync second`, of `--sync no`, and of a server without a log. The servers of a table are started anew for each pair, with new
folders on the same file system (--folder says where), and take turns; the stream is removed and filled before each
work. bench/tcp_driver.c asks, for about so many seconds each time. Client and servers share the machine. Each figure is
the median of the runs, with the least and the greatest; the ratios are those of the runs. The last lines tell how long
a start takes that reads a log of so many additions: here from the start of the program to its line that tells how many
it read, of Redis as its own log tells it.
"""
import argparse
import contextlib
import os
import re
import signal
import subprocess
import sys
import tempfile
import time

from tcp import ADD, HERE, QUEUE, WORKS, Server, free_port, latencies, spread

sys.path.append(os.path.join(os.path.dirname(__file__), "../scripts"))
from needs import need  # noqa: E402

PAIRS = "1x1,16x1,64x1,1x16,16x16,64x16"
SYNCS = 200
# How many rounds of all connections are asked to find out how many requests take a second, and the most requests.
ROUNDS, MOST = 20, 200_000


def program_words(program, connections, *log):
    return [program, "run", "--port", "PORT", "--workers", str(connections + 8), *log]


def logged_words(program, connections, folder, policy, compact="never"):
    """The words of a server with a log that nobody compacts if nothing else is given, as nobody rewrites that of
    Redis."""
    return program_words(program, connections, "--log", os.path.join(folder, "log"), "--sync", policy,
                         "--compact", compact)


def redis_words(folder, policy):
    return ["redis-server", "--port", "PORT", "--save", "", "--appendonly", "yes", "--appendfsync", policy,
            "--auto-aof-rewrite-percentage", "0", "--dir", folder, "--logfile", os.path.join(folder, "redis.log")]


def start(words, driver, within=5):
    port = free_port()
    return Server([str(port) if word == "PORT" else word for word in words], port, driver, within)


def tell_sync(folder):
    """Tells how long an fdatasync takes behind a small append."""
    taken = []
    with open(os.path.join(folder, "syncs"), "wb", buffering=0) as file:
        for _ in range(SYNCS):
            file.write(bytes(100))
            began = time.perf_counter()
            os.fdatasync(file.fileno())
            taken.append((time.perf_counter() - began) * 1e6)
    taken.sort()
    print(f"One fdatasync takes {taken[SYNCS // 2]:,.0f} µs in the middle, {taken[SYNCS * 99 // 100]:,.0f} at 99 %",
          flush=True)


def always(asked, folders, connections):
    """A server that syncs before it answers, and Redis that does."""
    return [logged_words(asked.program, connections, folders[0], "always"),
            redis_words(folders[1], "always")]


def without_log(policy):
    """A server with this policy, and one without a log."""
    def servers(asked, folders, connections):
        return [logged_words(asked.program, connections, folders[0], policy),
                program_words(asked.program, connections)]

    return servers


@contextlib.contextmanager
def started(asked, make, connections, driver):
    """The servers of a table, with folders of their own, which end with the block."""
    with contextlib.ExitStack() as begun:
        folders = [begun.enter_context(tempfile.TemporaryDirectory(dir=asked.folder)) for _ in range(2)]
        servers = []
        for words in make(asked, folders, connections):
            servers.append(start(words, driver))
            begun.callback(servers[-1].end)
        yield servers


def line(name, connections, deep, here, there):
    by = [one.rate / other.rate for one, other in zip(here, there)]
    cost = [one.used / max(other.used, 0.01) for one, other in zip(here, there)]
    cells = (name, f"{connections} x {deep}", spread([one.rate for one in here], ",.0f"),
             spread([one.rate for one in there], ",.0f"), spread(by, ".2f"), spread([one.used for one in here], ".1f"),
             spread(cost, ".2f"), latencies(here), latencies(there))
    print(f"| {' | '.join(cells)} |", flush=True)


def count_of(asked, servers, work, connections, deep):
    """How many requests the slower of the servers is asked in about the seconds of a run."""
    least = ROUNDS * connections * deep
    rate = min(server.ask(work, least, connections, deep).rate for server in servers)
    return min(max(int(asked.seconds * rate), least), max(MOST, least))


def table(asked, make, other, driver):
    """A table of each work at each pair."""
    titles = ("Work", "Connections x deep", "Requests a second here", f"of {other}", f"here by {other}",
              "Processor time of the server for a request, in µs", f"here by {other}",
              "Latency here, in µs, in the middle, at 99 % and 99.9 %", f"of {other}")
    print(f"\n| {' | '.join(titles)} |\n|{'---|' * len(titles)}", flush=True)
    for connections, deep in (map(int, pair.split("x")) for pair in asked.pairs.split(",")):
        with started(asked, make, connections, driver) as servers:
            taken = {name: [[] for _ in servers] for name in asked.works.split(",")}
            counts = {name: count_of(asked, servers, WORKS[name], connections, deep) for name in taken}
            for _ in range(asked.runs):
                for name, sides in taken.items():
                    for side, server in zip(sides, servers):
                        side.append(server.ask(WORKS[name], counts[name], connections, deep))
        for name, (here, there) in taken.items():
            line(name, connections, deep, here, there)


def fill(words, count, driver):
    """Fills a new server's log with additions, and stops it."""
    server = start(words, driver)
    try:
        server.drive(16, 64, count, ["same", *ADD])
        server.child.send_signal(signal.SIGTERM)
        server.child.wait(timeout=60)
    finally:
        server.end()


def replay_here(asked, folder):
    """How many records a start reads, and in how many seconds."""
    words = [str(free_port()) if word == "PORT" else word
             for word in logged_words(asked.program, 16, folder, "no")]
    began = time.perf_counter()
    child = subprocess.Popen(words, stdout=subprocess.DEVNULL, stderr=subprocess.PIPE, text=True)
    try:
        told = next(found for line in child.stderr if (found := re.search(r": (\d+) records?,", line)))
        took = time.perf_counter() - began
    finally:
        child.kill()
        child.communicate()
    return int(told[1]), took


def replay_of_redis(folder, driver):
    """The seconds that Redis tells."""
    log = os.path.join(folder, "redis.log")
    os.remove(log)
    server = start(redis_words(folder, "no"), driver)
    try:
        deadline = time.monotonic() + 120
        while time.monotonic() < deadline:
            with open(log, encoding="utf-8") as lines:
                if told := re.search(r"DB loaded from append only file: ([0-9.]+) seconds", lines.read()):
                    return float(told[1])
            time.sleep(0.1)
        raise SystemExit("Redis doesn't tell how long it took")
    finally:
        server.end()


def tell_replay(asked, driver):
    with contextlib.ExitStack() as begun:
        here, there = (begun.enter_context(tempfile.TemporaryDirectory(dir=asked.folder)) for _ in range(2))
        words = logged_words(asked.program, 16, here, "no")
        fill(words, asked.records, driver)
        fill(redis_words(there, "no"), asked.records, driver)
        rates, others = [], []
        for _ in range(asked.runs):
            count, took = replay_here(asked, here)
            if count < asked.records:
                raise SystemExit(f"{count} records were read of {asked.records}")
            rates.append(count / took)
            others.append(count / replay_of_redis(there, driver))
    by = [one / other for one, other in zip(rates, others)]
    print(f"\nA start reads {asked.records:,} additions: {spread(rates, ',.0f')} a second here, "
          f"{spread(others, ',.0f')} of Redis; here by Redis {spread(by, '.2f')}", flush=True)


def main():
    parser = argparse.ArgumentParser(description=__doc__, formatter_class=argparse.RawDescriptionHelpFormatter)
    parser.add_argument("--runs", type=int, default=3)
    parser.add_argument("--pairs", default=PAIRS)
    parser.add_argument("--works", default=f"XADD,{QUEUE}")
    parser.add_argument("--seconds", type=float, default=1)
    parser.add_argument("--records", type=int, default=500_000)
    parser.add_argument("--folder", default=tempfile.gettempdir())
    parser.add_argument("program")
    asked = parser.parse_args()
    need("redis-server", "redis-server")
    need("redis-cli", "redis-tools")
    need("cc", "gcc")
    with tempfile.TemporaryDirectory(dir=asked.folder) as folder:
        driver = os.path.join(folder, "tcp_driver")
        subprocess.run(["cc", "-O2", "-pthread", "-o", driver, os.path.join(HERE, "tcp_driver.c")], check=True)
        tell_sync(folder)
        table(asked, always, "Redis", driver)
        tell_sync(folder)
        for policy in ("second", "no"):
            table(asked, without_log(policy), "a server without a log", driver)
        tell_replay(asked, driver)


if __name__ == "__main__":
    sys.exit(main())
