#!/usr/bin/env python3
"""Times XTRIM and DEL of a great stream beside a real Redis 7.0, over TCP, in one run.

    del.py [--entries N] [--rounds N] [--only WORD] PROGRAM

Debian: apt-get install redis-server

Each command is asked of `PROGRAM serve` and of a redis-server that keeps nothing on disk, in turn, each time of a
stream that pipelined XADDs have filled anew, with entries of one field of 60 bytes. A line tells the milliseconds that a
client waits, here and of Redis: the median of the rounds, with the least and the greatest, and the ratio of the two.
"""
import argparse
import os
import socket
import statistics
import subprocess
import sys
import time

sys.path.append(os.path.join(os.path.dirname(__file__), "../scripts"))
from needs import need  # noqa: E402

PORT = 7493
DEEP = 1000


def request(*words):
    return b"*%d\r\n" % len(words) + b"".join(b"$%d\r\n%s\r\n" % (len(word), word) for word in words)


def additions(count):
    """Additions of so many entries, a thousand at a time."""
    requests = [request(b"XADD", b"s", b"%d-0" % k, b"f", b"v" * 60) for k in range(1, count + 1)]
    return [b"".join(requests[at:at + DEEP]) for at in range(0, count, DEEP)]


class Server:
    def __init__(self, port, *words):
        self.child = subprocess.Popen(words, stdout=subprocess.DEVNULL)
        while True:
            try:
                self.connection = socket.create_connection(("127.0.0.1", port))
                return
            except OSError:
                time.sleep(0.05)

    def ask(self, requests, lines):
        """Sends requests, and reads so many lines of answers."""
        self.connection.sendall(requests)
        while lines > 0:
            lines -= self.connection.recv(1 << 16).count(b"\n")

    def time(self, filling, words):
        """Fills a stream, and says how many milliseconds a command then takes."""
        self.ask(request(b"DEL", b"s"), 1)
        for requests in filling:
            self.ask(requests, 2 * requests.count(b"XADD"))
        began = time.monotonic()
        self.ask(request(*words), 1)
        return (time.monotonic() - began) * 1e3

    def end(self):
        self.connection.close()
        self.child.terminate()
        self.child.wait()


def spread(times):
    return f"{statistics.median(times):.2f} ({min(times):.2f} to {max(times):.2f})"


def main():
    asked = argparse.ArgumentParser(description=__doc__, formatter_class=argparse.RawDescriptionHelpFormatter)
    asked.add_argument("--entries", type=int, default=1_000_000)
    asked.add_argument("--rounds", type=int, default=3)
    asked.add_argument("--only", default="")
    asked.add_argument("program", metavar="PROGRAM")
    given = asked.parse_args()
    need("redis-server", "redis-server")
    filling = additions(given.entries)
    servers = [Server(PORT, given.program, "serve", "--port", str(PORT), "--workers", "4", "--each", "1000000"),
               Server(PORT + 1, "redis-server", "--port", str(PORT + 1), "--save", "", "--appendonly", "no")]
    try:
        for title, *words in (("XTRIM to a half", b"XTRIM", b"s", b"MAXLEN", b"%d" % (given.entries // 2)),
                              ("XTRIM to a tenth", b"XTRIM", b"s", b"MAXLEN", b"%d" % (given.entries // 10)),
                              ("DEL", b"DEL", b"s")):
            if given.only not in title:
                continue
            here, redis = zip(*[[server.time(filling, words) for server in servers] for _ in range(given.rounds)])
            ratio = statistics.median(here) / statistics.median(redis)
            print(f"{title:18} {spread(here):26} {spread(redis):26} {ratio:.2f}", flush=True)
    finally:
        for server in servers:
            server.end()


if __name__ == "__main__":
    main()
