#!/usr/bin/env python3
"""Measures the memory of streams beside a real Redis 7.0, in one run.

    memory.py [--entries N] [--only WORD] PROGRAM

Debian: apt-get install redis-server

Bytes of a group with one consumer and one pending row, of 10,000 and of 100,000 such groups, and with eight and nine rows;
and bytes of a pending row, of so many rows as entries, with one consumer and with a hundred: of the program with a script,
and over TCP.
Then bytes of an entry, by resident memory: of entries that were added, after a random half was deleted, and after a trim
to a tenth, each by the entries that were added. Of Redis what it counts itself (MEMORY USAGE) stands behind. Then a server
with 16 workers whose stream of 100,000 entries of 60 bytes is kept by MAXLEN: its resident memory in MiB after each of 16
connections that fill it in turn and stay, and after every eighth of 64 connections of one client.
"""
import argparse
import contextlib
import os
import random
import signal
import socket
import subprocess
import sys
import time

sys.path.append(os.path.join(os.path.dirname(__file__), "../scripts"))
sys.path.append(os.path.join(os.path.dirname(__file__), "../tests/served"))
from needs import need  # noqa: E402
from resp import connect, read_reply, request  # noqa: E402

SHAPES = {"one field of 60": (1, 1, 60), "five of 10 + 20": (5, 10, 20), "one of 1,000": (1, 1, 1000),
          "six of 10 + 40": (6, 10, 40)}
PORT = 7491


def resident(pid):
    with open(f"/proc/{pid}/status") as status:
        return next(int(line.split()[1]) * 1024 for line in status if line.startswith("VmRSS"))


def settle(pid):
    """Waits until a process takes no processor time any more."""
    last = None
    while True:
        with open(f"/proc/{pid}/stat") as stat:
            now = stat.read().split()[13:15]
        if now == last:
            return
        last = now
        time.sleep(0.5)


def ids(k):
    return f"{1700000000000 + k // 5}-{k % 5 + 1}"


def steps(shape, size):
    """Additions, deletions of a random half, and a trim to a tenth."""
    count, name, value = shape
    fields = " ".join(f"{chr(97 + k) * name} {'v' * value}" for k in range(count))
    gone = random.Random(3).sample(range(1, size + 1), size // 2)
    yield (f"XADD s {ids(k)} {fields}" for k in range(1, size + 1))
    yield (f"XDEL s {ids(k)}" for k in gone)
    yield [f"XTRIM s MAXLEN {size // 10}"]


class Script:
    """The program with a script."""

    def __init__(self, program):
        self.process = subprocess.Popen([program, "script"], stdin=subprocess.PIPE, stdout=subprocess.DEVNULL, text=True)

    def ask(self, commands):
        self.process.stdin.writelines(f"1 a {command}\n" for command in commands)
        self.process.stdin.flush()

    def counted(self):
        return ""

    def close(self):
        self.process.stdin.close()
        self.process.wait()


class Served:
    """A server that listens at the port."""

    def __init__(self, command, port):
        self.process = subprocess.Popen(command, stdout=subprocess.DEVNULL)
        self.socket = connect(port)
        self.replies = self.socket.makefile("rb")

    def ask(self, commands):
        waiting = []
        for command in commands:
            waiting.append(request([word.encode() for word in command.split(" ")]))
            if len(waiting) == 100:
                self.take(waiting)
                waiting = []
        self.take(waiting)

    def take(self, waiting):
        self.socket.sendall(b"".join(waiting))
        for _ in waiting:
            if (got := read_reply(self.replies)).startswith(b"-"):
                raise SystemExit(got.decode())

    def counted(self):
        return ""

    def close(self):
        self.process.send_signal(signal.SIGTERM)
        self.process.wait()


class Server(Served):
    """The program, which serves 4 connections at once."""

    def __init__(self, program):
        super().__init__([program, "serve", "--port", str(PORT), "--workers", "4", "--each", "1000000"], PORT)


class Redis(Served):
    def __init__(self):
        super().__init__(["redis-server", "--port", str(PORT), "--save", "", "--appendonly", "no"], PORT)

    def counted(self):
        self.socket.sendall(request([b"MEMORY", b"USAGE", b"s", b"SAMPLES", b"0"]))
        return int(read_reply(self.replies)[1:])


def groups(count, each=1):
    """A stream of so many entries, and groups that have each read them."""
    yield [f"XADD s {place}-0 f v" for place in range(1, each + 1)]
    yield (command for k in range(count)
           for command in (f"XGROUP CREATE s g{k} 0", f"XREADGROUP GROUP g{k} c STREAMS s >"))


def rows(count, consumers):
    """A stream and a group, and then reads of a hundred entries by so many consumers in turn."""
    yield (command for k in range(count) for command in ([f"XADD s {ids(k)} f v"] if k else
                                                         [f"XADD s {ids(k)} f v", "XGROUP CREATE s g 0"]))
    yield (f"XREADGROUP GROUP g c{k % consumers} COUNT 100 STREAMS s >" for k in range(count // 100))


def bytes_of_each(kind, filling, commands, count):
    """What so many groups or rows take, behind a filling, by their number."""
    with contextlib.closing(kind()) as server:
        server.ask(filling)
        settle(server.process.pid)
        before = resident(server.process.pid)
        server.ask(commands)
        settle(server.process.pid)
        return f"{(resident(server.process.pid) - before) / count:.1f}"


def bytes_of_entries(kind, shape, size):
    with contextlib.closing(kind()) as server:
        settle(server.process.pid)
        before = resident(server.process.pid)
        for commands in steps(shape, size):
            server.ask(commands)
            settle(server.process.pid)
            told = f"{(resident(server.process.pid) - before) / size:.1f}"
            counted = server.counted()
            yield told + (f" ({counted / size:.1f})" if counted else "")


def add(connection, count):
    one = request([b"XADD", b"s", b"MAXLEN", b"100000", b"*", b"f", b"v" * 60])
    for _ in range(count // 1000):
        connection.sendall(one * 1000)
        lines = 0
        while lines < 2000:
            lines += connection.recv(1 << 16).count(b"\n")


def served(program, connections, each, stay):
    """The resident memory after each connection that adds so many entries, in MiB."""
    environment = {name: value for name, value in os.environ.items() if name != "MALLOC_ARENA_MAX"}
    command = [program, "serve", "--port", str(PORT + 1), "--workers", "16", "--each", "1000000"]
    with subprocess.Popen(command, env=environment, stdout=subprocess.PIPE) as server:
        server.stdout.readline()
        kept = []
        for _ in range(connections):
            connection = socket.create_connection(("127.0.0.1", PORT + 1))
            add(connection, each)
            yield round(resident(server.pid) / (1 << 20), 1)
            if stay:
                kept.append(connection)
            else:
                connection.close()
        server.send_signal(signal.SIGTERM)


def of_groups_and_rows(given):
    kinds = {"by a script": lambda: Script(given.program), "over TCP": lambda: Server(given.program), "Redis": Redis}
    works = {f"{count:,} groups": (lambda count=count: groups(count), count) for count in (10_000, 100_000)}
    works |= {f"10,000 groups of {each} rows": (lambda each=each: groups(10_000, each), 10_000) for each in (8, 9)}
    works |= {f"{given.entries:,} rows of {name}": (lambda consumers=consumers: rows(given.entries, consumers),
                                                    given.entries)
              for name, consumers in (("one consumer", 1), ("a hundred consumers", 100))}
    for title, (steps_of, count) in works.items():
        if given.only in title:
            for name, kind in kinds.items():
                print(f"{title}, {name}:", bytes_of_each(kind, *steps_of(), count), flush=True)


def main():
    asked = argparse.ArgumentParser(description=__doc__, formatter_class=argparse.RawDescriptionHelpFormatter)
    asked.add_argument("--entries", type=int, default=1_000_000)
    asked.add_argument("--only", default="")
    asked.add_argument("program", metavar="PROGRAM")
    given = asked.parse_args()
    need("redis-server", "redis-server")
    of_groups_and_rows(given)
    for title, shape in SHAPES.items():
        if given.only in title:
            for name, kind in (("here", lambda: Script(given.program)), ("Redis", Redis)):
                print(f"{title}, {name}:", *bytes_of_entries(kind, shape, given.entries), sep="  ", flush=True)
    if not given.only:
        print("16 connections in turn:", *served(given.program, 16, 100_000, True))
        print("one client, 64 connections:", *list(served(given.program, 64, 25_000, False))[7::8])


if __name__ == "__main__":
    main()
