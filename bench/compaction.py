#!/usr/bin/env python3
"""Measures what a compaction of a log costs, and what it saves, beside a real Redis 7.0 that rewrites its append-only
file, in one run.

    compaction.py [--only size,pauses,restart] [--jobs N] [--entries N] [--rate N] [--runs N] [--folder FOLDER] PROGRAM

Debian: apt-get install redis-server gcc

size: so many jobs of 100 bytes are added, read, acknowledged and deleted, with 1,000 waiting at any time. Both servers
compact by themselves, as they do if nothing is set. The greatest sizes of their folders are told.
pauses: so many entries of 115 bytes, which can't be compressed, are in closed logs. So many requests a second over 50
connections, half of them XADD, half XREADGROUP, each sent at its moment by bench/paced_driver.c, are answered for some
seconds, and then while the folder is compacted: by a process of its own, as its unit has it, or by the server, which
begins at its start, since that is due. Redis is asked for BGREWRITEAOF. A run begins once the disk is at
rest; if that isn't so within two minutes, a line says so, and it begins all the same. Each
figure is the median of the runs. Behind them is the memory of the processes: resident here, private of the child of
Redis.
restart: how long a start takes on logs, and on a snapshot and the last log; of Redis on its plain file, and on its base
file. Ours is from the start of the program to its line that tells how many records it read; Redis tells its own.
"""
import argparse
import base64
import collections.abc
import contextlib
import glob
import os
import random
import re
import shutil
import signal
import socket
import statistics
import subprocess
import sys
import tempfile
import threading
import time
import typing

from log import logged_words, program_words, redis_words, start, tell_sync
from tcp import HERE, free_port, spread

sys.path.append(os.path.join(os.path.dirname(__file__), "../scripts"))
from needs import need  # noqa: E402

WAITING, BATCH = 1000, 100
# How many entries are added at once.
FILLED = 500
CONNECTIONS = 50
# How many seconds a reply may take.
PATIENCE = 60
# How long requests come before a compaction, in seconds, and how much of that isn't counted; how long they are counted
# behind it, since Redis removes its old file then.
BEFORE, WARM, BEHIND = 6, 1, 0.5
# The disk is at rest once 99 % of the syncs take at most so many seconds, in each of so many seconds in a row. It is
# waited for so many seconds at most.
REST_SYNC, REST_SECONDS, REST_PATIENCE = 0.001, 3, 120
# With entries of this size 1,000,000 of them fill three logs.
SIZE = 115


def request(*words):
    return b"*%d\r\n" % len(words) + b"".join(b"$%d\r\n%s\r\n" % (len(word), word) for word in words)


class Client:
    """Asks many requests at once."""

    def __init__(self, port):
        self.stream = socket.create_connection(("127.0.0.1", port), timeout=PATIENCE)

    def is_loading(self):
        """Whether Redis doesn't answer yet, since it reads its files."""
        self.stream.sendall(request(b"PING"))
        return not self.stream.recv(1000).startswith(b"+PONG")

    def ask(self, *requests):
        """All replies as they came."""
        self.stream.sendall(b"".join([*requests, request(b"PING")]))
        got = bytearray()
        while not got.endswith(b"+PONG\r\n"):
            piece = self.stream.recv(1 << 20)
            if not piece:
                raise SystemExit("the connection has ended")
            got += piece
        if re.search(rb"(?:^|\n)-", got):
            raise SystemExit(f"it was refused: {bytes(got[:200])}")
        return bytes(got)


# ---- size


def pass_jobs(port, jobs):
    """So many jobs pass through a queue, in which 1,000 wait at any time."""
    client, add = Client(port), request(b"XADD", b"jobs", b"*", b"f", b"v" * 100)
    read = request(b"XREADGROUP", b"GROUP", b"g", b"c", b"COUNT", b"%d" % BATCH, b"STREAMS", b"jobs", b">")
    client.ask(request(b"XGROUP", b"CREATE", b"jobs", b"g", b"0", b"MKSTREAM"), *[add] * WAITING)
    for _ in range(jobs // BATCH):
        got = client.ask(*[add] * BATCH, read)
        ids = re.findall(rb"\r\n(\d+-\d+)\r\n", got[got.index(b"*"):])
        if len(ids) != BATCH:
            raise SystemExit(f"{len(ids)} jobs were read")
        client.ask(request(b"XACK", b"jobs", b"g", *ids), request(b"XDEL", b"jobs", *ids))


def sizes(folder):
    """The bytes of each file in a folder, at any depth."""
    found = {}
    for above, _, names in os.walk(folder):
        for name in names:
            with contextlib.suppress(OSError):
                found[name] = os.path.getsize(os.path.join(above, name))
    return found


class Watch:
    """Notes the greatest size of a folder, and the number and the size of its greatest snapshots."""

    def __init__(self, folder):
        self.folder, self.over = folder, False
        self.greatest, self.last, self.snapshot = 0, 0, 0
        self.thread = threading.Thread(target=self.run)

    def run(self):
        while not self.over:
            found = sizes(self.folder)
            self.greatest = max(self.greatest, sum(found.values()))
            snapshots = {int(name[9:]): size for name, size in found.items() if re.fullmatch(r"snapshot-\d+", name)}
            self.last = max([self.last, *snapshots])
            self.snapshot = max([self.snapshot, *snapshots.values()])
            time.sleep(0.01)

    def __enter__(self):
        self.thread.start()
        return self

    def __exit__(self, *_):
        self.over = True
        self.thread.join()


def tell_size(asked, _):
    with folder_in(asked) as here, folder_in(asked) as there:
        redis = redis_words(there, "everysec") + ["--auto-aof-rewrite-percentage", "100"]
        log = "--log", os.path.join(here, "log"), "--sync", "second"
        watches = []
        for words, folder in ((program_words(asked.program, 4, *log), here), (redis, there)):
            server = start(words, None)
            with Watch(folder) as watch:
                pass_jobs(server.port, asked.jobs)
            server.end()
            watches.append(watch)
    ours, theirs = watches
    print(f"\n{asked.jobs:,} jobs, {WAITING:,} waiting: the folder has {ours.greatest / 1e6:.0f} MB at most, the last "
          f"snapshot is snapshot-{ours.last}, and the greatest has {ours.snapshot / 1e6:.2f} MB; that of Redis has "
          f"{theirs.greatest / 1e6:.0f} MB at most", flush=True)


# ---- a state of many entries


@contextlib.contextmanager
def folder_in(asked):
    with tempfile.TemporaryDirectory(dir=asked.folder) as folder:
        yield folder


def start_loaded(words):
    """A server that has read its files."""
    server = start(words, None, PATIENCE)
    client = Client(server.port)
    while client.is_loading():
        time.sleep(0.02)
    return server


def stop(server):
    server.child.send_signal(signal.SIGTERM)
    server.child.wait(timeout=60)


def fill(words, asked):
    """Fills a server's log with so many entries, and a group of their stream, and stops it."""
    server, made = start(words, None), random.Random(1)
    values = [base64.b64encode(made.randbytes(SIZE))[:SIZE] for _ in range(5000)]
    adds = [request(b"XADD", b"s", b"*", b"f", value) for value in values]
    client = Client(server.port)
    client.ask(request(b"XGROUP", b"CREATE", b"s", b"g", b"0", b"MKSTREAM"))
    for first in range(0, asked.entries, FILLED):
        client.ask(*(adds[place % len(adds)] for place in range(first, min(first + FILLED, asked.entries))))
    stop(server)


@contextlib.contextmanager
def filled(asked):
    """Folders of both that have the entries in their plain logs."""
    with folder_in(asked) as here, folder_in(asked) as there:
        for words in (logged_words(asked.program, 16, here, "no"), redis_words(there, "no")):
            fill(words, asked)
        logs = sizes(here)
        print(f"\n{asked.entries:,} entries: logs of {', '.join(f'{logs[name]:,}' for name in sorted(logs))} bytes; "
              f"of Redis {sum(sizes(os.path.join(there, 'appendonlydir')).values()):,}", flush=True)
        yield here, there


@contextlib.contextmanager
def copied(asked, folder):
    """A copy of a folder, which the disk has."""
    with folder_in(asked) as above:
        copy = shutil.copytree(folder, os.path.join(above, "copy"))
        os.sync()
        yield copy


def wait_for_rest(asked):
    """Waits until the disk does nothing else: it may still remove what was there."""
    begun, calm = time.monotonic(), 0
    with tempfile.TemporaryFile(dir=asked.folder, buffering=0) as file:
        while calm < REST_SECONDS:
            if time.monotonic() - begun > REST_PATIENCE:
                print("(the disk didn't come to rest)", flush=True)
                return
            taken, second = [], time.monotonic()
            while time.monotonic() - second < 1:
                file.write(bytes(100))
                before = time.monotonic()
                os.fdatasync(file.fileno())
                taken.append(time.monotonic() - before)
            taken.sort()
            calm = calm + 1 if taken[len(taken) * 99 // 100] <= REST_SYNC else 0


def memory(process, name="VmRSS"):
    """The bytes that a process has resident, or 0 if it is gone."""
    with contextlib.suppress(OSError, StopIteration), open(f"/proc/{process}/status", encoding="ascii") as lines:
        return int(next(line for line in lines if line.startswith(name)).split()[1]) * 1024
    return 0


def private(process):
    """The bytes that a process shares with none."""
    with contextlib.suppress(OSError), open(f"/proc/{process}/smaps_rollup", encoding="ascii") as lines:
        return sum(int(line.split()[1]) * 1024 for line in lines if line.startswith("Private_"))
    return 0


def compact(asked, folder, server):
    """Compacts a folder beside its server. It gives the greatest memory of both."""
    child = subprocess.Popen(["ionice", "-c", "3", asked.program, "compact", os.path.join(folder, "log")],
                             stderr=subprocess.DEVNULL, preexec_fn=lambda: os.setpriority(os.PRIO_PROCESS, 0, 19))
    used = [0, 0]
    while child.poll() is None:
        used = [max(used[0], memory(child.pid)), max(used[1], memory(server.child.pid))]
        time.sleep(0.005)
    if child.returncode != 0:
        raise SystemExit("the compaction failed")
    return used


def rewrite(_, __, server):
    """Has Redis rewrite its file. It gives the greatest memory of the child and of the server."""
    client, used, status = Client(server.port), [0, 0], b"aof_rewrite_in_progress:1"
    client.ask(request(b"BGREWRITEAOF"))
    while b"aof_rewrite_in_progress:1" in status or b"aof_rewrite_scheduled:1" in status:
        for path in glob.glob(f"/proc/{server.child.pid}/task/*/children"):
            with open(path, encoding="ascii") as children:
                used[0] = max([used[0], *map(private, children.read().split())])
        used[1] = max(used[1], memory(server.child.pid))
        time.sleep(0.005)
        status = client.ask(request(b"INFO", b"persistence"))
    if b"aof_last_bgrewrite_status:ok" not in status:
        raise SystemExit("Redis' rewrite failed")
    return used


# ---- pauses


def compact_itself(_, __, server):
    """Waits until a server has compacted its folder, which it begins at its start. It gives the server's greatest
    memory."""
    client, used, status = Client(server.port), 0, b""
    while b"log_snapshot:0" in status or b"log_snapshot" not in status or b"aof_rewrite_in_progress:1" in status:
        used = max(used, memory(server.child.pid))
        time.sleep(0.005)
        status = client.ask(request(b"INFO", b"persistence"))
    return [0, used]


class Way(typing.NamedTuple):
    """A way to compact: the place of its folder, the words of its server, the work, and for how many seconds requests
    come before it."""
    folder: int
    words: collections.abc.Callable
    work: collections.abc.Callable
    before: float


def ways(asked, ours, theirs):
    """The ways by their names, with these policies. Redis is the last one."""
    def logged(when):
        return lambda folder: logged_words(asked.program, CONNECTIONS, folder, ours, when)

    return {"a process": Way(0, logged("never"), compact, BEFORE),
            "the server": Way(0, logged("serving"), compact_itself, 0),
            "Redis": Way(1, lambda folder: redis_words(folder, theirs), rewrite, BEFORE)}


def latencies(lines, kind, begin, end):
    """Of the requests of this kind that were due between two moments, in microseconds."""
    rows = [line.split() for line in lines]
    return [int(late) for name, due, late in rows if name == kind and begin <= int(due) / 1e6 <= end]


class Run(typing.NamedTuple):
    """The latencies of both kinds before a work and during it, how long it took, and the memory of the server before it,
    of what compacts, and of the server meanwhile."""
    before: list
    meanwhile: list
    took: float
    memory: list


def one_run(asked, way, folder, paced):
    server = start_loaded(way.words(folder))
    try:
        asking = [paced, str(server.port), str(CONNECTIONS), str(asked.rate), "600", "s", "g", "v" * SIZE]
        driver = subprocess.Popen(asking, stdout=subprocess.PIPE, text=True)
        lines = []
        reader = threading.Thread(target=lambda: lines.extend(driver.stdout))
        reader.start()
        began = time.monotonic()
        time.sleep(way.before)
        before, first = memory(server.child.pid), time.monotonic()
        used = way.work(asked, folder, server)
        last = time.monotonic()
        time.sleep(BEHIND)
        driver.send_signal(signal.SIGTERM)
        reader.join()
        if driver.wait() != 0:
            raise SystemExit("the driver failed")
    finally:
        server.end()
    spans = ((began + WARM, first), (first, last + BEHIND))
    return Run(*([latencies(lines, kind, *span) for kind in "ar"] for span in spans), last - first, [before, *used])


def at_parts(values):
    """In the middle, at 99 % and at 99.9 %."""
    ordered = sorted(values)
    return [ordered[int(len(ordered) * part)] for part in (0.5, 0.99, 0.999)]


def pause_lines(runs, span):
    """A line for each kind of request and each way, in a span: the latencies, those by Redis', and how many requests
    were in a run, each the median of the runs."""
    def cells(rows, form):
        return " / ".join(f"{statistics.median(row):{form}}" for row in zip(*rows))

    for kind, name in enumerate(("XADD", "XREADGROUP")):
        theirs = [at_parts(getattr(run, span)[kind]) for run in runs["Redis"]]
        for way, ones in runs.items():
            asked = [getattr(run, span)[kind] for run in ones]
            if not all(asked):
                continue
            ours = [at_parts(values) for values in asked]
            by = [[one / max(other, 1) for one, other in zip(*pair)] for pair in zip(ours, theirs)]
            yield (f"| {name}, {span}, {way} | {cells(ours, ',.0f')} | {cells(by, '.2f')} "
                   f"| {statistics.median(map(len, asked)):,.0f} |")


def tell_memory(runs):
    for way, ones in runs.items():
        first, other, meanwhile = (statistics.median(run.memory[place] for run in ones) / 1e6 for place in range(3))
        print(f"By {way} it took {spread([run.took for run in ones], '.1f')} s. MB: what compacts {other:.0f}, the server "
              f"before {first:.0f}, meanwhile {meanwhile:.0f}", flush=True)


def tell_pauses(asked, paced):
    with filled(asked) as folders:
        for ours, theirs in (pair.split("/") for pair in asked.policies.split(",")):
            them = ways(asked, ours, theirs)
            runs = {name: [] for name in them}
            for _ in range(asked.runs):
                for name, way in them.items():
                    with copied(asked, folders[way.folder]) as folder:
                        wait_for_rest(asked)
                        runs[name].append(one_run(asked, way, folder, paced))
            print(f"\n`--sync {ours}`, `appendfsync {theirs}`, {asked.rate:,} requests a second: latencies in µs in "
                  "the middle, at 99 % and 99.9 %\n\n| Requests | µs | by Redis | How many in a run |\n|---|---|---|---|")
            for span in ("before", "meanwhile"):
                print("\n".join(pause_lines(runs, span)))
            tell_memory(runs)


# ---- restart


def start_here(asked, folder):
    """How many seconds a start takes, and how many entries it has."""
    port = free_port()
    words = [str(port) if word == "PORT" else word
             for word in logged_words(asked.program, 16, folder, "no")]
    began = time.perf_counter()
    child = subprocess.Popen(words, stderr=subprocess.PIPE, text=True)
    try:
        next(line for line in child.stderr if "records, " in line)
        took = time.perf_counter() - began
        next(line for line in child.stderr if "listening on" in line)
        return took, Client(port).ask(request(b"XLEN", b"s"))
    finally:
        child.kill()
        child.communicate()


def start_redis(_, folder):
    """The seconds that Redis tells, and how many entries it has."""
    log = os.path.join(folder, "redis.log")
    with contextlib.suppress(FileNotFoundError):
        os.remove(log)
    server = start_loaded(redis_words(folder, "no"))
    try:
        with open(log, encoding="utf-8") as lines:
            took = re.search(r"DB loaded from append only file: ([0-9.]+) seconds", lines.read())[1]
        return float(took), Client(server.port).ask(request(b"XLEN", b"s"))
    finally:
        server.end()


def compact_all(asked, folder):
    subprocess.run([asked.program, "compact", os.path.join(folder, "log")], check=True, stderr=subprocess.DEVNULL)


def rewrite_all(asked, folder):
    server = start_loaded(redis_words(folder, "no"))
    rewrite(asked, folder, server)
    stop(server)


def tell_restart(asked, _):
    with filled(asked) as (here, there), copied(asked, here) as short, copied(asked, there) as base:
        compact_all(asked, short)
        rewrite_all(asked, base)
        ways = {"logs": (start_here, here), "a snapshot and the last log": (start_here, short),
                "Redis' plain file": (start_redis, there), "Redis' base file": (start_redis, base)}
        took = {name: [] for name in ways}
        for _ in range(asked.runs):
            for name, (begin, folder) in ways.items():
                seconds, told = begin(asked, folder)
                if told != b":%d\r\n+PONG\r\n" % (asked.entries):
                    raise SystemExit(f"behind a start on {name} there are {told} entries")
                took[name].append(seconds)
        print("\n| A start on | s | by Redis' plain file | by its base file | MB |\n|---|---|---|---|---|")
        for name, (_, folder) in ways.items():
            by = [spread([one / max(other, 0.001) for one, other in zip(took[name], took[way])], ".2f")
                  for way in ("Redis' plain file", "Redis' base file")]
            size = sum(sizes(folder).values()) / 1e6
            print(f"| {name} | {spread(took[name], '.2f')} | {by[0]} | {by[1]} | {size:.0f} |", flush=True)


WORKS = {"size": tell_size, "pauses": tell_pauses, "restart": tell_restart}


def main():
    parser = argparse.ArgumentParser(description=__doc__, formatter_class=argparse.RawDescriptionHelpFormatter)
    parser.add_argument("--only", default=",".join(WORKS))
    parser.add_argument("--jobs", type=int, default=2_000_000)
    parser.add_argument("--entries", type=int, default=1_000_000)
    parser.add_argument("--rate", type=int, default=5000)
    parser.add_argument("--runs", type=int, default=5)
    parser.add_argument("--policies", default="always/always,second/everysec")
    parser.add_argument("--folder", default=tempfile.gettempdir())
    parser.add_argument("program")
    asked = parser.parse_args()
    need("redis-server", "redis-server")
    need("cc", "gcc")
    with folder_in(asked) as folder:
        tell_sync(folder)
        paced = os.path.join(folder, "paced_driver")
        subprocess.run(["cc", "-O2", "-o", paced, os.path.join(HERE, "paced_driver.c")], check=True)
        for name in asked.only.split(","):
            WORKS[name](asked, paced)


if __name__ == "__main__":
    main()
