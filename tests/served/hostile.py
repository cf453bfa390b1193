#!/usr/bin/env python3
"""Runs the program as a server for clients that are hostile, unlucky or many, over plain sockets.

    hostile.py PROGRAM

After each case every worker of the server has to answer a PING, all at once. Replies are those of the Redis pages of
the commands and of the RESP specification; docs/COMMANDS.md has the texts of errors. What is short stands in serves.py,
which CI runs. The last line is 'N passed, M failed'; the status is 1 if M > 0.
"""
import contextlib
import random
import resource
import signal
import socket
import subprocess
import sys
import threading
import time

import full_queue
import max_memory
import sessions
from full_queue import MEGABYTE, NO_MEMORY, limit_memory
from resp import bulk, number, request
from served import (PING, PONG, all_answer, asking, fill, raw, read_exactly, read_to_end, reset, running, say, say_at,
                    serving, together, try_all)

WORKERS = 8
PROTOCOL = b"-ERR Protocol error\r\n"
PAUSE = 0.05


def never_reads(server):
    """Clients that ask for a megabyte again and again, and never read: the server waits for each, and holds no more."""
    fill(server, "unread", 10, 100_000)
    before = server.resident()
    with contextlib.ExitStack() as open_ones:
        for _ in range(WORKERS - 1):
            stream = open_ones.enter_context(raw(server.port))
            stream.setblocking(False)
            assert stream.send(asking("XRANGE unread - +") * 1000) > 0
        time.sleep(1)
        say_at(server, "XLEN unread", number(10))
        grown = server.resident() - before
        assert grown < WORKERS * 8 * MEGABYTE, f"{grown} more bytes in use"
    say_at(server, "DEL unread", number(1))


def random_bytes(server):
    """10,000,000 random bytes in 2,000 connections: each ends with the protocol error."""
    made = random.Random(1)
    for place in range(2000):
        with raw(server.port) as stream:
            sent = made.randbytes(5000)
            stream.sendall(sent)
            stream.shutdown(socket.SHUT_WR)
            got, _ = read_to_end(stream)
            assert got == PROTOCOL, f"connection {place} that began with {sent[:40]!r} was answered {got!r}"


def random_value(server):
    """10,000,000 random bytes in one connection, and as one value, which comes back as it was."""
    sent = random.Random(2).randbytes(10_000_000)
    with raw(server.port) as stream:
        with contextlib.suppress(ConnectionResetError, BrokenPipeError):
            stream.sendall(sent)
        got, _ = read_to_end(stream)
        assert PROTOCOL.startswith(got), got
    with raw(server.port) as stream:
        stream.sendall(request([b"XADD", b"random", b"1-1", b"f", sent]) + asking("XRANGE random - +"))
        want = bulk("1-1").encode() + b"*1\r\n*2\r\n$3\r\n1-1\r\n*2\r\n$1\r\nf\r\n$10000000\r\n" + sent + b"\r\n"
        assert read_exactly(stream, len(want)) == want
    say_at(server, "DEL random", number(1))


def great_promises(server):
    """Headers that promise 512 MB, or a million words of so many bytes, take no memory before the bytes come."""
    before = server.resident()
    with contextlib.ExitStack() as open_ones:
        for place in range(WORKERS - 1):
            stream = open_ones.enter_context(raw(server.port))
            stream.sendall(b"*%d\r\n$536870912\r\n" % (3 if place % 2 else 1_048_576) + b"abc")
        time.sleep(0.5)
        say_at(server, "PING", "+PONG\r\n")
        grown = server.resident() - before
        assert grown < 4 * MEGABYTE, f"{grown} more bytes in use"


def great_requests(server):
    """What a request of 40 MB took is given back once it is answered, though its connection stays open; malloc keeps
    some of it for all."""
    before = server.resident()
    with contextlib.ExitStack() as open_ones:
        for _ in range(WORKERS - 1):
            stream = open_ones.enter_context(raw(server.port))
            value = b"v" * 40_000_000
            stream.sendall(request([b"NONE", value]))
            assert read_exactly(stream, 22) == b"-ERR unknown command\r\n"
        say_at(server, "PING", "+PONG\r\n")
        grown = server.resident() - before
        assert grown < 100 * MEGABYTE, f"{grown} more bytes in use"


def most_words(server):
    """Requests of 1,048,576 words, the most there may be, are answered; the fifth takes no more memory."""
    used = []
    with raw(server.port) as stream:
        for _ in range(5):
            stream.sendall(b"*1048576\r\n$3\r\nDEL\r\n" + b"$0\r\n\r\n" * 1_048_575)
            assert read_exactly(stream, 4) == b":0\r\n"
            say(stream, "PING", "+PONG\r\n")
            used.append(server.resident())
    assert used[-1] - used[0] < MEGABYTE, used


READER = """
import socket, sys, time
stream = socket.create_connection(("127.0.0.1", int(sys.argv[1])))
stream.sendall(sys.stdin.buffer.read())
stream.recv(1000)
print("reading", flush=True)
time.sleep(60)
"""


def killed_in_reply(server):
    """Clients end within a reply that they have begun to read: by a reset, and by the kill of their process."""
    fill(server, "killed", 50, 100_000)
    asked = asking("XRANGE killed - +")
    for _ in range(2 * WORKERS):
        stream = raw(server.port)
        stream.sendall(asked)
        assert len(stream.recv(1000)) > 0
        reset(stream)
    for _ in range(WORKERS):
        child = subprocess.Popen([sys.executable, "-c", READER, str(server.port)], stdin=subprocess.PIPE,
                                 stdout=subprocess.PIPE)
        child.stdin.write(asked)
        child.stdin.close()
        assert child.stdout.readline() == b"reading\n"
        child.send_signal(signal.SIGKILL)
        child.wait()
        child.stdout.close()
    say_at(server, "XLEN killed", number(50))
    say_at(server, "DEL killed", number(1))


def almost_requests(server):
    """Connections as sessions.py makes them, from 8 clients at once: whole requests, wrong, changed and
    cut ones. Each is answered what the plain reader there says."""
    def work(place):
        made = random.Random(place)
        for turn in range(60):
            data = sessions.connection(made)
            got, want = sessions.answered(server.port, data, turn), sessions.served(data)
            assert got == want, f"client {place}, connection {turn}: {len(got)} bytes came, not {len(want)}"

    together(WORKERS, work)


def with_pauses(server):
    """8 clients that pause between their requests, so that workers and keeper sleep and are woken again and again: each
    reply comes within the time that a connection waits."""
    def work(place):
        made, end = random.Random(place), time.monotonic() + 3
        with raw(server.port) as stream:
            stream.settimeout(10)
            while time.monotonic() < end:
                say(stream, "PING", "+PONG\r\n")
                time.sleep(made.choice([0, 0, 0.0001, 0.001, 0.003, 0.02]))

    together(WORKERS, work)


def greedy(server):
    """Clients that ask for 100 KB as fast as they can don't keep another one from its replies."""
    reply, asked = fill(server, "greedy", 10, 10_000), asking("XRANGE greedy - +")
    ended = threading.Event()

    def work(place):
        with raw(server.port) as stream:
            while place > 0 and not ended.is_set():
                stream.sendall(asked * 10)
                assert read_exactly(stream, 10 * len(reply)) == reply * 10
            if place == 0:
                stream.settimeout(10)
                ask_now_and_then(stream)

    def ask_now_and_then(stream):
        try:
            for _ in range(200):
                say(stream, "PING", "+PONG\r\n")
                time.sleep(PAUSE / 10)
        finally:
            ended.set()

    together(WORKERS, work)
    say_at(server, "DEL greedy", number(1))


def add_until_refused(stream, first, size):
    """Adds entries from this id on until memory runs out, and gives the first id that was refused."""
    for place in range(first, first + 1_000_000):
        stream.sendall(asking(f"XADD s {place}-0 f {'v' * size}"))
        got = stream.recv(1000)
        if got == NO_MEMORY:
            return place
        assert got == bulk(f"{place}-0").encode(), got
    raise AssertionError("memory didn't run out")


def served_or_ended(server, sent, reply):
    """Whether the request is answered; where there is no memory for the connection it ends, with nothing or OOM."""
    with raw(server.port) as stream:
        with contextlib.suppress(OSError):
            stream.sendall(sent)
            stream.shutdown(socket.SHUT_WR)
        got, _ = read_to_end(stream)
        assert got in (reply, NO_MEMORY, b""), got[:100]
        return got == reply


def little_memory(program):
    """An address space that is 64 MB larger than what the server has once each worker has served. Requests that don't
    fit are refused, or their connection ends; then the server goes on, with what it has and after a DEL."""
    with serving(program, workers=4) as server:
        all_answer(server)
        limit_memory(server, 64 * MEGABYTE)
        held = []
        for _ in range(3):
            with raw(server.port) as stream:
                refused = add_until_refused(stream, 1, 100_000)
                served_or_ended(server, asking("XRANGE s - +"), None)
                say(stream, "XLEN s", number(refused - 1))
                say(stream, "DEL s", number(1))
                held.append(refused)
            all_answer(server)
        assert 100 < max(held) < min(held) * 2, held
        for _ in range(server.workers):
            sent = b"*2\r\n$4\r\nPING\r\n$500000000\r\n" + b"v" * 200_000_000
            assert not served_or_ended(server, sent, None)
        all_answer(server)


def no_memory_for_connections(program):
    """Memory runs out so far that none is left for a connection. Such a connection ends, and no worker with it."""
    workers = 4
    with serving(program, workers=workers) as server, raw(server.port) as stream:
        say(stream, "PING", "+PONG\r\n")
        limit_memory(server, 16 * MEGABYTE)
        place = 1
        for size in (100_000, 1000, 100, 30):
            place = add_until_refused(stream, place, size)
        served = sum(served_or_ended(server, PING, PONG) for _ in range(5 * workers))
        print(f"of {5 * workers} connections without memory {served} were served", flush=True)
        say(stream, "XLEN s", number(place - 1))
        say(stream, "DEL s", number(1))
        stream.close()
        all_answer(server)


def full_queues(program):
    """Consumers empty a queue that has filled the memory, in the ways that serves.py leaves out."""
    full_queue.with_many_workers(program, "XDEL")
    full_queue.under_a_bound(program, "XTRIM")
    full_queue.with_many_workers(program, "NOACK")


def four_gigabytes(program):
    """Consumers take jobs one by one from 64 workers, while memory is full under a bound of 4 GiB that was set at the
    start, and two producers never stop."""
    with running(program, workers=64, limits={resource.RLIMIT_AS: 4096 * MEGABYTE}) as server:
        full_queue.consume_beside_producers(server, 3000, (1,))


def two_gigabytes(program):
    """Consumers take one and several jobs at once from 16 workers, while memory is full under a bound of 2,000,000 KiB
    that was set at the start, and two producers never stop."""
    for of_program in (serving, running):
        with of_program(program, workers=16, limits={resource.RLIMIT_AS: 2_000_000 * 1024}) as server:
            full_queue.consume_beside_producers(server, 600)


def bounded_queue(program):
    """Producers and consumers for a minute, over a queue that is full by its bound, with many workers."""
    max_memory.beside_producers(program, workers=64, seconds=60)


def no_memory_kept(program):
    """After 10,000 connections the server has the memory that it had after 100, up to 1 MB."""
    with serving(program, workers=WORKERS) as server:
        def connect(count):
            for place in range(count):
                with raw(server.port) as stream:
                    say(stream, "XADD s 1-1 f v", bulk("1-1"))
                    say(stream, "DEL s", number(1))
                    if place % 3:
                        stream.sendall(PING[:place % len(PING)])
            all_answer(server)
            return server.resident()

        few, many = connect(100), connect(9900)
        print(f"memory after 100 connections: {few // 1024} KiB, after 10,000: {many // 1024} KiB", flush=True)
        assert many - few < MEGABYTE, (few, many)


def main(arguments):
    if len(arguments) != 1:
        print(__doc__)
        return 2
    return try_all(arguments[0], (never_reads, random_bytes, random_value, almost_requests, great_promises,
                                  great_requests, most_words, killed_in_reply, with_pauses, greedy),
                   (little_memory, no_memory_for_connections, full_queues, two_gigabytes, four_gigabytes,
                    bounded_queue, no_memory_kept), WORKERS)


if __name__ == "__main__":
    sys.exit(main(sys.argv[1:]))
