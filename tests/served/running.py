#!/usr/bin/env python3
"""Runs the program by `run`, as a service does, and checks over sockets what no proof covers.

    running.py PROGRAM

Readers that wait and the clients that leave them (waiting.py), more connections than workers, few descriptors, little
memory, a bound on what is held (max_memory.py), what clients send when they connect (greetings.py) and before they have
given a password (passwords.py), MULTI and EXEC (transactions.py), INFO (information.py), a wall clock that is set
(clock_steps.py), the options. Cases that mostly wait are tried together. It needs Python's standard library, and a C
compiler for the clock, which is installed if it isn't there. The last line is 'N passed, M failed'; the status is 1 if
M > 0.

Refused were also programs in which: the youngest reader is served first; a change reaches no reader; only the first key
is watched; a reply is an empty array; a wait is too short, or never ends; replies before a wait are held back; an end
isn't noticed; a connection is refused at once, never, or although it was executed; workers are lost.
"""
import contextlib
import os
import re
import resource
import select
import socket
import struct
import subprocess
import sys
import time

import clock_steps
import full_queue
import greetings
import information
import logged
import max_memory
import passwords
import served
import serves
import transactions
import waiting
from full_queue import MEGABYTE
from resp import bulk, number, read_reply
from served import (FULL, MOST_FAULTS, PATIENCE, PING, PONG, all_answer, asking, pass_together, passes, raw,
                    read_to_end, reset, running, say, tell, timed)
from waiting import NOTHING, NOTICED, OK, Clients, add, begin, comes, gives, make, nothing_comes, reading, refuses

sys.path.append(os.path.join(os.path.dirname(__file__), "../../scripts"))
from needs import need  # noqa: E402

# How many workers the server has that the cases of readers share, and the most that there may be.
SHARED, MOST_WORKERS = 128, 1024
# In seconds: how soon connections are accepted again, once there are descriptors.
ACCEPTS_AGAIN = 2


def run(words, **how):
    """What becomes of a program that ends by itself."""
    return subprocess.run(words, capture_output=True, timeout=30, **how)


# ---- more connections than workers


def is_refused(stream, began, least, most):
    """The connection is told that there are too many, between so many seconds behind this moment, and then ends. It isn't
    reset: some systems would drop what it was told."""
    stream.settimeout(most + 1)
    told = read_to_end(stream)
    took = time.monotonic() - began
    assert told == (FULL, False), told
    assert least - 0.02 <= took <= most, f"refused after {took} s"


def forty_too_many(program):
    """With 4 workers that are busy, two of them with readers that wait, 40 more connections are refused after a second,
    and nothing that they sent is executed. When one ends, a new one is served. Refuses: connections wait for a worker
    for 2.5 seconds."""
    with running(program, workers=4) as server, Clients(server.port) as clients:
        one, idle = clients.new(), clients.new()
        make(one, "busy")
        for name in "ab":
            clients.waiting(name, "busy")
        say(idle, "PING", PONG.decode())
        more = []
        for place in range(1, 41):
            more.append((time.monotonic(), clients.new()))
            more[-1][1].sendall(asking(f"XADD refused {place}-0 f v"))
        for began, stream in more:
            is_refused(stream, began, 1, 2)
        say(one, "XLEN refused", number(0))
        idle.close()
        add(clients.new(), "refused", 1)
        say(one, "XLEN refused", number(1))


def sends_on_though_it_is_told(program):
    """One that is told that there are too many, and sends on a little, isn't reset meanwhile: some systems would drop
    what it was told. The machine may be busy, and its time over; so one of five tries counts. Refuses: a client that is
    told to leave is closed before all that it sends is read."""
    def is_left_alone(stream):
        stream.settimeout(3)
        select.select([stream], [], [], 3)
        try:
            for _ in range(8):
                stream.sendall(PING)
                time.sleep(0.004)
        except OSError:
            return False
        return read_to_end(stream) == (FULL, False)

    with running(program, workers=1) as server, Clients(server.port) as clients:
        say(clients.new(), "PING", PONG.decode())
        more, left_alone = [clients.new() for _ in range(5)], []

        def work(place):
            left_alone.append(is_left_alone(more[place]))

        served.together(len(more), work)
        assert any(left_alone), "it was reset"


def one_ends_in_time(program):
    """Of connections that come when all workers are busy as many are served, each request once, as others end within a
    second, and the rest is refused."""
    with running(program, workers=4) as server, Clients(server.port) as clients:
        held = [clients.new() for _ in range(4)]
        for stream in held:
            say(stream, "PING", PONG.decode())
        for ended in (1, 2):
            began = time.monotonic()
            late = [clients.new() for _ in range(3)]
            for place, stream in enumerate(late):
                stream.sendall(asking(f"XADD late{ended} * f {place}"))
            time.sleep(0.4)
            for _ in range(ended):
                held.pop().close()
            replies = []
            for stream in late:
                stream.settimeout(3)
                replies.append(stream.recv(100))
            assert time.monotonic() - began <= 3
            served_ones = [stream for stream, reply in zip(late, replies) if reply.startswith(b"$")]
            assert len(served_ones) == ended and replies.count(FULL) == 3 - ended, replies
            say(served_ones[0], f"XLEN late{ended}", number(ended))
            held += served_ones


def in_their_order(program):
    """Of connections that wait for a worker the one that came first is served first."""
    with running(program, workers=1) as server, Clients(server.port) as clients:
        held = clients.new()
        say(held, "PING", PONG.decode())
        for _ in range(3):
            late = [clients.new() for _ in range(3)]
            for stream in late:
                stream.sendall(PING)
            held.close()
            comes(late[0], PONG.decode())
            nothing_comes(0.05, *late[1:])
            for stream in late[1:]:
                stream.close()
            held = late[0]


def sends_while_it_waits(program):
    """What a client sends while its read waits is held up to a bound: then it isn't taken from the system any more.
    None of it is lost. Refuses: what a client sends while its read waits is held without a bound; what is read ahead
    beyond 64 KiB is lost."""
    most = 40 * MEGABYTE
    with running(program, workers=2) as server, Clients(server.port) as clients:
        one, sent = clients.new(), 0
        make(one, "held")
        stream, before = clients.waiting("a", "held"), server.resident()
        stream.setblocking(False)
        deadline = time.monotonic() + 4
        while sent < most and time.monotonic() < deadline:
            try:
                sent += stream.send((PING * 10_000)[sent % len(PING):])
            except BlockingIOError:
                time.sleep(0.01)
        grown = server.resident() - before
        assert sent < most and grown < 2 * MEGABYTE, (sent, grown)
        add(one, "held", 1)
        stream.setblocking(True)
        comes(stream, gives("held", 1) + PONG.decode() * (sent // len(PING)))


def more_than_may_wait(program):
    """More connections come than may wait for the one worker, for which there are too few descriptors: each is told so,
    and nothing that it sent is executed. Refuses: a connection that finds no room to wait is closed silently; 1,024
    connections may wait, however few descriptors there are."""
    with running(program, workers=1, limits={resource.RLIMIT_NOFILE: 100}) as server, Clients(server.port) as clients:
        one = clients.new()
        say(one, "PING", PONG.decode())
        began, more = time.monotonic(), [clients.new() for _ in range(150)]
        for stream in more:
            stream.sendall(asking("XADD refused * f v"))
        # fewer than 100 have room, for so long as they may wait; the others are told at once
        time.sleep(max(0, began + 0.7 - time.monotonic()))
        told = len(select.select(more, [], [], 0)[0])
        assert told >= 50, f"{told} were told at once"
        for stream in more:
            is_refused(stream, began, 0, 4)
        say(one, "XLEN refused", number(0))


def may_have(count):
    """Whether this process may have so many descriptors; its limit is raised for that."""
    soft, hard = resource.getrlimit(resource.RLIMIT_NOFILE)
    if hard != resource.RLIM_INFINITY and hard < count:
        print(f"passed over: the limit of open files is {hard}, not {count}", flush=True)
        return False
    if soft != resource.RLIM_INFINITY and soft < count:
        resource.setrlimit(resource.RLIMIT_NOFILE, (count, hard))
    return True


def a_thousand(program):
    """1,024 connections are served at once. The next is refused, and what it sent isn't executed; when one ends,
    another one is served. Refuses: the memory of all 1,024 workers is made at the start."""
    if not may_have(3000):
        return
    with running(program, workers=MOST_WORKERS) as server, Clients(server.port) as clients:
        # docs/CLIENTS.md says 418 MiB: the memory of so many connections is made when they come
        assert server.address_space() < 460 * MEGABYTE, server.address_space()
        held = [clients.new() for _ in range(MOST_WORKERS)]
        for _ in range(2):
            for stream in held:
                stream.sendall(PING)
            for stream in held:
                comes(stream, PONG.decode())
        began, more = time.monotonic(), clients.new()
        more.sendall(asking("XADD refused 1-0 f v"))
        is_refused(more, began, 1, 2)
        say(held[0], "XLEN refused", number(0))
        held.pop().close()
        add(clients.new(), "refused", 1)


def busy_among_idle(program):
    """64 connections that are busy among 960 that are idle: all are answered, and so are the idle ones in the end.
    Refuses: a lane at rest isn't looked at, though its client gives notice."""
    if not may_have(3000):
        return
    with running(program, workers=MOST_WORKERS) as server, Clients(server.port) as clients:
        idle, busy = [clients.new() for _ in range(960)], [clients.new() for _ in range(64)]
        for _ in range(10):
            for name, stream in enumerate(busy):
                stream.sendall(asking(f"XADD busy{name} * f v") * 20)
            for stream in busy:
                with stream.makefile("rb") as replies:
                    assert all(read_reply(replies).startswith(b"$") for _ in range(20))
        for name, stream in enumerate(busy):
            say(stream, f"XLEN busy{name}", number(200))
        for stream in idle:
            stream.sendall(PING)
        for stream in idle:
            comes(stream, PONG.decode())


def a_thousand_wait(program):
    """1,000 readers wait: each has a job, in the order in which they began to, and then is told that its key is gone."""
    if not may_have(3000):
        return
    with running(program, workers=MOST_WORKERS) as server, Clients(server.port) as clients:
        one, readers = clients.new(), [clients.new() for _ in range(1000)]
        make(one, "many")
        for name, stream in enumerate(readers):
            begin(stream, reading(f"c{name}", "many", "COUNT 1 BLOCK 0"))
        nothing_comes(0.5, *readers)
        for first in range(1, 1001, 100):
            places = range(first, first + 100)
            one.sendall(b"".join(asking(f"XADD many {place}-0 f v") for place in places))
            comes(one, "".join(bulk(f"{place}-0") for place in places))
        for place, stream in enumerate(readers, 1):
            comes(stream, gives("many", place))
            begin(stream, reading(f"c{place - 1}", "many"))
        nothing_comes(0.5, *readers)
        say(one, "DEL many", number(1))
        for stream in readers:
            refuses(stream, "NOGROUP")


# ---- delays and costs


@timed
def without_delay(program):
    """A small reply behind another one comes at once, as under `serve`. Refuses: Nagle's delay stays on under `run`."""
    with running(program) as server:
        serves.without_delay(server)


def time_of(server, count, ask):
    """The microseconds of processor time that the server takes for each of so many calls of this function."""
    before = server.processor_time()
    for place in range(count):
        ask(place)
    return (server.processor_time() - before) / count * 1e6


def time_of_bursts(server, stream):
    """The same of a burst of 64 requests and the pause behind it: the best of three tries, since the machine may be
    busy."""
    def ask(_):
        stream.sendall(PING * 64)
        comes(stream, PONG.decode() * 64)
        time.sleep(0.0015)

    return min(time_of(server, 200, ask) for _ in range(3))


@timed
def idle_ones_cost_little(program):
    """Requests cost about as much beside 1,000 connections that are idle as on a server of four workers. Refuses: no
    lane is ever at rest."""
    if not may_have(3000):
        return
    with running(program) as server, raw(server.port) as one:
        alone = time_of_bursts(server, one)
    with running(program, workers=MOST_WORKERS) as server, Clients(server.port) as clients:
        one, idle = clients.new(), [clients.new() for _ in range(1000)]
        for stream in idle:
            say(stream, "PING", PONG.decode())
        beside = time_of_bursts(server, one)
        print(f"{alone:.0f} us a burst, and {beside:.0f} beside 1,000 idle connections", flush=True)
        assert beside < 2 * alone, (alone, beside)


def pieces_of_a_pipeline(program):
    """The replies to 500 requests that come in one piece come in a few pieces, not one by one. Refuses: each reply is
    sent separately."""
    with running(program) as server, raw(server.port) as one:
        one.sendall(PING * 500)
        comes(one, PONG.decode() * 500)
        # 140 is where tcpi_segs_in lies in Linux's struct tcp_info
        pieces = struct.unpack_from("I", one.getsockopt(socket.IPPROTO_TCP, socket.TCP_INFO, 256), 140)[0]
        print(f"500 replies came in {pieces} pieces", flush=True)
        assert pieces <= 50, pieces


@timed
def readers_cost_little(program):
    """An addition costs little though 500 readers wait for others: of the same group, or of other keys. Refuses: all
    keys are alike to waiting readers; one that finds nothing doesn't spare those of its key and group."""
    if not may_have(3000):
        return
    with running(program, workers=MOST_WORKERS) as server, Clients(server.port) as clients:
        one = clients.new()
        make(one, "same")

        def ask(place):
            say(one, f"XADD alone {place + 1}-0 f v", bulk(f"{place + 1}-0"))

        alone, keys = time_of(server, 2000, ask), [f"key{name}" for name in range(500)]
        make(one, *keys)
        for name, key in enumerate(keys):
            begin(clients.new(), reading(f"c{name}", key))
        time.sleep(0.5)

        def ask_beside(place):
            ask(place + 2000)

        of_others = time_of(server, 2000, ask_beside)
        readers = [clients.new() for _ in range(500)]
        for name, stream in enumerate(readers):
            begin(stream, reading(f"c{name}", "same", "COUNT 1 BLOCK 0"))
        time.sleep(0.5)

        def serve_one(place):
            add(one, "same", place + 1)
            comes(readers[place], gives("same", place + 1))

        of_one = time_of(server, 400, serve_one)
        print(f"{alone:.0f} us an addition, {of_others:.0f} beside readers of other keys, {of_one:.0f} with one that it "
              "ends the wait of", flush=True)
        assert max(of_others, of_one) < 4 * alone + 400, (alone, of_others, of_one)


@timed
def pauses_cost_little(program):
    """Requests that come a few milliseconds apart take little processor time: nobody looks for the next one for long.
    Refuses: a side looks 5,000 times before it parks; calls are always taken to follow fast."""
    with running(program) as server, raw(server.port) as one:
        def pause_and_ask(_):
            time.sleep(0.003)
            say(one, "PING", PONG.decode())

        apart = min(time_of(server, 500, pause_and_ask) for _ in range(2))
        print(f"{apart:.0f} us a request behind a pause", flush=True)
        assert apart < 170, apart


@timed
def fast_ones_behind_pauses_wake_few(program):
    """Requests that follow fast behind others with pauses are served as such: the threads don't go to sleep at each. A
    worker does so where it waits for the next request, once a request. Refuses: once calls have been slow they are
    never taken to follow fast again."""
    with running(program) as server, raw(server.port) as one:
        for _ in range(20):
            time.sleep(0.01)
            say(one, "PING", PONG.decode())
        tries = []
        while len(tries) < 5 and not (tries and tries[-1] < 1.9):
            before = server.waits()
            for _ in range(1000):
                say(one, "PING", PONG.decode())
            tries.append((server.waits() - before) / 1000)
        print(f"the threads went to sleep {tries[-1]:.2f} times a request", flush=True)
        assert tries[-1] < 1.9, tries


@timed
def keys_cost_little(program):
    """A request costs little more at the last of 1,000 keys than at the only one. Refuses: a map has up to 1,024
    entries in its vector."""
    with running(program) as server, raw(server.port) as one:
        def at(key):
            one.sendall(asking(f"XLEN {key}") * 500)
            comes(one, number(1) * 500)

        def add_keys(first, end):
            one.sendall(b"".join(asking(f"XADD key{place:03} 1-0 f v") for place in range(first, end)))
            comes(one, bulk("1-0") * (end - first))

        add_keys(0, 1)
        alone = time_of(server, 20, lambda _: at("key000")) / 500
        add_keys(1, 1000)
        last = time_of(server, 20, lambda _: at("key999")) / 500
        print(f"{alone:.1f} us a request at one key, {last:.1f} at the last of 1,000", flush=True)
        assert last < 3 * alone + 5, (alone, last)


@timed
def pieces_of_a_request_cost_little(program):
    """A request of 50,000 words that comes in 1,000 pieces costs little: what was read isn't read again with each.
    Refuses: a partial request is parsed from its beginning with each piece."""
    with running(program) as server, raw(server.port) as one:
        one.setsockopt(socket.IPPROTO_TCP, socket.TCP_NODELAY, 1)
        asked, before = asking("XDEL s" + " 1-1" * 50_000), server.processor_time()
        for start in range(0, len(asked), len(asked) // 1000):
            one.sendall(asked[start:start + len(asked) // 1000])
            time.sleep(0.0007)
        comes(one, number(0))
        used = server.processor_time() - before
        print(f"{used:.2f} s for a request in 1,000 pieces", flush=True)
        assert used <= 0.2, used


# ---- descriptors and memory


def least_unused(server):
    """The least number that no descriptor of the server has."""
    used = {int(name) for name in os.listdir(f"/proc/{server.child.pid}/fd")}
    return next(number for number in range(len(used) + 1) if number not in used)


def ask_or_be_refused(stream, text):
    """What the request is answered, or what the connection is told that is refused at once; nothing if it is reset."""
    stream.settimeout(2)
    try:
        stream.sendall(asking(text))
        got = stream.recv(1000)
        if got.startswith(b"$"):
            return got
        got += read_to_end(stream)[0]
    except (ConnectionResetError, BrokenPipeError):
        got = b""
    assert got in (FULL, b""), got
    return got


def few_descriptors(program):
    """If no descriptor is left, connections are told at once that there are too many, and nothing that they sent is
    executed; those that are open are served, and nothing spins. When the limit is raised it serves again. Refuses: a
    failed `accept` is followed by a pause of 15 seconds; a client that is refused for lack of a descriptor isn't
    informed."""
    with running(program, workers=32) as server:
        limits = resource.prlimit(server.child.pid, resource.RLIMIT_NOFILE)
        with Clients(server.port) as clients:
            one = clients.new()
            say(one, "PING", PONG.decode())
            resource.prlimit(server.child.pid, resource.RLIMIT_NOFILE, (least_unused(server), limits[1]))
            # a call that waits for a connection may have had its descriptor before
            told = [ask_or_be_refused(clients.new(), "XADD few * f v") for _ in range(12)]
            answered = sum(got.startswith(b"$") for got in told)
            assert told.count(FULL) > 6, told
            before = server.processor_time()
            nothing_comes(1, one)
            assert (used := server.processor_time() - before) <= 0.1, used
            say(one, "XLEN few", number(answered))
        resource.prlimit(server.child.pid, resource.RLIMIT_NOFILE, limits)
        time.sleep(0.5)
        all_answer(server)


def no_descriptors(program):
    """The same with a limit below all descriptors that it has. Connections may then wait; nothing spins, and when the
    limit is raised it serves again. Then it waits for connections as at first, and those for which there is no
    descriptor are told so again. Refuses: a failed `accept` is followed by a pause of 15 seconds; without descriptors
    the listener is polled without a pause; there is no spare descriptor the next time."""
    with running(program, workers=8) as server:
        limits = resource.prlimit(server.child.pid, resource.RLIMIT_NOFILE)
        with Clients(server.port) as clients:
            one = clients.new()
            say(one, "PING", PONG.decode())
            resource.prlimit(server.child.pid, resource.RLIMIT_NOFILE, (3, limits[1]))
            more = [clients.new() for _ in range(4)]
            before = server.processor_time()
            time.sleep(2)
            assert (used := server.processor_time() - before) <= 0.1, used
            say(one, "PING", PONG.decode())
            for stream in more:
                stream.close()
            resource.prlimit(server.child.pid, resource.RLIMIT_NOFILE, limits)
        began = time.monotonic()
        all_answer(server)
        took = time.monotonic() - began
        assert took < ACCEPTS_AGAIN, f"connections were accepted again after {took:.1f} s"
        for place in served.listeners(server):
            with open(f"/proc/{server.child.pid}/fdinfo/{place}", encoding="ascii") as lines:
                flags = next(int(line.split()[1], 8) for line in lines if line.startswith("flags:"))
            assert not flags & os.O_NONBLOCK, f"it looks for connections again and again: {flags:o}"
        with Clients(server.port) as clients:
            one = clients.new()
            say(one, "PING", PONG.decode())
            resource.prlimit(server.child.pid, resource.RLIMIT_NOFILE, (least_unused(server), limits[1]))
            told = [ask_or_be_refused(clients.new(), "XADD again * f v") for _ in range(4)]
            assert FULL in told, told
            say(one, "XLEN again", number(sum(got.startswith(b"$") for got in told)))


def listener_ends(program):
    """If the listener gives no connection any more it ends with status 1, and says so, as soon as those that it serves
    have ended; so it does with a log. Refuses: a listener that has ended doesn't end the door; with a log, its end is
    reported as a failed log."""
    for sync in (None, "always"):
        with logged.new_folder() as folder:
            options = logged.options_of(folder, sync) if sync else ()
            with running(program, *options, workers=2) as server, raw(server.port) as stream:
                say(stream, "PING", PONG.decode())
                if not served.shut_listener(server):
                    return
                say(stream, "PING", PONG.decode())
                stream.close()
                assert server.child.wait(timeout=5) == 1
                assert server.child.stderr.read() == b"xs_server: serving failed\n", sync


def too_few_to_start(program):
    """With more workers than descriptors it doesn't start, and names the limit that is enough to start and serve.
    Refuses: the requested limit of open files is too low; of as many clients as workers that come at once some have to
    leave."""
    for workers, most in ((64, 20), (64, 64), (1024, 1000), (4, 4)):
        def set_limits(most=most):
            resource.setrlimit(resource.RLIMIT_NOFILE, (most, most))

        done = run(served.words_of_run(program, served.free_port(), workers), preexec_fn=set_limits)
        assert (done.returncode, done.stdout) == (1, b""), (workers, most, done)
        told = re.search(rb"need (\d+) open files: raise the limit \(ulimit -n \1, LimitNOFILE", done.stderr)
        assert told, (workers, most, done)
        if workers <= 64:
            with running(program, workers=workers, limits={resource.RLIMIT_NOFILE: int(told[1])}) as server:
                all_answer(server)


def too_little_memory_to_start(program):
    """If there is no room for so many threads it says so, with status 1, and doesn't say that it listens."""
    for workers, room in ((64, 10), (1024, 100), (1024, 300)):
        done = run(served.words_of_run(program, served.free_port(), workers),
                   preexec_fn=served.with_limits({resource.RLIMIT_AS: room * MEGABYTE}))
        assert (done.returncode, done.stdout) == (1, b""), (workers, room, done)
        assert done.stderr.startswith(b"xs_server: ") and b"listening on" not in done.stderr, (workers, room, done)


def full_memory(program):
    """When additions have filled the memory, consumers come whose workers never served anybody. Each is answered: so
    few workers have the memory of their connections from the start on. Refuses: under `run` the memory of 64 workers
    isn't made at the start; XPENDING reserves room for a million rows at once."""
    with running(program, workers=8) as server:
        with Clients(server.port) as clients:
            one = clients.new()
            make(one, "q")
            full_queue.limit_memory(server, 16 * MEGABYTE)
            assert full_queue.add_until_full(server) > 1000
            for name in range(6):
                stream = clients.new()
                stream.settimeout(5)
                stream.sendall(asking(reading(f"c{name}", "q", "COUNT 1 BLOCK 100")))
                with stream.makefile("rb") as replies:
                    got = read_reply(replies)
                assert got.startswith(b"*1\r\n*2\r\n$1\r\nq\r\n"), got[:100]
            for count in (1_000_000, 9223372036854775807):
                one.sendall(asking(f"XPENDING q g - + {count}"))
                with one.makefile("rb") as replies:
                    got = read_reply(replies)
                assert got.startswith(b"*6\r\n"), got[:100]
            say(one, "DEL q", number(1))
        all_answer(server)


def full_memory_of_many(program):
    """Of more than 64 workers those that never served anybody may find no memory when additions have filled it: the
    connection is told so, and its worker serves the next one. Refuses: a gate ends with a connection for which there is
    no memory."""
    with running(program, workers=80) as server:
        with Clients(server.port) as clients:
            one = clients.new()
            make(one, "q")
            limits = resource.prlimit(server.child.pid, resource.RLIMIT_AS)
            most = server.address_space() + 8 * MEGABYTE
            resource.prlimit(server.child.pid, resource.RLIMIT_AS, (most, limits[1]))
            for size in (100_000, 10_000, 1000):
                for _ in range(1000):
                    one.sendall(asking(f"XADD q * f {'v' * size}"))
                    with one.makefile("rb") as replies:
                        if read_reply(replies) == full_queue.NO_MEMORY:
                            break
            told = []
            for stream in [clients.new() for _ in range(78)]:
                stream.settimeout(5)
                with contextlib.suppress(ConnectionResetError, BrokenPipeError):
                    stream.sendall(PING)
                    told.append(stream.recv(100))
            assert set(told) <= {PONG, full_queue.NO_MEMORY, b""}, set(told)
            print(f"{told.count(PONG)} of 78 further connections were served while memory was full", flush=True)
            say(one, "DEL q", number(1))
            resource.prlimit(server.child.pid, resource.RLIMIT_AS, limits)
        all_answer(server)


def full_queue_beside_producers(program):
    """While memory is full and two producers never stop, consumers are served. Refuses: a worker never gives its
    reserve back."""
    with running(program, workers=16) as server:
        all_answer(server)
        full_queue.limit_memory(server, 64 * MEGABYTE)
        full_queue.consume_beside_producers(server, 600)
    for workers, kilobytes in ((6, 200_000), (16, 500_000)):
        with running(program, workers=workers, limits={resource.RLIMIT_AS: kilobytes * 1024}) as server:
            full_queue.consume_beside_producers(server, 600)


# What the server may have five seconds after clients have left who asked for 100 MB that stay stored: Redis 7.0 has 131
# to 155 MiB.
BEHIND_THE_GONE = 150 * MEGABYTE


def memory_of_the_gone(program, size=1_000_000, most=BEHIND_THE_GONE):
    """What the replies to clients took that left before they had read them, and the requests of others that left before
    they were whole, is given back, though nobody comes behind them. Refuses: a worker frees its memory only when its
    next connection comes."""
    with running(program, workers=12) as server, Clients(server.port) as clients:
        reply = served.fill(server, "great", 100, size)
        one, gone = clients.new(), [clients.new() for _ in range(11)]
        for stream in gone[:8]:
            stream.sendall(asking("XRANGE great - +"))
        for stream in gone[:8]:
            assert reply.startswith(stream.recv(1000))
        for stream in gone[8:]:
            stream.sendall(asking("PING " + "v" * 100 * size)[:-5])
        say(one, "PING", PONG.decode())
        full = server.resident()
        for stream in gone:
            reset(stream)
        deadline = time.monotonic() + 5
        while (left := server.resident()) > most and time.monotonic() < deadline:
            time.sleep(0.1)
        print(f"{full // MEGABYTE} MiB before the clients left, {left // MEGABYTE} behind them", flush=True)
        assert full > 11 * 100 * size and left <= most, (full, left)
        say(one, "XLEN great", number(100))


# ---- options


def ends_idle(stream, began):
    """The connection is closed between 1 and 1.9 seconds behind this moment, with nothing more."""
    stream.settimeout(5)
    got, _ = read_to_end(stream)
    took = time.monotonic() - began
    assert got == b"" and 0.95 <= took <= 1.9, (got, took)


def sends_nothing(stream):
    """It is closed."""
    ends_idle(stream, time.monotonic())


def falls_silent(stream):
    """It is closed behind its last reply."""
    began = time.monotonic()
    say(stream, "PING", PONG.decode())
    ends_idle(stream, began)


def stops_within_a_request(stream):
    """It is closed behind half a request."""
    began = time.monotonic()
    stream.sendall(PING[:7])
    ends_idle(stream, began)


def waits(stream):
    """It isn't closed while it waits, but then."""
    stream.sendall(asking("XGROUP CREATE idle g 0 MKSTREAM") + asking(reading("a", "idle", "BLOCK 3500")))
    comes(stream, OK)
    nothing_comes(3, stream)
    comes(stream, NOTHING)
    ends_idle(stream, time.monotonic())


def sends_requests(stream):
    """It isn't closed while it sends requests."""
    for _ in range(9):
        say(stream, "PING", PONG.decode())
        time.sleep(0.4)


def sends_bytes(stream):
    """It isn't closed while it sends a request, byte by byte."""
    for byte in PING[:8]:
        stream.sendall(bytes([byte]))
        time.sleep(0.4)
    stream.sendall(PING[8:])
    comes(stream, PONG.decode())


def reads_nothing(stream):
    """It is closed, though a reply waits for its reader, as a real Redis does with `timeout 1`."""
    value, count = "v" * 1_000_000, 30
    for place in range(1, count + 1):
        say(stream, f"XADD unread {place}-0 f {value}", bulk(f"{place}-0"))
    stream.sendall(asking("XRANGE unread - +"))
    # a write that sent a part begins its time anew: the system took two such parts
    time.sleep(4.5)
    got, _ = read_to_end(stream)
    assert len(got) < count * len(value), "it isn't closed"


@timed
def closes_the_idle(program):
    """With `--idle 1` connections that send nothing for a second, or take nothing of a reply, are closed; one that
    waits, and one that sends now and then, isn't. Refuses: `--idle` lasts a second longer; `--idle` sets no bound for a
    write."""
    kinds = (sends_nothing, falls_silent, stops_within_a_request, waits, sends_requests, sends_bytes, reads_nothing)
    with running(program, "--idle", "1", workers=len(kinds)) as server:
        def work(place):
            with raw(server.port) as stream:
                try:
                    kinds[place](stream)
                except (AssertionError, OSError) as fault:
                    raise AssertionError(f"{kinds[place].__name__}: {type(fault).__name__} {fault}") from fault

        served.together(len(kinds), work)
        all_answer(server)


def keeps_the_idle(program):
    """Without `--idle`, and with `--idle 0`, a connection that is idle stays open; with `--idle 86400` it may be so for
    a day, and a signal that stops and continues the server doesn't end it. Refuses: connections are closed after three
    seconds without `--idle`; `--idle` is a minute at most; a read that a signal has interrupted is taken for the
    end."""
    def work(place):
        with running(program, *((), ("--idle", "0"), ("--idle", "86400"))[place]) as server, raw(server.port) as stream:
            say(stream, "PING", PONG.decode())
            nothing_comes(3.5, stream)
            for _ in range(3):
                server.stop_and_continue()
            say(stream, "PING", PONG.decode())
            if times := served.receive_timeouts(server):
                assert max(times) == (0, 0, 86400)[place], times

    served.together(3, work)


def is_here(host):
    """Whether this machine has the address."""
    family = socket.AF_INET6 if ":" in host else socket.AF_INET
    try:
        with socket.socket(family) as probe:
            probe.bind((host, 0))
        return True
    except OSError:
        print(f"passed over: there is no address {host}", flush=True)
        return False


def addresses(program):
    """It listens on the address of `--bind` alone. One beyond loopback is refused without `--open`. Refuses: `run`
    listens on all addresses; addresses of private networks need no `--open`."""
    for host in filter(is_here, ("127.0.0.2", "::1")):
        with running(program, workers=2, host=host) as server:
            with socket.create_connection((host, server.port), timeout=PATIENCE) as stream:
                say(stream, "PING", PONG.decode())
            try:
                raw(server.port).close()
                raise AssertionError(f"with {host} it listens on {served.HOST} too")
            except ConnectionRefusedError:
                pass
    for host in ("0.0.0.0", "::", "192.0.2.1", "2001:db8::1", "10.0.0.1", "172.16.0.1", "192.168.0.1", "169.254.0.1",
                 "fe80::1", "fd00::1", "::ffff:10.0.0.1"):
        done = run(served.words_of_run(program, served.free_port(), 2, host))
        assert (done.returncode, done.stdout) == (2, b"") and b"--open" in done.stderr, (host, done)
    with running(program, "--open", workers=2, host="0.0.0.0") as server:
        all_answer(server)
    with running(program, "--open", workers=2) as server:
        all_answer(server)


def tells_of_itself(program):
    """Help and the version stand on standard output, with status 0. Refuses: help ends with status 1."""
    for before in ([], ["run"], ["serve"]):
        for word in ("--help", "-h", "help"):
            done = run([program, *before, word])
            assert (done.returncode, done.stderr) == (0, b"") and done.stdout, (before, word, done)
            options = ("--port", "--bind", "--workers", "--idle", "--open", "--max-memory", "--log", "--compact",
                       "--password-file") if before == ["run"] else ()
            assert all(option.encode() in done.stdout for option in options), (before, word, done.stdout)
    done = run([program, "--version"])
    assert (done.returncode, done.stderr) == (0, b""), done
    assert re.fullmatch(rb"xs_server 0\.\d+\.\d+\n", done.stdout), done


def defaults(program):
    """Without options it serves 64 connections at once on port 6379 of 127.0.0.1, and says so. Refuses: the first line
    reports another number of descriptors; threads have stacks of 8 MiB."""
    try:
        with socket.socket() as probe:
            probe.setsockopt(socket.SOL_SOCKET, socket.SO_REUSEADDR, 1)
            probe.bind((served.HOST, 6379))
    except OSError:
        print("passed over: port 6379 is in use", flush=True)
        return
    with served.Server([program, "run"], 6379, 64, None) as server:
        lines = server.lines_until(server.child.stderr, "listening on 127.0.0.1:6379")
        wanted = r"xs_server 0\.\d+\.\d+: listening on 127\.0\.0\.1:6379, 64 workers, \d+ descriptors\n"
        assert len(lines) == 1 and re.fullmatch(wanted, lines[0]), lines
        limit = resource.getrlimit(resource.RLIMIT_NOFILE)[0]
        assert lines[0].endswith(f", {limit} descriptors\n"), (limit, lines)
        # docs/CLIENTS.md says 142 MiB
        assert server.address_space() < 160 * MEGABYTE, server.address_space()
        all_answer(server)


def wrong_options(program):
    """Options that are odd, or have no value or a wrong one, end it with status 2, and are named on standard error."""
    port = str(served.free_port())
    wrong = [*(("--port", word) for word in ("0", "65536", "-1", "x", "", "1.5")),
             *(("--workers", word) for word in ("0", "1025", "-1", "x", "")),
             *(("--idle", word) for word in ("-1", "x", "", "1.5", "99999999999999999999")),
             *(("--bind", word) for word in ("localhost", "x", "", "127.0.0.256", "127.0.0.1:80", "[::1]")),
             ("--odd",), ("--each", "5"), ("--block",), ("--port",), ("--workers",), ("--idle",), ("--bind",)]
    for line in wrong:
        before = [] if line[0] == "--port" else ["--port", port]
        done = run([program, "run", *before, *line])
        assert (done.returncode, done.stdout) == (2, b"") and line[0].encode() in done.stderr, (line, done)


def taken(program):
    """A port in use is told on standard error, with status 1, and who has it goes on; so is an address that isn't
    there. Refuses: a port in use is reported as a missing address; a missing address is reported as a port in use."""
    with running(program, workers=2) as server:
        done = run(served.words_of_run(program, server.port, 2))
        line = f"xs_server: listening on 127.0.0.1:{server.port} failed: address in use\n".encode()
        assert (done.returncode, done.stdout, done.stderr) == (1, b"", line), done
        all_answer(server)
    # an address that documents use as an example, and no machine has
    done = run([*served.words_of_run(program, server.port, 2, "192.0.2.1"), "--open"])
    line = f"xs_server: listening on 192.0.2.1:{server.port} failed: address not available\n".encode()
    assert (done.returncode, done.stdout, done.stderr) == (1, b"", line), done


@contextlib.contextmanager
def closed_pipe():
    """The end of a pipe whose other end is closed."""
    reader, writer = os.pipe()
    os.close(reader)
    try:
        yield writer
    finally:
        os.close(writer)


def odd_errors(program):
    """It serves though its standard error is a pipe that is closed, or one that is full and that nobody reads; another
    connection than it can serve is refused there too."""
    for pipe in (closed_pipe, served.full_pipe):
        port = served.free_port()
        with pipe() as errors:
            child = subprocess.Popen(served.words_of_run(program, port, 1), stdout=subprocess.DEVNULL, stderr=errors)
            try:
                served.answers_at(port)
                with raw(port) as held:
                    say(held, "PING", PONG.decode())
                    began = time.monotonic()
                    with raw(port) as more:
                        is_refused(more, began, 1, 2)
                served.answers_at(port)
            finally:
                child.kill()
                child.wait()


def never_waits(program):
    """Where calls never wait, in `serve` and in scripts, BLOCK changes nothing."""
    with served.serving(program, workers=1) as server, raw(server.port) as stream:
        make(stream, "s")
        began = time.monotonic()
        say(stream, reading("a", "s", "BLOCK 5000"), NOTHING)
        say(stream, reading("a", "s"), NOTHING)
        assert time.monotonic() - began < 2, "serve waited"
    lines = ("XGROUP CREATE s g 0 MKSTREAM", reading("a", "s", "BLOCK 5000"), reading("a", "s"), "PING")
    began = time.monotonic()
    done = run([program, "script"], input="".join(f"0 c {line}\n" for line in lines).encode())
    assert (done.returncode, done.stdout) == (0, (OK + NOTHING * 2 + PONG.decode()).encode()), done
    assert time.monotonic() - began < 2, "the script waited"


# ---- all of it


def readers_over_one_server(program):
    """The readers that wait, all at the same time over one server, whose workers then all answer."""
    with running(program, workers=SHARED) as server:
        results = pass_together(waiting.OVER_ONE_SERVER, server)
        time.sleep(NOTICED)
        all_answer(server)
        assert all(results), f"{results.count(False)} of {len(results)} failed"


def main(arguments):
    if len(arguments) != 1:
        print(__doc__)
        return 2
    need("cc", "gcc libc6-dev", installs=True)
    program = arguments[0]
    alone = (tells_of_itself, wrong_options, taken, listener_ends, defaults, addresses, too_few_to_start,
             too_little_memory_to_start, readers_over_one_server, waiting.ends_in_time, waiting.sixty,
             waiting.waiting_costs_nothing, without_delay, pieces_of_a_pipeline, idle_ones_cost_little,
             readers_cost_little, pauses_cost_little, fast_ones_behind_pauses_wake_few, keys_cost_little,
             pieces_of_a_request_cost_little, a_thousand, busy_among_idle, a_thousand_wait, full_memory,
             full_memory_of_many, full_queue_beside_producers, memory_of_the_gone, *max_memory.CASES,
             *greetings.CASES, *passwords.CASES, *transactions.CASES, *information.CASES)
    at_once = (waiting.clients_that_go, waiting.has_just_gone, waiting.many_have_just_gone, waiting.terminated,
               forty_too_many, one_ends_in_time, few_descriptors, no_descriptors, closes_the_idle, keeps_the_idle,
               odd_errors, never_waits, clock_steps.clock_is_set, in_their_order, sends_while_it_waits,
               more_than_may_wait, sends_on_though_it_is_told, *passwords.AT_ONCE)
    results = []
    for case in alone:
        if results.count(False) < MOST_FAULTS:
            results.append(passes(case, program))
    return tell(results + pass_together(at_once, program))


if __name__ == "__main__":
    sys.exit(main(sys.argv[1:]))
