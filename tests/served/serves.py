#!/usr/bin/env python3
"""Runs the program as a server, as a user does, and checks over sockets what no proof covers.

    serves.py PROGRAM

That replies come without the client's sending more, sockets, the clock, the options, threads and their ends. After each
case of the first list every worker of the server has to answer a PING, all at once. Replies are those of the Redis pages
of the commands and of the RESP specification; docs/COMMANDS.md has the texts of errors. It needs Python's standard
library alone. The last line is 'N passed, M failed'; the status is 1 if M > 0.
"""
import contextlib
import os
import resource
import select
import signal
import socket
import subprocess
import sys
import threading
import time

import full_queue
import served
from resp import array, bulk, entry, number, read_reply, request
from served import (PING, PONG, add_many, all_answer, asking, fill, raw, read_exactly, read_to_end, reset, say, say_at,
                    send_all_that_goes, serving, timed, together, try_all)

WORKERS = 4
PROTOCOL = b"-ERR Protocol error\r\n"
MEGABYTE = 1 << 20
# In seconds: a system may acknowledge at once what comes behind a gap that long.
LONGEST_GAP = 0.2
# In seconds: how soon connections are accepted again, once there are descriptors.
ACCEPTS_AGAIN = 2


# ---- replies


def replies_before_more(server):
    """Each reply comes while the client sends nothing more and keeps its connection. Refuses: replies aren't sent
    before a read; one worker alone starts; nothing is served."""
    with raw(server.port) as stream:
        stream.settimeout(5)
        for text, reply in (("PING", "+PONG\r\n"), ("XADD before 7-0 f v", bulk("7-0")), ("XLEN before", number(1)),
                            ("PING hi", bulk("hi")), ("XRANGE before - +", array([entry("7-0", "f", "v")])),
                            ("NONE", "-ERR unknown command\r\n"), ("DEL before", number(1))):
            say(stream, text, reply)


def in_order(server):
    """Requests that are sent together are answered in their order; so are those behind half a request."""
    asked = b"".join(asking(f"PING {place}") for place in range(2000))
    wanted = b"".join(bulk(str(place)).encode() for place in range(2000))
    with raw(server.port) as stream:
        stream.settimeout(5)
        stream.sendall(asked)
        assert read_exactly(stream, len(wanted)) == wanted
        stream.sendall(asked + PING[:10])
        assert read_exactly(stream, len(wanted)) == wanted
        stream.sendall(PING[10:])
        assert read_exactly(stream, len(PONG)) == PONG


def of_all_sizes(server):
    """Replies that are smaller and greater than a buffer of 64 KiB come whole, alone and behind a small one. Refuses: a
    full buffer isn't sent, or loses bytes."""
    around = 65_536
    sizes = [1, 2, 100, 1000, 10_000, *range(around - 20, around + 20), 70 * 1024, 2 * around - 8, 2 * around, 5_000_000]
    with raw(server.port) as stream:
        stream.settimeout(5)
        for before in (b"", PING):
            for size in sizes:
                text = "".join(chr(97 + place % 26) for place in range(1000)) * (size // 1000 + 1)
                stream.sendall(before + asking(f"PING {text[:size]}"))
                wanted = (PONG if before else b"") + bulk(text[:size]).encode()
                assert read_exactly(stream, len(wanted)) == wanted, f"{size} bytes behind {before!r}"


def to_a_slow_reader(server):
    """A reply that is greater than what the system holds for a connection comes whole to one who reads it slowly."""
    reply = fill(server, "much", 50, 100_000)
    with raw(server.port) as slow, raw(server.port) as quick:
        slow.sendall(asking("XRANGE much - +") + PING)
        got = bytearray()
        while len(got) < len(reply):
            got += slow.recv(min(100_000, len(reply) - len(got)))
            say(quick, "PING", "+PONG\r\n")
            time.sleep(0.002)
        assert bytes(got) == reply
        assert read_exactly(slow, len(PONG)) == PONG
    say_at(server, "DEL much", number(1))


def byte_by_byte(server):
    """A client sends a byte at a time, and reads a byte at a time; others are answered meanwhile."""
    reply = fill(server, "slow", 1, 40)
    with raw(server.port) as slow, raw(server.port) as quick:
        for byte in asking("XRANGE slow - +"):
            slow.sendall(bytes([byte]))
            say(quick, "PING", "+PONG\r\n")
        got = b""
        for _ in reply:
            got += slow.recv(1)
            say(quick, "PING", "+PONG\r\n")
        assert got == reply, got
    say_at(server, "DEL slow", number(1))


@timed
def without_delay(server):
    """A small reply behind another small one comes at once, though the client hasn't acknowledged the former. The
    second request comes while the first one is executed, which names so many ids that it takes a while. A turn in which
    that took no time, or too long, isn't counted: the second reply may come at once then, however it is sent. Refuses:
    Nagle's delay stays on."""
    fill(server, "delay", 1, 1)
    say_at(server, "XGROUP CREATE delay g 0", "+OK\r\n")
    asked, took, waits = asking("XACK delay g" + " 1-1" * 200_000), [], []
    with raw(server.port) as stream:
        stream.setsockopt(socket.IPPROTO_TCP, socket.TCP_NODELAY, 1)
        while len(waits) < 9 and len(took) < 50:
            stream.sendall(asked[:-1])
            time.sleep(0.05)
            stream.setsockopt(socket.IPPROTO_TCP, socket.TCP_QUICKACK, 0)
            began = time.monotonic()
            stream.sendall(asked[-1:])
            time.sleep(0.002)
            stream.sendall(PING)
            sent = time.monotonic()
            assert read_exactly(stream, 4) == b":0\r\n"
            came = time.monotonic()
            assert read_exactly(stream, len(PONG)) == PONG
            took.append(came - began)
            if came > sent + 0.001 and came < began + LONGEST_GAP:
                waits.append(time.monotonic() - came)
    assert len(waits) == 9, f"the first request took {took}"
    # what is delayed waits for an acknowledgement, which Linux sends after 40 ms
    assert sorted(waits)[4] < 0.03, waits
    say_at(server, "DEL delay", number(1))


def at_this_time(server):
    """The milliseconds of an id made of `*` lie between the system's before and after."""
    with raw(server.port) as stream:
        for _ in range(20):
            before = time.time_ns() // 1_000_000
            stream.sendall(asking("XADD clock * f v"))
            millis = int(read_reply(stream.makefile("rb")).split(b"\r\n")[1].split(b"-")[0])
            assert before <= millis <= time.time_ns() // 1_000_000, (before, millis)
            time.sleep(0.003)
    say_at(server, "DEL clock", number(1))


def empty_words(server):
    """An empty message, key, group, consumer, field and value are what they are in Redis: words as others."""
    with raw(server.port) as stream:
        for text, reply in (("PING ", bulk("")), ("XADD  5-0  ", bulk("5-0")), ("XLEN ", number(1)),
                            ("XGROUP CREATE   0", "+OK\r\n"),
                            ("XREADGROUP GROUP   STREAMS  >", array([array([bulk(""), array([entry("5-0", "", "")])])])),
                            ("XPENDING  ", array([number(1), bulk("5-0"), bulk("5-0"),
                                                  array([array([bulk(""), bulk("1")])])])),
                            ("XACK   5-0", number(1)), ("DEL ", number(1))):
            say(stream, text, reply)


def a_queue(server):
    """Each job goes to one of two consumers, stays pending until it is acknowledged, and is then gone."""
    with raw(server.port) as one, raw(server.port) as other:
        for place in (1, 2, 3):
            say(one, f"XADD jobs {place}-0 f v", bulk(f"{place}-0"))
        say(one, "XGROUP CREATE jobs g 0", "+OK\r\n")
        for stream, name, place in ((one, "a", 1), (other, "b", 2), (one, "a", 3)):
            say(stream, f"XREADGROUP GROUP g {name} COUNT 1 STREAMS jobs >",
                array([array([bulk("jobs"), array([entry(f"{place}-0", "f", "v")])])]))
        say(other, "XREADGROUP GROUP g b STREAMS jobs >", "*-1\r\n")
        say(other, "XACK jobs g 1-0 2-0", number(2))
        say(one, "XPENDING jobs g", array([number(1), bulk("3-0"), bulk("3-0"), array([array([bulk("a"), bulk("1")])])]))
        say(one, "DEL jobs", number(1))


# ---- connections


def cut_everywhere(server):
    """Requests cut at every byte, by an end and by a reset. What isn't whole isn't executed. Refuses: a fault of one
    connection ends its worker."""
    whole = asking("XADD cut 1-1 f v")
    for count in range(len(whole)):
        with raw(server.port) as stream:
            stream.sendall(whole[:count])
            stream.shutdown(socket.SHUT_WR)
            assert read_to_end(stream) == (b"", False), count
        stream = raw(server.port)
        stream.sendall(whole[:count])
        reset(stream)
    say_at(server, "XLEN cut", number(0))
    say_at(server, "XADD cut 1-1 f v", bulk("1-1"))
    say_at(server, "XLEN cut", number(1))
    say_at(server, "DEL cut", number(1))


def in_two_parts(server):
    """Whole connections have the same replies wherever they are cut into two parts."""
    pings = b"*1\r\n$4\r\nPING\r\n*0\r\n*-1\r\n*2\r\n$4\r\nping\r\n$2\r\nhi\r\n"
    for sent, replies in ((pings, b"+PONG\r\n$2\r\nhi\r\n"), (b"*1\r\n$4\r\nPI", b""), (b"PING\r\n", PROTOCOL),
                          (b"*1\r\n$03\r\n", PROTOCOL), (b"*1048577\r\n", PROTOCOL),
                          (b"*1\r\n$4\r\nQUIT\r\n*1\r\n$4\r\nPING\r\n", b"+OK\r\n")):
        for count in range(len(sent) + 1):
            with raw(server.port) as stream:
                stream.sendall(sent[:count])
                time.sleep(0.001)
                # the connection may have ended within the first part
                with contextlib.suppress(OSError):
                    stream.sendall(sent[count:])
                    stream.shutdown(socket.SHUT_WR)
                assert read_to_end(stream)[0] == replies, (sent, count)


def endings(server):
    """QUIT is answered and ends the connection; so does what is no request, behind its error. Refuses: a writer that is
    dropped sends nothing."""
    for sent, reply in ((asking("QUIT"), b"+OK\r\n"), (b"PING\r\n", PROTOCOL), (b"*1048577\r\n", PROTOCOL),
                        (b"*1\r\n$536870913\r\n", PROTOCOL), (b"*1\r\n$03\r\n", PROTOCOL)):
        with raw(server.port) as stream:
            stream.settimeout(5)
            stream.sendall(sent)
            assert read_to_end(stream)[0] == reply, sent


def vanished(server):
    """Clients that reset their connection within a request, or with replies unread, end theirs alone: another one is
    served meanwhile, and each worker goes on."""
    with raw(server.port) as other:
        for sent in (PING[:10], PING * 100, asking("PING " + "v" * MEGABYTE) * 3):
            for _ in range(2 * server.workers):
                gone = raw(server.port)
                gone.sendall(sent)
                reset(gone)
                say(other, "PING", "+PONG\r\n")


def nothing_of_another(server):
    """Behind a client that reset its connection with replies unread, or within a request, the next ones have the
    replies to their own requests, and no byte of the other's. Refuses: after a failed write what was gathered stays,
    and the next connection doesn't drop it."""
    fill(server, "others", 10, 100_000)
    asked, own = asking("XRANGE others - +"), 0
    for sent in (asked * 20, asked * 20 + asked[:-5], asking("PING others") * 10_000, asking("PING others")[:-5]):
        for read in (0, 10, 1_000_000):
            with contextlib.ExitStack() as open_ones:
                gone = [open_ones.enter_context(raw(server.port)) for _ in range(server.workers)]
                for stream in gone:
                    stream.setblocking(False)
                    stream.send(sent)
                select.select(gone, [], [], 0.02)
                for stream in gone:
                    with contextlib.suppress(BlockingIOError):
                        stream.recv(read)
                    reset(stream)
                for _ in range(2 * server.workers):
                    with raw(server.port) as stream:
                        own += 1
                        stream.sendall(asking(f"PING own{own}"))
                        stream.shutdown(socket.SHUT_WR)
                        assert (got := read_to_end(stream)) == (bulk(f"own{own}").encode(), False), got[0][:100]
    say_at(server, "DEL others", number(1))


# ---- the process


def listens_here_alone(server):
    """It listens on its port of 127.0.0.1, and on nothing else. Refuses: it listens on 0.0.0.0."""
    folder = f"/proc/{server.child.pid}/fd"
    links, listening = [], []
    for name in os.listdir(folder):
        # a connection that has just ended may close its descriptor meanwhile
        with contextlib.suppress(FileNotFoundError):
            links.append(os.readlink(f"{folder}/{name}"))
    inodes = {link[8:-1] for link in links if link.startswith("socket:[")}
    for table in ("tcp", "tcp6", "udp", "udp6"):
        with open(f"/proc/{server.child.pid}/net/{table}", encoding="ascii") as rows:
            fields = [row.split() for row in list(rows)[1:]]
        # 0A is the state of a socket that listens; one of UDP is open to all
        listening += [it[1] for it in fields if it[9] in inodes and (it[3] == "0A" or table.startswith("udp"))]
    assert listening == [f"0100007F:{server.port:04X}"], listening


def used_within_a_second(server):
    """How much processor time it takes within a second."""
    before = server.processor_time()
    time.sleep(1)
    return server.processor_time() - before


def idle(server):
    """With connections that send nothing, and without any, it takes no processor time. Refuses: the keeper never
    sleeps."""
    for count in (0, server.workers):
        with contextlib.ExitStack() as open_ones:
            for _ in range(count):
                say(open_ones.enter_context(raw(server.port)), "PING", "+PONG\r\n")
            time.sleep(0.2)
            used = min(used_within_a_second(server) for _ in range(3))
            assert used <= 0.02, f"{used} s in a second with {count} connections"


def stopped_and_continued(server):
    """The signals that stop and continue a process interrupt its calls. Nothing is lost: what was read, what is
    written, nor who waits. Refuses: `write` is called once where `write_all` is needed."""
    reply = fill(server, "stops", 100, 100_000)
    with raw(server.port) as slow, raw(server.port) as quiet:
        slow.sendall(asking("XRANGE stops - +") + PING)
        got = bytearray()
        while len(got) < len(reply):
            time.sleep(0.005)
            server.stop_and_continue()
            got += read_exactly(slow, min(300_000, len(reply) - len(got)))
        assert bytes(got) == reply
        assert read_exactly(slow, len(PONG)) == PONG
        for _ in range(20):
            server.stop_and_continue()
        quiet.settimeout(5)
        say(quiet, "PING", "+PONG\r\n")
    say_at(server, "DEL stops", number(1))


def as_many_as_workers(program):
    """64 workers and 64 clients at once: each has its own stream, and each entry of a shared one goes to one."""
    shared, count = 640, 64
    with serving(program, workers=count) as server:
        fill(server, "shared", shared, 10)
        say_at(server, "XGROUP CREATE shared g 0", "+OK\r\n")
        meet, taken = threading.Barrier(count, timeout=20), [[] for _ in range(count)]

        def work(place):
            with raw(server.port) as stream, stream.makefile("rb") as replies:
                meet.wait()
                for turn in range(1, 51):
                    stream.sendall(asking(f"XADD own{place} {turn}-0 f v"))
                    assert read_reply(replies) == bulk(f"{turn}-0").encode()
                stream.sendall(asking(f"XRANGE own{place} - +"))
                assert read_reply(replies) == array([entry(f"{turn}-0", "f", "v") for turn in range(1, 51)]).encode()
                while True:
                    stream.sendall(asking(f"XREADGROUP GROUP g c{place} COUNT 1 STREAMS shared >"))
                    got = read_reply(replies)
                    if got == b"*-1\r\n":
                        break
                    taken[place].append(got.split(b"\r\n")[7])
                meet.wait()

        together(count, work)
        ids = sorted(one for some in taken for one in some)
        assert ids == sorted(b"%d-0" % place for place in range(1, shared + 1)), len(ids)
        all_answer(server)


def more_than_workers(program):
    """Of 24 clients 4 are served at once; the rest waits, and is served as soon as others end."""
    with serving(program, workers=4) as server, contextlib.ExitStack() as open_ones:
        waiting = [open_ones.enter_context(raw(server.port)) for _ in range(24)]
        for stream in waiting:
            stream.sendall(PING)
        while waiting:
            answered, deadline = set(), time.monotonic() + 10
            while len(answered) < 4 and time.monotonic() < deadline:
                answered.update(select.select(waiting, [], [], 1)[0])
            assert len(answered) == 4, f"{len(answered)} were answered"
            answered.update(select.select([one for one in waiting if one not in answered], [], [], 0.1)[0])
            assert len(answered) == 4, f"{len(answered)} were answered at once"
            for stream in answered:
                assert read_exactly(stream, len(PONG)) == PONG
                stream.close()
                waiting.remove(stream)
        all_answer(server)


def ends(program):
    """Each worker serves as many connections as `--each` says; then the program ends with status 0. Refuses: a gate
    takes one connection more."""
    with serving(program, workers=2, each=3) as server:
        for place in range(6):
            assert server.child.poll() is None, f"it ended after {place} connections"
            say_at(server, "PING", "+PONG\r\n")
        assert server.child.wait(timeout=10) == 0
        assert server.child.stderr.read() == b""


def taken(program):
    """A port in use is told on standard error, with status 1."""
    with serving(program) as server:
        done = subprocess.run(served.words_of(program, server.port, 1, 1), capture_output=True, timeout=30)
        assert (done.returncode, done.stdout, done.stderr) == (1, b"", b"xs_server: listening failed\n"), done
        all_answer(server)


def options(program):
    """Numbers out of their ranges, and options that are missing or odd, end the program with status 2; it doesn't
    listen. The greatest and the least numbers are taken. Refuses: 65 workers are taken."""
    right = {"--port": str(served.free_port()), "--workers": "2", "--each": "3"}
    wrong = [("--port", "0"), ("--port", "65536"), ("--workers", "0"), ("--workers", "65"), ("--each", "0"),
             ("--each", "1000001"), *((name, word) for name in right for word in ("", "x", "-1", "1.5", None))]
    lines = [{**right, name: word} for name, word in wrong] + [{**right, "--odd": "1"}]
    for line in lines:
        words = [word for pair in line.items() if pair[1] is not None for word in pair]
        done = subprocess.run([program, "serve", *words], capture_output=True, timeout=30)
        assert (done.returncode, done.stdout) == (2, b"") and done.stderr, (words, done)
    for workers, each in ((1, 1), (64, 1_000_000)):
        with serving(program, workers, each) as server:
            all_answer(server)


def stopped(program):
    """SIGTERM while 4 clients have requests on their way: each has the beginning of the replies that it is owed, and a
    small reply that was sent before the signal is whole."""
    count = 4
    with serving(program, workers=count + 1) as server, raw(server.port) as small:
        wholes = [fill(server, f"s{place}", 10, 10_000 + place) for place in range(count)]
        got = [b""] * count
        meet = threading.Barrier(count + 1, timeout=20)

        def work(place):
            with raw(server.port) as stream:
                asked = asking(f"XRANGE s{place} - +") * 1000
                sender = threading.Thread(target=send_all_that_goes, args=(stream, asked))
                sender.start()
                got[place] = read_exactly(stream, len(wholes[place]))
                meet.wait()
                got[place] += read_to_end(stream)[0]
                sender.join()

        def end():
            meet.wait()
            say(small, "XLEN s0", number(10))
            small.sendall(PING)
            select.select([small], [], [], 5)
            server.child.send_signal(signal.SIGTERM)

        signaller = threading.Thread(target=end)
        signaller.start()
        together(count, work)
        signaller.join()
        assert server.child.wait(timeout=10) == -signal.SIGTERM
        assert read_to_end(small)[0] == PONG
        for place, (whole, had) in enumerate(zip(wholes, got)):
            assert len(whole) <= len(had) < 1000 * len(whole), (place, len(had))
            assert (whole * (len(had) // len(whole) + 1)).startswith(had), place


def full_output(program):
    """Though its standard output is a full pipe that nobody reads, it serves."""
    port = served.free_port()
    with served.full_pipe() as output:
        child = subprocess.Popen(served.words_of(program, port, 2, 2), stdout=output, stderr=subprocess.DEVNULL)
        try:
            served.answers_at(port)
        finally:
            child.kill()
            child.wait()


def too_little_to_start(program):
    """If there is no room for 64 threads the program says so, with status 1, and doesn't say that it listens. Refuses:
    work begins although a thread wasn't started."""
    for room in (10, 30, 50):
        done = subprocess.run(served.words_of(program, served.free_port(), 64, 1), capture_output=True, timeout=30,
                              preexec_fn=served.with_limits({resource.RLIMIT_AS: room * MEGABYTE}))
        assert (done.returncode, done.stdout) == (1, b""), done
        assert done.stderr in (b"xs_server: serving failed\n", b"xs_server: out of memory\n"), done


def few_descriptors(program):
    """With fewer descriptors than workers no worker is lost, and none spins: as many connections are served as there
    are descriptors, and with more of them all workers serve. Refuses: a failed `accept` ends its gate; nothing pauses
    after one."""
    workers, descriptors = 16, 12
    with serving(program, workers=workers, limits={resource.RLIMIT_NOFILE: descriptors}) as server:
        # the thread that says that it listens ends with that
        time.sleep(0.2)
        threads = server.threads()
        assert threads >= workers + 1, threads
        for _ in range(2):
            with contextlib.ExitStack() as open_ones:
                streams = [open_ones.enter_context(raw(server.port)) for _ in range(workers - 2)]
                for stream in streams:
                    stream.sendall(PING)
                time.sleep(0.5)
                answered = select.select(streams, [], [], 0)[0]
                assert 4 <= len(answered) < descriptors, len(answered)
                for stream in answered:
                    assert read_exactly(stream, len(PONG)) == PONG
            assert server.threads() == threads, (server.threads(), threads)
        before = server.processor_time()
        time.sleep(1)
        assert server.processor_time() - before <= 0.1
        resource.prlimit(server.child.pid, resource.RLIMIT_NOFILE, (100, 100))
        began = time.monotonic()
        all_answer(server)
        took = time.monotonic() - began
        assert took < ACCEPTS_AGAIN, f"connections were accepted again after {took:.1f} s"


def delete_many(server, key, first, count):
    """Deletes 99 of each 100 of these entries."""
    with raw(server.port) as stream:
        for start in range(first, first + count, 100):
            say(stream, f"XDEL {key} {' '.join(f'{place}-0' for place in range(start, start + 99))}", number(99))


def great_reply(stream, size):
    """Asks for an entry of this size, and reads the reply."""
    stream.sendall(asking("XRANGE great - +"))
    whole = len(array([entry("1-0", "f", "v" * size)]))
    assert len(read_exactly(stream, whole)) == whole


def great_request(stream, size):
    """Sends a request of this size, which is none of the commands, and reads its error."""
    stream.sendall(request([b"NONE", b"v" * size]))
    assert read_exactly(stream, 22) == b"-ERR unknown command\r\n"


def idle_behind_great_ones(program):
    """Connections that stay open behind a great reply or a great request hold no more memory than others. The size is
    one that the C library gives back at once. Refuses: an encoder keeps its last reply; a buffer of requests keeps up
    to 1 GiB."""
    size = 40_000_000
    for ask in (great_reply, great_request):
        with serving(program, workers=3) as server, contextlib.ExitStack() as open_ones:
            if ask == great_reply:
                fill(server, "great", 1, size)
            all_answer(server)
            before = server.resident()
            for _ in range(2):
                ask(open_ones.enter_context(raw(server.port)), size)
            deadline = time.monotonic() + 5
            while (grown := server.resident() - before) >= size // 4 and time.monotonic() < deadline:
                time.sleep(0.05)
            print(f"2 connections that are idle behind a {ask.__name__} of {size}: {grown / MEGABYTE:.1f} MiB more",
                  flush=True)
            assert grown < size // 4, grown


def memory_of_entries(program):
    """An entry takes little more memory than its bytes. Refuses: a block has one entry; at 1,000 bytes a full block
    keeps the room that its entries don't take; blocks keep up to 2,000 unused bytes, and have room for 2,560 however
    large entries are."""
    for size, most, count in ((60, 110, 50_000), (10, 40, 100_000), (1000, 1100, 20_000)):
        with serving(program) as server:
            all_answer(server)
            before = server.resident()
            add_many(server, "kept", 1, count, size)
            each = (server.resident() - before) / count
            print(f"{each:.0f} bytes an entry of {size}", flush=True)
            assert each < most, each


def ask_together(stream, count, ask, size=50):
    """Sends the requests that a function gives for each number below this one, those of so many numbers at once. No
    reply is an error."""
    with stream.makefile("rb") as replies:
        for first in range(0, count, size):
            asked = [text for place in range(first, min(first + size, count)) for text in ask(place)]
            stream.sendall(b"".join(map(asking, asked)))
            for text in asked:
                got = read_reply(replies)
                assert not got.startswith(b"-"), (text[:60], got)


def memory_of_small_ones(program):
    """Small streams take little memory, also once most of their entries are deleted; so do small groups. Refuses: a new
    stream has the room of a block; a map of few entries has room for 64."""
    count, ids = 5000, [f"{place}-0" for place in range(1, 31)]
    kinds = {
        "of one entry": (600, lambda place: [f"XADD one{place} 1-0 f v"]),
        "with a group and a pending row": (3500, lambda place: [
            f"XADD group{place} 1-0 f v", f"XGROUP CREATE group{place} g 0",
            f"XREADGROUP GROUP g c STREAMS group{place} >"]),
        "of 30 entries, 29 of them deleted": (900, lambda place: [
            *(f"XADD left{place} {one} f {'v' * 60}" for one in ids), f"XDEL left{place} {' '.join(ids[1:])}"]),
    }
    for kind, (most, ask) in kinds.items():
        with serving(program) as server:
            all_answer(server)
            before = server.resident()
            with raw(server.port) as stream:
                ask_together(stream, count, ask)
            each = (server.resident() - before) / count
            print(f"{each:.0f} bytes a stream {kind}", flush=True)
            assert each < most, (kind, each)


def memory_of_rows_read_one_by_one(program):
    """The rows of a consumer share its name, also if each was read by itself: docs/CLIENTS.md says 118 bytes a row.
    Refuses: a consumer's name is copied for a row that is read by itself."""
    count, name = 5000, "c" * 1000
    with serving(program) as server:
        all_answer(server)
        add_many(server, "read", 1, count, 10)
        say_at(server, "XGROUP CREATE read g 0", "+OK\r\n")
        with raw(server.port) as stream:
            ask_together(stream, 100, lambda _: [f"XREADGROUP GROUP g {name} COUNT 1 STREAMS read >"])
            before = server.resident()
            ask_together(stream, count - 100, lambda _: [f"XREADGROUP GROUP g {name} COUNT 1 STREAMS read >"])
        each = (server.resident() - before) / (count - 100)
        print(f"{each:.0f} bytes a row that was read by itself", flush=True)
        assert each < 400, each


def memory_of_deleted_entries(program):
    """Of deleted entries little memory is kept, also if one in a hundred stays, which is about one in each block of
    small entries: what they took serves the next ones. Refuses: blocks give no memory back, and never join."""
    count, size = 60_000, 10
    with serving(program) as server:
        all_answer(server)
        before = server.resident()
        add_many(server, "kept", 1, count, size)
        full = server.resident() - before
        for first in range(1, 5 * count, count):
            if first > 1:
                add_many(server, "kept", first, count, size)
            delete_many(server, "kept", first, count)
        left = server.resident() - before
        say_at(server, "XLEN kept", number(5 * count // 100))
        print(f"{full / MEGABYTE:.1f} MiB, and {left / MEGABYTE:.1f} MiB once 99 of each 100 of five times as many were "
              "deleted", flush=True)
        assert left < 2.5 * full, (left, full)


def waits_take_no_time(program):
    """Who waits for its answer while the keeper serves others takes no processor time: requests over which the keeper
    takes a while cost as much from eight clients at once as from one, up to what the processors' caches make of it.
    Refuses: a lane never parks."""
    count, turns = 50_000, 320
    with serving(program, workers=8) as server:
        add_many(server, "busy", 1, count, 1)
        with raw(server.port) as stream:
            say(stream, "XGROUP CREATE busy g 0", "+OK\r\n")
            say(stream, "XREADGROUP GROUP g c STREAMS busy >",
                array([array([bulk("busy"), array([entry(f"{place}-0", "f", "v") for place in range(1, count + 1)])])]))

        def time_of(clients):
            def work(_):
                with raw(server.port) as stream:
                    for _ in range(turns // clients):
                        say(stream, "XPENDING busy g IDLE 1000000000 - + 10", array([]))

            before = server.processor_time()
            together(clients, work)
            return server.processor_time() - before

        alone, at_once = time_of(1), time_of(8)
        print(f"{alone:.2f} s of processor time from one client, {at_once:.2f} s from eight at once", flush=True)
        assert at_once < 1.5 * alone + 0.1, (alone, at_once)


def listener_ends(program):
    """If the listener gives no connection any more the program ends with status 1, and says so; what was accepted
    before is served. Refuses: a listener that has ended doesn't end its gate."""
    with serving(program, workers=2) as server, raw(server.port) as stream:
        say(stream, "PING", PONG.decode())
        if not served.shut_listener(server):
            return
        say(stream, "PING", PONG.decode())
        stream.close()
        assert server.child.wait(timeout=5) == 1
        assert server.child.stderr.read() == b"xs_server: serving failed\n"


def full_queue_deleted(program):
    """When memory runs out additions alone are refused, and consumers empty the queue. Refuses: workers keep no memory
    for connections and requests; a worker's reserve isn't refilled."""
    full_queue.under_a_bound(program, "XDEL")


def full_queue_trimmed(program):
    """The same with 64 workers, and trims instead of deletions. Refuses: workers keep no memory for connections and
    requests."""
    full_queue.with_many_workers(program, "XTRIM")


def full_queue_beside_producers(program):
    """While memory is full and two producers never stop, consumers are served. Refuses: a worker never gives its
    reserve back."""
    with serving(program, workers=6, limits={resource.RLIMIT_AS: 200_000 * 1024}) as server:
        full_queue.consume_beside_producers(server, 600)


def full_queue_of_great_jobs(program):
    """A job of 5 MB, one of 3 MB in 1,000 fields, and three of 500 KB at once, are taken and claimed while memory is
    full. Refuses: the keyspace's reserve has 4 MiB only, and is refilled before additions only; the reserve has room
    for the reply of the last entry only; that room isn't given back."""
    for size, count, fields in ((5_000_000, 1, 1), (3_000_000, 1, 1000), (500_000, 3, 1)):
        full_queue.great_jobs(program, size, count, fields)


def full_queue_handed_out(program):
    """The same with NOACK: each entry is in one reply. Refuses: workers keep no memory for connections and requests; a
    worker's reserve isn't refilled."""
    full_queue.under_a_bound(program, "NOACK")


def main(arguments):
    if len(arguments) != 1:
        print(__doc__)
        return 2
    over_server = (replies_before_more, in_order, of_all_sizes, to_a_slow_reader, byte_by_byte, without_delay,
                   at_this_time, empty_words, a_queue, cut_everywhere, in_two_parts, endings, vanished,
                   nothing_of_another, listens_here_alone, idle, stopped_and_continued)
    over_program = (as_many_as_workers, more_than_workers, ends, taken, options, stopped, full_output,
                    too_little_to_start, few_descriptors, listener_ends, waits_take_no_time, idle_behind_great_ones,
                    memory_of_entries, memory_of_small_ones, memory_of_rows_read_one_by_one, memory_of_deleted_entries,
                    full_queue_deleted,
                    full_queue_trimmed, full_queue_handed_out, full_queue_beside_producers, full_queue_of_great_jobs)
    return try_all(arguments[0], over_server, over_program, WORKERS)


if __name__ == "__main__":
    sys.exit(main(sys.argv[1:]))
