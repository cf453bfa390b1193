#!/usr/bin/env python3
"""Runs the program as a server for clients that send many requests at once, and checks each of their replies.

    pipelines.py [--only CASE,..] PROGRAM

A server may read requests and have them executed while earlier ones aren't answered. What is checked here has to hold
all the same: replies come in order, whole, each to its own request and client, and nothing is executed that stands
behind an end. Each case has a server of its own, of `serve`, of `run` and with a log. Replies are those of the Redis
pages of the commands and of the RESP specification; docs/COMMANDS.md has the texts of errors. It needs Python's
standard library, and a C compiler, which is installed if it isn't there. The last line is 'N passed, M failed'; the
status is 1 if M > 0.

Refused were also programs with one of these: a reply in another one's place; a request executed twice, or elsewhere;
something executed behind a QUIT, a protocol error or a waiting read; half a request executed, or the last whole one
unanswered; replies before a wait held back; a reply to the next client; requests of a gone client executed again; a
reply lost for a client that reads late; replies held without a bound; a read whose reply is dropped, or is another
consumer's; an acknowledgement that does nothing; a consumer's request refused as the 34th of a burst.
"""
import argparse
import contextlib
import functools
import os
import random
import socket
import sys
import tempfile
import threading
import time

import books
import clock_steps
import full_queue
import logged
import sessions
from full_queue import MEGABYTE
from resp import array, bulk, entry, number, read_reply
from served import (FULL, MOST_FAULTS, PATIENCE, add_many, all_answer, asking, fill, pass_together, passes, raw,
                    read_exactly, read_to_end, reset, running, say, say_at, send_all_that_goes, serving, tell, together)
from waiting import NOTHING, OK, READ, Clients, add, comes, gives, make, nothing_comes, reading

sys.path.append(os.path.join(os.path.dirname(__file__), "../../scripts"))
from needs import need  # noqa: E402

WORKERS = 20
PROTOCOL = "-ERR Protocol error\r\n"
# So many requests stand before what ends a connection: none, about as many as may be open at once, and more.
BEFORE = (0, 1, 15, 16, 17, 31, 32, 33, 64, 300)


def additions(key, first, count):
    """Additions with ids of their own, each with its reply."""
    return [(asking(f"XADD {key} {place}-0 f v"), bulk(f"{place}-0")) for place in range(first, first + count)]


def asked_of(pairs):
    return b"".join(asked for asked, _ in pairs)


def replies_of(pairs):
    return "".join(reply for _, reply in pairs)


# ---- sixteen connections at once


class SharedStream:
    """What connections are told of a stream to which all of them add."""

    def __init__(self, key):
        self.key = key
        self.ids = {}
        self.first_ones = []
        self.lock = threading.Lock()

    def note_first(self, reply):
        with self.lock:
            self.first_ones.append(reply)

    def check(self, server):
        """It has each addition once, with the id that was told, those of a connection in their order; and began at all
        times with the entries with which it begins now."""
        with raw(server.port) as stream, stream.makefile("rb") as replies:
            stream.sendall(asking(f"XRANGE {self.key} - +"))
            found = [(identifier, tuple(fields)) for identifier, fields in books.read_value(replies)]
            stream.sendall(asking(f"XRANGE {self.key} - + COUNT 3"))
            first = read_reply(replies)
        names = {fields[0] for _, fields in found}
        added = {name: [(identifier, fields) for identifier, fields in found if fields[0] == name] for name in names}
        wanted = {name: [(identifier, (name, b"%d" % place)) for place, identifier in enumerate(ids, 1)]
                  for name, ids in self.ids.items()}
        assert added == wanted, f"{len(found)} entries are there of {sum(map(len, wanted.values()))}"
        entries = first.partition(b"\r\n")[2]
        for reply in self.first_ones:
            assert entries.startswith(reply.partition(b"\r\n")[2]), f"it began with {reply}, and now with {first}"


def is_unknown(reply):
    """The command NONE isn't known; `run` names it."""
    named = b"-ERR unknown command 'NONE', with args beginning with: 'of' 'these' \r\n"
    assert reply in (b"-ERR unknown command\r\n", named), reply


class Asker:
    """Requests of one connection with what each is answered: of a stream of its own a reply, of the shared stream a
    check. They go on as they were answered."""

    def __init__(self, name, shared):
        self.made = random.Random(name)
        self.name = name
        self.shared = shared
        # of its own stream: the numbers of all entries, how many were delivered, and which are pending
        self.places = []
        self.delivered = 0
        self.pending = []
        # of the shared stream: how many it adds, and what it was told
        self.added = 0
        self.ids = shared.ids[name.encode()] = []
        self.least = 0

    def entries(self, places):
        return array([entry(f"{place}-0", "f", f"{self.name}{place}") for place in places])

    def addition(self):
        place = (self.places[-1] if self.places else 0) + self.made.choice((1, 1, 2))
        self.places.append(place)
        return f"XADD {self.name} {place}-0 f {self.name}{place}", bulk(f"{place}-0")

    def length(self):
        return f"XLEN {self.name}", number(len(self.places))

    def range(self):
        low, count = self.made.randrange(len(self.places) + 2), self.made.randrange(1, 5)
        found = [place for place in self.places if place >= low][:count]
        return f"XRANGE {self.name} {low} + COUNT {count}", self.entries(found)

    def read(self):
        count, option = self.made.randrange(1, 5), self.made.choice(("", "", " NOACK"))
        given = self.places[self.delivered:self.delivered + count]
        self.delivered += len(given)
        self.pending += [] if option else given
        reply = array([array([bulk(self.name), self.entries(given)])]) if given else NOTHING
        return f"XREADGROUP GROUP g c{option} COUNT {count} STREAMS {self.name} >", reply

    def own(self):
        reply = array([array([bulk(self.name), self.entries(self.pending[:3])])])
        return f"XREADGROUP GROUP g c COUNT 3 STREAMS {self.name} 0", reply

    def acknowledgement(self):
        """Ids that are known beforehand: pending, settled and none that there is."""
        chosen = self.made.sample(self.pending, min(2, len(self.pending))) + self.made.sample(range(1, 400), 2)
        settled = [place for place in set(chosen) if place in self.pending]
        self.pending = [place for place in self.pending if place not in settled]
        return f"XACK {self.name} g {' '.join(f'{place}-0' for place in chosen)}", number(len(settled))

    def pending_ones(self):
        if not self.pending:
            return f"XPENDING {self.name} g", array([number(0), "$-1\r\n", "$-1\r\n", NOTHING])
        least, greatest = f"{min(self.pending)}-0", f"{max(self.pending)}-0"
        consumers = array([array([bulk("c"), bulk(str(len(self.pending)))])])
        return f"XPENDING {self.name} g", array([number(len(self.pending)), bulk(least), bulk(greatest), consumers])

    def echo(self):
        word = f"{self.name}-" * self.made.choice((1, 1, 1, 20, 200))
        return f"PING {word}", bulk(word)

    def fault(self):
        wrong_id = "-ERR Invalid stream ID specified as stream command argument\r\n"
        wrong_number = "-ERR wrong number of arguments\r\n"
        no_integer = "-ERR value is not an integer or out of range\r\n"
        return self.made.choice((
            ("NONE of these", is_unknown),
            (f"XLEN {self.name} x", wrong_number), ("XLEN", wrong_number),
            (f"XADD {self.name} 500-0 f", wrong_number), (f"XADD {self.name} x f v", wrong_id),
            (f"XACK {self.name} g 1-x", wrong_id), (f"XRANGE {self.name} - + COUNT x", no_integer),
            (f"XADD {self.name} 0-0 f v", "-ERR The ID specified in XADD must be greater than 0-0\r\n"),
            (f"XREADGROUP GROUP none c STREAMS {self.name} >", "-NOGROUP No such key or consumer group\r\n"),
            (f"XRANGE {self.name} - + COUNTED 1", "-ERR syntax error\r\n")))

    def shared_addition(self):
        self.added += 1
        return f"XADD {self.shared.key} * {self.name} {self.added}", self.take_id

    def take_id(self, reply):
        identifier = reply.split(b"\r\n")[1]
        assert reply == bulk(identifier.decode()).encode(), reply
        assert not self.ids or books.id_of(self.ids[-1]) < books.id_of(identifier), (self.ids[-1], identifier)
        self.ids.append(identifier)

    def shared_length(self):
        return f"XLEN {self.shared.key}", functools.partial(self.take_length, self.added)

    def take_length(self, own, reply):
        length = int(reply[1:-2])
        assert reply == number(length).encode() and length >= max(own, self.least), (reply, own, self.least)
        self.least = length

    def first_shared(self):
        return f"XRANGE {self.shared.key} - + COUNT 3", self.shared.note_first

    def requests(self, count):
        """So many requests, each with its reply or a check of it."""
        kinds = (self.addition, self.addition, self.addition, self.length, self.range, self.read, self.own,
                 self.acknowledgement, self.pending_ones, self.echo, self.fault, self.shared_addition,
                 self.shared_addition, self.shared_length, self.first_shared)
        yield f"XGROUP CREATE {self.name} g 0 MKSTREAM", OK
        for _ in range(count - 1):
            yield self.made.choice(kinds)()


def send_in_pieces(stream, data, sizes):
    """Sends the bytes in pieces of these sizes, over and over, each by itself."""
    stream.setsockopt(socket.IPPROTO_TCP, socket.TCP_NODELAY, 1)
    at, turn = 0, 0
    with contextlib.suppress(OSError):
        while at < len(data):
            size = sizes[turn % len(sizes)]
            stream.sendall(data[at:at + size])
            at, turn = at + size, turn + 1


@contextlib.contextmanager
def sending(work, *given):
    """The work is done in a thread of its own while the block runs."""
    thread = threading.Thread(target=work, args=given)
    thread.start()
    try:
        yield
    finally:
        thread.join()


def answered_in_order(stream, requests):
    """Each reply is the one to its request."""
    with stream.makefile("rb") as replies:
        for place, (text, wanted) in enumerate(requests):
            got = read_reply(replies)
            try:
                if isinstance(wanted, str):
                    assert got == wanted.encode(), f"not {wanted[:100]!r}"
                else:
                    wanted(got)
            except (AssertionError, IndexError, ValueError) as fault:
                raise AssertionError(f"request {place}, {text[:60]!r}, was answered {got[:100]!r}: {fault}") from fault


PIECES = {"one": (1 << 30,), "sevens": (7,), "odd": (1, 13, 100, 2, 4097, 16_385, 999, 65_537)}


def sixteen_at_once(server):
    """16 connections at once send a thousand requests each, in one piece, in pieces of 7 bytes and of odd sizes: each
    has the replies to its own requests, in order, and a stream to which all add has each addition once."""
    for kind, sizes in PIECES.items():
        shared = SharedStream(f"shared-{kind}")

        def work(place, kind=kind, sizes=sizes, shared=shared):
            requests = list(Asker(f"{kind}{place}", shared).requests(1000))
            # a request of no words has no reply
            data = b"".join(asking(text) + b"*0\r\n" * (number % 17 == 0) for number, (text, _) in enumerate(requests))
            with raw(server.port) as stream, sending(send_in_pieces, stream, data, sizes):
                answered_in_order(stream, requests)
                nothing_comes(0.02, stream)

        together(16, work)
        shared.check(server)


# ---- ends


def ends_behind(server, kind, before, end, told, behind):
    """Of a connection that sends so many additions, an end and what stands behind it, the additions are answered, then
    the end, and the rest isn't executed."""
    key = f"{kind}{before}"
    first = additions(key, 1, before)
    with raw(server.port) as stream:
        with sending(send_all_that_goes, stream, asked_of(first) + end + asked_of(additions(key, before + 1, behind))):
            got, _ = read_to_end(stream)
        wanted = (replies_of(first) + told).encode()
        assert got == wanted, f"{key}: of {len(wanted)} bytes {len(got)} came, the last of them {got[-60:]!r}"
    say_at(server, f"XLEN {key}", number(before))


def quits_in_the_middle(server):
    """Behind a QUIT nothing is executed, and all that stands before it is answered."""
    for before in BEFORE:
        for behind in (1, 40, 3000):
            ends_behind(server, f"quits{behind}-", before, asking("QUIT"), OK, behind)
    time.sleep(0.1)
    for before in BEFORE:
        say_at(server, f"XLEN quits3000-{before}", number(before))


def protocol_error_in_the_middle(server):
    """Behind what is no request nothing is executed, and all that stands before it is answered."""
    for before in BEFORE:
        for place, wrong in enumerate(sessions.WRONG[:4]):
            ends_behind(server, f"wrong{place}-", before, wrong, PROTOCOL, (1, 40, 3000)[place % 3])


def half_a_request_at_the_end(server):
    """A client shuts its side down within a request: all whole ones are answered, and the half isn't executed."""
    for before in BEFORE:
        for place, left in enumerate((1, 2, 5, 20)):
            key = f"half{place}-{before}"
            first, half = additions(key, 1, before), asked_of(additions(key, before + 1, 1))[:-left]
            with raw(server.port) as stream:
                stream.sendall(asked_of(first) + half)
                stream.shutdown(socket.SHUT_WR)
                assert (got := read_to_end(stream)) == (replies_of(first).encode(), False), (key, got)
            say_at(server, f"XLEN {key}", number(before))


# ---- calls that wait


def waits_in_the_middle(server):
    """What stands before a read that waits is answered at once; nothing behind it is executed before its wait ends, and
    then all is answered."""
    with Clients(server.port) as clients:
        one = clients.new()
        for before in (1, 16, 33):
            for behind in (1, 15, 40, 20 * before):
                name = f"{before}-{behind}"
                make(one, f"wait{name}")
                first, last = additions(f"first{name}", 1, before), additions(f"last{name}", 1, behind)
                stream = clients.new()
                stream.sendall(asked_of(first) + asking(reading("c", f"wait{name}")) + asked_of(last))
                comes(stream, replies_of(first))
                nothing_comes(READ, stream)
                say(one, f"XLEN last{name}", number(0))
                add(one, f"wait{name}", 1)
                comes(stream, gives(f"wait{name}", 1) + replies_of(last))
                say(one, f"XLEN last{name}", number(behind))


def waits_in_vain_in_the_middle(server):
    """The same with a wait whose time is over. Refuses: replies before an addition are sent 200 ms later, while its
    sync lasts."""
    with Clients(server.port) as clients:
        one = clients.new()
        for behind in (1, 15, 40):
            name = f"vain{behind}"
            make(one, name)
            first, last = additions(f"first{name}", 1, 20), additions(f"last{name}", 1, behind)
            stream = clients.new()
            began = time.monotonic()
            stream.sendall(asked_of(first) + asking(reading("c", name, "BLOCK 1500")) + asked_of(last))
            comes(stream, replies_of(first), within=1)
            nothing_comes(READ, stream)
            say(one, f"XLEN last{name}", number(0))
            comes(stream, NOTHING + replies_of(last))
            assert time.monotonic() - began >= 1.5, "it didn't wait"


def waits_twice(server):
    """Of two reads that wait, sent together, the second waits once the first is answered. What a read finds that was
    added before it in the same piece ends it at once."""
    with Clients(server.port) as clients:
        one, stream = clients.new(), clients.new()
        make(one, "twice")
        last = additions("behind", 1, 20)
        stream.sendall(asking("XADD twice 1-0 f v") + asking(reading("c", "twice")) * 3
                       + asking("XACK twice g 1-0 2-0") + asked_of(last) + asking("QUIT")
                       + asked_of(additions("behind", 100, 5)))
        comes(stream, bulk("1-0") + gives("twice", 1))
        for place in (2, 3):
            nothing_comes(READ, stream)
            say(one, "XLEN behind", number(0))
            add(one, "twice", place)
            comes(stream, gives("twice", place))
        comes(stream, number(2) + replies_of(last) + OK)
        assert read_to_end(stream)[0] == b""
        say(one, "XLEN behind", number(20))


def keeps_its_connection(server):
    """Whoever acknowledges and waits in one piece is answered both, each time, at whatever moment an entry comes while
    the first reply is written. Refuses: a waiting read is asked before earlier answers are written, and its client is
    checked meanwhile."""
    made = random.Random(7)
    with Clients(server.port) as clients:
        one, stream = clients.new(), clients.new()
        make(one, "kept")
        for place in range(1, 1001):
            stream.sendall(asking(f"XACK kept g {place - 1}-0") + asking(reading("c", "kept")))
            time.sleep(made.uniform(0, 0.0005))
            add(one, "kept", place)
            comes(stream, number(min(place - 1, 1)) + gives("kept", place))


# ---- clients that leave, or don't read


def once_a_worker_is_free(server, asked):
    """The replies to a connection that sends these requests and their end. While it is told that there are too many, it
    comes again."""
    deadline = time.monotonic() + PATIENCE
    while time.monotonic() < deadline:
        with raw(server.port) as stream:
            stream.sendall(asked)
            stream.shutdown(socket.SHUT_WR)
            got, _ = read_to_end(stream)
        if got != FULL:
            return got
    raise AssertionError("no worker is free")


def resets_with_replies_unread(server, turns=50):
    """Clients reset their connection behind 500 requests, of whose replies they have read nothing. A beginning of their
    additions was executed, each once, and the next client of the one worker has the replies to its own requests."""
    great, partly, told = asking("XRANGE great - +"), 0, {}
    fill(server, "great", 10, 10_000)
    for turn in range(turns):
        key = f"gone{turn}"
        added = [asking(f"XADD {key} * f {place}") for place in range(500)]
        # with great replies the server comes to a stop within them
        asked = b"".join(added if turn % 2 else [great + one for one in added])
        gone = raw(server.port)
        gone.sendall(asked)
        time.sleep((0, 0.0003, 0.001, 0.003, 0.02)[turn % 5])
        reset(gone)
        got = once_a_worker_is_free(server, asking(f"XADD own{turn} 1-0 f v") + asking(f"PING mine{turn}")
                                    + asking(f"XRANGE own{turn} - +") + asking(f"XLEN {key}"))
        own = (bulk("1-0") + bulk(f"mine{turn}") + array([entry("1-0", "f", "v")])).encode()
        assert got.startswith(own + b":"), f"behind client {turn} the next one was answered {got[:200]!r}"
        told[key] = int(got[len(own) + 1:])
        assert got == own + number(told[key]).encode(), got[len(own):]
        partly += 0 < told[key] < 500
    with books.Connection(server.port) as one:
        for key, count in told.items():
            places = [int(fields[1]) for _, fields in one.ask("XRANGE", key, "-", "+")]
            assert places == list(range(count)), f"of {key} {places} were added, and {count} had been"
    print(f"of {turns} clients {partly} had some of their requests executed, {list(told.values()).count(500)} all",
          flush=True)


def resets_before_a_sync(server):
    """The same where replies wait until the log is kept."""
    resets_with_replies_unread(server, turns=10)


def reads_late(server):
    """A client sends all its requests, and reads nothing for two seconds: then all replies come, in order."""
    word = "v" * 8000
    pairs = [pair for place in range(1, 1501)
             for pair in (*additions("late", place, 1), (asking(f"PING {place}{word}"), bulk(f"{place}{word}")))]
    wanted = replies_of(pairs).encode()
    with raw(server.port) as stream, sending(send_all_that_goes, stream, asked_of(pairs)):
        time.sleep(2)
        assert read_exactly(stream, len(wanted)) == wanted
        nothing_comes(0.02, stream)
    say_at(server, "XLEN late", number(1500))


# How many great replies are asked at once, of how many entries each.
GREAT_ONES, ROWS = 32, 100_000
# The most that the server may take for one who doesn't read them: three replies of 10 MB, which take up to 26 MiB each.
UNREAD = 80 * MEGABYTE


def asked_unread():
    """Requests whose replies have 10 MB, behind such as make all entries pending with a consumer of a long name."""
    consumer = "c" * 60
    ids = " ".join(f"{place}-0" for place in range(1, ROWS + 1))
    return consumer, {
        "XRANGE": "XRANGE unread - +",
        "XREADGROUP": f"XREADGROUP GROUP g {consumer} STREAMS unread 0",
        "XCLAIM": f"XCLAIM unread g {consumer} 0 {ids}",
        "XAUTOCLAIM": f"XAUTOCLAIM unread g {consumer} 0 - COUNT {ROWS}",
        "XPENDING": f"XPENDING unread g - + {ROWS}",
    }


def settled_memory(server, most=4.0):
    """The greatest memory in use that is seen until it has stayed as it is for half a second, after so many seconds at
    most."""
    greatest, since, end = server.resident(), time.monotonic(), time.monotonic() + most
    while time.monotonic() < min(since + 0.5, end):
        time.sleep(0.01)
        if (now := server.resident()) > greatest + MEGABYTE // 10:
            greatest, since = now, time.monotonic()
    return greatest


def never_reads(server):
    """For a client that asks for 32 great replies at once, and reads none, the server holds three of them at most."""
    consumer, kinds = asked_unread()
    add_many(server, "unread", 1, ROWS, 60)
    say_at(server, "XGROUP CREATE unread g 0", OK)
    with raw(server.port) as stream, stream.makefile("rb") as replies:
        stream.sendall(asking(f"XREADGROUP GROUP g {consumer} STREAMS unread >"))
        assert len(read_reply(replies)) > ROWS * 90
    told = {}
    for kind, text in kinds.items():
        before = server.resident()
        with raw(server.port) as stream, sending(send_all_that_goes, stream, asking(text) * GREAT_ONES):
            told[kind] = settled_memory(server) - before
            stream.shutdown(socket.SHUT_RDWR)
        say_at(server, "XLEN unread", number(ROWS))
        time.sleep(0.3)
    print("; ".join(f"{kind} {grown / MEGABYTE:.0f} MiB" for kind, grown in told.items()), flush=True)
    assert max(told.values()) <= UNREAD, told


def consumer_bursts(server, count):
    """Reads of so many jobs, one each, then acknowledgements and deletions of all that they gave, in bursts of 64. It
    gives the ids. No reply is OOM."""
    taken = []
    with books.Connection(server.port) as one:
        while len(taken) < count:
            one.send(*[("XREADGROUP", "GROUP", "g", "c", "COUNT", 1, "STREAMS", "q", ">")] * 64)
            found = [one.answer()[0][1][0][0] for _ in range(64)]
            for command in (("XACK", "q", "g"), ("XDEL", "q")):
                one.send(*((*command, identifier) for identifier in found))
                assert all(one.answer() == 1 for _ in found)
            taken += found
    return taken


def bursts_in_full_memory(server):
    """When additions have filled the memory, requests of consumers that come together are answered as if they came one
    by one: none is refused, and each job is read once."""
    all_answer(server)
    full_queue.limit_memory(server, 16 * MEGABYTE)
    say_at(server, "XGROUP CREATE q g 0 MKSTREAM", OK)
    for least in (3000, 0, 0):
        assert full_queue.add_until_full(server) >= least
        taken = consumer_bursts(server, 640)
        assert len(taken) == len(set(taken)) == 640, (len(taken), len(set(taken)))


# ---- books


class Burster(books.Consumer):
    """Sends bursts of additions, reads and acknowledgements of one queue."""

    def __init__(self, queue, name):
        super().__init__(queue, name)
        self.count = 0
        self.top = (0, 0)

    def addition(self):
        self.count += 1
        job = b"%s-%d" % (self.name, self.count)
        return ("XADD", books.KEY, "*", "job", job), functools.partial(self.take_added, job)

    def take_added(self, job, identifier):
        assert books.id_of(identifier) > self.top, f"{identifier} was given behind {self.top}"
        self.top = books.id_of(identifier)
        self.queue.add(job, identifier)

    def acknowledgement(self, chosen):
        return ("XACK", books.KEY, books.GROUP, *chosen), functools.partial(self.take_settled, chosen)

    def take_settled(self, chosen, count):
        assert count == len(chosen), f"of {len(chosen)} pending jobs {count} were acknowledged"
        self.acknowledged = chosen
        self.forget()

    def burst(self):
        """1 to 100 requests, each with what takes its reply. Those that are acknowledged were pending before it."""
        left = self.made.sample(self.pending, len(self.pending))
        for _ in range(self.made.choice((1, 2, 10, 33, 100))):
            kind = self.made.random()
            if kind < 0.4:
                yield self.addition()
            elif kind < 0.7 and left:
                some = self.made.randrange(1, 4)
                yield self.acknowledgement(left[:some])
                left = left[some:]
            else:
                yield self.read(self.made.choice((1, 1, 3)), kind > 0.97), self.take

    def work(self, server):
        burst = list(self.burst())
        server.send(*(words for words, _ in burst))
        for _, take in burst:
            take(server.answer())


def books_of_bursts(server, seconds=10):
    """Eight clients send bursts of 1 to 100 requests of one queue: in the end no job is lost, is there twice, or
    belongs to nobody."""
    queue = books.Queue()
    queue.clients = [Burster(queue, f"b{place}") for place in range(8)]
    with books.Connection(server.port) as one:
        one.ask("XGROUP", "CREATE", books.KEY, books.GROUP, "0", "MKSTREAM")
        end = time.monotonic() + seconds

        def work(place):
            with books.Connection(server.port) as connection:
                while time.monotonic() < end:
                    queue.clients[place].work(connection)

        together(len(queue.clients), work)
        queue.settle(one)
        left = sum(len(client.pending) for client in queue.clients)
        queue.drain(one)
    print(f"{len(queue.jobs)} jobs, {left} of them pending in the end", flush=True)


# ---- all of it


@contextlib.contextmanager
def keeping_a_log(program, workers):
    """A new server of `run` with a log, which ends with the block."""
    with logged.new_folder() as folder, logged.logged(program, folder, workers=workers) as server:
        yield server


@contextlib.contextmanager
def looking_slowly(program, workers):
    """A new server of `run` that takes its time to look whether a client is still there, and to write, which ends with
    the block."""
    with tempfile.TemporaryDirectory() as folder:
        loaded = {"LD_PRELOAD": clock_steps.library_of("slow_looks.c", folder)}
        with running(program, workers=workers, environment=loaded) as server:
            yield server


WAYS = (serving, running, keeping_a_log)
# The cases, each with how many workers its server has and by which ways it is served; those that are tried at once.
ONE_BY_ONE = {
    sixteen_at_once: (WORKERS, WAYS), quits_in_the_middle: (WORKERS, WAYS),
    protocol_error_in_the_middle: (WORKERS, WAYS), half_a_request_at_the_end: (WORKERS, WAYS),
    waits_in_the_middle: (WORKERS, WAYS[1:]), waits_in_vain_in_the_middle: (WORKERS, WAYS[1:]),
    waits_twice: (WORKERS, WAYS[1:]), keeps_its_connection: (WORKERS, (looking_slowly,)),
    resets_with_replies_unread: (1, WAYS[:2]), resets_before_a_sync: (1, WAYS[2:]),
}
AT_ONCE = {
    reads_late: (WORKERS, WAYS), never_reads: (WORKERS, WAYS[:2]), bursts_in_full_memory: (4, WAYS[:2]),
    books_of_bursts: (WORKERS, WAYS),
}


def over(begin, case, workers):
    """The case over a new server, whose workers then all answer."""
    def tried(program):
        with begin(program, workers=workers) as server:
            case(server)
            all_answer(server)

    tried.__name__ = f"{case.__name__}, {begin.__name__}"
    return tried


def all_of(cases, only):
    return [over(begin, case, workers) for case, (workers, ways) in cases.items() for begin in ways
            if not only or case.__name__ in only]


def main():
    parser = argparse.ArgumentParser(description=__doc__, formatter_class=argparse.RawDescriptionHelpFormatter)
    parser.add_argument("--only", default="", help="the cases with these names")
    parser.add_argument("program")
    given = parser.parse_args()
    need("cc", "gcc libc6-dev", installs=True)
    only = given.only.split(",") if given.only else []
    results = []
    for case in all_of(ONE_BY_ONE, only):
        if results.count(False) < MOST_FAULTS:
            results.append(passes(case, given.program))
    return tell(results + pass_together(all_of(AT_ONCE, only), given.program))


if __name__ == "__main__":
    sys.exit(main())
