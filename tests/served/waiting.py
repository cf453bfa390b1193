"""Readers that wait: what they are answered, in what order, and what happens if they leave.

Replies are those of a real Redis 7.0, and what its own tests of such readers ask for; README.md says what differs here.
"""
import contextlib
import re
import select
import signal
import socket
import threading
import time

import served
from resp import array, bulk, entry, number, read_reply
from served import (PATIENCE, PING, PONG, asking, raw, read_exactly, read_to_end, reset, running, say, say_at,
                    timed)

NOTHING, OK = "*-1\r\n", "+OK\r\n"
# How many seconds a request takes at most to be read and to begin to wait, and a client that has gone to be noticed.
READ, NOTICED = 0.1, 2.0


def gives(key, *places):
    """The reply that gives these entries of a key."""
    return array([array([bulk(key), array([entry(f"{place}-0", "f", "v") for place in places])])])


def add(stream, key, place):
    """Adds an entry whose id has this number."""
    say(stream, f"XADD {key} {place}-0 f v", bulk(f"{place}-0"))


def make(stream, *keys):
    """Makes each key with a group, and no entry."""
    for key in keys:
        say(stream, f"XGROUP CREATE {key} g 0 MKSTREAM", OK)


def reading(consumer, keys, options="BLOCK 0"):
    """The text of a read of new entries."""
    names = keys.split(" ")
    return f"XREADGROUP GROUP g {consumer} {options} STREAMS {keys}{' >' * len(names)}"


def comes(stream, reply, within=5.0):
    """This reply comes within so many seconds."""
    stream.settimeout(within)
    got = read_exactly(stream, len(reply))
    assert got == reply.encode(), f"{got!r} came, not {reply!r}"


def nothing_comes(seconds, *streams):
    """Nothing comes for so many seconds, and no connection ends."""
    poll = select.poll()
    for stream in streams:
        poll.register(stream, select.POLLIN)
    came = poll.poll(seconds * 1000)
    assert not came, f"{[one.recv(1000, socket.MSG_PEEK) for one in streams if one.fileno() in dict(came)]} came"


def refuses(stream, word, within=2.0):
    """An error with this first word comes within so many seconds."""
    stream.settimeout(within)
    got = stream.recv(1000)
    assert got.startswith(f"-{word} ".encode()) and got.endswith(b"\r\n"), got


def begin(stream, text, behind=b""):
    """Sends a read that waits, behind a PING, whose reply says that the server has come to it."""
    stream.sendall(PING + asking(text) + behind)
    comes(stream, PONG.decode())


class Clients(contextlib.ExitStack):
    """Connections to a server, which end with the block."""

    def __init__(self, port):
        super().__init__()
        self.port = port

    def new(self):
        return self.enter_context(raw(self.port))

    def waiting(self, consumer, keys, options="BLOCK 0"):
        """One that waits for new entries."""
        stream = self.new()
        begin(stream, reading(consumer, keys, options))
        nothing_comes(READ, stream)
        return stream


# ---- readers that wait: what they are answered


def never_an_empty_array(server):
    """A reader isn't given a stream without entries, though an entry was added and deleted since its last read.
    Refuses: a read with BLOCK 10 doesn't wait."""
    with Clients(server.port) as clients:
        one, reader = clients.new(), clients.new()
        make(one, "empty")
        add(one, "empty", 666)
        say(one, reading("a", "empty", "BLOCK 10"), gives("empty", 666))
        add(one, "empty", 667)
        say(one, "XDEL empty 667", number(1))
        began = time.monotonic()
        say(reader, reading("a", "empty", "BLOCK 10"), NOTHING)
        assert time.monotonic() - began >= 0.01, "it didn't wait"


def key_deleted(server):
    """A reader is told when its key is deleted, also if it is the second of its keys; another key disturbs nobody.
    Refuses: of the keys of a DEL only the last one reaches waiting readers."""
    with Clients(server.port) as clients:
        one = clients.new()
        make(one, "gone", "kept", "odd")
        add(one, "gone", 666)
        say(one, reading("a", "gone"), gives("gone", 666))
        alone, second = clients.waiting("a", "gone"), clients.waiting("b", "kept gone", "BLOCK 20000")
        other = clients.waiting("c", "kept")
        say(one, "DEL odd", number(1))
        nothing_comes(READ, alone, second, other)
        say(one, "DEL odd gone odd", number(1))
        refuses(alone, "NOGROUP")
        refuses(second, "NOGROUP")
        nothing_comes(READ, other)
        add(one, "kept", 1)
        comes(other, gives("kept", 1))


def group_destroyed(server):
    """A reader is told when its group is destroyed; one of another group waits on."""
    with Clients(server.port) as clients:
        one = clients.new()
        make(one, "destroyed")
        say(one, "XGROUP CREATE destroyed h 0", OK)
        reader, other = clients.waiting("a", "destroyed"), clients.new()
        begin(other, "XREADGROUP GROUP h a BLOCK 0 STREAMS destroyed >")
        say(one, "XGROUP DESTROY destroyed g", number(1))
        refuses(reader, "NOGROUP")
        nothing_comes(READ, other)
        add(one, "destroyed", 1)
        comes(other, gives("destroyed", 1))


def ran_dry(server):
    """A stream that has run dry: a reader has the null array when its time is over, and the next one what is added."""
    with Clients(server.port) as clients:
        one, reader = clients.new(), clients.new()
        make(one, "dry")
        add(one, "dry", 666)
        say(one, "XDEL dry 666", number(1))
        say(reader, reading("a", "dry", "BLOCK 10"), NOTHING)
        for place in (665, 666):
            one.sendall(asking(f"XADD dry {place} f v"))
            refuses(one, "ERR")
        begin(reader, reading("a", "dry"))
        nothing_comes(READ, reader)
        add(one, "dry", 667)
        comes(reader, gives("dry", 667))


def refused_at_once(server):
    """A reader of a key or group that isn't there is told at once, whichever of its keys it is."""
    with Clients(server.port) as clients:
        one = clients.new()
        make(one, "there")
        say(one, "XADD groupless 1-0 f v", bulk("1-0"))
        for keys in ("missing", "groupless", "there missing", "missing there", "groupless there"):
            one.sendall(asking(reading("a", keys)))
            refuses(one, "NOGROUP")


def of_two_keys(server):
    """A reader of two keys is given what comes to either, in both orders; what one of them has ends no wait twice."""
    with Clients(server.port) as clients:
        one = clients.new()
        make(one, "left", "right")
        place = 0
        for keys in ("left right", "right left"):
            for key in ("left", "right"):
                place += 1
                reader = clients.waiting("a", keys)
                add(one, key, place)
                comes(reader, gives(key, place))
                say(one, reading("a", keys, "BLOCK 1"), NOTHING)
        add(one, "right", 10)
        say(one, reading("a", "left right"), gives("right", 10))


def added_and_deleted(server):
    """An entry that is deleted in the same batch: the reader has it, and it is pending, or the reader waits on. It is never
    given a stream without entries."""
    with Clients(server.port) as clients:
        one = clients.new()
        make(one, "short")
        for place in range(1, 20, 2):
            with raw(server.port) as reader, reader.makefile("rb") as replies:
                begin(reader, reading("a", "short"))
                one.sendall(asking(f"XADD short {place}-0 f v") + asking(f"XDEL short {place}-0"))
                comes(one, bulk(f"{place}-0") + number(1))
                add(one, "short", place + 1)
                got = read_reply(replies).decode()
            is_first = got == gives("short", place)
            say(one, reading("a", "short", "BLOCK 1"), gives("short", place + 1) if is_first else NOTHING)
            assert is_first or got == gives("short", place + 1), got
            say(one, f"XACK short g {place}-0 {place + 1}-0", number(1 + is_first))


def added_and_trimmed(server):
    """An addition that keeps no entry ends no wait."""
    with Clients(server.port) as clients:
        one = clients.new()
        make(one, "trimmed")
        reader, brief = clients.waiting("a", "trimmed"), clients.waiting("b", "trimmed", "BLOCK 500")
        for place in (1, 2):
            say(one, f"XADD trimmed MAXLEN 0 {place}-0 f v", bulk(f"{place}-0"))
        nothing_comes(READ, reader, brief)
        comes(brief, NOTHING)
        add(one, "trimmed", 3)
        comes(reader, gives("trimmed", 3))


def without_acknowledging(server):
    """With NOACK nothing of what a reader was given is pending, as if it hadn't waited; without it all is."""
    with Clients(server.port) as clients:
        one = clients.new()
        make(one, "handed")
        for place, options in ((1, "NOACK BLOCK 0"), (2, "BLOCK 20000 NOACK COUNT 1")):
            reader = clients.waiting("a", "handed", options)
            add(one, "handed", place)
            comes(reader, gives("handed", place))
        say(one, "XPENDING handed g - + 10", array([]))
        reader = clients.waiting("b", "handed")
        add(one, "handed", 3)
        comes(reader, gives("handed", 3))
        say(one, "XPENDING handed g", array([number(1), bulk("3-0"), bulk("3-0"),
                                             array([array([bulk("b"), bulk("1")])])]))


def two_readers(server):
    """Of three entries one by one each of two readers has one, though it would take two; the third is left."""
    with Clients(server.port) as clients:
        one = clients.new()
        make(one, "three")
        readers = [clients.waiting(name, "three", "COUNT 2 BLOCK 0") for name in "ab"]
        for place, reader in enumerate(readers, 1):
            add(one, "three", place)
            comes(reader, gives("three", place))
        add(one, "three", 3)
        nothing_comes(READ, *readers)
        say(readers[0], reading("a", "three", "COUNT 2 BLOCK 0"), gives("three", 3))


def of_two_groups(server):
    """Of the readers of each group the one that waits longest is given the entry, and the others wait on. Refuses: once
    a reader finds nothing, those of other groups aren't looked at."""
    with Clients(server.port) as clients:
        one, readers = clients.new(), {}
        make(one, "both")
        say(one, "XGROUP CREATE both h 0", OK)
        for group, consumer in (("g", "a"), ("g", "b"), ("h", "c"), ("h", "d"), ("g", "e")):
            readers[consumer] = clients.new()
            begin(readers[consumer], reading(consumer, "both").replace("GROUP g", f"GROUP {group}"))
            nothing_comes(READ, readers[consumer])
        for place, served in enumerate(("ac", "bd", "e"), 1):
            add(one, "both", place)
            for consumer in served:
                comes(readers.pop(consumer), gives("both", place))
            nothing_comes(READ, *readers.values())


def two_readers_at_once(server):
    """Three entries in one batch go to two readers in their order, at most two to each, and what is left to a third."""
    with Clients(server.port) as clients:
        one = clients.new()
        make(one, "batch")
        for first in range(1, 31, 3):
            readers = [clients.new() for _ in range(2)]
            for name, reader in zip("ab", readers):
                begin(reader, reading(name, "batch", "COUNT 2 BLOCK 0"))
                time.sleep(0.01)
            places = range(first, first + 3)
            one.sendall(b"".join(asking(f"XADD batch {place}-0 f v") for place in places))
            comes(one, "".join(bulk(f"{place}-0") for place in places))
            given = []
            for reader in readers:
                with reader.makefile("rb") as replies:
                    given.append(re.findall(rb"\r\n(\d+)-0\r\n", read_reply(replies)))
            with one.makefile("rb") as replies:
                one.sendall(asking(reading("c", "batch", "COUNT 5 BLOCK 1")))
                given.append(re.findall(rb"\r\n(\d+)-0\r\n", read_reply(replies)))
            assert [int(place) for some in given for place in some] == list(places), given
            assert 1 <= len(given[0]) <= 2 and 1 <= len(given[1]) <= 2, given


def all_times(server):
    """BLOCK 0 and the greatest number wait until something comes; a number below 0, and what is none, is refused."""
    with Clients(server.port) as clients:
        one = clients.new()
        make(one, "times")
        for place, millis in enumerate((0, 9223372036854775807, 4_000_000_000, 86_400_000), 1):
            reader = clients.waiting("a", "times", f"BLOCK {millis}")
            nothing_comes(0.3, reader)
            add(one, "times", place)
            comes(reader, gives("times", place))
        for millis in ("-1", "-9223372036854775808", "9223372036854775808", "1.5", "x"):
            one.sendall(asking(reading("a", "times", f"BLOCK {millis}")))
            refuses(one, "ERR")


def in_turn(server):
    """Who waits longest is served first, of 16: with additions one by one, and with all in one batch."""
    with Clients(server.port) as clients:
        one = clients.new()
        make(one, "turns")
        readers = [clients.new() for _ in range(16)]
        for batch, names in enumerate((range(16), range(15, -1, -1))):
            for name in names:
                begin(readers[name], reading(f"c{name}", "turns", "COUNT 1 BLOCK 0"))
                time.sleep(0.01)
            places = range(1 + 16 * batch, 17 + 16 * batch)
            if batch:
                one.sendall(b"".join(asking(f"XADD turns {place}-0 f v") for place in places))
                comes(one, "".join(bulk(f"{place}-0") for place in places))
            for place, name in zip(places, names):
                if not batch:
                    add(one, "turns", place)
                comes(readers[name], gives("turns", place))


def own_entries_at_once(server):
    """A read of the consumer's own entries is answered at once, also beside one of new entries."""
    with Clients(server.port) as clients:
        one = clients.new()
        make(one, "own", "new")
        for place in (1, 2):
            add(one, "own", place)
            say(one, reading("a", "own"), gives("own", place))
        for start in ("0", "1-0", "500"):
            had = [place for place in (1, 2) if place > int(start.split("-")[0])]
            say(one, f"XREADGROUP GROUP g a BLOCK 0 STREAMS own {start}", gives("own", *had))
            say(one, f"XREADGROUP GROUP g a BLOCK 0 STREAMS new own > {start}", gives("own", *had))
            say(one, f"XREADGROUP GROUP g b BLOCK 0 STREAMS own new {start} >", gives("own"))


def before_and_behind(server):
    """What stands before a read that waits is answered at once, what stands behind it after it; others are served
    meanwhile."""
    with Clients(server.port) as clients:
        one, reader, brief = clients.new(), clients.new(), clients.new()
        make(one, "order")
        reader.sendall(asking("PING before") + asking(reading("a", "order")) + asking("XLEN order") * 2)
        brief.sendall(asking("PING before") + asking(reading("b", "order", "BLOCK 1500")) + PING)
        for stream in (reader, brief):
            comes(stream, bulk("before"), within=1)
        nothing_comes(READ, reader)
        reader.sendall(PING)
        comes(brief, NOTHING + PONG.decode())
        nothing_comes(READ, reader)
        add(one, "order", 1)
        comes(reader, gives("order", 1) + number(1) * 2 + PONG.decode())


def at_the_last_moment(server):
    """Readers whose time is over again and again while entries come: each entry goes to one of them."""
    count, taken, lock = 200, [], threading.Lock()
    say_at(server, "XGROUP CREATE race g 0 MKSTREAM", OK)

    def work(place):
        with raw(server.port) as stream, stream.makefile("rb") as replies:
            deadline = time.monotonic() + PATIENCE
            for added in range(1, count + 1 if place == 0 else 1):
                add(stream, "race", added)
                time.sleep(0.003 + added % 3 / 2000)
            while place > 0 and len(taken) < count and time.monotonic() < deadline:
                stream.sendall(asking(reading(f"c{place}", "race", "COUNT 1 BLOCK 3")))
                got = re.findall(rb"\r\n(\d+)-0\r\n", read_reply(replies))
                with lock:
                    taken.extend(map(int, got))

    served.together(5, work)
    assert sorted(taken) == list(range(1, count + 1)), len(taken)


# ---- readers that wait: how long, many, and those that leave


def ends_in_time(program):
    """A wait of 300 ms takes 300 to 450 ms, whenever it begins; another one that began before it isn't over. Of nine
    waits the median counts, and of three tries the best, since the machine may be busy. Refuses: a wait lasts 200 ms
    longer."""
    with running(program, workers=12) as server, Clients(server.port) as clients:
        make(clients.new(), "timed")
        longer, tries = clients.waiting("long", "timed", "BLOCK 20000"), []

        def wait(place):
            with raw(server.port) as reader:
                say(reader, "PING", PONG.decode())
                time.sleep(place * 0.13)
                began = time.monotonic()
                say(reader, reading(f"c{place}", "timed", "BLOCK 300"), NOTHING)
                tries[-1].append(time.monotonic() - began)

        while len(tries) < 3 and not (tries and sorted(tries[-1])[4] <= 0.45):
            tries.append([])
            served.together(9, wait)
        nothing_comes(READ, longer)
        assert min(map(min, tries)) >= 0.3 and sorted(tries[-1])[4] <= 0.45, tries


def sixty(program):
    """60 consumers that wait and acknowledge: each of 300 jobs is given once, in the order in which they wait."""
    count = 60
    with running(program, workers=count + 1) as server, Clients(server.port) as clients:
        one = clients.new()
        make(one, "jobs")
        readers = [clients.new() for _ in range(count)]
        for name, reader in enumerate(readers):
            begin(reader, reading(f"c{name}", "jobs", "COUNT 10 BLOCK 0"))
        time.sleep(READ)
        for place in range(1, 301):
            name = (place - 1) % count
            add(one, "jobs", place)
            comes(readers[name], gives("jobs", place))
            say(readers[name], f"XACK jobs g {place}-0", number(1))
            begin(readers[name], reading(f"c{name}", "jobs", "COUNT 10 BLOCK 0"))
        nothing_comes(READ, *readers)
        say(one, "XPENDING jobs g - + 10", array([]))


@timed
def waiting_costs_nothing(program):
    """60 readers that wait take no processor time, and another client is answered meanwhile. Refuses: a lane never
    parks; a worker checks its client a hundred times a second."""
    count = 60
    with running(program, workers=count + 1) as server, Clients(server.port) as clients:
        one = clients.new()
        make(one, "quiet")
        for name in range(count):
            begin(clients.new(), reading(f"c{name}", "quiet", f"BLOCK {(0, 60_000)[name % 2]}"))
        time.sleep(0.5)
        before = server.processor_time()
        time.sleep(2)
        used = server.processor_time() - before
        assert used <= 0.05, f"{used} s in two seconds"
        say(one, "PING", PONG.decode())


READS = asking(reading("a", "left")) * 10
# How a client ends its connection, and what it has sent behind the read that waits: together with it, and later.
ENDS = {"FIN": socket.socket.close, "RST": reset}
BEHIND = {"nothing": (b"", b""), "half a request": (b"", PING[:9]), "half a request, in one piece": (PING[:9], b""),
          "whole requests": (b"", PING * 3), "whole requests, in one piece": (PING * 3, b""),
          "many requests": (b"", PING * 3000), "more than is held": (b"", PING * 6000),
          "further reads": (b"", READS), "further reads, in one piece": (READS, b"")}
WAYS = [(end, behind) for end in ENDS for behind in BEHIND]


@contextlib.contextmanager
def told_as(way):
    """A fault within the block is told with the way in which the client goes."""
    try:
        yield
    except (AssertionError, OSError) as fault:
        raise AssertionError(f"{' behind '.join(way)}: {type(fault).__name__} {fault}") from fault


def leaver(port, behind, options="BLOCK 0"):
    """A client that waits, and has sent this behind its read."""
    stream = raw(port)
    begin(stream, reading("a", "left", options), BEHIND[behind][0])
    time.sleep(READ)
    stream.sendall(BEHIND[behind][1])
    return stream


def leaves(program, end, behind):
    """A client goes while it waits. Two seconds later its worker serves another one, who may wait too; a job goes to who
    still waits."""
    with running(program, workers=3) as server, Clients(server.port) as clients:
        one = clients.new()
        make(one, "left")
        gone, other = leaver(server.port, behind), clients.waiting("b", "left")
        ENDS[end](gone)
        time.sleep(NOTICED)
        late = clients.new()
        late.sendall(PING)
        comes(late, PONG.decode(), within=0.9)
        begin(late, reading("late", "left"))
        nothing_comes(READ, late)
        add(one, "left", 1)
        comes(other, gives("left", 1))
        say(one, "XPENDING left g", array([number(1), bulk("1-0"), bulk("1-0"),
                                           array([array([bulk("b"), bulk("1")])])]))


def clients_that_go(program):
    """Each way in which a client goes while it waits, on a server of its own whose other workers are all busy. Refuses:
    what a waiting client sent is taken for the next one's; 64 KiB are held of what a client sends behind a waiting
    read; after a client left while it waited, no read of its worker waits."""
    def work(place):
        with told_as(WAYS[place]):
            leaves(program, *WAYS[place])

    served.together(len(WAYS), work)


def has_just_gone(program):
    """If who waits longest went 0.2 seconds before a job came, it goes to one who is there. Refuses: 64 KiB are held of
    what a client sends behind a waiting read."""
    def work(half):
        with running(program, workers=3 * len(BEHIND)) as server, Clients(server.port) as clients:
            one, other = clients.new(), clients.new()
            make(one, "left")
            for place, behind in enumerate(BEHIND, 1):
                gone = leaver(server.port, behind, "COUNT 1 BLOCK 20000")
                begin(other, reading("b", "left"))
                time.sleep(READ)
                end = list(ENDS)[half]
                ENDS[end](gone)
                time.sleep(0.2)
                add(one, "left", place)
                with told_as((end, behind)):
                    comes(other, gives("left", place), within=2)

    served.together(len(ENDS), work)


def many_have_just_gone(program):
    """If all who wait longest went 0.2 seconds before a job came, each in a way of its own, it goes to the one who is
    there. Refuses: before a job is delivered only one client that has left is passed over."""
    with running(program, workers=len(WAYS) + 2) as server, Clients(server.port) as clients:
        one, other = clients.new(), clients.new()
        make(one, "left")
        gone = [(end, leaver(server.port, behind, "COUNT 1 BLOCK 20000")) for end, behind in WAYS]
        begin(other, reading("b", "left"))
        time.sleep(READ)
        for end, stream in gone:
            ENDS[end](stream)
        time.sleep(0.2)
        add(one, "left", 1)
        comes(other, gives("left", 1), within=2)


def terminated(program):
    """SIGTERM ends it at once by the signal, though calls wait. Their clients are answered nothing, and nothing was
    written on standard output."""
    with running(program, workers=8) as server, Clients(server.port) as clients:
        one = clients.new()
        make(one, "ending")
        readers = [clients.waiting(name, "ending") for name in "abcde"]
        one.sendall(PING[:5])
        began = time.monotonic()
        server.child.send_signal(signal.SIGTERM)
        assert server.child.wait(timeout=10) == -signal.SIGTERM
        took = time.monotonic() - began
        assert took <= 1, f"it took {took} s"
        for reader in readers:
            assert read_to_end(reader)[0] == b""
        assert server.child.stdout.read() == b""


OVER_ONE_SERVER = (never_an_empty_array, key_deleted, group_destroyed, ran_dry, refused_at_once, of_two_keys,
                   added_and_deleted, added_and_trimmed, without_acknowledging, two_readers, of_two_groups,
                   two_readers_at_once, all_times, in_turn, own_entries_at_once, before_and_behind,
                   at_the_last_moment)
