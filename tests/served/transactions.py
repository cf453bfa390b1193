"""MULTI, EXEC and DISCARD, under `run`.

The replies are those of a real Redis 7.0, but for the texts of errors in words, for commands of the connection, which
Redis queues and this server refuses, and for how much may be queued.
"""
import time

from greetings import OK, ask, unknown
from logged import logged, new_folder
from resp import array, bulk, entry, number, read_reply
from served import PONG, asking, fill, raw, read_exactly, running, say

QUEUED, NOTHING = "+QUEUED\r\n", "*0\r\n"
ABORTED = "-EXECABORT Transaction discarded because of previous errors.\r\n"
NESTED = "-ERR MULTI calls can not be nested\r\n"
NO_EXEC, NO_DISCARD = "-ERR EXEC without MULTI\r\n", "-ERR DISCARD without MULTI\r\n"
NOT_ALLOWED = "-ERR Command not allowed inside a transaction\r\n"
NO_ROOM = "-ERR a transaction holds at most 1024 commands of 1048576 bytes\r\n"
NOT_ABOVE = "-ERR The ID specified in XADD is equal or smaller than the target stream top item\r\n"
READ = "XREADGROUP GROUP g c BLOCK 0 STREAMS s >"

# Requests in turn over one connection, and the replies.
TOLD = [
    ("EXEC", NO_EXEC), ("DISCARD", NO_DISCARD), ("MULTI", OK), ("multi", NESTED), ("PING", QUEUED),
    ("exec", "*1\r\n" + PONG.decode()), ("EXEC", NO_EXEC), ("MULTI", OK), ("EXEC", NOTHING),
    ("MULTI", OK), ("XADD s 9-0 f v", QUEUED), ("discard", OK), ("XLEN s", number(0)), ("EXEC", NO_EXEC),
    ("MULTI", OK), ("XADD s 1-0 f v", QUEUED), ("XLEN s", QUEUED), ("XADD s 1-0 f v", QUEUED),
    ("EXEC", "*3\r\n" + bulk("1-0") + number(1) + NOT_ABOVE), ("XLEN s", number(1)),
    ("MULTI", OK), ("FOO", unknown("FOO")), ("XADD s 2-0 f v", QUEUED), ("EXEC", ABORTED), ("XLEN s", number(1)),
    ("MULTI", OK), ("XADD s 2-0 f v", QUEUED), ("XLEN", "-ERR wrong number of arguments\r\n"), ("EXEC", ABORTED),
    ("MULTI", OK), ("XLEN", "-ERR wrong number of arguments\r\n"), ("DISCARD", OK), ("XLEN s", number(1)),
    ("XGROUP CREATE s g 0", OK), ("MULTI", OK), (READ, QUEUED), (READ, QUEUED),
    ("EXEC", "*2\r\n" + array([array([bulk("s"), array([entry("1-0", "f", "v")])])]) + "*-1\r\n"),
    ("MULTI", OK), ("PING", QUEUED), ("RESET", "+RESET\r\n"), ("EXEC", NO_EXEC),
    ("MULTI", OK), ("ECHO a", NOT_ALLOWED), ("EXEC", ABORTED),
    ("MULTI", OK), ("XACK s g 1-0", QUEUED), ("XDEL s 1-0", QUEUED), ("EXEC", "*2\r\n:1\r\n:1\r\n"), ("MULTI", OK), ("XADD s 3-0 f v", QUEUED), ("QUIT", OK),
]


def answers_like_redis(program):
    """Each request is answered as Redis answers it, one by one and all in one pipeline."""
    for together in (False, True):
        with running(program) as server:
            with raw(server.port) as stream, stream.makefile("rb") as replies:
                if together:
                    stream.sendall(b"".join(asking(text) for text, _ in TOLD))
                    for text, reply in TOLD:
                        got = read_reply(replies)
                        assert got == reply.encode(), f"{text!r} was answered {got!r}"
                else:
                    for text, reply in TOLD:
                        ask(replies, stream, text, reply)
                assert not replies.read(1)
            with raw(server.port) as stream:
                say(stream, "XLEN s", number(0))


def asks_nothing_before_exec(program):
    """What is queued isn't asked before EXEC, nor if the client leaves; the next one of its worker has no transaction."""
    with running(program, workers=2) as server, raw(server.port) as other:
        for place in range(3):
            with raw(server.port) as stream:
                say(stream, "MULTI", OK)
                for entry in range(40):
                    say(stream, f"XADD s 1-{entry + 1} f v", QUEUED)
                say(other, "EXISTS s", number(0))
        with raw(server.port) as stream:
            say(stream, "EXEC", NO_EXEC)
            say(stream, "XLEN s", number(0))


def many_in_order(program):
    """1,024 commands are asked in their order, between those before MULTI and behind EXEC in the same bytes."""
    asked = [f"XADD s {entry}-0 f v" for entry in range(1, 1025)]
    bytes_sent = b"".join(map(asking, ["XADD s 0-5 f v", "MULTI", *asked, "EXEC", "XADD s 2000-0 f v", "XLEN s"]))
    replies = [bulk("0-5"), OK, QUEUED * 1024, "*1024\r\n", *(bulk(f"{entry}-0") for entry in range(1, 1025)),
               bulk("2000-0"), number(1026)]
    wanted = "".join(replies).encode()
    with running(program) as server, raw(server.port) as stream:
        stream.sendall(bytes_sent)
        assert (got := read_exactly(stream, len(wanted))) == wanted, got[-200:]


def no_room_for_more(program):
    """One command more, or more bytes, are refused, and then nothing is asked."""
    great = "XADD s * f " + "x" * 300_000
    with running(program) as server, raw(server.port) as stream:
        for asked, fit in ((["PING"] * 1025, 1024), ([great] * 4, 3), (["XADD s * f " + "x" * 1_100_000, "PING"], 0)):
            say(stream, "MULTI", OK)
            for place, text in enumerate(asked):
                say(stream, text, NO_ROOM if place == fit else QUEUED)
            say(stream, "EXEC", ABORTED)
            say(stream, "EXISTS s", number(0))


def never_waits(program):
    """A read with BLOCK that EXEC lets go is answered at once, alone, between others and as the last. Refuses: a read
    that EXEC releases waits."""
    null = "*-1\r\n"
    with running(program) as server, raw(server.port) as stream, stream.makefile("rb") as replies:
        ask(replies, stream, "XGROUP CREATE s g 0 MKSTREAM", OK)
        for asked, told in (([READ], null), (["PING", READ, "XLEN s"], PONG.decode() + null + number(0)),
                            ([READ, READ], null + null)):
            began = time.monotonic()
            stream.sendall(b"".join(map(asking, ["MULTI", *asked, "EXEC"])))
            wanted = (OK + QUEUED * len(asked) + f"*{len(asked)}\r\n" + told).encode()
            got = replies.read(len(wanted))
            assert got == wanted, got
            assert time.monotonic() - began < 1, "it waited"
        # One behind EXEC waits as ever.
        stream.sendall(asking(READ))
        with raw(server.port) as other:
            say(other, "XADD s 1-0 f v", bulk("1-0"))
        assert read_reply(replies).startswith(b"*1\r\n*2\r\n")


def great_replies_one_by_one(program):
    """Of the replies to EXEC one of any size is held at once."""
    with running(program, workers=2) as server, raw(server.port) as stream, stream.makefile("rb") as replies:
        fill(server, "s", 8, 1_000_000)
        before = server.peak()
        asked = ["XRANGE s - +"] * 30
        stream.sendall(b"".join(map(asking, ["MULTI", *asked, "EXEC"])))
        for _ in range(31):
            read_reply(replies)
        assert replies.readline() == b"*30\r\n"
        for _ in range(30):
            assert len(read_reply(replies)) > 8_000_000
        grown = server.peak() - before
        assert grown < 40_000_000, f"{grown} bytes"


def kept_by_a_log(program):
    """What EXEC has let go is kept by a log, each command once, and read again by a restart."""
    with new_folder() as folder:
        with logged(program, folder) as server, raw(server.port) as stream, stream.makefile("rb") as replies:
            for text, reply in (("XGROUP CREATE s g 0 MKSTREAM", OK), ("MULTI", OK), ("XADD s 1-0 f v", QUEUED),
                                ("XADD s 2-0 f v", QUEUED), (READ, QUEUED), ("XACK s g 1-0", QUEUED),
                                ("EXEC", None)):
                ask(replies, stream, text, reply)
            stream.sendall(asking("MULTI") + asking("XADD s 3-0 f v"))
            assert read_reply(replies) + read_reply(replies) == (OK + QUEUED).encode()
            server.child.kill()
        with logged(program, folder) as server, raw(server.port) as stream, stream.makefile("rb") as replies:
            ask(replies, stream, "XLEN s", number(2))
            ask(replies, stream, "XPENDING s g", "*4\r\n:1\r\n" + bulk("2-0") * 2 + "*1\r\n*2\r\n" + bulk("c") + bulk("1"))


CASES = [answers_like_redis, asks_nothing_before_exec, many_in_order, no_room_for_more, never_waits,
         great_replies_one_by_one, kept_by_a_log]
