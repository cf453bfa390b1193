"""INFO: what a server tells of itself.

The names of sections and fields are those of the Redis page of INFO; the figures are counted here.
"""
import contextlib
import re
import tempfile
import threading
import time

from greetings import ask
from resp import bulk, number, read_reply
from served import PONG, asking, raw, running, say, serving

SECTIONS = ["Server", "Clients", "Memory", "Persistence", "Stats", "Replication", "Keyspace"]
UNKNOWN = "-ERR unknown command\r\n"
TOO_SMALL = "-ERR The ID specified in XADD is equal or smaller than the target stream top item\r\n"
# In seconds: by then a worker or the keeper has told what it has done.
SOON = 5


def told(stream, replies, words="INFO"):
    """The sections that INFO tells, in their order, and its fields."""
    stream.sendall(asking(words))
    text = read_reply(replies)
    assert text.startswith(b"$") and text.endswith(b"\r\n"), text
    lines = text[text.index(b"\r\n") + 2:-2].decode().split("\r\n")
    fields = dict(line.split(":", 1) for line in lines if line and not line.startswith("#"))
    return [line[2:] for line in lines if line.startswith("#")], fields


def comes_to(look, wanted):
    """What is looked at is soon this."""
    end = time.monotonic() + SOON
    while (got := look()) != wanted:
        assert time.monotonic() < end, f"{got!r} in place of {wanted!r}"
        time.sleep(0.01)


def names_its_sections(program):
    """INFO tells all sections, or those that are named, in any case and order; of an unknown one nothing."""
    with running(program, workers=2) as server, raw(server.port) as stream, stream.makefile("rb") as replies:
        for words in ("INFO", "info all", "INFO Default", "INFO everything", "INFO cluster ALL"):
            assert told(stream, replies, words)[0] == SECTIONS, words
        for section in SECTIONS:
            assert told(stream, replies, f"INFO {section.lower()}")[0] == [section]
        assert told(stream, replies, "INFO KEYSPACE server Memory")[0] == ["Server", "Memory", "Keyspace"]
        say(stream, "INFO cluster", bulk(""))
        _, fields = told(stream, replies)
        fixed = {"redis_version": "7.0.15", "tcp_port": str(server.port), "maxclients": "2", "maxmemory": "0",
                 "loading": "0", "aof_enabled": "0", "log_sync": "none", "aof_rewrite_in_progress": "0",
                 "aof_last_bgrewrite_status": "ok", "log_compact": "none", "log_snapshot": "0", "role": "master"}
        assert fields.items() >= fixed.items() and "db0" not in fields, fields


def counts(program):
    """The figures: connections, commands and errors of all workers, keys, bytes and their bound."""
    with running(program, "--max-memory", "64m", workers=4) as server:
        with raw(server.port) as stream, stream.makefile("rb") as replies:
            def field(name):
                return told(stream, replies)[1].get(name)

            with raw(server.port) as other:
                say(other, "PING", PONG.decode())
                say(other, "FOO", "-ERR unknown command 'FOO', with args beginning with: \r\n")
                say(other, "XADD a 1-0 f v", bulk("1-0"))
                say(other, f"XADD b 1-0 f {'v' * 1_000_000}", bulk("1-0"))
                say(other, "XADD b 1-0 f v", TOO_SMALL)
                comes_to(lambda: field("connected_clients"), "2")
                comes_to(lambda: field("blocked_clients"), "0")
                comes_to(lambda: field("db0"), "keys=2,expires=0,avg_ttl=0")
                comes_to(lambda: field("total_error_replies"), "2")
                before = int(field("total_commands_processed"))
                say(other, "PING", PONG.decode())
                comes_to(lambda: int(field("total_commands_processed")) > before + 1, True)
            comes_to(lambda: field("connected_clients"), "1")
            say(stream, "XGROUP CREATE a g $", "+OK\r\n")
            with raw(server.port) as other:
                other.sendall(asking("XREADGROUP GROUP g c BLOCK 0 STREAMS a >"))
                comes_to(lambda: field("blocked_clients"), "1")
                say(stream, "XGROUP DESTROY a g", number(1))
                comes_to(lambda: field("blocked_clients"), "0")
            comes_to(lambda: field("connected_clients"), "1")
            fields = told(stream, replies)[1]
            assert fields["total_connections_received"] == "3" and fields["maxmemory"] == str(64 << 20), fields
            held, resident = int(fields["used_memory"]), int(fields["used_memory_rss"])
            assert 1_000_000 < held < 1_200_000 < resident, fields
            say(stream, "DEL b", number(1))
            comes_to(lambda: int(field("used_memory")) < 2000, True)
            say(stream, "DEL a", number(1))
            comes_to(lambda: (field("db0"), field("used_memory")), (None, "0"))


def tells_of_its_age_and_log(program):
    """How many seconds a server has run, and when its log is synced and compacted (due_compactions.py has more)."""
    with tempfile.TemporaryDirectory() as folder:
        began = time.monotonic()
        with running(program, "--log", folder, "--sync", "second", workers=1) as server:
            time.sleep(2.1)
            with raw(server.port) as stream, stream.makefile("rb") as replies:
                fields = told(stream, replies)[1]
                assert 2 <= int(fields["uptime_in_seconds"]) <= time.monotonic() - began, fields
                log = {"aof_enabled": "1", "log_sync": "second", "aof_rewrite_in_progress": "0",
                       "aof_last_bgrewrite_status": "ok", "log_compact": "serving", "log_snapshot": "0"}
                assert fields.items() >= log.items(), fields


def waits_for_its_place(program):
    """INFO is answered in the order of the requests, not between MULTI and EXEC, and not under `serve`."""
    with running(program, workers=1) as server, raw(server.port) as stream, stream.makefile("rb") as replies:
        stream.sendall(asking("XADD s 1-0 f v") + asking("INFO clients") + asking("XLEN s"))
        assert read_reply(replies) == bulk("1-0").encode()
        assert b"# Clients" in read_reply(replies) and read_reply(replies) == number(1).encode()
        ask(replies, stream, "MULTI", "+OK\r\n")
        ask(replies, stream, "INFO", "-ERR Command not allowed inside a transaction\r\n")
        ask(replies, stream, "EXEC", "-EXECABORT Transaction discarded because of previous errors.\r\n")
    with serving(program, workers=1) as server, raw(server.port) as stream:
        say(stream, "INFO", UNKNOWN)


def sends_ahead(port, text, done):
    """A client that sends this request ahead, a hundred times at once, until it is told that all is done."""
    with raw(port) as stream, stream.makefile("rb") as replies:
        while not done.is_set():
            stream.sendall(asking(text) * 100)
            for _ in range(100):
                read_reply(replies)


@contextlib.contextmanager
def beside_a_client(port, text):
    """While the block runs, a client sends this request ahead."""
    done = threading.Event()
    other = threading.Thread(target=sends_ahead, args=(port, text, done))
    other.start()
    try:
        yield
    finally:
        done.set()
        other.join()


def tells_what_was_answered(program):
    """The keys that INFO tells are those behind each request before it, sent in one piece, whatever sections are named,
    while others keep the keeper busy. Refuses: the keys in INFO are those of the keeper's figures; with several
    sections INFO isn't answered behind the requests before it."""
    with running(program, workers=2) as server, raw(server.port) as stream, stream.makefile("rb") as replies:
        say(stream, "XADD busy 1-1 f v", bulk("1-1"))
        with beside_a_client(server.port, "XADD busy * f v"):
            for count in range(1, 601):
                words = ("INFO keyspace", "INFO server keyspace", "INFO")[count % 3]
                stream.sendall(asking(f"XADD k{count} 1-1 f v") + asking(words) + asking(f"DEL gone{count}"))
                assert read_reply(replies) == bulk("1-1").encode()
                assert f"db0:keys={count + 1},".encode() in (text := read_reply(replies)), (words, count, text)
                assert read_reply(replies) == number(0).encode()


def tells_the_memory_behind_additions(program):
    """`used_memory` has each addition before INFO, sent in one piece, whether the keeper rests between them or answers
    another client without an end. Refuses: INFO doesn't wait until the keeper has published."""
    size = 100_000
    with running(program, workers=2) as server, raw(server.port) as stream, stream.makefile("rb") as replies:
        def told_behind(count):
            stream.sendall(asking(f"XADD s {count}-1 f {'v' * size}") + asking("INFO memory"))
            assert read_reply(replies) == bulk(f"{count}-1").encode()
            used = int(re.search(rb"used_memory:(\d+)", read_reply(replies)).group(1))
            assert count * size < used < (count + 1) * size, (count, used)

        began = time.monotonic()
        for count in range(1, 101):
            told_behind(count)
        # It has told before it parks: nobody waits for it then.
        assert time.monotonic() - began < 10
        with beside_a_client(server.port, "PING"):
            for count in range(101, 401):
                told_behind(count)


CASES = [names_its_sections, counts, tells_of_its_age_and_log, waits_for_its_place, tells_what_was_answered,
         tells_the_memory_behind_additions]
