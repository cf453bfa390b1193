"""A server whose queues may hold so many bytes: `run --max-memory`.

What is refused and what isn't is as the Redis page on eviction has it of *noeviction*: commands that add are answered
OOM, others are served. docs/COMMANDS.md has the texts of errors.
"""
import itertools
import re
import subprocess
import tempfile
import threading
import time

from full_queue import MEGABYTE, NO_MEMORY, add_until_full, consume, limit_memory, producing
from resp import array, bulk, entry, number, read_reply
from served import all_answer, asking, raw, running, say, say_at

OOM = NO_MEMORY.decode()
# The growth of resident memory and what is counted differ by so much at most.
A_TENTH = 0.1
# So much where rows are acknowledged one by one, which leaves small pieces between groups.
A_FIFTH = 0.2
# Where three of four entries were deleted, and the room was filled again, resident memory is up to so much of it.
HERE_AND_THERE = 1.8
# Entries as bench/memory.py has them: how many fields, and the bytes of a name and of a value.
SHAPES = ((1, 1, 60), (5, 10, 20), (1, 1, 1000), (6, 10, 40))


def asked(stream, replies, commands):
    """The replies to many requests, 100 of them sent at once."""
    commands, got = list(commands), []
    for first in range(0, len(commands), 100):
        piece = commands[first:first + 100]
        stream.sendall(b"".join(map(asking, piece)))
        got += [read_reply(replies) for _ in piece]
    return got


def adding(shape, place):
    count, name, value = shape
    fields = " ".join(f"{chr(97 + k) * name} {'v' * value}" for k in range(count))
    return f"XADD s {1700000000000 + place // 5}-{place % 5 + 1} {fields}"


def refuses_what_grows(program):
    """Full, it refuses additions, new groups and new consumers, and nothing else; another error comes first."""
    with running(program, "--max-memory", "1m") as server, raw(server.port) as one:
        say(one, "XGROUP CREATE q g 0 MKSTREAM", "+OK\r\n")
        say(one, "XGROUP CREATECONSUMER q g a", number(1))
        say(one, "XADD r 5-1 f v", bulk("5-1"))
        added = add_until_full(server)
        # The fields of a job have 1,001 bytes.
        assert 950 < added < 1047, added
        job = "v" * 1000
        full = {
            f"XADD q * f {job}": OOM,
            f"XADD new * f {job}": OOM,
            f"XADD r 5-1 f {job}": "-ERR The ID specified in XADD is equal or smaller than the target stream top item\r\n",
            f"XADD new NOMKSTREAM * f {job}": "$-1\r\n",
            f"XGROUP CREATE r {job} 0": OOM,
            f"XGROUP CREATE new {job} 0 MKSTREAM": OOM,
            "XGROUP CREATE q g 0": "-BUSYGROUP Consumer Group name already exists\r\n",
            f"XGROUP CREATECONSUMER q g {job}": OOM,
            "XGROUP CREATECONSUMER q g a": number(0),
            "XLEN q": number(added),
            "XRANGE r - +": array([entry("5-1", "f", "v")]),
            "XRANGE new - +": "*0\r\n",
        }
        for text, reply in full.items():
            say(one, text, reply)
        assert len(consume(server, 10, "XDEL")) == len(consume(server, 10, "NOACK")) == 10


def makes_room(program):
    """Each way of taking something out makes room for as much: deletion, trim, the end of a group and of a key."""
    def ask(text):
        one.sendall(asking(text))
        return read_reply(replies)

    def is_full():
        return ask(f"XADD q * f {'v' * 1000}") == NO_MEMORY

    with running(program, "--max-memory", "1m") as server, raw(server.port) as one, one.makefile("rb") as replies:
        ask("XGROUP CREATE q g 0 MKSTREAM")
        add_until_full(server)
        assert len(consume(server, 100, "XDEL")) == 100 and not is_full()
        assert 90 < add_until_full(server) < 105
        assert int(ask("XTRIM q MAXLEN 500")[1:]) > 400 and not is_full()
        assert add_until_full(server) > 400
        # Rows go beyond the bound, by 118 bytes each, until their group goes.
        assert len(ask("XREADGROUP GROUP g a COUNT 400 STREAMS q >")) > 400_000
        assert ask(f"XTRIM q MAXLEN {int(ask('XLEN q')[1:]) - 30}") == b":30\r\n" and is_full()
        assert ask("XGROUP DESTROY q g") == b":1\r\n" and not is_full()
        add_until_full(server)
        assert ask("DEL q") == b":1\r\n" and not is_full()
        assert add_until_full(server) > 950


def trims_make_room_of_great_ones(program):
    """A trim that leaves nothing of a great entry makes room for as much, as a deletion does. Refuses: a trim that
    leaves nothing of a block keeps its memory."""
    for removal in ("XDEL q 1-0", "XTRIM q MAXLEN 0", "XTRIM q MINID 2-0"):
        with running(program, "--max-memory", "8m") as server, raw(server.port) as one:
            say(one, f"XADD q 1-0 f {'v' * 6_000_000}", bulk("1-0"))
            say(one, removal, number(1))
            say(one, f"XADD other 1-0 f {'v' * 4_000_000}", bulk("1-0"))


def entries_of(shape):
    """Additions of entries of one shape."""
    return (adding(shape, place) for place in itertools.count(1))


def groups_of(rows):
    """Groups of one stream, each with a consumer that has so many rows."""
    yield from (f"XADD s {place}-0 f v" for place in range(1, rows + 1))
    for place in itertools.count():
        yield f"XGROUP CREATE s g{place} 0"
        yield f"XREADGROUP GROUP g{place} c STREAMS s >"


def queues():
    """Streams of one entry, each with a group and a consumer who has read it."""
    for place in itertools.count():
        yield f"XADD q{place} * f {'v' * 60}"
        yield f"XGROUP CREATE q{place} g 0"
        yield f"XREADGROUP GROUP g c STREAMS q{place} >"


def counts_what_is_resident(program):
    """Resident memory has grown by as much as the bound, to a tenth, when an addition is refused, whatever is added."""
    works = {f"entries of {shape}": entries_of(shape) for shape in SHAPES}
    works |= {f"groups of {rows} rows": groups_of(rows) for rows in (1, 8, 9)}
    works["queues"] = queues()
    for what, commands in works.items():
        with running(program, "--max-memory", "12m", workers=1) as server:
            with raw(server.port) as one, one.makefile("rb") as replies:
                asked(one, replies, ["XADD other 1-1 f v"])
                before, count = server.resident(), 0
                while NO_MEMORY not in asked(one, replies, itertools.islice(commands, 100)):
                    count += 100
                share = (server.resident() - before) / (12 * MEGABYTE)
                print(f"{what}: {count} commands, {share:.3f} of the bound", flush=True)
                assert abs(share - 1) <= A_TENTH, (what, share)


def filled(one, replies, commands):
    """Asks these commands until one is refused, and gives those that were not, each with its reply."""
    taken = []
    while True:
        piece = list(itertools.islice(commands, 100))
        got = asked(one, replies, piece)
        taken += [(text, reply) for text, reply in zip(piece, got) if reply != NO_MEMORY]
        if NO_MEMORY in got:
            return taken


def deletions(taken):
    """Deletes three of four entries."""
    ids = [reply.split()[1].decode() for place, (_, reply) in enumerate(taken) if place % 4]
    return [f"XDEL s {' '.join(ids[first:first + 100])}" for first in range(0, len(ids), 100)]


def trim(taken):
    """Trims to a tenth."""
    return [f"XTRIM s MAXLEN {len(taken) // 10}"]


def groups_in(taken):
    """The names of groups that were made."""
    return [text.split()[3] for text, _ in taken if text.startswith("XGROUP")]


def acknowledgements(taken):
    """Acknowledges all rows of the groups."""
    ids = " ".join(text.split()[2] for text, _ in taken if text.startswith("XADD"))
    return [f"XACK s {group} {ids}" for group in groups_in(taken)]


def ends_of_groups(taken):
    """Destroys three of four groups."""
    return [f"XGROUP DESTROY s {group}" for place, group in enumerate(groups_in(taken)) if place % 4]


def counts_behind_removals(program):
    """The same when most of what was added is gone, and additions have filled the room that it left, but for entries
    that are deleted here and there: the pieces that blocks give back are too small for new blocks. Refuses: maps keep
    the room of removed rows."""
    works = {f"{removal.__name__} of {shape}": (entries_of(shape), removal, most)
             for shape in SHAPES for removal, most in ((trim, 1 + A_TENTH), (deletions, HERE_AND_THERE))}
    works |= {f"{removal.__name__} of {rows} rows": (groups_of(rows), removal, most)
              for rows in (1, 8, 9) for removal, most in ((acknowledgements, 1 + A_FIFTH), (ends_of_groups, 1 + A_TENTH))}
    for what, (commands, removal, most) in works.items():
        with running(program, "--max-memory", "3m", workers=1) as server:
            with raw(server.port) as one, one.makefile("rb") as replies:
                asked(one, replies, ["XADD other 1-1 f v"])
                before = server.resident()
                asked(one, replies, removal(filled(one, replies, commands)))
                filled(one, replies, commands)
                share = (server.resident() - before) / (3 * MEGABYTE)
                print(f"{what}: {share:.3f} of the bound", flush=True)
                assert 1 - A_TENTH <= share <= most, (what, share)


def rows_go_beyond(program):
    """Reads are never refused: their rows, 118 bytes each, go beyond the bound. Additions wait until jobs are done."""
    with running(program, "--max-memory", "1m") as server, raw(server.port) as one, one.makefile("rb") as replies:
        say(one, "XGROUP CREATE q g 0 MKSTREAM", "+OK\r\n")
        added = 0
        while NO_MEMORY not in (got := asked(one, replies, ("XADD q * f v" for _ in range(1000)))):
            added += 1000
        added += 1000 - got.count(NO_MEMORY)
        before = server.resident()
        ids = []
        while taken := [text.decode() for text in
                        re.findall(rb"\d+-\d+", asked(one, replies, ["XREADGROUP GROUP g a COUNT 1000 STREAMS q >"])[0])]:
            ids += taken
        assert len(ids) == len(set(ids)) == added > 50_000, (len(ids), added)
        grown = server.resident() - before
        print(f"{added} rows of {grown / added:.1f} bytes", flush=True)
        assert grown < added * 118 * 1.1 + MEGABYTE, grown
        assert asked(one, replies, ["XADD q * f v"]) == [NO_MEMORY]
        for first in range(0, added, 1000):
            piece = ids[first:first + 1000]
            done = asked(one, replies, [f"XACK q g {' '.join(piece)}", f"XDEL q {' '.join(piece)}"])
            assert done == [number(len(piece)).encode()] * 2, done
        assert asked(one, replies, ["XADD q * f v"]) != [NO_MEMORY]


def beside_producers(program, workers=8, seconds=6):
    """Producers that never stop and consumers, in a process that may have as much memory as docs/CLIENTS.md says: no
    consumer is refused, each job is read once, and resident memory stays within 1.3 times the bound."""
    consumers = workers // 2
    with running(program, "--max-memory", "64m", workers=workers) as server:
        all_answer(server)
        limit_memory(server, (83 + 40 * workers) * MEGABYTE)
        say_at(server, "XGROUP CREATE q g 0 MKSTREAM", "+OK\r\n")
        before, most, taken, faults = server.resident(), 0, [[] for _ in range(consumers)], []

        def work(place):
            try:
                while time.monotonic() < end:
                    taken[place] += consume(server, (1, 10, 100)[len(taken[place]) % 3], "XDEL")
            except (AssertionError, OSError) as fault:
                faults.append(fault)

        with producing(server):
            add_until_full(server)
            end = time.monotonic() + seconds
            threads = [threading.Thread(target=work, args=(place,)) for place in range(consumers)]
            for thread in threads:
                thread.start()
            while time.monotonic() < end:
                most = max(most, server.resident() - before)
                time.sleep(0.05)
            for thread in threads:
                thread.join()
        ids = [one for each in taken for one in each]
        print(f"{len(ids)} jobs done, at most {most / (64 * MEGABYTE):.2f} of the bound", flush=True)
        assert most > 0.8 * 64 * MEGABYTE, most
        assert not faults and len(ids) == len(set(ids)) > 100, (faults, len(ids), len(set(ids)))
        assert most <= 1.3 * 64 * MEGABYTE, most


def over_a_log(program):
    """The bound doesn't hold while a log is read: all is there again, additions are refused until jobs are done."""
    with tempfile.TemporaryDirectory() as folder:
        with running(program, "--log", folder, "--sync", "no") as server, raw(server.port) as one:
            say(one, "XGROUP CREATE q g 0 MKSTREAM", "+OK\r\n")
            with one.makefile("rb") as replies:
                assert NO_MEMORY not in asked(one, replies, (f"XADD q * f {'v' * 1000}" for _ in range(2000)))
        with running(program, "--log", folder, "--max-memory", "1m") as server, raw(server.port) as one:
            say(one, "XLEN q", number(2000))
            say(one, "XADD q * f v", OOM)
            while consume(server, 400, "XDEL"):
                pass
            with one.makefile("rb") as replies:
                assert asked(one, replies, ["XADD q * f v"])[0].startswith(b"$")


def options(program):
    """A number of bytes, and k, m or g behind it; 0 is no bound. Others end the program with status 2."""
    for word in ("0", "4096", "64K", "64m", "1G", "18446744073709551615", "17179869183g"):
        with running(program, "--max-memory", word, workers=1) as server:
            say_at(server, "XADD s 1-1 f v", bulk("1-1"))
    for word in ("", "m", "x", "-1", "1.5g", "64mb", "64 m", "17179869184g", "18446744073709551616"):
        done = subprocess.run([program, "run", "--port", "1", "--max-memory", word], capture_output=True, timeout=30)
        assert (done.returncode, done.stdout) == (2, b"") and b"--max-memory" in done.stderr, (word, done)


CASES = (options, refuses_what_grows, makes_room, trims_make_room_of_great_ones, counts_what_is_resident,
         counts_behind_removals, rows_go_beyond, beside_producers, over_a_log)
