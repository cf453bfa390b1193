"""A queue that has filled the memory of a server, and consumers that empty it.

Replies are those of the Redis pages of the commands; docs/COMMANDS.md has the texts of errors.
"""
import contextlib
import re
import resource
import threading
import time

from resp import array, bulk, entry, number, read_reply
from served import all_answer, asking, raw, say, say_at, serving

NO_MEMORY = b"-OOM out of memory\r\n"
MEGABYTE = 1 << 20
# With so many workers a consumer's requests are all answered over one connection too.
FEW = 4


def limit_memory(server, more):
    """The server may have so many bytes of address space more than it has."""
    with open(f"/proc/{server.child.pid}/statm", encoding="ascii") as statm:
        limit = int(statm.read().split()[0]) * 4096 + more
    resource.prlimit(server.child.pid, resource.RLIMIT_AS, (limit, limit))


def add_until_full(server):
    """Adds entries of 1 KB until 200 additions are refused, and says how many were not."""
    added = refused = 0
    with raw(server.port) as stream, stream.makefile("rb") as replies:
        while refused < 200:
            stream.sendall(asking(f"XADD q * f {'v' * 1000}") * 50)
            for _ in range(50):
                got = read_reply(replies)
                assert got == NO_MEMORY or got.startswith(b"$"), got
                added, refused = added + (got != NO_MEMORY), refused + (got == NO_MEMORY)
    return added


def consume(server, count, takes, tries=1, refused=None):
    """Takes so many entries on a connection of its own, and gives their ids. No reply is OOM, at the last of so many
    tries; the commands that were refused before it are added to a list."""
    with raw(server.port) as stream, stream.makefile("rb") as replies:
        def ask(text):
            for left in reversed(range(tries)):
                stream.sendall(asking(text))
                got = read_reply(replies)
                if got != NO_MEMORY or left == 0:
                    return got
                refused.append(text)
                time.sleep(0.01)

        option = " NOACK" if takes == "NOACK" else ""
        got = ask(f"XREADGROUP GROUP g c{option} COUNT {count} STREAMS q >")
        ids = [one.decode() for one in re.findall(rb"\*2\r\n\$\d+\r\n(\d+-\d+)\r\n", got)]
        if not ids:
            assert got == b"*-1\r\n", got[:100]
            return ids
        least = number(len(ids)).encode()
        if takes != "NOACK":
            assert (got := ask(f"XACK q g {' '.join(ids)}")) == least, got
        moment, place = ids[-1].split("-")
        removal = f"XTRIM q MINID {moment}-{int(place) + 1}" if takes == "XTRIM" else f"XDEL q {' '.join(ids)}"
        assert (got := ask(removal)) == least, got
        return ids


def ask_again_and_again(server):
    """A consumer sends requests of nearly 16 KiB over one connection, and behind each of them additions fill the memory
    anew. Each request is answered. It says how many additions were accepted."""
    added = 0
    with raw(server.port) as stream:
        for _ in range(5):
            say(stream, "XACK q g" + " 1-1" * 1800, number(0))
            added += add_until_full(server)
    return added


def empty_full_queue(server, takes, least):
    """Producers fill the memory, with so many entries at least. Consumers, on new connections, empty the queue: nothing
    but an addition is refused, no connection ends, each entry is read once, and on the way additions are accepted."""
    say_at(server, "XGROUP CREATE q g 0 MKSTREAM", "+OK\r\n")
    added, taken, again = add_until_full(server), [], 0
    assert added >= least, added
    if server.workers == FEW:
        added += ask_again_and_again(server)
    while ids := [one for count in (1, 10, 100) for one in consume(server, count, takes)]:
        taken += ids
        if len(taken) >= added:
            continue
        with raw(server.port) as stream, stream.makefile("rb") as replies:
            stream.sendall(asking("XADD q * f v"))
            got = read_reply(replies)
            assert got == NO_MEMORY or got.startswith(b"$"), got
            again += got != NO_MEMORY
    print(f"{takes}, {server.workers} workers: {added} entries until memory ran out, {again} behind them", flush=True)
    assert len(taken) == len(set(taken)) == added + again, (len(taken), len(set(taken)), added, again)
    assert again > 10
    say_at(server, "DEL q", number(1))


@contextlib.contextmanager
def producing(server, producers=2):
    """So many producers add entries of 1 KB while the block runs, refused or not. Each has a connection of its own."""
    over, faults = threading.Event(), []

    def produce():
        try:
            with raw(server.port) as stream, stream.makefile("rb") as replies:
                while not over.is_set():
                    stream.sendall(asking(f"XADD q * f {'v' * 1000}") * 20)
                    for _ in range(20):
                        got = read_reply(replies)
                        assert got == NO_MEMORY or got.startswith(b"$"), got
        except (AssertionError, OSError) as fault:
            faults.append(fault)

    threads = [threading.Thread(target=produce) for _ in range(producers)]
    for thread in threads:
        thread.start()
    try:
        yield
    finally:
        over.set()
        for thread in threads:
            thread.join()
    assert not faults, faults


def consume_beside_producers(server, rounds, counts=(1, 5, 20)):
    """Producers fill the memory and never stop. Meanwhile consumers on new connections read, acknowledge and delete
    so many jobs at once, by turns: of their commands one in a thousand is refused at most, and each is served when it
    is asked again."""
    say_at(server, "XGROUP CREATE q g 0 MKSTREAM", "+OK\r\n")
    add_until_full(server)
    taken, refused = [], []
    with producing(server):
        for turn in range(rounds):
            taken += consume(server, counts[turn % len(counts)], "XDEL", tries=100, refused=refused)
    print(f"beside producers, {server.workers} workers: {len(refused)} of {3 * rounds} commands refused", flush=True)
    assert len(taken) == len(set(taken)) and len(taken) >= rounds, (len(taken), len(set(taken)), rounds)
    assert len(refused) <= 3 * rounds // 1000, refused[:3]


def under_a_bound(program, takes):
    """A bound of memory from the start, as by ulimit -v 200000, with 4 workers."""
    with serving(program, workers=FEW, limits={resource.RLIMIT_AS: 200_000 * 1024}) as server:
        empty_full_queue(server, takes, 50_000)


def with_many_workers(program, takes):
    """64 workers, whose bound is set once the server runs, 64 MB above what it has then."""
    with serving(program, workers=64) as server:
        all_answer(server)
        limit_memory(server, 64 * MEGABYTE)
        empty_full_queue(server, takes, 30_000)


def great_jobs(program, size, count, fields=1):
    """Jobs of so many bytes, in so many fields, and behind them small ones until memory is full, again and again: so many
    of them are taken, claimed by id and by scan, and acknowledged at once."""
    with serving(program, workers=4, limits={resource.RLIMIT_AS: 140_000 * 1024}) as server:
        say_at(server, "XGROUP CREATE q g 0 MKSTREAM", "+OK\r\n")
        with raw(server.port) as stream, stream.makefile("rb") as replies:
            def ask(text):
                stream.sendall(asking(text))
                return read_reply(replies)

            parts = ["f", "v" * (size // fields)] * fields
            for place in range(1, count + 1):
                assert ask(f"XADD q {place}-0 {' '.join(parts)}") == f"$3\r\n{place}-0\r\n".encode()
            ids = [f"{place}-0" for place in range(1, count + 1)]
            entries = array([entry(one, *parts) for one in ids])
            asked = {
                f"XREADGROUP GROUP g a COUNT {count} STREAMS q >": array([array([bulk("q"), entries])]),
                f"XCLAIM q g b 0 {' '.join(ids)}": entries,
                f"XAUTOCLAIM q g c 0 - COUNT {count}": array([bulk("0-0"), entries, array([])]),
                f"XACK q g {' '.join(ids)}": number(count),
            }
            for text, reply in asked.items():
                add_until_full(server)
                got = ask(text)
                assert got == reply.encode(), f"{text[:40]}: {got[:60]}"
