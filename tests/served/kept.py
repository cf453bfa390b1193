"""What is answered is kept: when a server with a log syncs, and what it does if a sync fails or there is no room."""
import contextlib
import os
import re
import resource
import time

import logs
import served
import syncs
from books import Connection
from logged import NEXT, goes_on, is_refusal, last_log, logged, new_folder, start
from resp import array, bulk, entry, number, read_reply
from served import PING, PONG, asking, raw, read_to_end, say, say_at
from waiting import NOTHING, Clients, add, begin, comes, gives, make, nothing_comes, reading


def is_answered(stream, text):
    """Whether a request is answered before its connection ends. A refusal is a fault."""
    with contextlib.suppress(ConnectionResetError, BrokenPipeError):
        stream.sendall(asking(text))
        with stream.makefile("rb") as replies:
            got = read_reply(replies)
        assert not got.startswith(b"-"), got
        return got.endswith(b"\n")
    return False


def failed_log(server, record=r"\d+"):
    """It ends with status 1, and says in one line that the log can't keep this record."""
    status, errors = server.ends_by_itself()
    told = rf"xs_server: log [^\n]*: record {record} can't be kept\n"
    assert status == 1 and re.fullmatch(told, errors), (status, errors)


# ---- syncs


def answers_wait_for_the_sync(program):
    """While a sync lasts nothing is answered that it is to keep: not the addition, and no read of another client that
    would tell of it. It is so without `--sync` too. With `--sync no` an addition waits for no sync. Refuses: without
    `--sync` a log is synced each second."""
    with syncs.counted() as told, new_folder() as folder:
        with logged(program, folder, None, environment=told.environment) as server, Clients(server.port) as clients:
            one, other = clients.new(), clients.new()
            make(one, "s")
            reader = clients.waiting("a", "s")
            for place in (1, 2):
                before = told.number(syncs.BEGUN)
                with told.held():
                    one.sendall(asking(f"XADD s {place}-0 f v"))
                    told.one_begins(before)
                    other.sendall(asking("XLEN s"))
                    nothing_comes(0.3, one, other, reader)
                comes(one, bulk(f"{place}-0"))
                comes(other, number(place))
                comes(reader, gives("s", place))
                begin(reader, reading("a", "s"))
            assert told.kept(last_log(folder)) == os.path.getsize(last_log(folder)), "bytes of the log aren't kept"
        with logged(program, folder, "no", environment=told.environment) as server, raw(server.port) as one:
            # What the log had is kept before the first answer.
            say(one, "XLEN s", number(2))
            with told.held():
                add(one, "s", 3)


def replies_before_a_sync(program):
    """What stands before a read in the same piece is answered at once, though the sync of the read lasts. Refuses:
    replies before an addition are sent 200 ms later, while its sync lasts."""
    with syncs.counted() as told, new_folder() as folder:
        with logged(program, folder, environment=told.environment) as server, raw(server.port) as one:
            make(one, "s")
            for place in range(1, 6):
                add(one, "s", place)
                with told.held():
                    one.sendall(asking("XLEN s") + asking("PING before") + asking(reading("a", "s")) + PING)
                    comes(one, number(place) + bulk("before"))
                    nothing_comes(0.05, one)
                comes(one, gives("s", place) + PONG.decode())


def syncs_are_shared(program):
    """What 16 clients add while a sync lasts, 20 entries each, is kept by one more, or two if some of it comes late,
    and not by one for each. Refuses: with `--sync always` 32 calls at most share a sync."""
    with syncs.counted() as told, new_folder() as folder:
        with (logged(program, folder, workers=20, environment=told.environment) as server,
              Clients(server.port) as clients):
            streams = [clients.new() for _ in range(17)]
            for stream in streams:
                say(stream, "PING", PONG.decode())
            before = told.number(syncs.BEGUN)
            with told.held():
                streams[0].sendall(asking("XADD s0 1-0 f v"))
                told.one_begins(before)
                for place, stream in enumerate(streams[1:], 1):
                    stream.sendall(b"".join(asking(f"XADD s{place} {one}-0 f v") for one in range(1, 21)))
                time.sleep(0.3)
            comes(streams[0], bulk("1-0"))
            for stream in streams[1:]:
                comes(stream, "".join(bulk(f"{one}-0") for one in range(1, 21)))
            count = told.number(syncs.BEGUN) - before
            assert count <= 4, f"321 additions took {count} syncs"


def syncs_are_shared_behind_a_refusal(program):
    """While memory is refused few requests of a connection are asked ahead; behind that as many as before, so that 320
    additions that come in one piece share a few syncs. Refuses: after a refusal of memory a connection's requests are
    asked one by one for good."""
    with syncs.counted() as told, new_folder() as folder:
        with (logged(program, folder, environment=told.environment, bound="2m") as server, raw(server.port) as one,
              one.makefile("rb") as replies):
            one.sendall(b"".join(asking(f"XADD {key} 1-0 f {'v' * 1_100_000}") for key in ("great", "s")))
            got = [read_reply(replies) for _ in range(2)]
            assert got == [bulk("1-0").encode(), b"-OOM out of memory\r\n"], got
            say(one, "DEL great", number(1))
            before = told.number(syncs.BEGUN)
            one.sendall(b"".join(asking(f"XADD s {place}-0 f v") for place in range(1, 321)))
            comes(one, "".join(bulk(f"{place}-0") for place in range(1, 321)))
            count = told.number(syncs.BEGUN) - before
            assert count <= 100, f"320 additions took {count} syncs"


def writes_are_shared(program):
    """With `--sync no` 3,200 additions that come in one piece share the writes to the log, unless the machine is busy.
    Refuses: with `--sync no` each call is a write of its own."""
    with new_folder() as folder:
        with logged(program, folder, "no") as server, raw(server.port) as one:
            tries = []
            while len(tries) < 5 and not (tries and tries[-1] <= 1600):
                before = server.writes()
                ids = [f"{len(tries)}-{place}" for place in range(1, 3201)]
                one.sendall(b"".join(asking(f"XADD s {entry} f v") for entry in ids))
                comes(one, "".join(map(bulk, ids)))
                tries.append(server.writes() - before)
            print(f"3,200 additions took {tries} writes to the log and to the client", flush=True)
            assert tries[-1] <= 1600, tries


def is_kept_in_time(told, path):
    """All that a log has is kept within three seconds."""
    deadline = time.monotonic() + 3
    while told.kept(path) < os.path.getsize(path):
        assert time.monotonic() < deadline, f"{told.kept(path)} bytes of {os.path.getsize(path)} are kept"
        time.sleep(0.05)


def syncs_each_second(program):
    """With `--sync second` an addition waits for no sync, and is kept a few seconds later, though nothing more comes.
    While nothing comes nothing is synced, and what comes within a second shares a sync. Refuses: what was written
    during a sync counts as synced; with `--sync second` a log is synced every four seconds."""
    with syncs.counted() as told, new_folder() as folder:
        with logged(program, folder, "second", environment=told.environment) as server, raw(server.port) as one:
            with told.held():
                add(one, "s", 1)
                time.sleep(1.5)
                add(one, "s", 2)
            is_kept_in_time(told, last_log(folder))
            for place in (3, 4):
                add(one, "s", place)
                is_kept_in_time(told, last_log(folder))
            time.sleep(1.5)
            before = told.number(syncs.BEGUN)
            time.sleep(2.5)
            assert (count := told.number(syncs.BEGUN) - before) == 0, f"{count} syncs of nothing"
            began = time.monotonic()
            for place in range(5, 1000):
                add(one, "s", place)
            is_kept_in_time(told, last_log(folder))
            count, took = told.number(syncs.BEGUN) - before, time.monotonic() - began
            assert count <= took + 2, f"{count} syncs in {took} s"


def is_synced_once_it_can_be_opened(program):
    """With `--sync second`, while there is no descriptor to open the log by, it isn't kept; it is once there is one,
    though nothing more comes. Refuses: the syncing thread skips a log that can't be opened now."""
    with syncs.counted() as told, new_folder() as folder:
        with logged(program, folder, "second", environment=told.environment) as server, raw(server.port) as one:
            say(one, "PING", PONG.decode())
            limits = resource.prlimit(server.child.pid, resource.RLIMIT_NOFILE)
            resource.prlimit(server.child.pid, resource.RLIMIT_NOFILE, (3, limits[1]))
            add(one, "s", 1)
            time.sleep(1.5)
            resource.prlimit(server.child.pid, resource.RLIMIT_NOFILE, limits)
            is_kept_in_time(told, last_log(folder))


def a_sync_beside_fails(program):
    """With `--sync second` a sync that fails ends it within seconds, though nobody waits for it."""
    with syncs.counted() as told, new_folder() as folder:
        with logged(program, folder, "second", environment=told.environment) as server, raw(server.port) as one:
            add(one, "s", 1)
            time.sleep(2)
            told.fail()
            with contextlib.suppress(OSError):
                is_answered(one, "XADD s 2-0 f v")
                time.sleep(2)
                is_answered(one, "XADD s 3-0 f v")
            failed_log(server)
        told.fail(0)
        goes_on(program, folder, "s", 1, 3)


def what_it_read_is_kept(program):
    """What a log has that no sync kept before a kill is kept before anybody is told of it."""
    with syncs.counted() as told, new_folder() as folder:
        with logged(program, folder, "no", environment=told.environment) as server, raw(server.port) as one:
            for place in (1, 2, 3):
                add(one, "s", place)
        with logged(program, folder, environment=told.environment) as server:
            say_at(server, "XLEN s", number(3))
            size, kept = os.path.getsize(last_log(folder)), told.kept(last_log(folder))
            assert kept == size, f"it told of {size} bytes, of which {kept} are kept"


def headers_are_kept(program):
    """Whatever the policy, the header of a log is kept before the server listens, and when another start goes on: a
    crash that loses it, but not what is behind it, would leave no log."""
    for sync in ("always", "second", "no"):
        with syncs.counted() as told, new_folder() as folder:
            for place in (1, 2):
                with logged(program, folder, sync, environment=told.environment) as server:
                    kept, header = told.kept(last_log(folder)), logs.header(1)
                    assert kept >= len(header), f"with --sync {sync} {kept} bytes of a header of {len(header)} are kept"
                    say_at(server, f"XADD s {place}-0 f v", bulk(f"{place}-0"))


def names_are_kept(program):
    """The names of a new folder and of its first log are kept before the server listens. Refuses: the name of a log, or
    of its folder, isn't synced; the name of a new folder isn't synced if it has no path."""
    for sync in ("always", "no"):
        with syncs.counted() as told, new_folder() as folder:
            with logged(program, folder, sync, environment=told.environment):
                for path in (folder, os.path.dirname(folder)):
                    assert told.kept(path) > 0, f"with --sync {sync} the names in {path} aren't kept"
    with syncs.counted() as told, new_folder() as folder:
        above, port = os.path.dirname(folder), served.free_port()
        words = ["env", "-C", above, *served.words_of_run(os.path.abspath(program), port, 2), "--log", "log"]
        with served.Server(words, port, 2, None, told.environment) as server:
            server.lines_until(server.child.stderr, "listening on")
            assert told.kept(above) > 0, f"the names in {above} aren't kept if the folder's name is no path"


def the_next_log_is_kept(program):
    """With `--sync second` the name of the next log is kept, and what is added to it, as of the first. Refuses: the
    name of a log isn't synced; the syncing thread doesn't learn of the next log."""
    value = b"v" * 1_000_000
    with syncs.counted() as told, new_folder() as folder:
        with logged(program, folder, "no") as server, Connection(server.port) as one:
            for place in range(1, 16):
                one.ask("XADD", "s", f"{place}-0", "f", value)
        with (logged(program, folder, "second", compact="never", environment=told.environment) as server,
              Connection(server.port) as one):
            assert logs.numbers(folder) == [1] and told.kept(folder) == 0
            for place in (16, 17, 18):
                one.ask("XADD", "s", f"{place}-0", "f", value)
            assert logs.numbers(folder) == [1, 2] and told.kept(folder) > 0, "the name of the next log isn't kept"
            is_kept_in_time(told, last_log(folder))


def a_sync_fails(program):
    """If a sync fails its addition isn't answered, nobody is served any more, and it ends. What was answered is there
    at the next start. Refuses: the line of a failed log names the record before."""
    with syncs.counted() as told, new_folder() as folder:
        with logged(program, folder, environment=told.environment) as server, Clients(server.port) as clients:
            one = clients.new()
            make(one, "s")
            add(one, "s", 1)
            make(one, "empty")
            reader = clients.waiting("a", "empty")
            told.fail()
            one.sendall(asking("XADD s 2-0 f v"))
            failed_log(server, 4)
            for stream in (one, reader):
                assert read_to_end(stream)[0] == b""
        told.fail(0)
        goes_on(program, folder, "s", 1, 2)


def a_sync_fails_within_a_pipeline(program):
    """If a sync fails while 5,000 additions come in one piece, a beginning of them is answered, in order; all that was
    answered is there at the next start, and nothing but a beginning."""
    last = 5001
    for answered in (0, 40):
        with syncs.counted() as told, new_folder() as folder:
            with logged(program, folder, environment=told.environment) as server, raw(server.port) as one:
                add(one, "s", 1)
                before = told.number(syncs.BEGUN)
                with told.held() if answered == 0 else contextlib.nullcontext():
                    one.sendall(b"".join(asking(f"XADD s {place}-0 f v") for place in range(2, last + 1)))
                    told.one_begins(before)
                    comes(one, "".join(bulk(f"{place}-0") for place in range(2, 2 + answered)))
                    told.fail()
                failed_log(server)
                got, _ = read_to_end(one)
            told.fail(0)
            replies = [bulk(f"{place}-0") for place in range(2 + answered, last + 1)]
            count = next((count for count in range(last) if "".join(replies[:count]).encode() == got), None)
            assert count is not None, f"behind {answered} replies {got[:200]!r} came"
            assert answered or count == 0, f"{count} additions were answered that no sync had kept"
            goes_on(program, folder, "s", 1 + answered + count, last)


def a_sync_of_a_closed_log_fails(program):
    """With `--sync no` a log that is full is synced before the next one is begun. If that fails it ends; what was
    answered is there at the next start. Refuses: a failed sync of a closed log is ignored."""
    value = b"v" * 1_000_000
    with syncs.counted() as told, new_folder() as folder:
        with logged(program, folder, "no", environment=told.environment) as server, Connection(server.port) as one:
            told.fail()
            with contextlib.suppress(OSError):
                for place in range(1, 18):
                    one.ask("XADD", "s", f"{place}-0", "f", value)
            failed_log(server)
            assert logs.numbers(folder) == [1]
        told.fail(0)
        with logged(program, folder, "no") as server:
            say_at(server, "XLEN s", number(17))


def idle_costs_no_sync(program):
    """Who polls in vain, waits in vain, looks or is refused costs no sync and no byte of the log; an addition does."""
    with syncs.counted() as told, new_folder() as folder:
        with logged(program, folder, environment=told.environment) as server, Clients(server.port) as clients:
            one, pollers = clients.new(), [clients.new() for _ in range(4)]
            make(one, "s", "t")
            add(one, "s", 1)
            for name, stream in enumerate(pollers):
                say(stream, reading(f"c{name}", "s t", "BLOCK 1"), gives("s", 1) if name == 0 else NOTHING)
            done, size = told.number(syncs.BEGUN), os.path.getsize(last_log(folder))
            for _ in range(20):
                for name, stream in enumerate(pollers):
                    say(stream, reading(f"c{name}", "s t", "BLOCK 5"), NOTHING)
                    say(stream, reading(f"c{name}", "t", "COUNT 3"), NOTHING)
            for text, reply in (("XLEN s", number(1)), ("XRANGE s - +", array([entry("1-0", "f", "v")])),
                                ("XREVRANGE s + -", array([entry("1-0", "f", "v")])), ("PING", PONG.decode()),
                                ("XPENDING s g", array([number(1), bulk("1-0"), bulk("1-0"),
                                                        array([array([bulk("c0"), bulk("1")])])]))):
                say(one, text, reply)
            for text in ("XADD s 1-0 f v", "XADD s x f v", "XGROUP CREATE s g 0", "XREADGROUP GROUP none c STREAMS s >",
                         "XADD s", "NONE"):
                one.sendall(asking(text))
                with one.makefile("rb") as replies:
                    assert read_reply(replies).startswith(b"-"), text
            waiting = clients.waiting("c1", "s t", "BLOCK 300")
            comes(waiting, NOTHING)
            more = told.number(syncs.BEGUN) - done, os.path.getsize(last_log(folder)) - size
            assert more == (0, 0), f"{more[0]} syncs, and {more[1]} bytes more"
            add(one, "s", 2)
            more = told.number(syncs.BEGUN) - done, os.path.getsize(last_log(folder)) - size
            assert min(more) > 0, f"{more[0]} syncs, and {more[1]} bytes more for an addition"


# ---- no room


def with_room(program, folder, room, sync="always"):
    """A server none of whose files may have more bytes."""
    return logged(program, folder, sync, limits={resource.RLIMIT_FSIZE: room})


def add_while_there_is_room(stream, key):
    """Adds one entry behind the other until the connection ends, and says how many were answered."""
    for place in range(1, 10_000):
        if not is_answered(stream, f"XADD {key} {place}-0 f v"):
            return place - 1
    raise AssertionError("there was always room")


def no_room(program):
    """Files may have so many bytes, and no more: additions are answered until there is no room. Then nobody is
    answered, and it ends. With room again all that was answered is there, and nothing else; it goes on."""
    header, size = len(logs.header(1)), len(NEXT)
    # no record; half a record behind two; whole pages, and what is gathered before it is written
    for room, sync in ((header, "always"), (header + size * 5 // 2, "always"), (header + size * 5 // 2, "no"),
                       (1000, "second"), (4096, "always"), (10_007, "no"), (65_543, "always")):
        with new_folder() as folder:
            with with_room(program, folder, room, sync) as server, Clients(server.port) as clients:
                adder, other = clients.new(), clients.new()
                say(other, "PING", PONG.decode())
                count = add_while_there_is_room(adder, "s")
                failed_log(server)
                assert read_to_end(other)[0] == b""
            assert os.path.getsize(last_log(folder)) <= room
            assert count >= room // 200 - 1, f"{count} additions had room in {room} bytes"
            goes_on(program, folder, "s", count, count)


def no_room_for_many(program):
    """The same with four clients that send 20 additions at once, and one that waits: of each the first ones are there,
    all that were answered among them."""
    for room in (20_000, 70_001):
        with new_folder() as folder:
            answered = [0] * 4
            with with_room(program, folder, room) as server, Clients(server.port) as clients:
                make(clients.new(), "empty")
                reader = clients.waiting("a", "empty")
                adders = [clients.enter_context(Connection(server.port)) for _ in answered]

                def work(name):
                    one = adders[name]
                    with contextlib.suppress(OSError):
                        for first in range(1, 100_000, 20):
                            ids = [f"{place}-0" for place in range(first, first + 20)]
                            one.send(*(("XADD", f"s{name}", one_id, "f", "v") for one_id in ids))
                            for _ in ids:
                                one.answer()
                                answered[name] += 1

                served.together(4, work)
                failed_log(server)
                assert read_to_end(reader)[0] == b""
            # of those for which there is room all but the last ones, which share a write: 80 at most
            assert sum(answered) > room // 200 - 80, (room, answered)
            for name, count in enumerate(answered):
                goes_on(program, folder, f"s{name}", count, count + 20)


def no_room_to_start(program):
    """If there is no room for the header it doesn't start. With room it does."""
    for room in (0, 1, len(logs.header(1)) - 1):
        with new_folder() as folder:
            done = start(program, folder, before=served.with_limits({resource.RLIMIT_FSIZE: room}))
            is_refusal(done, folder, "log-1 can't be written")
            goes_on(program, folder, "s", 0, 0)


CASES = (answers_wait_for_the_sync, replies_before_a_sync, syncs_are_shared, syncs_are_shared_behind_a_refusal,
         writes_are_shared, syncs_each_second, what_it_read_is_kept, headers_are_kept, names_are_kept,
         the_next_log_is_kept, a_sync_fails, a_sync_beside_fails, is_synced_once_it_can_be_opened,
         a_sync_fails_within_a_pipeline, a_sync_of_a_closed_log_fails, idle_costs_no_sync, no_room_to_start, no_room,
         no_room_for_many)
