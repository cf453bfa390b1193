#!/usr/bin/env python3
"""Runs the program with a log, ends it in every way, and checks over sockets and in files that nothing was lost.

    durable.py [--kills N] [--only CASE,..] PROGRAM

It is killed while clients that keep books are at work (books.py), N times, 30 if not given, and 20 times beside
compactions (compaction_kills.py); behind half of the former kills the log loses what no sync had kept, as if the
machine had stopped. kept.py has the cases of syncs and of room, bad_folders.py those of folders and logs that aren't
right, crash_points.py cuts a log at each record, compaction.py has those of snapshots, due_compactions.py those that
nobody asks for, folder_crashes.py stops the machine at each change of a folder, refused_logs.py refuses memory, and
kept_log.py starts it on a log that an earlier program made. It needs Python's standard library, and a C compiler for
the libraries that are loaded into it, which is installed if it isn't there. What is at random has a fixed seed. The
last line is 'N passed, M failed'; the status is 1 if M > 0.

Refused were also programs with one of these: no sync; a sync or write whose error is ignored; no lock; a torn end that
isn't cut; a log read short; a sync for each reply; a buffered write.
"""
import argparse
import os
import random
import resource
import signal
import struct
import sys
import tempfile
import time

import bad_folders
import clock_steps
import commands
import compaction
import compaction_kills
import crash_points
import due_compactions
import folder_crashes
import full_queue
import kept
import kept_log
import logs
import served
import syncs
from books import GROUP, KEY, Connection, Load, Queue, id_of
from full_queue import MEGABYTE
from journal import torn
from logged import NEXT, is_refusal, kill_while_it_starts, last_log, logged, new_folder, read_at_start, start
from resp import array, bulk, entry, number, read_reply, request
from served import MOST_FAULTS, all_answer, asking, pass_together, passes, raw, read_to_end, say, say_at, tell
from states import idle_times, without_times
from waiting import NOTHING, READ, Clients, add, begin, comes, gives, make, nothing_comes, reading, refuses

sys.path.append(os.path.join(os.path.dirname(__file__), "../../guards"))
sys.path.append(os.path.join(os.path.dirname(__file__), "../../scripts"))
import refused_logs  # noqa: E402
from needs import need  # noqa: E402

# ---- killed under load


def lose_what_was_not_kept(path, kept, made):
    """The machine stops. It gives how many bytes might be lost."""
    data = logs.read_file(path)
    logs.write_file(path, torn(kept, data, made))
    return max(len(data) - kept, 0)


def tear(path, made):
    """Behind the last record stands the beginning of another one, or zeros."""
    torn = made.choice((NEXT[:made.randrange(1, len(NEXT))], bytes(made.randrange(1, 9000))))
    with open(path, "ab") as file:
        file.write(torn)


def check_start(server, folder, reader, behind):
    """It tells of the records that the files have, and nothing is left behind them."""
    records, dropped = read_at_start(server, folder)
    torn = len(behind.partition(b"\0")[0])
    assert records == reader.records, f"it read {records} records of {reader.records}"
    assert dropped in (torn, len(behind)), f"it dropped {dropped} bytes of {torn}"
    size = os.path.getsize(reader.path())
    assert size == reader.whole, f"the last log has {size} bytes, {reader.whole} of them in records"


def lives(program, kills, sync, told=None):
    """Clients are at work over so many lives, each of which ends with a kill; in the last one all that is left is
    drained."""
    made, port, queue, lost = random.Random(kills), served.free_port(), Queue(), []
    environment = told.environment if told else None
    with new_folder() as folder, Load(queue, port) as load:
        reader, behind = logs.Reader(folder), b""
        for life in range(kills + 1):
            with logged(program, folder, sync, port=port, environment=environment) as server:
                check_start(server, folder, reader, behind) if life else reader.go_on()
                with Connection(port) as one:
                    if life == 0:
                        one.ask("XGROUP", "CREATE", KEY, GROUP, "0", "MKSTREAM")
                    queue.settle(one)
                    load.begin_life()
                    time.sleep(made.uniform(0, 0.4))
                    load.all_stayed()
                    if life == kills:
                        load.end()
                        load.all_have_left()
                        queue.settle(one)
                        queue.drain(one)
                        break
                server.child.kill()
                server.child.wait()
                load.all_have_left()
            if told and made.random() < 0.5:
                lost.append(lose_what_was_not_kept(reader.path(), told.kept(reader.path()), made))
            behind = reader.go_on()
            if not behind and made.random() < 0.4:
                tear(reader.path(), made)
            if made.random() < 0.2:
                kill_while_it_starts(program, folder, port, sync, made.uniform(0, 0.03), environment)
            behind = reader.go_on()
        records = logs.records_in(folder)
    print(f"--sync {sync}, {kills} kills: {len(queue.jobs)} jobs, {len(records)} records; behind {len(lost)} kills "
          f"{sum(lost)} bytes might be lost", flush=True)


def killed_under_load(program, kills):
    """With `--sync always` it is killed, and behind half of the kills what wasn't synced is lost: nothing that was
    answered is gone or comes back."""
    with syncs.counted() as told:
        lives(program, kills, "always", told)


def killed_without_syncs(program):
    """With `--sync no` a kill loses nothing either, since the system has all bytes."""
    lives(program, 5, "no")


def killed_between_syncs(program):
    """With `--sync second` a kill loses nothing either."""
    lives(program, 3, "second")


# ---- stopped and started again

CONSUMERS = "abBd"
OWN = [f"XREADGROUP GROUP {group} {consumer} STREAMS {key} 0" for key in "stu" for group in "gh"
       for consumer in CONSUMERS]
LOOKS = [text for key in "stu" for text in (
    f"XLEN {key}", f"XRANGE {key} - +", f"XREVRANGE {key} + -", f"XPENDING {key} g", f"XPENDING {key} h",
    f"XPENDING {key} g - + 1000", f"XPENDING {key} h - + 1000")]


def state(server, questions):
    """The replies to these questions, and apart from them for how long each pending row has been idle."""
    told, idle = {}, []
    with raw(server.port) as stream, stream.makefile("rb") as replies:
        for text in questions:
            stream.sendall(asking(text))
            reply = read_reply(replies)
            if " - + 1000" in text:
                idle += idle_times(reply)
                reply = without_times(reply)
            told[text] = reply
    return told, idle


def same_state(was, now, seconds):
    for text, before in was[0].items():
        after = now[0][text]
        assert before == after, f"{text} was answered {before[:200]!r}, and then {after[:200]!r}"
    for before, after in zip(was[1], now[1]):
        assert before - 5 <= after <= before + 1100 * seconds + 1000, f"{after} ms idle, and {before} before"


def at_random(program):
    """Behind commands at random it is stopped by SIGTERM, and killed, again and again; what reads tell is the same
    behind each start, and rows have been idle for as much longer. SIGTERM ends it as ever."""
    with new_folder() as folder:
        made, was, ends = commands.Maker(3), None, (signal.SIGTERM, signal.SIGKILL) * 3
        lines = [words for _ in range(10) for words in made.opening()]
        for round_number, end in enumerate((*ends, None)):
            with logged(program, folder) as server:
                if was:
                    # a read of own entries counts as a delivery: it comes before the looks here, and behind them there
                    same_state(was[0], state(server, [*LOOKS, *OWN]), time.monotonic() - was[1])
                if end is None:
                    break
                lines += [words for words in (made.command() for _ in range(400)) if words[0].upper() != "QUIT"]
                with raw(server.port) as stream, stream.makefile("rb") as replies:
                    for words in lines:
                        stream.sendall(request([word.encode() for word in words]))
                        read_reply(replies)
                lines = []
                was = state(server, [*OWN, *LOOKS]), time.monotonic()
                server.child.send_signal(end)
                status = server.child.wait(timeout=10)
                assert status == -end, f"status {status} in round {round_number}"
        logs.records_in(folder)


def stopped_and_started(program):
    """What reads alone don't tell is there too behind a start: what a group delivers next, the greatest id though its
    entry is gone, consumers that have read nothing, and counts of deliveries."""
    with new_folder() as folder:
        with logged(program, folder) as server, raw(server.port) as one:
            make(one, "s", "gone", "destroyed")
            for place in range(1, 9):
                add(one, "s", place)
            for words, places in (("a COUNT 3", (1, 2, 3)), ("b COUNT 2", (4, 5))):
                say(one, f"XREADGROUP GROUP g {words} STREAMS s >", gives("s", *places))
            say(one, "XREADGROUP GROUP g e COUNT 1 NOACK STREAMS s >", gives("s", 6))
            say(one, "XACK s g 2-0", number(1))
            for name in "bc":
                say(one, f"XCLAIM s g {name} 0 1-0 JUSTID", array([bulk("1-0")]))
                say(one, f"XCLAIM s g {name} 0 1-0", array([entry("1-0", "f", "v")]))
            say(one, "XDEL s 4-0 8-0", number(2))
            say(one, "XGROUP CREATECONSUMER s g d", number(1))
            say(one, "XGROUP DESTROY destroyed g", number(1))
            say(one, "DEL gone", number(1))
            say(one, "XADD s MAXLEN 5 9-0 f v", bulk("9-0"))
            say(one, "XDEL s 9-0", number(1))
            server.child.send_signal(signal.SIGTERM)
            status = server.child.wait(timeout=10)
            assert status == -signal.SIGTERM, f"status {status}"
        with logged(program, folder) as server, raw(server.port) as one:
            say(one, "XRANGE s - +", array([entry(f"{place}-0", "f", "v") for place in (3, 5, 6, 7)]))
            with Connection(server.port) as other:
                rows = [(row[0], row[1], row[3]) for row in other.ask("XPENDING", "s", "g", "-", "+", 10)]
            assert rows == [(b"1-0", b"c", 3), (b"3-0", b"a", 1), (b"4-0", b"b", 1), (b"5-0", b"b", 1)], rows
            for identifier in ("9-0", "8-5", "1-1"):
                one.sendall(asking(f"XADD s {identifier} f v"))
                refuses(one, "ERR")
            say(one, "XGROUP CREATECONSUMER s g d", number(0))
            say(one, "XGROUP CREATECONSUMER s g f", number(1))
            say(one, "XREADGROUP GROUP g a COUNT 9 STREAMS s >", gives("s", 7))
            say(one, "XREADGROUP GROUP g a COUNT 9 STREAMS s >", NOTHING)
            one.sendall(asking("XGROUP CREATE s g 0"))
            refuses(one, "BUSYGROUP")
            for key in ("destroyed", "gone"):
                one.sendall(asking(f"XREADGROUP GROUP g a STREAMS {key} >"))
                refuses(one, "NOGROUP")
            say(one, "XLEN gone", number(0))


def the_clock_is_late(program):
    """At a start the wall clock may be behind the last record, or far behind: ids of `*` are greater than all before,
    and what is pending was never idle for less than nothing, nor for hours. So it is if it was far ahead."""
    with new_folder() as folder, tempfile.TemporaryDirectory() as above:
        library, path = clock_steps.library_of("clock_step.c", above), os.path.join(above, "step")
        greatest = (0, 0)
        for place, ahead in enumerate((0, 0, -3600, 7200, 0, -3600)):
            logs.write_file(path, struct.pack("q", ahead))
            environment = {"LD_PRELOAD": library, "CLOCK_STEP": path}
            with logged(program, folder, environment=environment) as server, Connection(server.port) as one:
                if place == 0:
                    one.ask("XGROUP", "CREATE", "s", "g", "0", "MKSTREAM")
                else:
                    rows = one.ask("XPENDING", "s", "g", "-", "+", 100)
                    assert len(rows) == place and all(0 <= row[2] <= 8_000_000 for row in rows), rows
                    if ahead <= 0:
                        assert rows[-1][2] <= 60_000, rows
                for _ in range(20):
                    identifier = id_of(one.ask("XADD", "s", "*", "f", "v"))
                    assert identifier > greatest, f"{identifier} was given behind {greatest}"
                    greatest = identifier
                one.ask("XREADGROUP", "GROUP", "g", "c", "COUNT", 1, "STREAMS", "s", ">")


def waits_across_a_restart(program):
    """Consumers wait with BLOCK 0 while it is killed, and stopped: they are answered nothing. They come back and wait;
    the next jobs go to one of them each, and to nobody twice."""
    with new_folder() as folder:
        port, added = served.free_port(), 0
        for end in (None, signal.SIGKILL, signal.SIGTERM):
            with logged(program, folder, port=port) as server, Clients(port) as clients:
                one = clients.new()
                if end is None:
                    make(one, "s")
                readers = [clients.waiting(name, "s", "COUNT 5 BLOCK 0") for name in "abc"]
                for reader in readers[:2]:
                    added += 1
                    add(one, "s", added)
                    comes(reader, gives("s", added))
                nothing_comes(READ, readers[2])
                for name, reader in zip("ab", readers):
                    begin(reader, reading(name, "s"))
                time.sleep(READ)
                server.child.send_signal(end or signal.SIGTERM)
                server.child.wait(timeout=10)
                assert all(read_to_end(reader)[0] == b"" for reader in readers)
        with logged(program, folder) as server:
            rows = array([array([bulk(name), bulk("3")]) for name in "ab"])
            say_at(server, "XPENDING s g", array([number(added), bulk("1-0"), bulk(f"{added}-0"), rows]))


# ---- what a log has


def what_a_log_has(program):
    """A log has the commands that changed something, as they were sent, each with a moment and its checksum; so another
    program reads it, and the program reads what another one has written."""
    every = bytes(range(256))
    sent = [[b"XADD", b"s", b"1-0", b"f", every * 2], [b"xgroup", b"CREATE", b"s", b"g\0\1\1\0", b"0"],
            [b"XADD", b"s", b"2-0", b"", b""], [b"XADD", every, b"*", b"\1\2\1\1", b"\0" * 70_000],
            [b"XREADGROUP", b"GROUP", b"g\0\1\1\0", every, b"STREAMS", b"s", b">"], [b"XDEL", b"s", b"2-0"],
            [b"XACK", b"s", b"g\0\1\1\0", b"1-0"]]
    asked = [[b"XRANGE", b"s", b"-", b"+"], [b"XRANGE", every, b"-", b"+"], [b"XPENDING", b"s", b"g\0\1\1\0"]]

    def answers(server):
        with Connection(server.port) as one:
            return [one.ask(*words) for words in asked]

    with new_folder() as folder:
        began = time.time_ns() // 1_000_000
        with logged(program, folder) as server:
            with Connection(server.port) as one:
                for words in sent:
                    one.ask(*words)
            was = answers(server)
        ended = time.time_ns() // 1_000_000
        records = logs.records_in(folder)
        found = [piece.words[2:] for piece in records]
        assert found == sent, f"{len(found)} records of {len(sent)} commands, or others"
        moments = [int(piece.words[0]) for piece in records]
        assert moments == sorted(moments) and began <= moments[0] and moments[-1] <= ended + 1, (began, moments, ended)
        other = folder + "-other"
        written = [logs.record(moment, words) for moment, words in zip(moments, sent)]
        logs.write_logs(other, logs.header(1) + b"".join(written))
        assert logs.read_file(logs.path_of(other, 1)) == logs.read_file(logs.path_of(folder, 1))
        with logged(program, other) as server:
            assert answers(server) == was


def two_logs(program):
    """A log of 16 MiB is closed, and the next one begun: each is kept before the next is there. All that both have is
    read; if there is no memory for it the start is refused, and nothing is changed. Refuses: the next log is made
    before the one before it is synced."""
    value, count = b"v" * 1_000_000, 20
    with syncs.counted() as told, new_folder() as folder:
        with (logged(program, folder, "no", compact="never", environment=told.environment) as server,
              Connection(server.port) as one):
            for place in range(1, count + 1):
                one.ask("XADD", "s", f"{place}-0", "f", value)
            server.child.kill()
        assert logs.numbers(folder) == [1, 2]
        first, last = (os.path.getsize(logs.path_of(folder, place)) for place in (1, 2))
        assert logs.FULL <= first < logs.FULL + 2 * len(value) and last > 0, (first, last)
        assert told.kept(logs.path_of(folder, 1)) == first, "the first log isn't kept"
        assert told.last(logs.path_of(folder, 1)) < told.last(folder), "the next log is there before the first is kept"
        files = [os.stat(logs.path_of(folder, place)) for place in (1, 2)]
        limits = served.with_limits({resource.RLIMIT_AS: 24 * MEGABYTE})
        is_refusal(start(program, folder, before=limits), folder, "log-[12] out of memory")
        with logged(program, folder, compact="never") as server, Connection(server.port) as one:
            assert read_at_start(server, folder) == (count, 0)
            assert one.ask("XLEN", "s") == count
            for place in (1, 17, count):
                found = one.ask("XRANGE", "s", f"{place}-0", f"{place}-0")
                assert found == [[f"{place}-0".encode(), [b"f", value]]], place
            one.ask("XADD", "s", "*", "f", "v")
        now = [os.stat(logs.path_of(folder, place)) for place in (1, 2)]
        assert (now[0].st_mtime_ns, now[0].st_size) == (files[0].st_mtime_ns, first), "a closed log was changed"
        assert now[1].st_size > last and logs.numbers(folder) == [1, 2]


def many_logs(program):
    """A folder may have more logs than the server may have descriptors: each is open only while it is read. Refuses:
    all logs of a folder are open at once."""
    with new_folder() as folder:
        records = [logs.record(1_700_000_000_000 + place, [b"XADD", b"s", b"%d-0" % place, b"f", b"v"])
                   for place in range(1, 81)]
        logs.write_logs(folder, *(logs.header(place) + one for place, one in enumerate(records, 1)))
        with logged(program, folder, workers=2, limits={resource.RLIMIT_NOFILE: 60}) as server:
            assert read_at_start(server, folder) == (80, 0)
            say_at(server, "XLEN s", number(80))


def full_memory(program):
    """Additions that are refused since there is no memory are in no log: a start with ample memory has those alone that
    were answered."""
    with new_folder() as folder:
        with logged(program, folder, "no") as server:
            all_answer(server)
            full_queue.limit_memory(server, 24 * MEGABYTE)
            added = full_queue.add_until_full(server)
        with logged(program, folder) as server:
            say_at(server, "XLEN q", number(added))
            assert read_at_start(server, folder) == (added, 0)


def tells_how_far_it_is(program):
    """While a start reads for long it says each second how many bytes it has read, and only then."""
    with new_folder() as folder, tempfile.TemporaryDirectory() as above:
        value = b"v" * 60_000
        records = [logs.record(1_700_000_000_000 + place, [b"XADD", b"s", f"{place}-0".encode(), b"f", value])
                   for place in range(1, 41)]
        logs.write_logs(folder, logs.header(1) + b"".join(records))
        size = os.path.getsize(last_log(folder))
        for environment in ({"LD_PRELOAD": clock_steps.library_of("slow_reads.c", above)}, None):
            with logged(program, folder, environment=environment) as server:
                assert read_at_start(server, folder) == (40, 0)
                told = [int(line.split()[-3]) for line in server.said if line.endswith(" bytes read\n")]
                assert not told if environment is None else told and 0 < told[0] < size, server.said


CASES = (*bad_folders.CASES, *compaction.CASES, *folder_crashes.CASES, what_a_log_has, tells_how_far_it_is,
         *kept_log.CASES, stopped_and_started, at_random, the_clock_is_late, waits_across_a_restart,
         *crash_points.CASES, *refused_logs.CASES, *kept.CASES, two_logs, many_logs, full_memory, killed_without_syncs,
         killed_between_syncs)


def killing(case, kills):
    """The case with so many kills."""
    def killed(program):
        case(program, kills)

    killed.__name__ = case.__name__
    return killed


def main():
    parser = argparse.ArgumentParser(description=__doc__, formatter_class=argparse.RawDescriptionHelpFormatter)
    parser.add_argument("--kills", type=int, default=0)
    parser.add_argument("--only", default="", help="the cases with these names")
    parser.add_argument("program")
    given = parser.parse_args()
    need("cc", "gcc libc6-dev", installs=True)
    with_kills = [killing(killed_under_load, given.kills or 30),
                  killing(compaction_kills.killed_beside_compactions, given.kills or 20)]

    def asked(cases):
        return [case for case in cases if not given.only or case.__name__ in given.only.split(",")]

    results = pass_together(asked(due_compactions.AT_ONCE), given.program)
    for case in asked((*CASES, *with_kills)):
        if results.count(False) < MOST_FAULTS:
            results.append(passes(case, given.program))
    return tell(results)


if __name__ == "__main__":
    sys.exit(main())
