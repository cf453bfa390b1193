"""Snapshots: a folder of logs is compacted, by the program's command `compact`, and opened again.

What a start then has is compared with the model: the program's own `script`, which is given all events.
"""
import fcntl
import itertools
import os
import random
import resource
import select
import shutil
import signal
import subprocess
import time

import commands
import logs
import served
import states
from books import Connection
from crash_points import FURTHER, LOOKS, OWN
from logged import is_refusal, logged, new_folder, start
from resp import bulk, number
from served import raw, say, say_at
from states import READS, words_of

BEGAN = 1_700_000_000_000
KEYS = "stux"
WHOLE = [words_of(f"XINFO STREAM {key} FULL COUNT 0") for key in KEYS]
NAMED = [words_of("XADD x 5-5 \1\0 \2"), words_of(f"XGROUP CREATE x {'g' * 100_000} 0"),
         words_of("XGROUP CREATE x h 9-9"), words_of("XGROUP CREATECONSUMER x h \3\0"),
         words_of("XREADGROUP GROUP " + "g" * 100_000 + " a\0 STREAMS x >"),
         words_of("XCLAIM x " + "g" * 100_000 + " b 0 5-5 TIME 7 RETRYCOUNT 9223372036854775807 JUSTID"),
         words_of("XADD u 18446744073709551615-18446744073709551614 f v"),
         words_of("XGROUP CREATE u top $"), words_of("XDEL u 18446744073709551615-18446744073709551614")]
QUESTIONS = [*WHOLE, *LOOKS, *OWN, *FURTHER, *WHOLE]


def compact(program, folder, before=None):
    """What becomes of a compaction."""
    return subprocess.run([program, "compact", folder], capture_output=True, timeout=60, preexec_fn=before)


def is_compacted(done, folder, text):
    want = f"xs_server: log {folder}: {text}\n".encode()
    assert (done.returncode, done.stdout, done.stderr) == (0, b"", want), done


def names(folder):
    return set(os.listdir(folder)) - {"lock", "compacting"}


def events_at_random(program, seed, count):
    """So many events that the model doesn't refuse, each a moment and the words."""
    made, moments = commands.Maker(seed), itertools.count(BEGAN)
    opening = [words_of(" ".join(words)) for words in made.opening()]
    drawn = (words_of(" ".join(words)) for words in iter(made.command, None))
    asked = [words for words in itertools.islice(drawn, 3 * count)
             if words[0].upper() not in READS and b"BLOCK" not in [word.upper() for word in words]]
    events = [(next(moments), words) for words in (*opening, *NAMED, *asked[:count])]
    replies = states.script_replies(program, events)
    return [event for event, reply in zip(events, replies) if not reply.startswith(b"-")]


def commands_at_random(seed, count):
    """So many commands, but for those whose replies tell the times of rows that were made just now."""
    made = commands.Maker(seed)
    drawn = (words_of(" ".join(words)) for words in iter(made.command, None))
    told = (words for words in drawn if words[0].upper() != b"QUIT" and not {b"CONSUMERS", b"FULL"} & set(words))
    return list(itertools.islice(told, count))


def in_logs(events, cuts):
    """The bytes of logs of these events: each but the first begins at one of these places."""
    ends = [*cuts, len(events)]
    return [logs.header(place) + b"".join(logs.record(*event) for event in events[first:end])
            for place, (first, end) in enumerate(zip([0, *cuts], ends), 1)]


def replies_behind(program, events, questions=QUESTIONS):
    """What the model replies behind these events."""
    now = int(time.time() * 1000)
    return states.script_replies(program, [*events, *((now, words) for words in questions)])[len(events):]


def same_as_behind(want, got, questions=QUESTIONS):
    """A server replied what the model does. Times are compared as long as no question has changed any."""
    first = len(WHOLE)
    assert got[:first] == want[:first], [pair for pair in zip(want[:first], got) if pair[0] != pair[1]][0]
    states.same_replies(questions[first:-first], want[first:-first], got[first:-first])


def is_behind(program, folder, events, questions=QUESTIONS):
    """A server over the folder replies what the model replies behind these events."""
    want = replies_behind(program, events, questions)
    with logged(program, folder) as server, Connection(server.port) as one:
        same_as_behind(want, states.ask_all(one, questions), questions)


def contents_at_random(program):
    """Contents at random, with names of zero bytes and great ones, greatest counts and emptied streams: behind a
    compaction, and behind another one of what was noted since, a start has what all events left, and goes on with it
    for 1,000 commands. Refuses: a compaction leaves a closed log out, or reads one twice."""
    for seed in range(6):
        events = events_at_random(program, f"compact {seed}", 300)
        cuts = sorted(random.Random(seed).sample(range(1, len(events)), 3))
        with new_folder() as folder:
            logs.write_logs(folder, *in_logs(events, cuts))
            is_compacted(compact(program, folder), folder, "snapshot-4 in the place of 3 logs")
            assert names(folder) == {"snapshot-4", "log-4"}
            is_compacted(compact(program, folder), folder, "no log is closed")
            kept = folder + " kept"
            shutil.copytree(folder, kept)
            is_behind(program, folder, events)
            further = in_logs(events, [*cuts, len(events)])[-1]
            logs.write_file(logs.path_of(kept, 5), further)
            is_compacted(compact(program, kept), kept, "snapshot-5 in the place of 1 logs")
            assert names(kept) == {"snapshot-5", "log-5"}
            is_behind(program, kept, events, [*WHOLE, *commands_at_random(f"behind {seed}", 1000), *WHOLE])


def beside_a_server(program):
    """While a server goes on with the last log, the closed ones are compacted; behind a kill all is there. Refuses: a
    compaction leaves a closed log out, or reads one twice."""
    events = events_at_random(program, "beside", 100)
    cuts = [len(events) // 3, len(events) // 2]
    with new_folder() as folder:
        logs.write_logs(folder, *in_logs(events, cuts))
        with logged(program, folder) as server, raw(server.port) as one:
            say(one, "XADD behind 1-0 f v", bulk("1-0"))
            is_compacted(compact(program, folder), folder, "snapshot-3 in the place of 2 logs")
            say(one, "XADD behind 2-0 f v", bulk("2-0"))
            server.child.kill()
        assert names(folder) == {"snapshot-3", "log-3"}
        last = logs.events_in(folder, 3)
        with logged(program, folder) as server:
            assert f"snapshot-3, {len(events) - cuts[-1] + 2} records" in server.said[-2], server.said
            say_at(server, "XLEN behind", number(2))
        is_behind(program, folder, [*events[:cuts[-1]], *last])


def what_a_crash_leaves(program):
    """Whatever a crash leaves of the removals, and of a snapshot that isn't whole, a start has the same. Refuses: an
    incomplete snapshot stays after a start."""
    events = events_at_random(program, "removals", 60)
    whole = in_logs(events, [10, 20, 40])
    with new_folder() as folder:
        logs.write_logs(folder, *whole[:3])
        compact(program, folder)
        older = logs.read_file(os.path.join(folder, "snapshot-3"))
        logs.write_file(logs.path_of(folder, 4), whole[3])
        compact(program, folder)
        left = {"log-1": whole[0], "log-2": whole[1], "log-3": whole[2], "snapshot-3": older,
                "snapshot-4.new": older[:-9]}
        assert names(folder) == {"snapshot-4", "log-4"}
        for place in range(1, 1 << len(left)):
            copy = f"{folder} {place}"
            shutil.copytree(folder, copy)
            for bit, (name, data) in enumerate(left.items()):
                if place >> bit & 1:
                    logs.write_file(os.path.join(copy, name), data)
            is_behind(program, copy, events, (*WHOLE, *WHOLE))
            assert "snapshot-4.new" not in names(copy)
            is_compacted(compact(program, copy), copy, "no log is closed")
            assert names(copy) == {"snapshot-4", "log-4"}, names(copy)


def backed_up(program):
    """What is copied as docs/CLIENTS.md says, while a client adds, is a folder that a start reads: it has all that was
    answered before."""
    with new_folder() as folder, logged(program, folder) as server, raw(server.port) as one:
        copy = folder + " copy"
        os.mkdir(copy)
        for place in range(1, 51):
            say(one, f"XADD s {place}-0 f v", bulk(f"{place}-0"))
        for place in range(51, 551):
            one.sendall(served.asking(f"XADD s {place}-0 f v"))
        subprocess.run(["flock", f"{folder}/compacting", "sh", "-c", "cp $0/log-* $0/snapshot-* \"$1\"", folder, copy],
                       stderr=subprocess.DEVNULL)
        with logged(program, copy) as other, Connection(other.port) as two:
            assert 50 <= two.ask("XLEN", "s") <= 550


def killed(program):
    """Compactions are killed at any moment; each time a start has all. Refuses: a compaction removes logs before it has
    written."""
    count, aside = 12_000, random.Random(7)
    events = [(BEGAN + place, [b"XADD", b"s", b"%d-0" % place, b"f", b"v" * 200]) for place in range(1, count + 1)]
    cut = count - 100
    with new_folder() as folder:
        logs.write_logs(folder, *in_logs(events, [cut // 2, cut]))
        copy, ends = folder + " copy", []
        shutil.copytree(folder, copy)
        began = time.monotonic()
        compact(program, copy)
        takes = time.monotonic() - began
        shutil.rmtree(copy)
        for _ in range(20):
            shutil.copytree(folder, copy)
            child = subprocess.Popen([program, "compact", copy], stderr=subprocess.DEVNULL)
            time.sleep(aside.uniform(0, takes))
            child.kill()
            ends.append((child.wait() == -signal.SIGKILL, sorted(names(copy))))
            with logged(program, copy) as server:
                say_at(server, "XLEN s", number(count))
                say_at(server, f"XRANGE s {cut - 1} {cut + 1} COUNT 1", f"*1\r\n*2\r\n{bulk(f'{cut - 1}-0')}*2\r\n"
                       f"{bulk('f')}{bulk('v' * 200)}")
            compact(program, copy)
            assert names(copy) == {"snapshot-3", "log-3"}
            shutil.rmtree(copy)
        print(f"{sum(was for was, _ in ends)} of 20 compactions were killed", flush=True)
        assert any(was for was, _ in ends)


def refused(program):
    """A compaction is refused, and changes nothing: if another one runs, there is no room, a log is damaged or missing.
    A start is refused whose snapshot is damaged, or whose log behind it is missing. Refuses: a compaction holds no
    lock."""
    events = events_at_random(program, "refused", 60)
    whole = in_logs(events, [20, 40])
    with new_folder() as folder:
        logs.write_logs(folder, *whole)
        with open(os.path.join(folder, "compacting"), "ab") as lock:
            fcntl.flock(lock, fcntl.LOCK_EX)
            is_refusal(compact(program, folder), folder, "it is being compacted")
        room = served.with_limits({resource.RLIMIT_FSIZE: 500})
        is_refusal(compact(program, folder, room), folder, "snapshot-3 can't be written")
        assert names(folder) == {"log-1", "log-2", "log-3"}
        damaged = bytearray(whole[1])
        damaged[len(damaged) // 2] ^= 4
        logs.write_file(logs.path_of(folder, 2), damaged)
        is_refusal(compact(program, folder), folder, r"log-2 is damaged at byte \d+")
        os.remove(logs.path_of(folder, 2))
        is_refusal(compact(program, folder), folder, "log-2 is missing")
        logs.write_file(logs.path_of(folder, 2), whole[1])
        assert names(folder) == {"log-1", "log-2", "log-3"}
        compact(program, folder)
        path = os.path.join(folder, "snapshot-3")
        right = logs.read_file(path)
        for place in (len(right) // 2, len(right) - 3):
            damaged = bytearray(right)
            damaged[place] ^= 4
            logs.write_file(path, damaged)
            is_refusal(start(program, folder), folder, r"snapshot-3 is damaged at byte \d+")
        logs.write_file(path, right[:-1])
        is_refusal(start(program, folder), folder, r"snapshot-3 is damaged at byte \d+")
        logs.write_file(path, right)
        os.remove(logs.path_of(folder, 3))
        is_refusal(start(program, folder), folder, "log-3 is missing")
        nowhere = folder + " of another name"
        is_refusal(compact(program, nowhere), nowhere, "it can't be written: .*")


def without_memory(program):
    """A compaction that finds no memory for what the queues hold is refused, and changes nothing."""
    events = [(BEGAN + place, [b"XADD", b"s", b"%d-0" % place, b"f", b"v" * 2000]) for place in range(1, 12_001)]
    with new_folder() as folder:
        logs.write_logs(folder, *in_logs(events, [6000]))
        little = served.with_limits({resource.RLIMIT_AS: 13 << 20})
        is_refusal(compact(program, folder, little), folder, "log-1 out of memory")
        assert names(folder) == {"log-1", "log-2"}


def waits_for_its_end(program):
    """A start waits until nobody compacts the folder. Refuses: a start doesn't wait for a compaction."""
    with new_folder() as folder:
        logs.write_logs(folder, logs.header(1))
        with open(os.path.join(folder, "compacting"), "ab") as lock:
            fcntl.flock(lock, fcntl.LOCK_EX)
            words = [*served.words_of_run(program, served.free_port(), 2), "--log", folder]
            child = subprocess.Popen(words, stderr=subprocess.PIPE)
            assert not select.select([child.stderr], [], [], 0.5)[0], "it didn't wait"
            fcntl.flock(lock, fcntl.LOCK_UN)
            assert b"0 records" in child.stderr.readline()
            child.kill()
            child.wait()


CASES = (contents_at_random, beside_a_server, what_a_crash_leaves, backed_up, killed, refused, without_memory,
         waits_for_its_end)
