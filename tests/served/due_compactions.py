"""Compactions that nobody asks for: of a server by itself, at a start, and of a process beside a server.

One is due once the closed logs have more bytes than the greatest snapshot, and more than 64 MiB. A log of this size is
made of one addition, again and again, each of which trims the one before.
"""
import contextlib
import fcntl
import os
import resource
import select
import signal
import subprocess
import tempfile
import threading
import time

import clock_steps
import information
import logs
import served
from books import Connection
from compaction import names
from full_queue import MEGABYTE
from logged import is_refusal, logged, new_folder
from resp import bulk, number
from served import raw, say, say_at

# In seconds: within so many a compaction that is due is done, and after so many none is done any more.
SOON, LATE = 15, 2.6
ADDITION = [b"XADD", b"great", b"MAXLEN", b"1", b"*", b"f", b"v" * MEGABYTE]
# Above 64 MiB, and what a folder has that has been compacted often.
RECORDS = logs.record(1_700_000_000_000, ADDITION) * 65
COMPACTED = "snapshot-{} in the place of {} logs"
SERVICE = os.path.join(os.path.dirname(os.path.abspath(__file__)), "../../service")


def words_of_unit(name, program, folder):
    """The words that a unit runs the program with, for this folder."""
    with open(os.path.join(SERVICE, name), encoding="utf-8") as lines:
        started = next(line for line in lines if line.startswith("ExecStart="))
    _, *words = started.strip().split(" ")
    return [program, *(folder if word == "${STATE_DIRECTORY}" else word for word in words)]


class Heard:
    """What a process writes on standard error from now on: lines on a folder, each behind the same words."""

    def __init__(self, child, folder):
        self.child = child
        self.before = f"xs_server: log {folder}: "
        self.text = ""

    def texts(self):
        stream = self.child.stderr.fileno()
        while select.select([stream], [], [], 0)[0] and (piece := os.read(stream, 10_000)):
            self.text += piece.decode()
        return [line.removeprefix(self.before) for line in self.text.splitlines()]

    def come_to(self, *texts):
        """Soon these lines are there, and no others."""
        end = time.monotonic() + SOON
        while (got := self.texts()) != list(texts):
            assert time.monotonic() < end and got == list(texts[:len(got)]), (got, texts)
            time.sleep(0.02)

    def stay(self, *texts):
        """These lines are there for some seconds, and no others."""
        time.sleep(LATE)
        assert self.texts() == list(texts), (self.texts(), texts)


def fill_log(server):
    """A client has the server close its last log, which is reason enough for a compaction."""
    with Connection(server.port) as one:
        one.send([*ADDITION[:-1], b"v" * logs.LEAST_CLOSED])
        one.answer()


def write_due(folder):
    """A folder whose one closed log is reason enough for a compaction."""
    logs.write_logs(folder, logs.header(1) + RECORDS, logs.header(2))


def told(server):
    """What INFO tells of compactions."""
    with raw(server.port) as stream, stream.makefile("rb") as replies:
        fields = information.told(stream, replies, "INFO persistence")[1]
    return tuple(fields[name] for name in ("aof_rewrite_in_progress", "aof_last_bgrewrite_status", "log_compact",
                                           "log_snapshot"))


@contextlib.contextmanager
def watched(program, folder, before=None):
    """What a process writes that compacts the folder each time that it is due, up to a signal."""
    words = words_of_unit("xs_server-compact.service", program, folder)
    child = subprocess.Popen(words, stdout=subprocess.DEVNULL, stderr=subprocess.PIPE, preexec_fn=before)
    try:
        yield Heard(child, folder)
        child.send_signal(signal.SIGTERM)
        assert child.wait(timeout=10) == -signal.SIGTERM, child.returncode
    finally:
        child.kill()
        child.communicate()


@contextlib.contextmanager
def adding(server):
    """While the block runs a client adds one entry behind the other, and each is answered. The list has how many were."""
    count, faults, done = [0], [], threading.Event()

    def add():
        with raw(server.port) as stream:
            try:
                while not done.is_set():
                    say(stream, f"XADD small {count[0] + 1}-0 f v", bulk(f"{count[0] + 1}-0"))
                    count[0] += 1
            except (AssertionError, OSError) as fault:
                faults.append(fault)

    adder = threading.Thread(target=add)
    adder.start()
    try:
        yield count
    finally:
        done.set()
        adder.join()
    assert not faults and count[0] > 100, (faults, count)


def while_it_serves(program):
    """A server compacts its folder each time that it is due, while clients add. It says so on standard error and in
    INFO, and what a kill leaves has all. Refuses: nobody compacts while it serves; INFO reports another snapshot than
    the last one."""
    with new_folder() as folder:
        with logged(program, folder, "no") as server:
            heard = Heard(server.child, folder)
            assert told(server) == ("0", "ok", "serving", "0"), told(server)
            with adding(server) as count:
                fill_log(server)
                heard.come_to(COMPACTED.format(2, 1))
                assert told(server) == ("0", "ok", "serving", "2"), told(server)
                fill_log(server)
                heard.come_to(COMPACTED.format(2, 1), COMPACTED.format(3, 1))
            server.child.kill()
        assert names(folder) == {"snapshot-3", "log-3"}, names(folder)
        with logged(program, folder) as server:
            assert ": snapshot-3, " in server.said[-2], server.said
            assert told(server) == ("0", "ok", "serving", "3"), told(server)
            say_at(server, "XLEN small", number(count[0]))
            say_at(server, "XLEN great", number(1))


def gives_its_memory_back(program):
    """The memory that a compaction takes in a server goes back to the system. Refuses: compactions run in a thread that
    stays."""
    entry = logs.record(1_700_000_000_000, [b"XADD", b"s", b"*", b"f", b"v" * 1000])
    with new_folder() as folder:
        logs.write_logs(folder, logs.header(1) + entry * 100_000, logs.header(2))
        with logged(program, folder) as server:
            before = server.resident()
            Heard(server.child, folder).come_to(COMPACTED.format(2, 1))
            assert server.peak() > 1.7 * before > 1.7 * 100 * MEGABYTE, (before, server.peak())
            information.comes_to(lambda: server.resident() < 1.1 * before, True)


def killed_within(program):
    """INFO tells that a compaction runs, and clients are served meanwhile. What a kill leaves then has all. Refuses:
    INFO doesn't report that a compaction runs."""
    with new_folder() as folder, tempfile.TemporaryDirectory() as above:
        environment = {"LD_PRELOAD": clock_steps.library_of("slow_reads.c", above)}
        with logged(program, folder, "no", environment=environment) as server:
            with adding(server) as count:
                fill_log(server)
                information.comes_to(lambda: told(server), ("1", "ok", "serving", "0"))
                before = count[0]
                time.sleep(1)
                assert count[0] > before + 100, (before, count)
            assert told(server) == ("1", "ok", "serving", "0"), told(server)
            server.child.kill()
        assert names(folder) == {"log-1", "log-2"}, names(folder)
        with logged(program, folder, compact="never") as server:
            say_at(server, "XLEN small", number(count[0]))


def not_while_it_serves(program):
    """With `--compact never` nobody compacts a folder, though it is due; with `--compact start` the start does, before
    it reads it, and nobody later. Without either word a server leaves a folder alone that isn't due. Refuses: the
    server compacts with `--compact never`; a start compacts a folder that isn't due; with `--compact start` the server
    compacts later too."""
    def never(folder):
        write_due(folder)
        with logged(program, folder, compact="never") as server:
            Heard(server.child, folder).stay()
            assert told(server) == ("0", "ok", "never", "0"), told(server)
        assert names(folder) == {"log-1", "log-2"}, names(folder)

    def at_the_start(folder):
        write_due(folder)
        with logged(program, folder, "no", compact="start") as server:
            said = [line for line in server.said if not line.endswith(" bytes read\n")]
            assert said[0] == f"xs_server: log {folder}: {COMPACTED.format(2, 1)}\n", server.said
            assert ": snapshot-2, 0 records" in said[1], server.said
            fill_log(server)
            Heard(server.child, folder).stay()
            assert told(server) == ("0", "ok", "start", "2"), told(server)
            say_at(server, "XLEN great", number(1))
        assert names(folder) == {"snapshot-2", "log-2", "log-3"}, names(folder)

    def not_due_at_the_start(folder):
        logs.write_logs(folder, *(logs.header(place) for place in (1, 2)))
        with logged(program, folder, compact="start") as server:
            assert len(server.said) == 2 and told(server) == ("0", "ok", "start", "0"), (server.said, told(server))
        assert names(folder) == {"log-1", "log-2"}, names(folder)

    def not_due(folder):
        logs.write_logs(folder, *(logs.header(place) for place in (1, 2)))
        with logged(program, folder) as server:
            Heard(server.child, folder).stay()
        assert names(folder) == {"log-1", "log-2"}, names(folder)

    def work(place):
        with new_folder() as folder:
            (never, at_the_start, not_due_at_the_start, not_due)[place](folder)

    served.together(4, work)


def how_much_is_due(program):
    """A compaction is due if the closed logs have more bytes than the snapshot, and more than 64 MiB. Files of zeros
    have these sizes: one that is due is refused, since they are damaged. Refuses: a compaction is due at 64 MiB,
    however large the snapshot is; logs below the snapshot are counted."""
    damaged = "not compacted: snapshot-2 is damaged at byte 0"
    least = logs.LEAST_CLOSED

    def work(place):
        snapshot, closed, is_due = ((1, least, False), (1, least + 1, True), (least + 9, least + 9, False),
                                    (least + 9, least + 10, True))[place]
        with new_folder() as folder:
            os.mkdir(folder)
            # What a snapshot stands for counts nothing, nor does the last log.
            for name, size in (("log-1", least), ("snapshot-2", snapshot), ("log-2", closed - 1), ("log-3", 1),
                               ("log-4", least)):
                logs.write_file(os.path.join(folder, name), b"")
                os.truncate(os.path.join(folder, name), size)
            was = names(folder)
            with watched(program, folder) as heard:
                heard.stay(*([damaged] if is_due else []))
            assert names(folder) == was, names(folder)

    served.together(4, work)


def beside_it(program):
    """A process beside the server compacts each time that it is due, up to a signal; the server leaves that to it, and
    serves, as their units have it. A folder that isn't there is refused. Refuses: `compact --watch` goes on without a
    folder; it ends with its first compaction."""
    with new_folder() as folder:
        os.mkdir(folder)
        port = served.free_port()
        words = [*words_of_unit("xs_server.service", program, folder), "--port", str(port)]
        with served.Server(words, port, 64, None) as server, watched(program, folder) as heard:
            server.lines_until(server.child.stderr, "listening on")
            with adding(server) as count:
                for place in (2, 3):
                    fill_log(server)
                    heard.come_to(*(COMPACTED.format(one, 1) for one in range(2, place + 1)))
            server.child.kill()
        assert names(folder) == {"snapshot-3", "log-3"}, names(folder)
        with logged(program, folder) as server:
            say_at(server, "XLEN small", number(count[0]))
        nowhere = folder + " of another name"
        done = subprocess.run([program, "compact", nowhere, "--watch"], capture_output=True, timeout=10)
        is_refusal(done, nowhere, "it can't be read: .*")


def is_refused_once(folder, heard, server, text):
    """It is said once that a compaction is refused, also in INFO, and nothing is left of it. It isn't tried again."""
    heard.come_to(text)
    heard.stay(text)
    assert told(server) == ("0", "err", "serving", "0"), told(server)
    assert names(folder) == {"log-1", "log-2"}, names(folder)


def is_tried_again(folder, heard, server, text):
    """Once the next log is closed a compaction is tried again."""
    fill_log(server)
    heard.come_to(text, COMPACTED.format(3, 2))
    assert told(server) == ("0", "ok", "serving", "3"), told(server)
    assert names(folder) == {"snapshot-3", "log-3"}, names(folder)


def refused_while_another_runs(program):
    """While another one compacts, a server's compaction is refused: that is said once, and it is tried again once
    another log is closed. Refuses: a refused compaction is tried again each second, or never; INFO doesn't report that
    one was refused."""
    text = "not compacted: it is being compacted"
    with new_folder() as folder, logged(program, folder, "no") as server:
        heard = Heard(server.child, folder)
        with open(os.path.join(folder, "compacting"), "ab") as lock:
            fcntl.flock(lock, fcntl.LOCK_EX)
            fill_log(server)
            heard.come_to(text)
        is_refused_once(folder, heard, server, text)
        is_tried_again(folder, heard, server, text)


def refused_without_memory(program):
    """So it is if the server's memory has no room for a second state. Refuses: a refused compaction is tried again each
    second, or never."""
    text = "not compacted: log-1 out of memory"
    count, entry = 160, logs.record(1_700_000_000_000, [b"XADD", b"s", b"*", b"f", b"v" * MEGABYTE])
    with new_folder() as folder:
        logs.write_logs(folder, logs.header(1) + entry * count, logs.header(2))
        with logged(program, folder, "no", limits={resource.RLIMIT_AS: 370 * MEGABYTE}) as server:
            heard = Heard(server.child, folder)
            is_refused_once(folder, heard, server, text)
            say_at(server, "XLEN s", number(count))
            limit = resource.prlimit(server.child.pid, resource.RLIMIT_AS)[1]
            resource.prlimit(server.child.pid, resource.RLIMIT_AS, (limit, limit))
            is_tried_again(folder, heard, server, text)


def refused_without_room(program):
    """So is the compaction of a process beside a server if the disk has no room. Refuses: a refused compaction is tried
    again each second, or never; what it had begun stays."""
    with new_folder() as folder:
        write_due(folder)
        with watched(program, folder, served.with_limits({resource.RLIMIT_FSIZE: 500})) as heard:
            text = "not compacted: snapshot-2 can't be written"
            heard.come_to(text)
            heard.stay(text)
            assert names(folder) == {"log-1", "log-2"}, names(folder)
            limit = resource.prlimit(heard.child.pid, resource.RLIMIT_FSIZE)[1]
            resource.prlimit(heard.child.pid, resource.RLIMIT_FSIZE, (limit, limit))
            heard.stay(text)
            logs.write_file(logs.path_of(folder, 3), logs.header(3))
            heard.come_to(text, COMPACTED.format(3, 2))
            assert names(folder) == {"snapshot-3", "log-3"}, names(folder)


def not_listed(program):
    """If a folder can't be listed, that is said once, also in INFO as long as it is so. Refuses: that a folder can't be
    listed is reported each second, or in INFO for good."""
    with new_folder() as folder, logged(program, folder) as server:
        heard = Heard(server.child, folder)
        os.rename(folder, folder + " aside")
        information.comes_to(lambda: told(server)[1], "err")
        texts = heard.texts()
        assert len(texts) == 1 and texts[0].startswith("not compacted: it can't be read: "), texts
        heard.stay(*texts)
        os.rename(folder + " aside", folder)
        information.comes_to(lambda: told(server)[1], "ok")
        say_at(server, "XADD s 1-0 f v", bulk("1-0"))


def wrong_words(program):
    """Words that ask for compactions and have a wrong value, or no log, end it with status 2, and are named. Refuses:
    `--compact` needs no log."""
    with new_folder() as folder:
        run = [*served.words_of_run(program, served.free_port(), 2)]
        for words, name in (([*run, "--compact", "never"], "--compact"),
                            ([*run, "--log", folder, "--compact"], "--compact"),
                            ([*run, "--log", folder, "--compact", ""], "--compact"),
                            ([*run, "--log", folder, "--compact", "always"], "--compact"),
                            ([*run, "--log", folder, "--watch"], "--watch"),
                            ([program, "compact", "--watch"], "FOLDER"),
                            ([program, "compact", folder, "--watch", "yes"], "yes"),
                            ([program, "compact", folder, "--compact", "start"], "--compact")):
            done = subprocess.run(words, capture_output=True, timeout=10)
            assert (done.returncode, done.stdout) == (2, b"") and name.encode() in done.stderr, (words, done)
        assert not os.path.exists(folder)
        for words, option in ((["run"], b"--compact"), (["compact"], b"--watch")):
            done = subprocess.run([program, *words, "--help"], capture_output=True, timeout=10)
            assert done.returncode == 0 and option in done.stdout, done


AT_ONCE = (wrong_words, while_it_serves, gives_its_memory_back, killed_within, not_while_it_serves, how_much_is_due,
           beside_it, refused_while_another_runs, refused_without_memory, refused_without_room, not_listed)
