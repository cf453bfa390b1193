"""Every point at which the machine may stop while a folder is compacted, or a log is closed, and what may be lost then.

The files of the programs are followed change by change (journal.py). What a crash may leave behind each change is made
a folder, and a start on it has to have all that was answered before.
"""
import os
import random
import re
import shutil
import subprocess
import tempfile
from concurrent.futures import ThreadPoolExecutor
from functools import cache

import logs
import states
from books import Connection
from compaction import QUESTIONS, WHOLE, compact, events_at_random, in_logs, names, replies_behind, same_as_behind
from journal import Disk, Journal
from logged import logged, new_folder
from resp import array, entry, number
from states import words_of

STARTS_AT_ONCE = 4
LIVE = [words_of("XRANGE live - +")]


class Left:
    """The different folders that crashes may leave, each with the counts of events that a start may have there. Without
    a seed nothing is torn at random."""

    def __init__(self, seed=None):
        self.made = random.Random(seed) if seed else None
        self.folders = {}

    def follow(self, disk, changes, counts):
        """A crash may come before these changes, and behind each of them. Counts are told at a byte of the journal."""
        self.crash(disk, counts(0))
        for change in changes:
            disk.apply(change)
            self.crash(disk, counts(change.end))
        real = {name: logs.read_file(os.path.join(disk.folder, name)) for name in names(disk.folder)}
        assert disk.contents() == real, "the journal doesn't have all changes"

    def crash(self, disk, counts):
        for folder in disk.after_a_crash(self.made):
            found = frozenset(folder.items())
            self.folders[found] = set(counts) & self.folders.get(found, set(counts))


class Events:
    """Events in logs, of which the first one begins at 0, and the others at these places. A start is asked so much."""

    def __init__(self, begins, questions):
        self.begins = [0, *begins]
        self.questions = questions

    def told(self, line):
        """How many events a start has, as its line tells."""
        snapshot, records = re.search(r": (?:snapshot-(\d+), )?(\d+) records?,", line).groups()
        return self.begins[int(snapshot or 1) - 1] + int(records)


class OfTheModel(Events):
    """Events that the model has too."""

    def __init__(self, program, events, begins):
        super().__init__(begins, [*WHOLE, *LIVE, *QUESTIONS[len(WHOLE):]])
        self.replies = cache(lambda count: replies_behind(program, events[:count], self.questions))

    def are_there(self, count, got):
        same_as_behind(self.replies(count), got, self.questions)


class Additions(Events):
    """A great entry, which is too long for the model, and additions behind it."""

    def __init__(self, begins):
        super().__init__(begins, [words_of("XLEN great"), *LIVE])

    def are_there(self, count, got):
        entries = [entry(f"{place}-0", "f", "v") for place in range(1, count)]
        assert got == [number(1).encode(), array(entries).encode()], got


def starts_right(program, folder, events, counts):
    """A start has as many events as one of these counts, replies what is right behind them, and leaves no snapshot that
    isn't whole."""
    with (logged(program, folder, "no", workers=2, compact="never") as server,
          Connection(server.port) as one):
        count = events.told(server.said[-2])
        assert count in counts, f"it has {count} events, and not one of {counts}"
        events.are_there(count, states.ask_all(one, events.questions))
    assert not [name for name in names(folder) if name.endswith(".new")]


def all_start(program, left, events):
    """A start on each of the folders is right; on some of them they are compacted before."""
    def check(place, found, counts):
        folder = os.path.join(above, str(place))
        logs.write_folder(folder, dict(found))
        try:
            if place % 4 == 3:
                done = compact(program, folder)
                assert done.returncode == 0, done
            starts_right(program, folder, events, counts)
        except (AssertionError, SystemExit) as fault:
            raise AssertionError(f"{sorted((name, len(data)) for name, data in found)}: {fault}") from fault
        shutil.rmtree(folder)

    with tempfile.TemporaryDirectory() as above, ThreadPoolExecutor(STARTS_AT_ONCE) as pool:
        list(pool.map(check, range(len(left.folders)), left.folders, left.folders.values()))
    print(f"crashes may leave {len(left.folders)} folders", flush=True)


# ---- one program after the other


def compacts(program, folder, environment):
    subprocess.run([program, "compact", folder], stderr=subprocess.DEVNULL, timeout=60,
                   env={**os.environ, **environment})


def opens(program, folder, environment):
    with logged(program, folder, "no", workers=2, environment=environment):
        pass


def follow_lives(program, first, journal, ends, lives, left, count):
    """Follows a compaction of a copy of a folder, which is killed behind so many changes unless that is None, and then
    these lives. It gives how many changes all have made."""
    with new_folder() as folder:
        shutil.copytree(first, folder)
        journal.begin()
        disk = Disk(folder)
        compacts(program, folder, journal.environment(ends))
        for life in lives:
            life(program, folder, journal.environment())
        changes = list(journal.changes())
        left.follow(disk, changes, lambda _: [count])
        return len(changes)


def parts(events, count):
    """Where each of so many logs begins but the first, if all have as many of the events."""
    return [len(events) * place // count for place in range(1, count)]


def folder_compacted_before(program, folder, whole):
    """Makes a folder of these logs that has a snapshot of the first ones, something that was left of that compaction,
    and of a further one."""
    logs.write_logs(folder, *whole[:-1])
    compact(program, folder)
    last = len(whole)
    half = logs.read_file(os.path.join(folder, f"snapshot-{last - 1}"))[:-9]
    for name, data in ((f"log-{last}", whole[-1]), ("log-2", whole[1]), (f"snapshot-{last}.new", half)):
        logs.write_file(os.path.join(folder, name), data)


def every_crash_point_of_a_compaction(program):
    """The machine stops at any moment of a compaction; or one is killed at any moment, and the machine stops while the
    folder is compacted again, or opened and then compacted. Refuses: a compaction renames the snapshot before it is
    synced, or without a sync; it removes files before that name is synced; it takes the last log for closed; it numbers
    the snapshot one too low; it is killed before the name is synced, and the next one removes files all the same."""
    made, left = events_at_random(program, "crashes", 90), Left("crashes")
    begins = parts(made, 5)
    whole = in_logs(made, begins)
    with new_folder() as one, new_folder() as other, tempfile.TemporaryDirectory() as above:
        logs.write_logs(one, *whole)
        folder_compacted_before(program, other, whole)
        journal = Journal(above)
        for first in (one, other):
            changes = follow_lives(program, first, journal, None, (), left, len(made))
            for ends in range(1, changes):
                for lives in ((compacts,), (opens, compacts)):
                    follow_lives(program, first, journal, ends, lives, left, len(made))
    all_start(program, left, OfTheModel(program, made, begins))


# ---- while a server goes on


class Adder:
    """Adds entries one by one, and notes where the journal ended when each was answered."""

    def __init__(self, connection, journal):
        self.connection = connection
        self.journal = journal
        self.ends = []

    def add(self):
        identifier = b"%d-0" % (len(self.ends) + 1)
        assert self.connection.ask("XADD", "live", identifier, "f", "v") == identifier
        self.ends.append(self.journal.size())

    def counts(self, before, are_kept=True):
        """How many events a start may have, at a byte of the journal, if so many were there before the additions: those
        that were answered, which are lost unless they are kept, and perhaps the next one."""
        def at(byte):
            answered = sum(end <= byte for end in self.ends)
            return range(before + (answered if are_kept else 0), before + answered + 2)
        return at


def every_crash_point_beside_a_server(program):
    """The machine stops at any moment of a compaction, while a server goes on with the last log. Refuses: a compaction
    renames the snapshot before it is synced, or without a sync; it removes files before that name is synced; it takes
    the last log for closed; it numbers the snapshot one too low."""
    made, left = events_at_random(program, "crashes beside", 60), Left("crashes beside")
    begins = parts(made, 3)
    with new_folder() as folder, tempfile.TemporaryDirectory() as above:
        logs.write_logs(folder, *in_logs(made, begins))
        disk, journal = Disk(folder), Journal(above)
        with logged(program, folder, environment=journal.environment()) as server, Connection(server.port) as one:
            adder = Adder(one, journal)
            adder.add()
            child = subprocess.Popen([program, "compact", folder], stderr=subprocess.DEVNULL,
                                     env={**os.environ, **journal.environment()})
            while child.poll() is None and len(adder.ends) < 30:
                adder.add()
            assert child.wait() == 0
            adder.add()
        left.follow(disk, journal.changes(), adder.counts(len(made)))
        events = [*made[:begins[-1]], *logs.events_in(folder, 3)]
    all_start(program, left, OfTheModel(program, events, begins))


# ---- while a log is closed


def follow_closing(program, first, journal, sync):
    """The folders that crashes may leave while the log of a copy of a folder is closed, and how many events that has.
    crash_points.py tears it, and the next one."""
    left = Left()
    with new_folder() as folder:
        shutil.copytree(first, folder)
        journal.begin()
        disk = Disk(folder)
        with (logged(program, folder, sync, compact="never", environment=journal.environment()) as server,
              Connection(server.port) as one):
            adder = Adder(one, journal)
            while logs.numbers(folder) == [1]:
                adder.add()
            adder.add()
        left.follow(disk, journal.changes(), adder.counts(1, sync == "always"))
        return left, len(logs.events_in(folder, 1))


def every_crash_point_of_a_closing(program):
    """The machine stops at any moment while a log is full, and the next one is begun. Without syncs additions may be
    lost, but the log is whole once the next one is there. Refuses: the name of the next log isn't synced; with `--sync
    no` a log isn't synced before the next one exists."""
    with new_folder() as folder, tempfile.TemporaryDirectory() as above:
        with logged(program, folder) as server, Connection(server.port) as one:
            one.ask("XADD", "great", "1-0", "f", b"v" * (logs.FULL - 240))
        journal = Journal(above)
        for sync in ("always", "no"):
            left, begin = follow_closing(program, folder, journal, sync)
            all_start(program, left, Additions([begin]))


CASES = (every_crash_point_of_a_compaction, every_crash_point_beside_a_server, every_crash_point_of_a_closing)
