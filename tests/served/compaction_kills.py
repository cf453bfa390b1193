"""Clients that keep books are at work over a server that is killed again and again, and so are compactions beside it.

Its last log is closed in two ways: between two lives it is cut into several logs, and now and then the server itself
begins the next one, since an entry fills its log.
"""
import contextlib
import random
import signal
import subprocess
import threading
import time

import logs
import served
from books import GROUP, KEY, Connection, Load, Queue
from logged import logged, new_folder

GREAT = b"v" * logs.LEAST_CLOSED
# A log of more bytes isn't cut.
MOST_CUT = 8 << 20


def cut_last_log(folder, made):
    """The records of the last log stand in several logs from now on, and what is torn behind them in the last one."""
    assert logs.numbers(folder), "no log is left"
    number = logs.numbers(folder)[-1]
    data = logs.read_file(logs.path_of(folder, number))
    header, *records = logs.pieces(data) or [None]
    if not header or len(data) > MOST_CUT:
        return
    cuts = sorted(made.randrange(len(records) + 1) for _ in range(made.randrange(1, 4)))
    ends = [header.end, *(records[cut - 1].end if cut else header.end for cut in cuts), len(data)]
    for place, (begin, end) in enumerate(zip(ends, ends[1:]), number):
        logs.write_file(logs.path_of(folder, place), logs.header(place) + data[begin:end])


class Compactions:
    """Compactions of a folder, one or two at once, again and again. Some are killed."""

    def __init__(self, program, folder, seed):
        self.words = [program, "compact", folder]
        self.made = random.Random(seed)
        self.takes = 0.01
        # how many ended by themselves, and how many were killed; what one said that may not be
        self.ended, self.killed, self.faults = 0, 0, []
        self.over = False
        self.running = threading.Lock()
        self.thread = threading.Thread(target=self.run)

    def __enter__(self):
        self.thread.start()
        return self

    def __exit__(self, *_):
        self.over = True
        self.thread.join()

    def run(self):
        while not self.over and not self.faults:
            with self.running:
                begun = [self.begin() for _ in range(self.made.choice((1, 1, 2)))]
                for began, child in begun:
                    self.end(began, child)
            time.sleep(self.made.uniform(0, 0.03))

    def begin(self):
        return time.monotonic(), subprocess.Popen(self.words, stderr=subprocess.PIPE)

    def end(self, began, child):
        if self.made.random() < 0.75:
            with contextlib.suppress(subprocess.TimeoutExpired):
                child.wait(self.made.uniform(0, self.takes))
            child.kill()
        _, said = child.communicate()
        if child.returncode == -signal.SIGKILL:
            self.killed += 1
        elif child.returncode == 0:
            self.ended += 1
            self.takes = time.monotonic() - began if b"in the place" in said else self.takes
        elif b"it is being compacted" not in said:
            self.faults.append(said)


def add_great(port, made):
    """An entry closes the log, unless the server is killed before; it may be gone before it is answered."""
    with contextlib.suppress(OSError), Connection(port) as one:
        one.send(("XADD", "great", "*", "f", GREAT))
        if made.random() < 0.7:
            one.answer()


def lead_a_life(server, queue, load, made, adds_great):
    """The clients are at work for a moment. What they had not been told before is settled first."""
    with Connection(server.port) as one:
        one.ask("DEL", "great")
        queue.settle(one)
    load.begin_life()
    if adds_great:
        add_great(server.port, made)
    time.sleep(made.uniform(0, 0.4))
    load.all_stayed()


def all_is_there(program, folder, queue):
    """Behind a last compaction a start has all jobs, and none of them is pending."""
    done = subprocess.run([program, "compact", folder], capture_output=True, timeout=60)
    assert done.returncode == 0, done
    with logged(program, folder) as server, Connection(server.port) as one:
        assert one.ask("XLEN", KEY) == len(queue.jobs)
        assert one.ask("XPENDING", KEY, GROUP)[0] == 0


def killed_beside_compactions(program, kills):
    """The server is killed so often, and compactions of its folder at other moments: nothing that was answered is gone
    or comes back. Refuses: a compaction takes the last log for closed; it numbers the snapshot one too low; it holds no
    lock; it removes logs before it has written; a start doesn't wait for it."""
    made, port, queue = random.Random(kills), served.free_port(), Queue()
    with new_folder() as folder, Load(queue, port) as load:
        with logged(program, folder, port=port) as server, Connection(port) as one:
            one.ask("XGROUP", "CREATE", KEY, GROUP, "0", "MKSTREAM")
        with Compactions(program, folder, kills) as compactions:
            for life in range(kills + 1):
                if made.random() < 0.7:
                    with compactions.running:
                        cut_last_log(folder, made)
                with logged(program, folder, port=port) as server:
                    lead_a_life(server, queue, load, made, life % 10 == 3)
                    assert not compactions.faults, compactions.faults
                    if life == kills:
                        load.end()
                        load.all_have_left()
                        with Connection(port) as one:
                            queue.settle(one)
                            queue.drain(one)
                        break
                    server.child.kill()
                    server.child.wait()
                    load.all_have_left()
        all_is_there(program, folder, queue)
    print(f"{kills} kills: {len(queue.jobs)} jobs; {compactions.killed} compactions were killed, "
          f"{compactions.ended} were not", flush=True)
