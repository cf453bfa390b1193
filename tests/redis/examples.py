#!/usr/bin/env python3
"""The producer and the worker of examples/ do a queue, while servers and workers are killed.

    examples.py PROGRAM

Each job is done, whoever is killed; one that ends each of its workers is given up; nothing is left pending. A worker
ends at SIGTERM with status 0. The last line is 'N passed, M failed'. Debian: apt-get install python3-redis
"""
import contextlib
import os
import signal
import subprocess
import sys
import tempfile
import time

sys.path.append(os.path.join(os.path.dirname(__file__), "../served"))
sys.path.append(os.path.join(os.path.dirname(__file__), "../../scripts"))
from logged import logged, new_folder  # noqa: E402
from needs import PYTHON, need  # noqa: E402
from resp import connect, read_reply, request  # noqa: E402
from served import free_port, passes, running, tell  # noqa: E402

EXAMPLES = os.path.join(os.path.dirname(os.path.abspath(__file__)), "../../examples")
# The worker of the examples, which takes jobs over after half a second, and is ended by one of them.
DRIVER = """
import os, signal, sys
sys.path.append(sys.argv[1])
import worker
worker.IDLE, worker.WAIT = 500, 1000
def do(entry, fields):
    if fields[b"mail"] == b"person13":
        os.kill(os.getpid(), signal.SIGKILL)
    os.write(1, entry + b"\\n")
worker.Worker(sys.argv[2], int(sys.argv[3]), do).run_on()
"""
LAST, WITHIN = 200, 60


def heeds_sigterm(child):
    """Whether it handles the signal, which it doesn't while it starts."""
    with open(f"/proc/{child.pid}/status", encoding="ascii") as status:
        mask = next(line.split()[1] for line in status if line.startswith("SigCgt"))
    return int(mask, 16) >> (signal.SIGTERM - 1) & 1


class Workers:
    """Workers, each of which is started again when it is killed. What they show is in a file."""

    def __init__(self, port, names, out):
        self.port, self.out, self.ends = port, out, False
        self.children = {name: self.start(name) for name in names}

    def start(self, name):
        words = [PYTHON, "-c", DRIVER, EXAMPLES, name, str(self.port)]
        return subprocess.Popen(words, stdout=self.out)

    def look_after(self):
        """Starts those again that were killed; no other one has ended."""
        for name, child in self.children.items():
            if child.poll() is not None:
                assert child.returncode == -signal.SIGKILL, f"{name} ended with status {child.returncode}"
                self.children[name] = self.start(name)

    def end(self):
        """Ends all by SIGTERM."""
        for child in self.children.values():
            child.terminate()
        statuses = [child.wait(timeout=10) for child in self.children.values()]
        assert statuses == [0] * len(statuses), statuses


@contextlib.contextmanager
def workers_at(port, out):
    workers = Workers(port, ("w1", "w2", "w3"), out)
    try:
        yield workers
    finally:
        for child in workers.children.values():
            child.kill()
            child.wait()


def ask(port, *words):
    with connect(port) as stream, stream.makefile("rb") as replies:
        stream.sendall(request([str(word).encode() for word in words]))
        return read_reply(replies)


def wait_until(holds, what, workers):
    deadline = time.monotonic() + WITHIN
    while not holds():
        assert time.monotonic() < deadline, what
        workers.look_after()
        time.sleep(0.1)


def produce(port, first, last):
    return subprocess.Popen([PYTHON, os.path.join(EXAMPLES, "producer.py"), str(first), str(last), str(port)])


def done_jobs(out):
    with open(out.name, encoding="ascii") as file:
        return {int(line.removesuffix("-0\n")) for line in file}


def is_empty(port):
    return ask(port, "XLEN", "jobs") == b":0\r\n"


def over_kills(program):
    """With a log, the server and a worker are killed three times while the jobs are added and done."""
    port = free_port()
    with new_folder() as folder, tempfile.NamedTemporaryFile("ab") as out, workers_at(port, out) as workers:
        producer = produce(port, 1, LAST)
        for _ in range(3):
            with logged(program, folder, port=port) as server:
                time.sleep(1.5)
                workers.children["w1"].kill()
                server.child.kill()
                server.child.wait()
            workers.look_after()
        with logged(program, folder, port=port):
            assert producer.wait(timeout=WITHIN) == 0
            wait_until(lambda: is_empty(port), "jobs are left", workers)
            pending, given_up = ask(port, "XPENDING", "jobs", "workers"), ask(port, "XRANGE", "jobs:given-up", "-", "+")
            wait_until(lambda: all(heeds_sigterm(child) for child in workers.children.values()), "none heeds", workers)
            workers.end()
        done = done_jobs(out)
    assert done == set(range(1, LAST + 1)) - {13}, set(range(1, LAST + 1)) ^ done
    assert pending.startswith(b"*4\r\n:0\r\n") and given_up.count(b"person13") == 1, (pending, given_up)


def over_a_restart_without_a_log(program):
    """Without a log the server forgets all; the workers make their group again, and do what is added then."""
    port = free_port()
    with tempfile.NamedTemporaryFile("ab") as out, workers_at(port, out) as workers:
        for first in (1, 6):
            with running(program, workers=12, port=port):
                assert produce(port, first, first + 4).wait(timeout=WITHIN) == 0
                wait_until(lambda: done_jobs(out) == set(range(1, first + 5)) and is_empty(port), "jobs are left", workers)
        assert all(child.poll() is None for child in workers.children.values())


def main(arguments):
    if len(arguments) != 1:
        print(__doc__)
        return 2
    need("import redis", "python3-redis")
    return tell([passes(case, arguments[0]) for case in (over_kills, over_a_restart_without_a_log)])


if __name__ == "__main__":
    sys.exit(main(sys.argv[1:]))
