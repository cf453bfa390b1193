#!/usr/bin/env python3
"""Does jobs, one after the other. Needs redis-py.

    worker.py NAME [PORT]

There may be several, each with a name of its own. It waits if there is nothing to do, takes over what another one has
left undone for a minute, and gives a job up that was begun five times. It goes on when the server is started again. At
SIGTERM it ends once it has done the jobs that it was given, within five seconds if it waits.

A job may be done twice: if its worker ends before it says that the job is done. So doing one twice must be harmless.
"""
import signal
import sys
import time

import redis

QUEUE, GROUP, GIVEN_UP = "jobs", "workers", "jobs:given-up"
TRIES, IDLE, AT_ONCE, WAIT = 5, 60_000, 10, 5000


class Worker:
    def __init__(self, name, port, do):
        self.name, self.do, self.ends = name, do, False
        # The timeout is longer than the longest wait.
        self.queue = redis.Redis(port=port, socket_timeout=WAIT / 1000 + 5)
        signal.signal(signal.SIGTERM, self.end)

    def end(self, *_):
        self.ends = True

    def make_group(self):
        """Makes the group, if it isn't there. It gets all jobs of the stream, from the first on."""
        try:
            self.queue.xgroup_create(QUEUE, GROUP, id="0", mkstream=True)
        except redis.ResponseError as error:
            if "BUSYGROUP" not in str(error):
                raise

    def settle(self, entry):
        """Says that a job is done. XACK comes first: a deleted job that is pending can't be claimed any more. Both go out
        at once; without MULTI (False), which would be two requests more."""
        self.queue.pipeline(False).xack(QUEUE, GROUP, entry).xdel(QUEUE, entry).execute()

    def work_on(self, entry, fields):
        self.do(entry, fields)
        self.settle(entry)

    def give_up(self, entry, fields):
        """Puts a job aside that ended its workers again and again."""
        self.queue.xadd(GIVEN_UP, {"job": entry, **fields})
        self.settle(entry)

    def take_over(self):
        """Does the jobs that another worker has left, or this one under its name before it was started again. Each is
        claimed alone: what else was given to a worker that a job has ended wasn't begun."""
        for row in self.queue.xpending_range(QUEUE, GROUP, "-", "+", AT_ONCE, idle=IDLE):
            for entry, fields in self.queue.xclaim(QUEUE, GROUP, self.name, IDLE, [row["message_id"]]):
                if row["times_delivered"] < TRIES:
                    self.work_on(entry, fields)
                else:
                    self.give_up(entry, fields)

    def run(self):
        self.make_group()
        while not self.ends:
            self.take_over()
            for _, jobs in self.queue.xreadgroup(GROUP, self.name, {QUEUE: ">"}, count=AT_ONCE, block=WAIT):
                for entry, fields in jobs:
                    self.work_on(entry, fields)

    def run_on(self):
        """Runs until it is told to end, over all ends of the connection."""
        while not self.ends:
            try:
                self.run()
            except (redis.ConnectionError, redis.TimeoutError):
                time.sleep(1)
            except redis.ResponseError as error:
                # NOGROUP: the server was started again without a log, or somebody has deleted the stream.
                if not str(error).startswith(("NOGROUP", "OOM")):
                    raise
                time.sleep(1)


def show(entry, fields):
    print(entry.decode(), fields[b"mail"].decode(), flush=True)


if __name__ == "__main__":
    Worker(sys.argv[1], int(sys.argv[2]) if len(sys.argv) > 2 else 6379, show).run_on()
