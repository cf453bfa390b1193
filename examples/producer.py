#!/usr/bin/env python3
"""Adds jobs, each once, however often the connection breaks. Needs redis-py.

    producer.py FIRST LAST [PORT]

It adds the jobs of these numbers. The number of a job is its id, so one that was added already is refused. That works
if one producer adds to a stream, in ascending order; with several, look whether it is there: XRANGE jobs ID ID.
"""
import sys
import time

import redis

QUEUE = "jobs"


def add(queue, number, fields):
    """Adds a job with its own number, and comes back once it is added."""
    while True:
        try:
            return queue.xadd(QUEUE, fields, id=f"{number}-0")
        except (redis.ConnectionError, redis.TimeoutError):
            # The job may have been added or not.
            time.sleep(1)
        except redis.ResponseError as error:
            if "equal or smaller" in str(error):
                return None
            if not str(error).startswith("OOM"):
                raise
            # The memory is full: wait until consumers have made room.
            time.sleep(1)


def main():
    first, last = int(sys.argv[1]), int(sys.argv[2])
    queue = redis.Redis(port=int(sys.argv[3]) if len(sys.argv) > 3 else 6379, socket_timeout=10)
    for number in range(first, last + 1):
        add(queue, number, {"mail": f"person{number}"})


if __name__ == "__main__":
    main()
