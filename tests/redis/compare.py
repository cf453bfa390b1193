#!/usr/bin/env python3
"""Asks a real Redis 7.0 the cases of tests/cases, but for those that are only ours.

    compare.py          starts redis-server on a socket of its own, and ends it

Its clock stands still at the moment of each line. A reply has to be the case's, byte by byte; of an error the first
word, since texts differ. The last line is 'N passed, M failed'; the status is 1 where M > 0. Debian: apt-get install
redis-server gcc
"""
import os
import sys

import real_redis
import redis_at

sys.path.append(os.path.join(os.path.dirname(__file__), "../cases"))
sys.path.append(os.path.join(os.path.dirname(__file__), "../../scripts"))
from cases import read_all  # noqa: E402
from needs import need  # noqa: E402


def timed(line):
    """The moment of a script line, and its words."""
    moment, _, *words = line.split(" ")
    return int(moment), words


def main():
    need("redis-server", "redis-server")
    need("cc", "gcc")
    cases, failed = [case for case in read_all() if not case.only_ours], 0
    with redis_at.started() as redis:
        for case in cases:
            got = redis.ask(map(timed, case.lines))
            if not all(map(real_redis.is_same, case.replies, got)):
                failed += 1
                print(case.title)
                for line, want, had in zip(case.lines, case.replies, got):
                    if not real_redis.is_same(want, had):
                        print(f"  {line}\n    here  {want}\n    Redis {had}")
    print(f"{len(cases) - failed} passed, {failed} failed")
    return 1 if failed else 0


if __name__ == "__main__":
    sys.exit(main())
