#!/usr/bin/env python3
"""Asks the program and a real Redis 7.0 the same commands, made at random.

    at_random.py [--seed N] [--rounds N] [--counts] PROGRAM [ARG ..]

Each round has 400 commands of streams and groups (tests/served/commands.py says which, and what is left out), from the
empty keyspace on; the program runs them as one script. A reply has to be that of Redis, byte by byte; of an error the
first word, since texts differ; of XINFO what inspections.py says. The moments of the script go forwards and backwards,
and the clock of Redis stands still at each: so times are compared too. A round ends at its first difference, which is
shown. `--counts` shows how often each kind of reply of each command came. The last line is 'N passed, M failed', by
commands; the status is 1 where M > 0. Debian: apt-get install redis-server gcc
"""
import argparse
import io
import os
import random
import subprocess
import sys
import time

import inspections
import kinds
import real_redis
import redis_at

sys.path.append(os.path.join(os.path.dirname(__file__), "../served"))
sys.path.append(os.path.join(os.path.dirname(__file__), "../../scripts"))
import commands  # noqa: E402
from needs import need  # noqa: E402
from resp import read_reply  # noqa: E402

COMMANDS = 400
# Of the times that pass in a round.
IDLE_TIMES = ("1", "30", "200", "600")


def moments_of(seed):
    """The moment of each command."""
    aside, now = random.Random(seed), int(time.time() * 1000)
    return [now + place * 3 + aside.randint(-5, 5) for place in range(COMMANDS)]


def answers(program, lines, moments):
    script = "".join(f"{moment} a {' '.join(words)}\n" for moment, words in zip(moments, lines)).encode()
    done = subprocess.run(program, input=script, capture_output=True, timeout=60, check=True)
    stream = io.BytesIO(done.stdout)
    return [read_reply(stream) for _ in lines]


def is_same(words, ours, theirs):
    """Whether a reply is that of Redis, as far as both know."""
    if inspections.is_told(words, ours, theirs):
        return inspections.agree(words, ours, theirs, is_timed=True)
    return real_redis.is_same(ours, theirs)


def same_in_round(lines, here, there, counts, is_same=is_same):
    """How many commands got the reply of Redis, up to the first that didn't; that one is shown."""
    for number, (words, ours, theirs) in enumerate(zip(lines, here, there)):
        if not is_same(words, ours, theirs):
            print(f"{number}: {' '.join(words)}\n  here  {ours}\n  Redis {theirs}")
            return number
        counts.add(words, ours)
    return len(lines)


def lines_of(seed, idle_times=()):
    """The commands of a round, with these least idle times too."""
    maker = commands.Maker(seed, idle_times)
    return [*maker.opening(), *(maker.command() for _ in range(COMMANDS))][:COMMANDS]


def main():
    parser = argparse.ArgumentParser(description=__doc__, formatter_class=argparse.RawDescriptionHelpFormatter)
    parser.add_argument("--seed", type=int, default=1)
    parser.add_argument("--rounds", type=int, default=250)
    parser.add_argument("--counts", action="store_true")
    parser.add_argument("program", nargs="+")
    given = parser.parse_args()
    need("redis-server", "redis-server")
    need("cc", "gcc")
    passed, failed, counts = 0, 0, kinds.Counts()
    with redis_at.started() as redis:
        for number in range(given.rounds):
            seed = f"{given.seed} {number}"
            lines, moments = lines_of(seed, IDLE_TIMES), moments_of(seed)
            here = answers(given.program, lines, moments)
            same = same_in_round(lines, here, redis.ask(zip(moments, lines)), counts)
            passed, failed = passed + same, failed + (same < COMMANDS)
            if same < COMMANDS:
                print(f"  in round {number} of seed {given.seed}", flush=True)
    if given.counts:
        counts.show()
    print(f"{passed} passed, {failed} failed")
    return 1 if failed else 0


if __name__ == "__main__":
    sys.exit(main())
