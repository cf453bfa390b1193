#!/usr/bin/env python3
"""Asks the program as a server and a real Redis 7.0 the same commands, made at random, over 8 connections at once.

    at_random_served.py [--seed N] [--rounds N] [--counts] PROGRAM

In each round each connection asks 400 commands as at_random.py makes them, of keys of its own, which it has removed
first; EXISTS in the place of DBSIZE, which counts those of all connections. The first connection sends one at a time,
the next 3 together, then 5, and so on to 15. Both servers have the clock of the machine: an idle time is compared as
old or as new. Else a reply has to be that of Redis, as there. `--counts` shows how often each kind of reply of each
command came. The last line is 'N passed, M failed', by commands; the status is 1 where M > 0. Debian: apt-get install
redis-server
"""
import argparse
import os
import re
import sys
from concurrent.futures import ThreadPoolExecutor

import inspections
import kinds
import real_redis
from at_random import COMMANDS, lines_of, same_in_round

sys.path.append(os.path.join(os.path.dirname(__file__), "../served"))
sys.path.append(os.path.join(os.path.dirname(__file__), "../../scripts"))
import commands  # noqa: E402
from needs import need  # noqa: E402
from served import free_port, serving  # noqa: E402

CONNECTIONS = 8
# A wrong word may stand where a key does.
KEYS = ["s", "t", "u", "odd", *commands.WRONG]


def places_of_keys(words):
    """Where the keys stand in a command, or would stand."""
    upper = [word.upper() for word in words]
    if upper[0] == "XREADGROUP":
        behind = upper.index("STREAMS") + 1 if "STREAMS" in upper else len(words)
        return range(behind, behind + (len(words) - behind) // 2)
    if upper[0] in ("DEL", "EXISTS"):
        return range(1, len(words))
    place = 2 if upper[0] in ("XGROUP", "XINFO") else 1
    return range(place, min(place + 1, len(words)))


def of_its_own(lines, connection):
    """The commands with the keys of the connection."""
    made = []
    for words in lines:
        if words[0].upper() == "DBSIZE":
            words = ["EXISTS", "s", "t", "u"]
        places = places_of_keys(words)
        made.append([f"{word}:{connection}" if place in places else word for place, word in enumerate(words)])
    return made


def by_age(reply):
    """The reply with idle times, the numbers before a number, told as old or new."""
    def age(match):
        return (b":old" if int(match.group(1)) > commands.LONG else b":new") + match.group(2)

    return re.sub(rb":([0-9]+)(\r\n:)", age, reply)


def is_same(words, ours, theirs):
    """Whether a reply is that of Redis, as far as both know."""
    if inspections.is_told(words, ours, theirs):
        return inspections.agree(words, ours, theirs, is_timed=False)
    return real_redis.is_same(by_age(ours), by_age(theirs))


def replies_at_once(pool, port, asked):
    """What each connection was answered."""
    def ask(connection):
        opening = ["DEL", *(f"{key}:{connection}" for key in KEYS)]
        return real_redis.ask(port, asked[connection], opening, together=2 * connection + 1)

    return list(pool.map(ask, range(CONNECTIONS)))


def main():
    parser = argparse.ArgumentParser(description=__doc__, formatter_class=argparse.RawDescriptionHelpFormatter)
    parser.add_argument("--seed", type=int, default=1)
    parser.add_argument("--rounds", type=int, default=32)
    parser.add_argument("--counts", action="store_true")
    parser.add_argument("program")
    given = parser.parse_args()
    need("redis-server", "redis-server")
    passed, failed, counts = 0, 0, kinds.Counts()
    with (serving(given.program, workers=CONNECTIONS) as server, real_redis.started(port=free_port()) as port,
          ThreadPoolExecutor(CONNECTIONS) as pool):
        for number in range(given.rounds):
            seeds = [f"served {given.seed} {number} {connection}" for connection in range(CONNECTIONS)]
            asked = [of_its_own(lines_of(seed), connection) for connection, seed in enumerate(seeds)]
            here, there = replies_at_once(pool, server.port, asked), replies_at_once(pool, port, asked)
            for connection in range(CONNECTIONS):
                same = same_in_round(asked[connection], here[connection], there[connection], counts, is_same)
                passed, failed = passed + same, failed + (same < COMMANDS)
                if same < COMMANDS:
                    print(f"  in round {number} of seed {given.seed}, connection {connection}", flush=True)
    if given.counts:
        counts.show()
    print(f"{passed} passed, {failed} failed")
    return 1 if failed else 0


if __name__ == "__main__":
    sys.exit(main())
