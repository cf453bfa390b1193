#!/usr/bin/env python3
"""Measures sessions over memory beside the script of the same commands and a real Redis 7.0.

    sessions.py [--runs N] PROGRAM        by processor time
    sessions.py --instructions PROGRAM    by instructions, of sessions and scripts

It needs the toolchain. Debian: apt-get install redis-server gcc valgrind

1,000,000 additions with one value of 60 bytes, and 1,000,000 PINGs. A session of xs_session asks a keyspace alone, and
is fed out of memory in pieces of 16 KiB and of 100 bytes; its replies go to nowhere. The program over it is
bench_sessions of extra.txt, in a copy of the repository. A script is read by PROGRAM from a file, and its replies go to
nowhere. Of both the whole process is measured, its end included. Redis
keeps nothing on disk and is fed over a Unix socket by bench/feed.c, whose own time isn't counted.
"""
import argparse
import os
import re
import subprocess
import sys

from bench import VALUE
from beside_redis import Redis, ratios, spread, take, write_part
from programs import HERE, laid_down, run

sys.path.append(os.path.join(os.path.dirname(__file__), "../scripts"))
from needs import need  # noqa: E402

COUNT = 1_000_000
SIZES = (16384, 100)
COMMANDS = {"XADD": f"XADD s * f {VALUE}", "PING": "PING"}


class Programs:
    """What is measured, and the files that are read."""

    def __init__(self, folder, program):
        self.folder, self.program = folder, program
        self.session = laid_down.build(folder, "bench_sessions", ["PING", "16384"])
        self.parts = {name: write_part(folder, name, [command] * COUNT) for name, command in COMMANDS.items()}
        feeder = os.path.join(HERE, "feed.c")
        subprocess.run(["cc", "-O2", "-o", os.path.join(folder, "feed"), feeder], check=True)

    def by_session(self, name, size):
        told, used = run(self.session, name, str(size))
        if told != f"{COUNT} replies\n":
            raise SystemExit(f"the session told {told!r}")
        return used.ru_utime + used.ru_stime, used.ru_maxrss * 1024

    def by_script(self, name):
        with open(self.parts[name].script, "rb") as script:
            child = subprocess.Popen([self.program, "script"], stdin=script, stdout=subprocess.DEVNULL)
            _, status, used = os.wait4(child.pid, 0)
        child.returncode = os.waitstatus_to_exitcode(status)
        if child.returncode != 0:
            raise SystemExit(f"the program ended with status {child.returncode}")
        return used.ru_utime + used.ru_stime, used.ru_maxrss * 1024

    def by_redis(self, name):
        taken = take(Redis(self.folder, False), None, self.parts[name])
        return taken.used, taken.peak


def works(programs):
    """Who does what: a name, a command, and how it is run."""
    for name in COMMANDS:
        for size in SIZES:
            yield name, f"session, {size} bytes", lambda name=name, size=size: programs.by_session(name, size)
        yield name, "script", lambda name=name: programs.by_script(name)
        yield name, "Redis", lambda name=name: programs.by_redis(name)


def by_time(programs, runs):
    taken = {}
    for _ in range(runs):
        for name, who, run in works(programs):
            taken.setdefault((name, who), []).append(run())
    print("| Command | Who | Processor time in s | Peak in MiB | By script | By Redis |\n|---|---|---|---|---|---|")
    for (name, who), values in taken.items():
        times, peaks = zip(*values)
        by = [ratios(times, [value[0] for value in taken[name, other]]) for other in ("script", "Redis")]
        print(f"| {name} | {who} | {spread(times)} | {max(peaks) / 2**20:.1f} | {by[0]} | {by[1]} |")


def count(words, stdin=subprocess.DEVNULL):
    asked = ["valgrind", "--tool=callgrind", "--callgrind-out-file=/dev/null", *words]
    told = subprocess.run(asked, stdin=stdin, stdout=subprocess.DEVNULL, stderr=subprocess.PIPE, text=True, check=True)
    return int(re.search(r"Collected : (\d+)", told.stderr).group(1))


def by_instructions(programs):
    print("| Command | Who | Instructions a command | By script |\n|---|---|---|---|")
    for name in COMMANDS:
        with open(programs.parts[name].script, "rb") as script:
            base = count([programs.program, "script"], script)
        print(f"| {name} | script | {base / COUNT:.0f} | 1.00 |", flush=True)
        for size in SIZES:
            taken = count([programs.session, name, str(size)])
            print(f"| {name} | session, {size} bytes | {taken / COUNT:.0f} | {taken / base:.2f} |", flush=True)


def main():
    parser = argparse.ArgumentParser(description=__doc__, formatter_class=argparse.RawDescriptionHelpFormatter)
    parser.add_argument("--runs", type=int, default=5)
    parser.add_argument("--instructions", action="store_true")
    parser.add_argument("program")
    asked = parser.parse_args()
    need("redis-server", "redis-server")
    need("cc", "gcc")
    if asked.instructions:
        need("valgrind", "valgrind")
    with laid_down.new_folder() as folder:
        programs = Programs(folder, os.path.abspath(asked.program))
        if asked.instructions:
            by_instructions(programs)
        else:
            by_time(programs, asked.runs)


if __name__ == "__main__":
    main()
