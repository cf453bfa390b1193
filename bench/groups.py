#!/usr/bin/env python3
"""Measures a consumer group beside a plain Rust program over the same two maps.

    groups.py [--runs N]        by processor time
    groups.py --instructions    by instructions, which other work on the machine doesn't change

It needs the toolchain. Debian: apt-get install rustc valgrind

The program over the group is bench_groups of extra.txt, in a copy of the repository. Each work is done on
groups of 10,000, 100,000 and 1,000,000 entries, until 1,000,000 rows were worked on in all. What making the stream
takes is taken off the deliveries, and what stream and deliveries take off the other works; off removals what they take
where the group is left in memory, since removals leave nothing to free.

A run does all works of both programs in turn. On a shared machine a program can take half as much again from one run to
the next, so the least of all runs is told beside the median.
"""
import argparse
import os
import re
import statistics
import subprocess
import sys

from programs import build_plain, laid_down, run as run_program

sys.path.append(os.path.join(os.path.dirname(__file__), "../scripts"))
from needs import need  # noqa: E402

SIZES = (10_000, 100_000, 1_000_000)
WORKS = ("stream", "fill", "kept", "ack", "claim", "scan", "summary", "rows", "owner", "remove")
BASES = {"stream": None, "fill": "stream", "kept": "stream", "remove": "kept"}
# ten times over, it would be counted for half an hour
UNCOUNTED = {(100_000, "owner"), (1_000_000, "owner")}


def run(program, size, work):
    """What it told, processor time in seconds, and the peak in KiB."""
    told, used = run_program(program, str(size), work)
    return told, used.ru_utime + used.ru_stime, used.ru_maxrss


def count(program, size, work):
    """How many instructions it takes."""
    words = ["valgrind", "--tool=callgrind", "--callgrind-out-file=/dev/null", program, str(size), work]
    told = subprocess.run(words, capture_output=True, text=True, check=True).stderr
    return int(re.search(r"Collected : (\d+)", told).group(1))


def taken_off(of_work, work):
    """What the work itself takes, of what each work takes with all that comes before it."""
    base = BASES.get(work, "fill")
    return of_work[work] - (of_work[base] if base else 0)


def ratio(here, plain):
    return f"{here / plain:.2f}" if min(here, plain) > 0.01 else "-"


def measure(programs, size, runs):
    times = {who: {work: [] for work in WORKS} for who in programs}
    peaks = {who: {work: 0 for work in WORKS} for who in programs}
    for _ in range(runs):
        for work in WORKS:
            told = {}
            for who, program in programs.items():
                told[who], seconds, peak = run(program, size, work)
                times[who][work].append(seconds)
                peaks[who][work] = max(peaks[who][work], peak)
            if len(set(told.values())) != 1:
                raise SystemExit(f"{size} {work} told {told}")
    least, median = (
        {who: {work: by(times[who][work]) for work in WORKS} for who in programs} for by in (min, statistics.median)
    )
    for work in WORKS:
        (low, low_plain), (mid, mid_plain) = (
            [taken_off(by[who], work) for who in ("here", "plain")] for by in (least, median)
        )
        print(f"| {size:,} | {work} | {low:.2f}, {mid:.2f} | {low_plain:.2f}, {mid_plain:.2f} "
              f"| {ratio(low, low_plain)}, {ratio(mid, mid_plain)} "
              f"| {peaks['here'][work] / 1024:.0f} | {peaks['plain'][work] / 1024:.0f} |", flush=True)


def count_all(programs, size):
    works = [work for work in WORKS if (size, work) not in UNCOUNTED]
    taken = {who: {work: count(program, size, work) for work in works} for who, program in programs.items()}
    for work in works:
        here, plain = (taken_off(taken[who], work) / 1e6 for who in ("here", "plain"))
        print(f"| {size:,} | {work} | {here:.0f} | {plain:.0f} | {ratio(here, plain)} |", flush=True)


def main():
    parser = argparse.ArgumentParser(description=__doc__, formatter_class=argparse.RawDescriptionHelpFormatter)
    parser.add_argument("--runs", type=int, default=8)
    parser.add_argument("--instructions", action="store_true")
    asked = parser.parse_args()
    need("rustc", "rustc")
    if asked.instructions:
        need("valgrind", "valgrind")
    with laid_down.new_folder() as folder:
        programs = {
            "here": laid_down.build(folder, "bench_groups", ["10000", "stream"]),
            "plain": build_plain(folder, "groups", "plain.rs"),
        }
        if asked.instructions:
            print("| Entries | Work | here, millions | plain Rust, millions | ratio |")
            print("|---|---|---|---|---|")
        else:
            print("| Entries | Work | here, s: least, median | plain Rust, s: least, median | ratio: least, median "
                  "| here, peak MiB | plain, peak MiB |")
            print("|---|---|---|---|---|---|---|")
        for size in SIZES:
            if asked.instructions:
                count_all(programs, size)
            else:
                measure(programs, size, asked.runs)


if __name__ == "__main__":
    main()
