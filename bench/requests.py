#!/usr/bin/env python3
"""Measures the reader of requests beside hiredis, which reads the same bytes as replies.

    requests.py [--runs N]      needs the toolchain

Debian: apt-get install gcc libhiredis-dev

Each reads 1,000,000 additions with one value of 60 bytes out of memory, in pieces of 16 KiB, of 1 KiB and of 7 bytes.
The program over the reader is bench_requests of extra.txt, in a copy of the repository. Processor time is what the kernel counts.
"""
import os
import statistics
import subprocess
import sys

from programs import HERE, laid_down, run as run_program, runs as runs_asked

sys.path.append(os.path.join(os.path.dirname(__file__), "../scripts"))
from needs import need  # noqa: E402

SIZES = (16384, 1024, 7)
COUNT = 1_000_000
TOLD = f"{COUNT} requests, {5 * COUNT} words\n"


def build_hiredis(folder):
    program = os.path.join(folder, "hiredis")
    source = os.path.join(HERE, "requests", "hiredis.c")
    subprocess.run(["cc", "-O2", "-o", program, source, "-lhiredis"], check=True)
    return program


def run(program, size):
    """Processor time in seconds."""
    told, used = run_program(program, str(size))
    if told != TOLD:
        raise SystemExit(f"{program} {size} told {told!r}")
    return used.ru_utime + used.ru_stime


def spread(values):
    return f"{statistics.median(values):.2f} ({min(values):.2f} to {max(values):.2f})"


def main():
    runs = runs_asked(__doc__)
    need("cc", "gcc")
    need("/usr/include/hiredis/hiredis.h", "libhiredis-dev")
    with laid_down.new_folder() as folder:
        programs = {
            "here": laid_down.build(folder, "bench_requests", ["16384"]),
            "hiredis": build_hiredis(folder),
        }
        taken = {(who, size): [] for size in SIZES for who in programs}
        for _ in range(runs):
            for who, size in taken:
                taken[who, size].append(run(programs[who], size))
    print("| Pieces of | Who | Processor time in s | Requests a second of processor time |\n|---|---|---|---|")
    for (who, size), values in taken.items():
        rates = [COUNT / value / 1e6 for value in values]
        print(f"| {size} bytes | {who} | {spread(values)} | {spread(rates)} million |")
    for size in SIZES:
        ratios = [ours / theirs for ours, theirs in zip(taken["here", size], taken["hiredis", size])]
        print(f"pieces of {size} bytes: here takes {spread(ratios)} of the processor time of hiredis")


if __name__ == "__main__":
    main()
