#!/usr/bin/env python3
"""Measures round trips between the lanes of a desk and its keeper, beside plain Rust.

    desk.py [--runs N] [--lanes N,N,..] [--calls N] [--each N] [--busy N] [--spins N ..]
    desk.py --beside A,B [--runs N] [--calls N] [--spins N ..]      one number of lanes beside another
    desk.py --idle      how much processor time a keeper takes that nobody asks

It needs the toolchain. Debian: apt-get install rustc

Each lane has a thread, and asks as soon as it has its reply: all lanes together so many calls, but each at least so
many, 20,000 by itself, so that the start of its thread doesn't count. Beside them threads of plain
Rust ask for the same over channels of std::sync::mpsc, one for all calls and one for the answers of each, or under one
Mutex (bench/desk/beside.rs). All are run in turn, with each number of lanes. The table tells calls a second, processor
time for a call, of the whole process up to the last reply, and how long a call waited: in the middle, at 99 % and at
worst. Each is the median of the runs, with the least and the greatest; at worst it is the greatest of all. With
--busy so many other processes only count meanwhile. --spins tries other numbers in place of the one of waiting.rt.

With --beside the desk alone runs in pairs, once with A lanes and once with B, which of them first in turn, and all lanes
together have the same number of calls in both. Told are the rates, and B by A: the median of the pairs, with the
least and the greatest, and between which two of them the median of endless pairs lies by 95 % or more.

A virtual machine has less than its processors where its host gives them to others. What the host took the kernel tells
(`steal` in /proc/stat), and a run of which it took more than a hundredth is made anew.
"""
import argparse
import math
import os
import re
import shutil
import subprocess
import sys
import time

from busy import busy
from programs import build_plain, laid_down
from tcp import spread

sys.path.append(os.path.join(os.path.dirname(__file__), "../scripts"))
from needs import need  # noqa: E402

IDLE = 2.0
# The most of the processors' time that the host may take from a run, how often a run is made anew for it, and how many
# seconds lie between two tries.
TAKEN_AWAY = 0.01
TRIES = 100
PAUSE = 1.0


def set_spins(folder, number):
    path = os.path.join(folder, "crates", "xs_desk", "src", "waiting.rt")
    with open(path, encoding="utf-8") as source:
        text, count = re.subn(r"const SPINS: u32 = \d+;", f"const SPINS: u32 = {number};", source.read())
    if count != 1:
        raise SystemExit("waiting.rt has no SPINS")
    with open(path, "w", encoding="utf-8") as source:
        source.write(text)


def build_desks(folder, spins):
    """A program over the desk for each of these numbers of spins, None being its own."""
    words = ["PING", "1", "1"]
    desk = laid_down.build(folder, "bench_desk", words)
    crate = os.path.dirname(os.path.dirname(desk))
    programs = {}
    for number in spins:
        if number is not None:
            set_spins(folder, number)
            laid_down.build_by_run(crate, words)
        programs[number] = shutil.copy(desk, os.path.join(folder, f"desk_{number}"))
    return programs


def processor_time(pid):
    """In seconds, of all threads, those that have ended too: the clock that clock_getcpuclockid(3) names."""
    return time.clock_gettime((~pid << 3) | 2)


def ticks():
    """The time of all processors so far, and what the host took of it."""
    with open("/proc/stat", encoding="ascii") as lines:
        told = [int(number) for number in lines.readline().split()[1:9]]
    return sum(told), told[7]


def run(words, calls):
    """A run of which the host took next to nothing."""
    for _ in range(TRIES):
        all_before, lost_before = ticks()
        taken = run_once(words, calls)
        all_after, lost_after = ticks()
        if lost_after - lost_before <= TAKEN_AWAY * (all_after - all_before):
            return taken
        time.sleep(PAUSE)
    raise SystemExit(f"{words}: the host took processor time from each of {TRIES} runs")


def run_once(words, calls):
    """Calls a second, processor time for a call, and the three waits; times in microseconds."""
    child = subprocess.Popen(words, stdin=subprocess.PIPE, stdout=subprocess.PIPE, text=True)
    taken = int(child.stdout.readline())
    used = processor_time(child.pid)
    waits = [int(wait) / 1e3 for wait in child.communicate()[0].split()]
    if child.returncode != 0 or len(waits) != 3:
        raise SystemExit(f"{words}: status {child.returncode}")
    return calls / taken * 1e9, used / calls * 1e6, *waits


def idle(program, lanes):
    """Processor time of a keeper that nobody asks, in microseconds, from 10 ms after it began on."""
    child = subprocess.Popen([program, "IDLE", str(lanes), "1"], stdout=subprocess.PIPE, text=True)
    try:
        child.stdout.readline()
        time.sleep(0.01)
        before = processor_time(child.pid)
        time.sleep(IDLE)
        return (processor_time(child.pid) - before) * 1e6
    finally:
        child.kill()
        child.wait()


def row(name, lanes, taken):
    rates, used, middle, most, worst = zip(*taken)
    print(f"| {name} | {lanes} | {spread(rates, ',.0f')} | {spread(used, '.2f')} | {spread(middle, '.1f')} "
          f"| {spread(most, '.1f')} | {max(worst):,.0f} |", flush=True)


def measure(sides, numbers, asked):
    """All sides with each of these numbers of lanes, in turn, so often as runs are asked for."""
    taken = {(name, lanes): [] for lanes in numbers for name in sides}
    for _ in range(asked.runs):
        for name, lanes in taken:
            each = max(asked.calls // lanes, asked.each)
            taken[name, lanes].append(run([*sides[name], str(lanes), str(each)], each * lanes))
    for (name, lanes), values in taken.items():
        row(name, lanes, values)


def middle_lies(values):
    """Two of the values, in their order, between which the median of endless such values lies by 95 % or more."""
    ranked, below, at = sorted(values), 0.0, 0
    while 2 * (below + math.comb(len(ranked), at) / 2 ** len(ranked)) <= 0.05:
        below += math.comb(len(ranked), at) / 2 ** len(ranked)
        at += 1
    return ranked[max(at - 1, 0)], ranked[-max(at, 1)]


def measure_beside(sides, numbers, asked):
    """The two numbers of lanes in turn, so often as runs are asked for."""
    print("| Who asks for what | Calls in a run | Calls a second, lanes: " + " | ".join(map(str, numbers))
          + " | the second by the first | the median lies |\n|---|---|---|---|---|---|", flush=True)
    for name, words in sides.items():
        rates = {lanes: [] for lanes in numbers}
        for turn in range(asked.runs):
            for lanes in numbers if turn % 2 == 0 else reversed(numbers):
                each = asked.calls // lanes
                rates[lanes].append(run([*words, str(lanes), str(each)], each * lanes)[0])
        first, second = rates.values()
        by = [one / other for one, other in zip(second, first)]
        low, high = middle_lies(by)
        print(f"| {name} | {asked.runs} of {asked.calls:,} | {spread(first, ',.0f')} | {spread(second, ',.0f')} "
              f"| {spread(by, '.2f')} | {low:.2f} to {high:.2f} |", flush=True)


def desks_of(folder, spins):
    """Who asks a desk for what: a name, and the words that run it."""
    sides = {}
    for number, program in build_desks(folder, spins).items():
        name = "desk" if number is None else f"desk, {number} spins"
        sides |= {f"{name}, {command}": [program, command] for command in ("PING", "XADD")}
    return sides


def others_of(folder):
    """The same of plain Rust."""
    beside = build_plain(folder, "desk", "beside.rs")
    return {"channels, PING": [beside, "channels"], "Mutex, PING": [beside, "lock"]}


def main():
    parser = argparse.ArgumentParser(description=__doc__, formatter_class=argparse.RawDescriptionHelpFormatter)
    parser.add_argument("--runs", type=int, default=8)
    parser.add_argument("--lanes", default="1,2,4,8,16,64")
    parser.add_argument("--calls", type=int, default=200_000)
    parser.add_argument("--each", type=int, default=20_000)
    parser.add_argument("--busy", type=int, default=0)
    parser.add_argument("--spins", nargs="+", type=int, default=[None])
    parser.add_argument("--idle", action="store_true")
    parser.add_argument("--beside", default="")
    asked = parser.parse_args()
    need("rustc", "rustc")
    with laid_down.new_folder() as folder:
        if asked.idle:
            program = build_desks(folder, [None])[None]
            for lanes in map(int, asked.lanes.split(",")):
                taken = [idle(program, lanes) for _ in range(asked.runs)]
                print(f"{lanes} lanes: {spread(taken, '.0f')} µs in {IDLE} s", flush=True)
            return
        sides = desks_of(folder, asked.spins)
        if asked.beside:
            measure_beside(sides, [int(lanes) for lanes in asked.beside.split(",")], asked)
            return
        sides |= others_of(folder)
        print("| Who asks for what | Lanes | Calls a second | Processor time for a call, in µs "
              "| Waits in the middle, in µs | at 99 % | at worst |\n|---|---|---|---|---|---|---|", flush=True)
        with busy(asked.busy):
            measure(sides, [int(lanes) for lanes in asked.lanes.split(",")], asked)


if __name__ == "__main__":
    sys.exit(main())
