"""Measures works beside a real Redis 7.0, in one run.

Each work is done in turn by `PROGRAM script`, fed through a pipe, and by a redis-server of its own, which keeps
nothing on disk and is fed over a Unix socket by bench/feed.c. Time and processor time are those from the end of the
filling, where a work has one, to the end of the work: the program has then read all that it was given and waits for
more. The feeders' own processor time isn't counted, nor is the way to the end of a process. The peak is that of the
whole. The machines are shared, so the ratio of the two is what counts; of N runs the table has the median with the
least and the greatest, and the ratio of the two least ones.

With --instructions both run under valgrind, once, and what it counts from the end of the filling to the end of the work
is told, in millions. Other work on the machine doesn't change that.
"""
import argparse
import array
import contextlib
import fcntl
import glob
import os
import re
import shutil
import statistics
import subprocess
import sys
import tempfile
import termios
import time
from dataclasses import dataclass

sys.path.append(os.path.join(os.path.dirname(__file__), "../scripts"))
from needs import need  # noqa: E402

HERE = os.path.dirname(os.path.abspath(__file__))
# What callgrind tells once it runs a process.
STARTED = "For interactive control, run 'callgrind_control"


@dataclass
class Part:
    """Commands, written for both."""

    script: str
    requests: str
    count: int


@dataclass
class Taken:
    time: float
    used: float
    peak: int
    instructions: int


def write_part(folder, name, commands):
    part = Part(os.path.join(folder, name + ".script"), os.path.join(folder, name + ".requests"), 0)
    with open(part.script, "w", encoding="ascii") as script, open(part.requests, "w", newline="") as requests:
        for part.count, command in enumerate(commands, 1):
            words = command.split(" ")
            script.write(f"1 a {command}\n")
            requests.write(f"*{len(words)}\r\n" + "".join(f"${len(word)}\r\n{word}\r\n" for word in words))
    return part


def used(pid):
    """Processor time in seconds, of all threads."""
    times = (open(path, encoding="ascii").read() for path in glob.glob(f"/proc/{pid}/task/*/schedstat"))
    return sum(int(told.split()[0]) for told in times) / 1e9


def peak(pid):
    return int(re.search(r"VmHWM:\s+(\d+)", open(f"/proc/{pid}/status", encoding="ascii").read()).group(1)) * 1024


class Counted:
    """A process that may run under valgrind, which counts instructions between `count` and `stop`."""

    def __init__(self, folder, words, counts, **streams):
        self.log = os.path.join(folder, "log")
        before = ["valgrind", "--tool=callgrind", "--instr-atstart=no", "--callgrind-out-file=/dev/null",
                  f"--log-file={self.log}"]
        self.counts = counts
        self.child = subprocess.Popen([*(before if counts else []), *words], **streams)

        if counts:
            self.wait_for_valgrind()

    def wait_for_valgrind(self):
        """Until then there is nothing to control, and a process that waits hasn't read all there is."""
        deadline = time.monotonic() + 60
        while not os.path.exists(self.log) or STARTED not in open(self.log, encoding="ascii").read():
            if self.child.poll() is not None or time.monotonic() > deadline:
                self.child.kill()
                raise SystemExit("valgrind hasn't started")
            time.sleep(0.01)

    def control(self, state):
        if self.counts:
            done = subprocess.run(["callgrind_control", "-i", state, str(self.child.pid)], check=True,
                                  capture_output=True, text=True)
            if "OK." not in done.stdout:
                raise SystemExit(f"callgrind_control -i {state} said: {done.stdout}{done.stderr}")

    def instructions(self):
        if not self.counts:
            return 0
        told = re.search(r"Collected : (\d+)", open(self.log, encoding="ascii").read())
        if not told or told.group(1) == "0":
            raise SystemExit("valgrind has counted nothing")
        return int(told.group(1))


class Script(Counted):
    """The program, reading a script."""

    def __init__(self, folder, program, counts):
        super().__init__(folder, [program, "script"], counts, stdin=subprocess.PIPE, stdout=subprocess.DEVNULL)

    def waits(self):
        """It has read all there is, and asks for more."""
        left = array.array("i", [0])
        fcntl.ioctl(self.child.stdin, termios.FIONREAD, left)
        state = open(f"/proc/{self.child.pid}/stat", encoding="ascii").read().rsplit(")", 1)[1].split()[0]
        return left[0] == 0 and state == "S"

    def do(self, part):
        with open(part.script, "rb") as script:
            shutil.copyfileobj(script, self.child.stdin, 1 << 20)
        self.child.stdin.flush()
        while not self.waits():
            time.sleep(0.001)

    def end(self):
        self.child.stdin.close()
        if self.child.wait() != 0:
            raise SystemExit(f"the program ended with status {self.child.returncode}")


class Redis(Counted):
    """A redis-server of its own."""

    def __init__(self, folder, counts):
        self.folder, self.place = folder, os.path.join(folder, "redis.sock")
        super().__init__(folder, ["redis-server", "--port", "0", "--unixsocket", self.place, "--save", "",
                                  "--appendonly", "no", "--dir", folder], counts, stdout=subprocess.DEVNULL)
        while not os.path.exists(self.place):
            time.sleep(0.05)

    def do(self, part):
        words = [os.path.join(self.folder, "feed"), self.place, part.requests, str(part.count)]
        fed = subprocess.run(words, capture_output=True, check=True)
        if fed.stdout != b"0\n":
            raise SystemExit(f"redis-server answered {fed.stdout} errors")

    def end(self):
        self.child.terminate()
        self.child.wait()
        with contextlib.suppress(FileNotFoundError):
            os.remove(self.place)


def take(process, filling, work):
    try:
        if filling:
            process.do(filling)
        process.control("on")
        before, begin = used(process.child.pid), time.monotonic()
        process.do(work)
        took = Taken(time.monotonic() - begin, used(process.child.pid) - before, peak(process.child.pid), 0)
        process.control("off")
    finally:
        process.end()
    took.instructions = process.instructions()
    return took


def spread(values):
    return f"{statistics.median(values):.3f} ({min(values):.3f} to {max(values):.3f})"


def ratios(ours, theirs):
    return spread([one / other for one, other in zip(ours, theirs)])


def row(here, redis):
    ours, peaks = [one.used for one in here], max(one.peak for one in here) / 2**20
    if not redis:
        return [spread(ours), "-", "-", "-", "-", f"{peaks:.1f}", "-"]
    theirs = [one.used for one in redis]
    times = ratios([one.time for one in here], [one.time for one in redis])
    return [spread(ours), spread(theirs), f"{min(ours) / min(theirs):.3f}", ratios(ours, theirs), times,
            f"{peaks:.1f}", f"{max(one.peak for one in redis) / 2**20:.1f}"]


def row_of_instructions(here, redis):
    counts = [one[0].instructions / 1e6 for one in (here, redis) if one]
    return [*(f"{count:.0f}" for count in counts), f"{counts[0] / counts[1]:.3f}" if redis else "-"]


TITLES = ["Processor time here, s", "of Redis, s", "here by Redis, of the least", "here by Redis, processor time",
          "here by Redis, time", "Peak here, MiB", "of Redis"]
TITLES_OF_INSTRUCTIONS = ["here, millions", "Redis, millions", "here by Redis"]


def measure(folder, program, runs, counts, filling, commands, beside):
    parts = [write_part(folder, "filling", filling()) if filling else None, write_part(folder, "work", commands())]
    here, redis = [], []
    for _ in range(runs):
        here.append(take(Script(folder, program, counts), *parts))
        if beside:
            redis.append(take(Redis(folder, counts), *parts))
    return row_of_instructions(here, redis) if counts else row(here, redis)


def main(told, works):
    parser = argparse.ArgumentParser(description=told, formatter_class=argparse.RawDescriptionHelpFormatter)
    parser.add_argument("--runs", type=int, default=5)
    parser.add_argument("--commands", type=int, default=1_000_000)
    parser.add_argument("--only", default="", help="the works whose titles have this word")
    parser.add_argument("--instructions", action="store_true", help="count them, in one run; needs valgrind")
    parser.add_argument("program")
    asked = parser.parse_args()
    need("redis-server", "redis-server")
    need("cc", "gcc")
    if asked.instructions:
        need("valgrind", "valgrind")
    titles = ["Work", *(TITLES_OF_INSTRUCTIONS if asked.instructions else TITLES)]
    print(f"| {' | '.join(titles)} |\n|{'---|' * len(titles)}", flush=True)
    with tempfile.TemporaryDirectory() as folder:
        subprocess.run(["cc", "-O2", "-o", os.path.join(folder, "feed"), os.path.join(HERE, "feed.c")], check=True)
        for name, *work in works(asked.commands):
            if asked.only in name:
                runs = 1 if asked.instructions else asked.runs
                cells = measure(folder, os.path.abspath(asked.program), runs, asked.instructions, *work)
                print(f"| {name} | {' | '.join(cells)} |", flush=True)
