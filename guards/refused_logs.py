"""A server with a log whose allocations are refused, one after the other: at its start, and while it serves.

A library that is loaded into it, refuse.c, counts its allocations, and refuses the one whose number it is told.
"""
import collections
import contextlib
import mmap
import os
import re
import struct
import subprocess
import sys
import tempfile

sys.path.append(os.path.join(os.path.dirname(__file__), "../tests/served"))
import logs  # noqa: E402
import served  # noqa: E402
import states  # noqa: E402
from books import Connection  # noqa: E402
from clock_steps import library_of  # noqa: E402
from logged import TOLD, logged, new_folder, options_of, read_at_start  # noqa: E402
from states import words_of  # noqa: E402

LIBRARY = os.path.join(os.path.dirname(os.path.abspath(__file__)), "refuse.c")
ASKED, FROM, TO = range(3)
MANY = 1_000_000
OOM = b"-OOM out of memory\r\n"
# What stands in the log at the start.
FIRST = [words_of(text) for text in (
    "XGROUP CREATE s g 0 MKSTREAM", *(f"XADD s {place}-0 f value-{place}" for place in range(1, 13)),
    "XREADGROUP GROUP g a COUNT 4 STREAMS s >", "XREADGROUP GROUP g b COUNT 2 STREAMS s >", "XACK s g 1-0",
    "XREADGROUP GROUP g a NOACK COUNT 1 STREAMS s >", "XCLAIM s g c 0 2-0 5-0", "XDEL s 3-0 9-0",
    "XADD t MAXLEN 2 1-0 f v", "XGROUP CREATE t g $", "XADD t 2-0 f v", "XREADGROUP GROUP g d STREAMS s t > >",
    "XAUTOCLAIM s g e 0 4 COUNT 1", "XGROUP CREATE t h 0",
    "XGROUP CREATECONSUMER t h d", "XTRIM s MAXLEN 8", "XADD gone 1-0 f v", "DEL gone",
    "XGROUP DELCONSUMER s g d")]
# What is sent while an allocation is refused.
SENT = [words_of(text) for text in (
    "XADD s 20-0 f a-value-that-takes-some-memory", "XADD new 1-0 f v", "XGROUP CREATE new g 0",
    "XREADGROUP GROUP g a COUNT 2 STREAMS s new > >", "XREADGROUP GROUP g new NOACK STREAMS s >", "XACK s g 4-0 20-0",
    "XCLAIM s g other 0 2-0 6-0 7-0", "XAUTOCLAIM s g b 0 0 COUNT 3", "XREADGROUP GROUP g b STREAMS s 0",
    "XDEL s 20-0 6-0", "XTRIM s MAXLEN 4", "XGROUP DESTROY t h", "DEL t",
    f"XADD new 2-0 f {'v' * 40_000}", f"XADD new 3-0 f {'v' * 400_000}", "XADD s 21-0 f v")]
LOOKS = [words_of(text) for key in ("s", "t", "new", "gone") for text in (
    f"XRANGE {key} - +", f"XPENDING {key} g - + 100", f"XREADGROUP GROUP g look COUNT 2 STREAMS {key} >",
    f"XPENDING {key} h - + 100", *(f"XGROUP CREATECONSUMER {key} g {name}" for name in ("a", "b", "c", "new", "other")),
    f"XADD {key} 21-0 f v")]
MOMENT = 1_700_000_000_000
RECORDS = [logs.record(MOMENT + place, words) for place, words in enumerate(FIRST)]
LOG = logs.header(1) + b"".join(RECORDS)


class Refusals:
    """The allocations of the servers that have this environment."""

    def __init__(self, library, path):
        with open(path, "w+b") as file:
            file.truncate(8 * (TO + 1))
            self.shared = mmap.mmap(file.fileno(), 0)
        self.environment = {"LD_PRELOAD": library, "REFUSE_SHARED": path}

    def asked(self):
        """How many there were in the program that runs, or ran last."""
        return struct.unpack_from("q", self.shared, 8 * ASKED)[0]

    def refuse(self, first, last=None):
        """Refuses those with these numbers, or the one with this number; none with 0."""
        struct.pack_into("qq", self.shared, 8 * FROM, first, last or first)


@contextlib.contextmanager
def refusals():
    with tempfile.TemporaryDirectory() as folder:
        yield Refusals(library_of(LIBRARY, folder), os.path.join(folder, "refusals"))


class Model:
    """The replies of the model to commands behind those that stand in the log."""

    def __init__(self, program):
        self.program = program
        self.known = {}

    def replies(self, places, questions):
        """The replies to questions behind the commands of SENT at these places."""
        key = places, tuple(map(tuple, questions))
        if key not in self.known:
            events = [*FIRST, *(SENT[place] for place in places), *questions]
            timed = [(MOMENT + place, words) for place, words in enumerate(events)]
            self.known[key] = states.script_replies(self.program, timed)[-len(questions):]
        return self.known[key]

    def is_right(self, places, questions, replies):
        want = self.replies(places, questions)
        return list(map(states.without_times, want)) == list(map(states.without_times, replies))


def says_why(status, errors):
    """It has ended with status 1 and a line, behind the one that tells of its log."""
    assert status == 1 and re.fullmatch(rf"({TOLD})?xs_server: [^\n]+\n", errors), f"status {status}, {errors!r}"


def ended_or_serves(server):
    """Whether it ends at its start; then it says why."""
    lines = []
    for line in server.child.stderr:
        lines.append(line.decode())
        if "listening on" in lines[-1]:
            server.said = lines
            return False
    says_why(server.child.wait(timeout=10), "".join(lines))
    return True


# ---- at the start


def start_refused(program, told, model, number, count):
    """Starts on a log that has a torn end, or none, while so many allocations from this number on are refused; says
    what became of it, and whether there were so many."""
    behind = RECORDS[1][:number % 40]
    told.refuse(number, number + count - 1)
    with new_folder() as folder:
        logs.write_logs(folder, LOG + behind)
        port = served.free_port()
        words = [*served.words_of_run(program, port, 2), *options_of(folder, "no")]
        with served.Server(words, port, 2, None, told.environment) as server:
            if ended_or_serves(server):
                assert told.asked() >= number, "it ends, and nothing was refused"
                left = logs.read_file(logs.path_of(folder, 1))
                assert left in (LOG, LOG + behind), f"refused {number}: it changed the log"
                return "ended", True
            was_asked = told.asked() >= number
            assert read_at_start(server, folder) == (len(FIRST), len(behind)), f"refused {number}: {server.said}"
            told.refuse(0)
            with Connection(port) as one:
                got = states.ask_all(one, LOOKS)
            states.same_replies(LOOKS, model.replies((), LOOKS), got)
        return "served", was_asked


def refused_start(program):
    """Each allocation of a start is refused in turn, and then some with all behind them. It ends with a line, and
    changes no whole record; or it serves, and has all records. It refuses a server that passes over a record for which
    there was no memory, or that cuts the log behind it."""
    model = Model(program)
    with refusals() as told:
        for count, step in ((1, 1), (MANY, 11)):
            became = collections.Counter()
            for number in range(1, MANY, step):
                what, was_asked = start_refused(program, told, model, number, count)
                if not was_asked:
                    break
                became[what] += 1
            print(f"{count} refused at the start, {sum(became.values())} times: {dict(became)}", flush=True)
            assert became["ended"] > 10, "nothing was refused"


# ---- while it serves


class Run:
    """The commands are sent to a server, one by one. Which may have been executed is told as lists of places."""

    def __init__(self, server, told, model):
        self.server, self.told, self.model = server, told, model
        self.may_be, self.seen, self.place = [()], set(), 0

    def answered(self, reply):
        """A reply is OOM, or that of the model."""
        words = SENT[self.place]
        if reply == OOM:
            self.seen.add("OOM")
        else:
            right = [places for places in self.may_be if self.model.is_right(places, [words], [reply])]
            wanted = self.model.replies(self.may_be[0], [words])
            assert right, f"{words} was answered {reply}, and by the model {wanted}"
            self.may_be = [(*places, self.place) for places in right]
        self.place += 1

    def closed(self):
        """The connection has ended without a reply: the command was executed, or not. There is memory again."""
        self.seen.add("closed")
        self.may_be += [(*places, self.place) for places in self.may_be]
        self.place += 1
        self.told.refuse(0)

    def send(self):
        """Sends commands over one connection, and says whether it has ended."""
        with contextlib.suppress(ConnectionError), Connection(self.server.port) as one:
            while self.place < len(SENT):
                reply = states.ask_all(one, [SENT[self.place]])[0]
                if not reply.endswith(b"\r\n"):
                    break
                self.answered(reply)
            return self.place < len(SENT)
        return True

    def send_all(self):
        """Sends all, or as many as it serves. If it ends it says why."""
        while self.send():
            self.closed()
            with contextlib.suppress(subprocess.TimeoutExpired):
                says_why(*self.server.ends_by_itself(0.02))
                self.seen.add("ended")
                return


def serve_refused(program, told, model, number, count):
    """Sends commands while so many allocations from this number on are refused, and kills the server; says what was
    seen, and whether there were so many. Behind a start all is there that was answered, and nothing else."""
    told.refuse(0)
    with new_folder() as folder:
        logs.write_logs(folder, LOG)
        with logged(program, folder, "no", workers=2, environment=told.environment) as server:
            first = told.asked()
            told.refuse(first + number, first + number + count - 1)
            run = Run(server, told, model)
            run.send_all()
            was_asked = told.asked() >= first + number
        told.refuse(0)
        with logged(program, folder, "no", workers=2) as server, Connection(server.port) as one:
            got = states.ask_all(one, LOOKS)
        assert any(model.is_right(places, LOOKS, got) for places in run.may_be), \
            f"refused {number}, {run.seen}: {got}, and not {[model.replies(one, LOOKS) for one in run.may_be]}"
    return ", ".join(sorted(run.seen)) or "nothing", was_asked


def refused_while_it_serves(program):
    """Each allocation behind the start is refused in turn, and then some with all behind them, while commands are sent.
    Each reply is right or OOM, or the connection ends; behind a kill and a start there are the commands that were
    answered otherwise, and no others. It refuses a server that answers OOM for what is in its log, or that answers what
    its log leaves out."""
    model = Model(program)
    with refusals() as told:
        for count, step in ((1, 1), (MANY, 3)):
            seen = collections.Counter()
            for number in range(1, MANY, step):
                what, was_asked = serve_refused(program, told, model, number, count)
                if not was_asked:
                    break
                seen[what] += 1
            print(f"{count} refused while it serves, {sum(seen.values())} times: {dict(seen)}", flush=True)
            assert seen["OOM"], "nothing was refused"


CASES = (refused_start, refused_while_it_serves)
