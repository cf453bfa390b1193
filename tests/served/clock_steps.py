"""A server whose wall clock is set while it runs: a library that is loaded into it, clock_step.c, adds seconds to it."""
import contextlib
import os
import struct
import subprocess
import tempfile
import time

from resp import array, bulk, entry, read_reply
from served import asking, raw, running, say
from waiting import add, gives, make, reading

HERE = os.path.dirname(os.path.abspath(__file__))
FOUR_YEARS = 1461 * 86_400


def library_of(source, folder):
    """Makes a library of a C file of this folder, or of one with a path, to be loaded into a program."""
    library = os.path.join(folder, "loaded.so")
    subprocess.run(["cc", "-shared", "-fPIC", "-O2", "-o", library, os.path.join(HERE, source)], check=True)
    return library


@contextlib.contextmanager
def clock_of(source, variable):
    """A library that sets the wall clock of a program by a number: the variables of the environment that load it, and
    what sets the number, which is 0 first."""
    with tempfile.TemporaryDirectory() as folder, open(os.path.join(folder, "number"), "wb", buffering=0) as file:
        def set_number(number):
            os.pwrite(file.fileno(), struct.pack("q", number), 0)

        set_number(0)
        yield {"LD_PRELOAD": library_of(source, folder), variable: file.name}, set_number


@contextlib.contextmanager
def running_with_a_clock(program):
    """A new server, and what sets its wall clock so many seconds ahead of the true one."""
    with clock_of("clock_step.c", "CLOCK_STEP") as (loaded, set_ahead):
        with running(program, environment=loaded) as server:
            yield server, set_ahead


def true_time():
    """The milliseconds of the true wall clock."""
    return time.time_ns() // 1_000_000


def moment(stream):
    """The milliseconds of an id that the server makes now."""
    stream.sendall(asking("XADD moments * f v"))
    with stream.makefile("rb") as replies:
        return int(read_reply(replies).split(b"\r\n")[1].split(b"-")[0])


def clock_is_set(program):
    """The wall clock is set four years ahead, back, and an hour behind. The server's time gains a tenth on the true one
    while it is ahead, never goes back and never stands still: what was handed out meanwhile is taken over in time.
    Refuses: the server's time is that of the wall clock."""
    with running_with_a_clock(program) as (server, set_ahead), raw(server.port) as stream:
        make(stream, "jobs")
        add(stream, "jobs", 1)
        began, first = true_time(), moment(stream)
        set_ahead(FOUR_YEARS)
        time.sleep(1)
        before, ahead, behind = true_time(), moment(stream), true_time()
        assert before + 90 <= ahead <= behind + (behind - began) / 10 + 2, (began, first, before, ahead, behind)
        say(stream, reading("a", "jobs", "COUNT 1"), gives("jobs", 1))
        set_ahead(0)
        time.sleep(0.5)
        say(stream, "XAUTOCLAIM jobs g b 450 0", array([bulk("0-0"), array([entry("1-0", "f", "v")]), array([])]))
        back = moment(stream)
        set_ahead(-3600)
        time.sleep(0.5)
        late = moment(stream)
        assert first < ahead and ahead + 490 <= back and back + 490 <= late, (first, ahead, back, late)
