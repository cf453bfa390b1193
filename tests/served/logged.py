"""Servers that keep a log."""
import contextlib
import os
import re
import subprocess
import tempfile

import logs
import served
from resp import array, entry, read_reply
from served import asking, raw, running, say_at
from waiting import add

# Enough for the clients of a queue, and some that look.
WORKERS = 12
TOLD = r"xs_server: log (.*): (?:snapshot-\d+, )?(\d+) records?, (\d+) bytes? of an unfinished record dropped\n"
# What it says meanwhile, if it reads for long.
PROGRESS = r"xs_server: log (.*): (\d+) bytes read\n"
# A log that another program made, and one record more.
SOME = ["XADD s 1-0 f v", "XGROUP CREATE s g 0", "XADD s 2-0 f v", "XREADGROUP GROUP g a COUNT 1 STREAMS s >"]
RECORDS = [logs.record(1_700_000_000_000 + place, text.encode().split(b" ")) for place, text in enumerate(SOME)]
GOOD = logs.header(1) + b"".join(RECORDS)
NEXT = logs.record(1_700_000_000_009, b"XADD s 3-0 f v".split(b" "))


@contextlib.contextmanager
def new_folder():
    """The path of a folder that isn't there yet, in a new one."""
    with tempfile.TemporaryDirectory() as above:
        yield os.path.join(above, "log")


def last_log(folder):
    return logs.path_of(folder, logs.numbers(folder)[-1])


def options_of(folder, sync, compact=None):
    """The words that keep a log in this folder, with these policies, or with those which nobody names."""
    return ("--log", folder, *(("--sync", sync) if sync else ()), *(("--compact", compact) if compact else ()))


@contextlib.contextmanager
def logged(program, folder, sync="always", workers=WORKERS, bound="0", compact=None, **how):
    """A new server that keeps a log in this folder, which ends with the block. Its queues may hold so much."""
    options = options_of(folder, sync, compact)
    with running(program, *options, "--max-memory", bound, workers=workers, **how) as server:
        yield server


def read_at_start(server, folder):
    """How many records a server has read, and how many bytes it has dropped, as it says before it listens."""
    *progress, told, _ = server.said
    found = re.fullmatch(TOLD, told)
    assert found and found[1] == folder, server.said
    read = [re.fullmatch(PROGRESS, line) for line in progress]
    assert all(one and one[1] == folder for one in read), server.said
    counts = [int(one[2]) for one in read]
    assert counts == sorted(counts), server.said
    return int(found[2]), int(found[3])


def start(program, folder, sync="always", before=None, environment=None):
    """What becomes of a program that ends at its start."""
    words = [*served.words_of_run(program, served.free_port(), 2), *options_of(folder, sync)]
    return subprocess.run(words, capture_output=True, timeout=30, preexec_fn=before,
                          env={**os.environ, **(environment or {})})


def kill_while_it_starts(program, folder, port, sync, after, environment):
    """Starts a server, and kills it so many seconds later, whatever it has come to."""
    words = [*served.words_of_run(program, port, WORKERS), *options_of(folder, sync)]
    child = subprocess.Popen(words, stdout=subprocess.DEVNULL, stderr=subprocess.DEVNULL,
                             env={**os.environ, **(environment or {})})
    with contextlib.suppress(subprocess.TimeoutExpired):
        child.wait(after)
    child.kill()
    child.wait()


def is_refusal(done, folder, text):
    """It has ended with status 1, and one line that names the folder, and says what is wrong as this pattern does. If it
    read for long it said so before."""
    is_told = re.fullmatch(rf"(?:{PROGRESS})*xs_server: {re.escape(folder)}: (?:{text})\n", done.stderr.decode())
    assert (done.returncode, done.stdout) == (1, b"") and is_told, (text, done)


def goes_on(program, folder, key, least, most):
    """A start behind a fault has so many entries, whose ids count up from 1; it takes more, and they are kept too."""
    with logged(program, folder) as server, raw(server.port) as stream:
        stream.sendall(asking(f"XLEN {key}"))
        with stream.makefile("rb") as replies:
            count = int(read_reply(replies)[1:])
        assert least <= count <= most, f"of {least} to {most} entries {count} are there"
        add(stream, key, count + 1)
    with logged(program, folder) as server:
        everything = array([entry(f"{place}-0", "f", "v") for place in range(1, count + 2)])
        say_at(server, f"XRANGE {key} - +", everything)
