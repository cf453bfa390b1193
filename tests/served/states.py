"""What a server has, beside what the model has behind the same events.

The model is the program's own `script`, whose replies are proved to be the model's: it is given the events, each at its
moment, and then the questions. Idle times depend on the clock; so of each row it is compared since when it is idle.
"""
import io
import re
import subprocess
from resp import read_reply


# A row of XPENDING, whose consumer has a name without a line's end.
IDLE = re.compile(rb"(\*4\r\n\$\d+\r\n[^\r]+\r\n\$\d+\r\n[^\r]+\r\n):(-?\d+)\r\n")
# The commands that only read.
READS = {b"PING", b"QUIT", b"XLEN", b"XRANGE", b"XREVRANGE", b"XPENDING", b"XINFO", b"EXISTS", b"TYPE", b"DBSIZE"}


def words_of(text):
    return text.encode().split(b" ")


def without_times(reply):
    return IDLE.sub(rb"\1", reply)


def idle_times(reply):
    return [int(idle) for _, idle in IDLE.findall(reply)]


def script_replies(program, events):
    """The replies of the model to these events, each a moment and the words."""
    lines = b"".join(b"%d a %s\n" % (moment, b" ".join(words)) for moment, words in events)
    done = subprocess.run([program, "script"], input=lines, capture_output=True, timeout=60)
    assert (done.returncode, done.stderr) == (0, b""), done.stderr
    stream = io.BytesIO(done.stdout)
    return [read_reply(stream) for _ in events]


def ask_all(connection, questions):
    """The replies to these lists of words, which are sent together."""
    connection.send(*questions)
    return [read_reply(connection.replies) for _ in questions]


def comparable(reply):
    """Without times, and without the name of an unknown command, which `run` tells and a script doesn't."""
    unknown = b"-ERR unknown command"
    return unknown if reply.startswith(unknown) else without_times(reply)


def same_replies(questions, want, got):
    for words, wanted, reply in zip(questions, want, got, strict=True):
        asked = b" ".join(words).decode(errors="replace")
        assert comparable(wanted) == comparable(reply), f"{asked} was answered {reply!r}, not {wanted!r}"


def idle_since(questions, want, got, between):
    """Each row is idle since the moment since which it is in the model. The model was asked at the moment 0 of these
    times; the server was asked between two."""
    for words, wanted, reply in zip(questions, want, got, strict=True):
        asked = {mine - theirs for mine, theirs in zip(idle_times(reply), idle_times(wanted), strict=True)}
        right = len(asked) <= 1 and all(between[0] <= moment <= between[1] for moment in asked)
        assert right, f"{b' '.join(words).decode()} was answered {reply!r}, by the model {wanted!r}: idle by {asked}"
