"""A real Redis 7.0 whose clock stands still at the moment of each command."""
import contextlib
import os
import select
import sys

import real_redis

sys.path.append(os.path.join(os.path.dirname(__file__), "../served"))
from clock_steps import clock_of  # noqa: E402
from resp import connect, read_reply, request  # noqa: E402

CLOCK = os.path.join(os.path.dirname(os.path.abspath(__file__)), "clock_at.c")
# While a read waits, so many milliseconds pass there each 50 here.
MINUTE = 60_000


class Clocked:
    """The server, at the path of its socket, and what sets its clock."""

    def __init__(self, path, set_moment):
        self.path, self.set_moment = path, set_moment

    def answer(self, made, stream, moment, words):
        """The reply to these words at a moment. Only a read may wait: until the clock says that its time is over."""
        self.set_moment(moment)
        made.sendall(request([word.encode() for word in words]))
        while "BLOCK" in map(str.upper, words) and not select.select([made], [], [], 0.05)[0]:
            moment += MINUTE
            self.set_moment(moment)
        return read_reply(stream)

    def ask(self, lines):
        """The replies to pairs of a moment and words, from the empty keyspace on. A connection ends with QUIT, and the
        next begins."""
        replies, made, stream = [], None, None
        with contextlib.ExitStack() as open_ones:
            for moment, words in [(0, ["FLUSHALL"]), *lines]:
                if made is None:
                    made = open_ones.enter_context(connect(self.path))
                    stream = open_ones.enter_context(made.makefile("rb"))
                replies.append(self.answer(made, stream, moment, words))
                made = None if words[0].upper() == "QUIT" else made
        return replies[1:]


@contextlib.contextmanager
def started():
    """A new server, which ends with the block."""
    with clock_of(CLOCK, "CLOCK_AT") as (loaded, set_moment), real_redis.started(environment=loaded) as path:
        yield Clocked(path, set_moment)
