"""A log that an earlier program has made, and what has to be there behind a start on it.

The records of logs/model-1/log-1 were made by the program while its clocks stood at 1700000000000, and a second further
at each command: all that change something, on keys of their own. It made them in format 1; logs.py has spelled them
anew in format 2, where they have sizes. The replies below were not taken from it: they are what the Redis pages and
docs/COMMANDS.md say of its records (`less log-1`). The last record but one ended the wait of the last one.
"""
import io
import os
import shutil
import time

import logs
from books import Connection, read_value
from logged import logged, new_folder, read_at_start
from resp import read_reply
from states import words_of

FOLDER = os.path.join(os.path.dirname(os.path.abspath(__file__)), "logs", f"model-{logs.MODEL}")
NAMES = {b"XADD", b"XDEL", b"XTRIM", b"XGROUP", b"XREADGROUP", b"XACK", b"XCLAIM", b"XAUTOCLAIM", b"DEL"}
RECORDS, BEGAN = 59, 1_700_000_000_000
# A key, a group and a consumer with bytes that a log escapes, and a value.
KEY, GROUP, CONSUMER, VALUE = b"k\0\1", b"g\1\0", b"c\0", b"\0\1\2\1\1\0\0\r\n \xff"
BYTES, EMPTY, TWO = (b"%d-0" % (BEGAN + 1000 * second) for second in (4, 5, 6))


def one_field(*ids):
    return [[identifier, [b"f", b"v"]] for identifier in ids]


# What only reads. XDEL has removed 1-1 of jobs, and 7-0 of waited; two have lost 1-0 by XTRIM, and two by XADD. What
# has never been, and what was deleted, isn't there.
LOOKS = [
    ("XRANGE jobs - +", [*one_field(b"1-0", b"2-0"), [BYTES, [b"bytes", VALUE]], [EMPTY, [b"", b""]],
                         [TWO, [b"f", b"w", b"g", b"x"]]]),
    ("XRANGE swept - +", one_field(b"3-0", b"4-0", b"5-0")),
    *((f"XRANGE {key} - +", one_field(b"2-0")) for key in ("least", "most")),
    *((f"XRANGE {key} - +", one_field(b"3-0")) for key in ("newer", "short")),
    ("XRANGE waited - +", one_field(b"6-0", b"8-0")),
    ("XLEN none", 0), ("XLEN deleted", 0), ([b"XRANGE", KEY, b"-", b"+"], one_field(b"1-0")),
    ("XPENDING jobs g", [3, b"1-1", BYTES, [[b"a", b"1"], [b"c", b"1"], [b"d", b"1"]]]),
    ("XPENDING swept last", [0, None, None, None]),
    ("XPENDING swept ended", b"NOGROUP"), ("XPENDING none g", b"NOGROUP"), ("XPENDING deleted g", b"NOGROUP"),
]
# The rows of each group: id, consumer, in which second of the log it was last delivered, count of deliveries.
ROWS = [
    # 1-0 was acknowledged; 1-1 was no longer there when a read its own entries; 2-0 has TIME 1699999990000 and
    # RETRYCOUNT 7; the next one was claimed with IDLE 500 and JUSTID in second 15; that behind it went out with NOACK
    ("jobs g", [(b"1-1", b"a", 8, 1), (b"2-0", b"c", -10, 7), (BYTES, b"d", 14.5, 1)]),
    # of three that a had read, XDEL removed 1-0 and 2-0; a claim found the one, a scan the other, and took 3-0
    ("swept g", [(b"3-0", b"b", 23, 2), (b"4-0", b"two", 54, 1)]),
    # r read its own entries too
    ("swept from2", [(b"3-0", b"r", 29, 2)]),
    ("swept last", []),
    # the scan had JUSTID
    ("waited g", [(b"6-0", b"three", 55, 1), (b"8-0", b"waiter", 58, 1)]),
    ([KEY, GROUP], [(b"1-0", CONSUMER, 52, 1)]),
]
# What changes something: which consumers each group has, what it delivers next, and which ids its stream goes on with.
CHANGES = [
    *((f"XGROUP CREATECONSUMER jobs g {name}", 0) for name in "abcdn"), ("XGROUP CREATECONSUMER jobs g e", 1),
    ("XGROUP CREATECONSUMER swept last idle", 0), ("XGROUP CREATECONSUMER swept last gone", 1),
    *((f"XGROUP CREATECONSUMER waited g {name}", 0) for name in ("two", "three", "lonely", "waiter")),
    ("XREADGROUP GROUP g a STREAMS jobs >", [[b"jobs", [[TWO, [b"f", b"w", b"g", b"x"]]]]]),
    ("XREADGROUP GROUP g a STREAMS swept >", [[b"swept", one_field(b"5-0")]]),
    ("XREADGROUP GROUP from2 r STREAMS swept >", [[b"swept", one_field(b"4-0", b"5-0")]]),
    ("XREADGROUP GROUP last idle STREAMS swept >", None), ("XREADGROUP GROUP g two STREAMS waited >", None),
    ([b"XREADGROUP", b"GROUP", GROUP, CONSUMER, b"STREAMS", KEY, b">"], None),
    (f"XADD jobs {BEGAN + 6000}-* f v", b"%d-1" % (BEGAN + 6000)), ("XADD swept 5-0 f v", b"ERR"),
    ("XADD waited 7-* f v", b"ERR"), ("XADD waited 8-* f v", b"8-1"), ("XADD deleted 1-0 f v", b"1-0"),
]


def asked(one, words):
    """The value of the reply, or the first word of an error."""
    one.send(words if isinstance(words, list) else words_of(words))
    reply = read_reply(one.replies)
    return reply[1:].split()[0] if reply[:1] == b"-" else read_value(io.BytesIO(reply))


def has_rows(one, group, rows):
    """A group has these rows. Each was last delivered when the log says so."""
    begin = time.time() * 1000
    found = asked(one, [b"XPENDING", *(group if isinstance(group, list) else words_of(group)), b"-", b"+", b"100"])
    end = time.time() * 1000
    assert [(row[0], row[1], row[3]) for row in found] == [(row[0], row[1], row[3]) for row in rows], (group, found)
    moments = {BEGAN + int(1000 * row[2]) + at[2] for row, at in zip(rows, found)}
    assert len(moments) <= 1 and all(begin - 20 <= moment <= end + 20 for moment in moments), (group, found, moments)


def kept_log(program):
    """A start on the log that the repository keeps has what its records say, and leaves them as they are. It refuses a
    program that spells or reads a record otherwise, or whose commands do otherwise what they did, if the number of the
    model is still the same."""
    kept = logs.read_file(logs.path_of(FOLDER, 1))
    assert {piece.words[2].upper() for piece in logs.pieces(kept)[1:]} == NAMES
    with new_folder() as folder:
        shutil.copytree(FOLDER, folder)
        assert logs.pieces(kept)[0].end == len(logs.header(1)) and len(logs.records_in(folder)) == RECORDS
        with logged(program, folder) as server, Connection(server.port) as one:
            assert read_at_start(server, folder) == (RECORDS, 0), server.said
            for words, value in LOOKS:
                assert (got := asked(one, words)) == value, f"{words} was answered {got}"
            for group, rows in ROWS:
                has_rows(one, group, rows)
            for words, value in CHANGES:
                assert (got := asked(one, words)) == value, f"{words} was answered {got}"
        assert logs.read_file(logs.path_of(folder, 1)).startswith(kept), "the log was changed"


CASES = (kept_log,)
