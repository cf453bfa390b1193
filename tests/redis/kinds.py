"""How often each kind of reply came, by commands and by their options."""
import collections
import io
import os
import sys

sys.path.append(os.path.join(os.path.dirname(__file__), "../served"))
from commands import KEYWORDS  # noqa: E402


def parsed(stream):
    """The next reply in the stream: a number, a text, None for a null, or a list of replies."""
    line = stream.readline()[:-2]
    kind, rest = line[:1], line[1:].decode()
    if kind in (b"-", b"+"):
        return rest
    count = int(rest)
    if kind == b":":
        return count
    if count < 0:
        return None
    return stream.read(count + 2)[:-2].decode() if kind == b"$" else [parsed(stream) for _ in range(count)]


def of_read(parts):
    entries = [entry for _, shown in parts for entry in shown]
    streams = "several streams" if len(parts) > 1 else "one stream"
    if not entries:
        return streams + ", no entries"
    return streams + (", a deleted entry" if any(fields is None for _, fields in entries) else "")


def of_scan(cursor, taken, removed):
    shown = [("claimed", taken), ("removed", removed), ("goes on", cursor != "0-0")]
    return ", ".join(word for word, holds in shown if holds) or "nothing"


def kind(name, reply):
    """What a reply of the command shows, in a word or two."""
    if reply[:1] == b"-":
        return reply[1:-2].decode()
    told = parsed(io.BytesIO(reply))
    if told is None:
        return "null"
    if isinstance(told, int):
        return "a number" if told else "0"
    if isinstance(told, str):
        return "a text"
    if name == "XREADGROUP":
        return of_read(told)
    if name == "XAUTOCLAIM":
        return of_scan(*told)
    return ("rows" if told[0] else "no rows") if told else "empty"


class Counts:
    """Of the commands that were compared."""

    def __init__(self):
        self.replies = collections.Counter()
        self.options = collections.Counter()

    def add(self, words, reply):
        upper = [word.upper() for word in words]
        name = " ".join(upper[:2]) if upper[0] == "XGROUP" else upper[0]
        if upper[0] == "XPENDING":
            name += ", short form" if len(words) == 3 else ", long form"
        if reply.startswith(b"-ERR unknown command"):
            name = "no command" if upper[0] != "XGROUP" else "XGROUP and another word"
        self.replies[name, kind(upper[0], reply)] += 1
        if reply[:1] != b"-":
            self.options.update((name, option) for option in set(upper[2:] + upper[1:2] * (upper[0] == "XREADGROUP"))
                                & KEYWORDS)

    def show(self):
        for title, counts in (("replies", self.replies), ("options of accepted commands", self.options)):
            print(f"{title}:")
            for (name, what), count in sorted(counts.items()):
                print(f"  {name}: {what}: {count}")
