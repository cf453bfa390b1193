"""Commands made at random, of streams and of groups, over few keys, groups, consumers and ids, so that they meet.

Left out is what this server and Redis 7.0 answer differently, each for a rule of README.md or docs/COMMANDS.md:
- `*`, whose moment a script says itself; `~` and LIMIT; COUNT below 1 in XRANGE and XREVRANGE;
- whether a consumer is there that read or claimed, since Redis brings it in only with a delivery or a claim: the
  consumers of CREATECONSUMER have names of their own, which never read;
- an id twice in XCLAIM; IDLE that is past now there, and a RETRYCOUNT below 0; a key twice in XREADGROUP; the greatest
  id as the start of a read; counts of deliveries near the greatest;
- a BLOCK that waits for long; FORCE, LASTID, ENTRIESREAD and SETID;
- words that are refused here, where Redis doesn't read them or passes over them: ids of XDEL and XACK that are none,
  as a key may be missing, no id at all in XCLAIM, more words behind the long form of XPENDING.
"""
import random

LAST = 2**64 - 1
# An idle time is above it or far below it, and least idle times are this one or none, unless others are named.
LONG = 500_000_000_000
KEYWORDS = {"COUNT", "MAXLEN", "MINID", "NOMKSTREAM", "MKSTREAM", "GROUP", "NOACK", "BLOCK", "STREAMS", "IDLE", "TIME",
            "RETRYCOUNT", "JUSTID", "CREATE", "DESTROY", "CREATECONSUMER", "DELCONSUMER"}
WRONG = ["x", "+", "(1-0", "1-x", "1-2-3", "$", "99999999999999999999", "05x"]


class Maker:
    """Makes the commands of a round. It knows about how far each key's ids are, so that new ones are mostly taken. In
    every third round little ends, so that groups grow and a scan doesn't reach their end."""

    def __init__(self, seed, idle_times=()):
        self.random = random.Random(seed)
        self.idle_times = ("0", "0", "-7", str(LONG), *idle_times)
        self.reached = {key: 0 for key in "stu"}
        self.grows = self.random.random() < 0.33

    def chance(self, of, words):
        return words if self.random.random() < of else []

    def number(self, least, greatest):
        return str(self.random.randint(least, greatest))

    def one(self, *words):
        return self.random.choice(words)

    def key(self):
        return self.one("s", "s", "s", "t", "t", "u")

    def group(self):
        return self.one("g", "g", "g", "h")

    def consumer(self):
        return self.one("a", "a", "b", "B")

    def in_group(self):
        """A key, its group and a consumer."""
        return self.key(), self.group(), self.consumer()

    def id(self, key):
        reached = self.reached[key]
        return f"{self.random.randint(max(0, reached - self.one(4, 8, 16)), reached)}-{self.one(0, 0, 0, 0, 1)}"

    def ids(self, key, most):
        return list(dict.fromkeys(self.id(key) for _ in range(self.random.randint(1, most))))

    def far_id(self):
        return f"{self.one(0, 1, LAST)}-{self.one(0, 1, LAST - 1, LAST)}"

    def new_id(self, key):
        kind = self.random.random()
        if kind < 0.1:
            return self.id(key)
        if kind < 0.105:
            return self.far_id()
        self.reached[key] += self.one(0, 1, 1, 1)
        return f"{self.reached[key]}{self.one('-0', '-0', '-0', '-0', '-1', '-*', '-*', '')}"

    def end(self, key):
        near = self.id(key)
        return self.one("-", "+", near, near.split("-")[0], "(" + near, "(" + near.split("-")[0], self.far_id(),
                        "(" + self.far_id())

    def ends(self, key):
        return self.one(["-", "+"], ["-", "+"], [self.end(key), self.end(key)])

    def trim(self, key, most):
        exactly, count = self.chance(0.3, ["="]), self.chance(0.05, ["-1"]) or [self.number(most // 2, most)]
        return self.one(["MAXLEN", *exactly, *count], ["MINID", *exactly, self.id(key)])

    def least_idle(self):
        return self.one(*self.idle_times)

    # Streams.

    def addition(self):
        key = self.key()
        options = self.chance(0.1, ["NOMKSTREAM"]) + self.chance(0.01 if self.grows else 0.1, self.trim(key, 24))
        fields = [word for _ in range(self.one(1, 1, 1, 3)) for word in (self.one("f", "e"), self.number(0, 99))]
        return ["XADD", key, *options, self.new_id(key), *fields]

    def deletion(self):
        key = self.key()
        return ["XDEL", key, *self.ids(key, 3), *self.chance(0.1, [self.id(key)])]

    def trimming(self):
        key = self.key()
        return ["XTRIM", key, *self.trim(key, 16)]

    def length(self):
        return ["XLEN", self.key()]

    def inspection(self):
        keys = [self.key() for _ in range(self.one(1, 2, 3))]
        return self.one(["EXISTS", *keys], ["TYPE", keys[0]], ["DBSIZE"])

    def information(self):
        key = self.key()
        full = ["STREAM", key, "FULL", *self.chance(0.5, ["COUNT", self.number(-1, 4)])]
        return ["XINFO", *self.one(["STREAM", key], full, ["GROUPS", key], ["CONSUMERS", key, self.group()])]

    def scan(self):
        key = self.key()
        name, step = self.one(("XRANGE", 1), ("XREVRANGE", -1))
        return [name, key, *self.ends(key)[::step], *self.chance(0.4, ["COUNT", self.number(1, 3)])]

    def dropping(self):
        keys = [self.key()] + self.chance(0.3, [self.key()])
        for key in keys:
            self.reached[key] = 0
        return ["DEL", *keys]

    # Groups.

    def creation(self):
        key = self.key()
        return ["XGROUP", "CREATE", key, self.group(), self.one("0", "0", "$", self.id(key)),
                *self.chance(0.6, ["MKSTREAM"])]

    def destruction(self):
        return ["XGROUP", "DESTROY", self.key(), self.group()]

    def consumer_creation(self):
        return ["XGROUP", self.one("CREATECONSUMER", "CREATECONSUMER", "DELCONSUMER"), self.key(), self.group(),
                self.one("y", "z")]

    def consumer_removal(self):
        return ["XGROUP", "DELCONSUMER", *self.in_group()]

    def read(self):
        keys = self.random.sample("stu", self.one(1, 1, 1, 2, 3))
        new = self.random.random() < 0.6
        starts = [">" if new else self.one(">", "0", "0-0", self.id(key)) for key in keys]
        options = [["GROUP", self.group(), self.consumer()], self.chance(0.5, ["COUNT", self.number(-1, 4)]),
                   self.chance(0.05, ["COUNT", "2"]), self.chance(0.15, ["NOACK"]), self.chance(0.03, ["BLOCK", "1"])]
        self.random.shuffle(options)
        return ["XREADGROUP", *(word for option in options for word in option), "STREAMS", *keys, *starts]

    def acknowledgement(self):
        key = self.key()
        return ["XACK", key, self.group(), *self.ids(key, 3), *self.chance(0.1, [self.id(key)])]

    def summary(self):
        return ["XPENDING", self.key(), self.group()]

    def rows(self):
        key = self.key()
        count, consumer = self.one("1", "2", "10", "10", "10", "20", "0", "-1"), self.one("a", "b", "B", "z")
        return ["XPENDING", key, self.group(), *self.chance(0.5, ["IDLE", self.least_idle()]), *self.ends(key), count,
                *self.chance(0.3, [consumer])]

    def claim(self):
        key, group, consumer = self.in_group()
        options = [self.chance(0.2, ["IDLE", self.one("0", "-5", str(2 * LONG))]),
                   self.chance(0.2, ["TIME", self.one("1000", "0", "-3", str(20 * LONG))]),
                   self.chance(0.2, ["RETRYCOUNT", self.one("0", "7", "9000000000000000000")]),
                   self.chance(0.05, ["RETRYCOUNT", "3"]), self.chance(0.25, ["JUSTID"])]
        self.random.shuffle(options)
        return ["XCLAIM", key, group, consumer, self.least_idle(), *self.ids(key, 5),
                *(word for option in options for word in option)]

    def auto_claim(self):
        key, group, consumer = self.in_group()
        start = self.one("0", "-", "0-0", self.end(key), self.id(key))
        return ["XAUTOCLAIM", key, group, consumer, self.least_idle(), start,
                *self.chance(0.7, ["COUNT", self.one("1", "1", "2", "3", "100")]), *self.chance(0.25, ["JUSTID"]),
                *self.chance(0.05, ["COUNT", "2"])]

    def greeting(self):
        return self.one(["PING"], ["PING", "hello"], ["QUIT"], ["XGROUP"], ["FOO", "s"])

    def opening(self):
        """How every tenth round begins: more is pending than a scan takes that names no COUNT."""
        if self.random.random() > 0.1:
            return []
        self.reached["s"] = 130
        additions = [["XADD", "s", f"{number}-0", "f", str(number)] for number in range(1, 131)]
        return [["XGROUP", "CREATE", "s", "g", "0", "MKSTREAM"], *additions, "XREADGROUP GROUP g a STREAMS s >".split()]

    def makers(self):
        """What makes a command, with how often it is wanted."""
        ends = {self.deletion: 10, self.trimming: 4, self.dropping: 1, self.destruction: 1, self.consumer_removal: 2,
                self.acknowledgement: 12}
        often = {self.addition: 50, self.length: 2, self.inspection: 3, self.information: 6, self.scan: 8,
                 self.creation: 20, self.consumer_creation: 4, self.read: 40, self.summary: 6, self.rows: 12,
                 self.claim: 20, self.auto_claim: 20, self.greeting: 2}
        often.update({make: count * (0.1 if self.grows else 1) for make, count in ends.items()})
        return often

    def spoiled(self, words):
        """One word too many or too few, or a wrong one."""
        if words[0] in ("XDEL", "XACK"):
            return words[:self.random.randint(1, 2)]
        kind = self.random.random()
        if kind < 0.4 and len(words) > 1:
            return words[:-1]
        if kind < 0.5 and words[0] != "XPENDING":
            return [*words, "odd"]
        spared = {place for word, place in (("XCLAIM", 5), ("CREATECONSUMER", 4)) if word in words[:2]}
        first = 4 if words[0] == "XPENDING" else 1
        left = [place for place in range(first, len(words)) if place not in spared]
        place = self.one(*left) if left else 0
        return [*words[:place], self.one(*WRONG), *words[place + 1:]]

    def spoiled_command(self):
        """Of any kind as often as of another; since it is mostly refused, nothing is reached by it."""
        reached = dict(self.reached)
        words = self.spoiled(self.one(*self.makers())())
        self.reached = reached
        return words

    def command(self):
        often = self.makers()
        make = self.random.choices([*often], [*often.values()])[0]
        words = self.spoiled_command() if self.random.random() < 0.1 else make()
        if self.random.random() < 0.9:
            return words
        return [word.lower() if word in KEYWORDS or place == 0 else word for place, word in enumerate(words)]
