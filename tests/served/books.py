"""Clients of a queue that keep books, over the lives of a server that is killed again and again.

What was answered is in the books. Of a request whose answer was lost with its connection nothing is known until the
next life: there it was executed whole, or not at all, and requests of one connection were executed in their order. So
a book is closed in each life before its client comes back (`settle`), and has to agree with what the server tells.
"""
import contextlib
import random
import threading
import time

from resp import request
from served import PATIENCE, raw

KEY, GROUP = b"jobs", b"g"
MOST_PENDING = 100


class Ended(ConnectionError):
    """The connection ended within a reply, or before it."""


def read_value(replies):
    """The next reply: bytes, a number, a list or None; a refusal is a fault."""
    line = replies.readline()
    if not line.endswith(b"\r\n"):
        raise Ended
    kind, rest = line[:1], line[1:-2]
    assert kind != b"-", line
    if kind == b"+":
        return rest
    if kind == b":":
        return int(rest)
    if rest == b"-1":
        return None
    if kind == b"*":
        return [read_value(replies) for _ in range(int(rest))]
    data = replies.read(int(rest) + 2)
    if len(data) < int(rest) + 2:
        raise Ended
    return data[:-2]


class Connection(contextlib.ExitStack):
    """A connection over which words are asked."""

    def __init__(self, port):
        super().__init__()
        self.stream = self.enter_context(raw(port))
        self.replies = self.enter_context(self.stream.makefile("rb"))

    def send(self, *requests):
        self.stream.sendall(b"".join(request([word if isinstance(word, bytes) else str(word).encode() for word in one])
                                     for one in requests))

    def answer(self):
        return read_value(self.replies)

    def ask(self, *words):
        self.send(words)
        return self.answer()


def id_of(text):
    """An id as a pair of numbers."""
    return tuple(map(int, text.split(b"-")))


def after(identifier):
    """The start of a range behind this id."""
    return b"(" + identifier if identifier else b"-"


class Producer:
    """Adds jobs whose names are told apart, some at once."""

    def __init__(self, queue, name):
        self.queue = queue
        self.name = name
        self.made = random.Random(name)
        self.count = 0
        # names that were sent and aren't answered, in their order, and the greatest id that was answered
        self.unsure = []
        self.greatest = (0, 0)

    def work(self, server):
        time.sleep(self.made.choice((0, 0.001, 0.002, 0.004)))
        for _ in range(self.made.choice((1, 1, 1, 2, 3, 8))):
            self.count += 1
            self.unsure.append(b"%s-%d" % (self.name.encode(), self.count))
        server.send(*(("XADD", KEY, "*", "job", job) for job in self.unsure))
        for _ in range(len(self.unsure)):
            identifier = server.answer()
            assert id_of(identifier) > self.greatest, f"{identifier} was given behind {self.greatest}"
            self.greatest = id_of(identifier)
            self.queue.add(self.unsure.pop(0), identifier)

    def settle(self, _):
        there = [job in self.queue.ids for job in self.unsure]
        assert there == sorted(there, reverse=True), f"of the additions {self.unsure} {there} were executed"
        self.unsure = []


class Consumer:
    """Reads jobs, waits for them, and acknowledges most of them."""

    def __init__(self, queue, name):
        self.queue = queue
        self.name = name.encode()
        self.made = random.Random(name)
        # ids that are pending with it; what was sent and isn't answered: ids of acknowledgements, how many may be read
        self.pending = []
        self.acknowledged = []
        self.reads = 0
        self.greatest = (0, 0)

    def choose(self):
        """Ids to be acknowledged: now and then none, at times not the latest ones."""
        count = len(self.pending) if len(self.pending) > MOST_PENDING else self.made.randrange(len(self.pending) + 1)
        return self.made.sample(self.pending, count)

    def read(self, count, waits=True):
        self.reads = count
        block = ("BLOCK", 20) if waits else ()
        return "XREADGROUP", "GROUP", GROUP, self.name, "COUNT", count, *block, "STREAMS", KEY, ">"

    def take(self, found):
        for identifier, (_, job) in found[0][1] if found else ():
            self.receive(identifier, job)
        self.reads = 0

    def receive(self, identifier, job):
        assert id_of(identifier) > self.greatest, f"{identifier} was delivered behind {self.greatest}"
        self.greatest = id_of(identifier)
        self.queue.deliver(identifier, job, self.name)
        self.pending.append(identifier)

    def forget(self):
        """What was to be acknowledged is settled."""
        self.queue.settled.update(self.acknowledged)
        gone = set(self.acknowledged)
        self.pending = [one for one in self.pending if one not in gone]
        self.acknowledged = []

    def work(self, server):
        requests = []
        if chosen := self.choose():
            self.acknowledged = chosen
            requests.append(("XACK", KEY, GROUP, *chosen))
        requests.append(self.read(self.made.choice((1, 2, 10))))
        server.send(*requests)
        if chosen:
            count = server.answer()
            assert count == len(chosen), f"of {len(chosen)} pending jobs {count} were acknowledged"
            self.forget()
        self.take(server.answer())

    def settle(self, server):
        rows = server.ask("XPENDING", KEY, GROUP, "-", "+", 1_000_000, self.name)
        assert all(row[1] == self.name and row[3] == 1 for row in rows), rows
        there, known = {row[0] for row in rows}, set(self.pending)
        left = there & set(self.acknowledged)
        assert len(left) in (0, len(self.acknowledged)), f"of {self.acknowledged} all but {left} was acknowledged"
        if self.acknowledged and not left:
            self.forget()
            known = set(self.pending)
        assert known <= there, f"{known - there} are no longer pending with {self.name}"
        more = sorted(there - known, key=id_of)
        assert len(more) <= self.reads, f"{more} are pending with {self.name}, who asked for {self.reads}"
        assert not more or not left, "a read was executed, and not the acknowledgement before it"
        for identifier in more:
            self.receive(identifier, self.queue.jobs[identifier])
        self.acknowledged, self.reads = [], 0


class Diarist:
    """Changes a stream of its own, in such a way that its content tells how many of its commands were executed."""

    KEY = b"diary"

    def __init__(self):
        self.executed = 0
        self.ids = []
        self.is_sent = False

    def command(self, number):
        """The command with this number, and what the ids are behind it."""
        ids = self.ids
        if number % 50 == 49:
            return ("DEL", self.KEY), []
        if number % 5 == 3 and len(ids) > 2:
            return ("XDEL", self.KEY, f"{ids[1]}-1"), [*ids[:1], *ids[2:]]
        if number % 5 == 4:
            return ("XTRIM", self.KEY, "MAXLEN", 10), ids[-10:]
        return ("XADD", self.KEY, f"{number}-1", "f", "v"), [*ids, number]

    def count(self):
        _, self.ids = self.command(self.executed)
        self.executed += 1
        self.is_sent = False

    def work(self, server):
        words, _ = self.command(self.executed)
        self.is_sent = True
        server.ask(*words)
        self.count()

    def settle(self, server):
        there = [id_of(identifier)[0] for identifier, _ in server.ask("XRANGE", self.KEY, "-", "+")]
        if self.is_sent and self.command(self.executed)[1] == there:
            self.count()
        assert there == self.ids, f"behind {self.executed} commands there are {there}, not {self.ids}"
        self.is_sent = False


class Queue:
    """A stream of jobs and its group, and the eight clients of it."""

    def __init__(self):
        self.lock = threading.Lock()
        # the id of each job that is known, and the job of each id
        self.ids, self.jobs = {}, {}
        self.answered = []
        self.delivered, self.settled = {}, set()
        self.last = None
        self.clients = [*(Producer(self, f"p{name}") for name in range(4)),
                        *(Consumer(self, f"c{name}") for name in range(3)), Diarist()]

    def add(self, job, identifier):
        """An addition was answered."""
        with self.lock:
            self.answered.append((job, identifier))

    def deliver(self, identifier, job, consumer):
        """A job was delivered as new."""
        with self.lock:
            assert identifier not in self.delivered, f"{job} was delivered twice as new"
            self.delivered[identifier] = job, consumer

    def consumers(self):
        return [client for client in self.clients if isinstance(client, Consumer)]

    def found(self, identifier, job):
        assert job not in self.ids, f"{job} is there twice"
        self.ids[job], self.jobs[identifier] = identifier, job

    def settle(self, server):
        """Closes all books, while no client is there."""
        unsure = {job for client in self.clients if isinstance(client, Producer) for job in client.unsure}
        answered = dict(self.answered)
        for identifier, (_, job) in server.ask("XRANGE", KEY, after(self.last), "+"):
            assert job in answered or job in unsure, f"{job} comes back"
            self.found(identifier, job)
            self.last = identifier
        for job, identifier in self.answered:
            assert self.ids.get(job) == identifier, f"{job} was added as {identifier}, and is lost"
        self.answered = []
        assert server.ask("XLEN", KEY) == len(self.jobs)
        for client in self.clients:
            client.settle(server)
        pending = sum(len(consumer.pending) for consumer in self.consumers())
        assert server.ask("XPENDING", KEY, GROUP)[0] == pending
        assert pending + len(self.settled) == len(self.delivered)
        assert all(self.jobs[identifier] == job for identifier, (job, _) in self.delivered.items())

    def drain(self, server):
        """Reads and claims all that is left, and acknowledges it; then each job was delivered once as new, and no more
        is pending."""
        while found := server.ask("XREADGROUP", "GROUP", GROUP, "drain", "COUNT", 1000, "STREAMS", KEY, ">"):
            for identifier, (_, job) in found[0][1]:
                self.deliver(identifier, job, b"drain")
        assert self.delivered.keys() == self.jobs.keys(), "not every job was delivered"
        cursor, claimed = b"0-0", []
        while cursor != b"0-0" or not claimed:
            cursor, entries, gone = server.ask("XAUTOCLAIM", KEY, GROUP, "drain", 0, cursor, "COUNT", 1000)
            assert gone == []
            claimed += [identifier for identifier, _ in entries]
            if not entries:
                break
        assert set(claimed) == self.delivered.keys() - self.settled, "what is pending isn't what wasn't acknowledged"
        own = server.ask("XREADGROUP", "GROUP", GROUP, "drain", "STREAMS", KEY, 0)[0][1]
        assert [identifier for identifier, _ in own] == sorted(claimed, key=id_of)
        if claimed:
            assert server.ask("XACK", KEY, GROUP, *claimed) == len(claimed)
        assert server.ask("XPENDING", KEY, GROUP)[0] == 0
        everything = server.ask("XRANGE", KEY, "-", "+")
        assert [(identifier, job) for identifier, (_, job) in everything] == sorted(
            self.jobs.items(), key=lambda one: id_of(one[0]))


class Load:
    """The clients of a queue at work, in a thread each, over the lives of a server."""

    def __init__(self, queue, port):
        self.queue = queue
        self.port = port
        self.life = 0
        self.over = False
        # the clients that have been answered in this life, and those that have no connection
        self.served, self.away = set(), set()
        self.faults = []
        self.changed = threading.Condition()
        self.threads = [threading.Thread(target=self.run, args=(client,)) for client in queue.clients]

    def __enter__(self):
        for thread in self.threads:
            thread.start()
        return self

    def __exit__(self, *_):
        self.end()

    def run(self, client):
        life = 0
        while life is not None:
            try:
                life = self.next_life(client, life)
                if life is not None:
                    self.work(client)
            except (OSError, Ended):
                pass
            except Exception as fault:  # whatever it is, it is told, and ends the run
                self.faults.append(f"{type(client).__name__}: {type(fault).__name__} {fault}")
                life = None
        self.note(self.away, client)

    def next_life(self, client, life):
        """Waits for a life behind this one, and gives its number; None once the run is over."""
        self.note(self.away, client)
        with self.changed:
            self.changed.wait_for(lambda: self.over or self.life > life)
            self.away.discard(client)
            return None if self.over else self.life

    def note(self, clients, client):
        with self.changed:
            clients.add(client)
            self.changed.notify_all()

    def work(self, client):
        with Connection(self.port) as server:
            while not self.over:
                client.work(server)
                if client not in self.served:
                    self.note(self.served, client)

    def all_are(self, clients, what):
        with self.changed:
            self.changed.wait_for(lambda: self.faults or len(clients) == len(self.threads), PATIENCE)
        assert not self.faults, self.faults[0]
        assert len(clients) == len(self.threads), f"{len(clients)} of {len(self.threads)} clients {what}"

    def begin_life(self):
        """A server is there. All clients come, and each is answered."""
        with self.changed:
            self.life += 1
            self.served.clear()
            self.changed.notify_all()
        self.all_are(self.served, "were answered")

    def all_stayed(self):
        with self.changed:
            assert not self.faults, self.faults[0]
            assert not self.away, f"{len(self.away)} connections have ended"

    def all_have_left(self):
        """The server is gone, and all connections have ended."""
        self.all_are(self.away, "know that the server is gone")

    def end(self):
        """Each client finishes what it has begun."""
        with self.changed:
            self.over = True
            self.changed.notify_all()
        for thread in self.threads:
            thread.join()
