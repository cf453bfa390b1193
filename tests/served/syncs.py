"""What a server has the system keep: a library that is loaded into it, syncs.c, tells of each fdatasync and fsync."""
import contextlib
import mmap
import os
import struct
import tempfile
import time

from clock_steps import library_of

ROWS = 64
BEGUN, DONE, HOLD, FAIL = range(4)


class Syncs:
    """The calls of all servers that had this environment."""

    def __init__(self, library, path):
        with open(path, "w+b") as file:
            file.truncate(8 * (FAIL + 1) + 24 * ROWS)
            self.shared = mmap.mmap(file.fileno(), 0)
        self.environment = {"LD_PRELOAD": library, "SYNCS": path}

    def number(self, place):
        return struct.unpack_from("q", self.shared, 8 * place)[0]

    def put(self, place, number):
        struct.pack_into("q", self.shared, 8 * place, number)

    def done(self):
        """How many calls have ended well."""
        return self.number(DONE)

    @contextlib.contextmanager
    def held(self):
        """Within the block each call waits."""
        self.put(HOLD, 1)
        try:
            yield
        finally:
            self.put(HOLD, 0)

    def fail(self, number=1):
        """From now on each call fails, or none with 0."""
        self.put(FAIL, number)

    def one_begins(self, before, within=5.0):
        """Waits until more calls have begun than these."""
        deadline = time.monotonic() + within
        while self.number(BEGUN) <= before:
            assert time.monotonic() < deadline, "nothing is synced"
            time.sleep(0.001)

    def row(self, path):
        """How many bytes of a file are kept, and the number of the call by which it was last synced."""
        file = os.stat(path).st_ino
        for place in range(ROWS):
            found, size, last = struct.unpack_from("qqq", self.shared, 8 * (FAIL + 1) + 24 * place)
            if found == file:
                return size, last
        return 0, 0

    def kept(self, path):
        """How many bytes of a file are kept if the machine stops: all that was written before a sync began."""
        return self.row(path)[0]

    def last(self, path):
        """The number of the call by which a file was last synced; those that ended earlier have smaller ones."""
        return self.row(path)[1]


@contextlib.contextmanager
def counted():
    """A new library, and what it tells."""
    with tempfile.TemporaryDirectory() as folder:
        yield Syncs(library_of("syncs.c", folder), os.path.join(folder, "syncs"))
