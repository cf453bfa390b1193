"""What programs do to the files of a folder, change by change, and what a crash of the machine may leave of that.

A library that is loaded into them, journal.c, tells of each change and of each sync. Of the bytes of a file those are
sure that were there at its last sync: later ones may be lost, or be zero. Of names those are sure that were there at
the last sync of the folder: each later one may be there or not, and so may each removal. A rename is both, so a crash
may leave one half of it, which no file system does.
"""
import os
import struct
from dataclasses import dataclass, field

import logs
from clock_steps import library_of

NAMED, WRITTEN, CUT, SYNCED, RENAMED, REMOVED = range(6)
ROW = struct.Struct("qqqq")
# They have no bytes, and a program that misses them makes them.
LOCKS = {"lock", "compacting"}


def torn(kept, data, made):
    """What a crash may leave of these bytes, of which so many are kept: of those behind some are lost, or are zero."""
    kept = min(kept, len(data))
    first, end = sorted(made.randint(kept, len(data)) for _ in range(2))
    way = made.randrange(3)
    return data[:first] + (b"", bytes(end - first), bytes(end - first) + data[end:])[way]


@dataclass
class File:
    """The bytes of a file: those that are sure, and those that a program sees."""

    sure: bytes = b""
    now: bytes = b""

    def put(self, at, data):
        self.now = self.now[:at].ljust(at, b"\0") + data + self.now[at + len(data):]

    def torn(self, made):
        """What a crash may leave."""
        if not self.now.startswith(self.sure):
            return made.choice((self.sure, self.now))
        return torn(len(self.sure), self.now, made)


@dataclass
class Change:
    """A change: what kind it is, of which file, at which byte, its bytes or names, and where it ends in the journal."""

    kind: int
    file: int
    at: int
    data: bytes
    end: int


class Journal:
    """The changes of all programs that have this environment."""

    def __init__(self, above):
        self.path = os.path.join(above, "journal")
        self.library = library_of("journal.c", above)

    def environment(self, ends=None):
        """The environment of a program. It is killed once it has made so many changes, if they are given."""
        ends = {} if ends is None else {"JOURNAL_ENDS": str(ends)}
        return {"LD_PRELOAD": self.library, "JOURNAL": self.path, **ends}

    def begin(self):
        """Forgets all changes."""
        logs.write_file(self.path, b"")

    def size(self):
        return os.path.getsize(self.path)

    def changes(self):
        data, at = logs.read_file(self.path), 0
        while at < len(data):
            kind, file, place, size = ROW.unpack_from(data, at)
            begin, at = at + ROW.size, at + ROW.size + size
            yield Change(kind, file, place, data[begin:at], at)


@dataclass
class Disk:
    """A folder, all of which is sure at first."""

    folder: str
    # files by their inodes, and by the names that are sure; later names, each with its file, or None if it is removed
    files: dict = field(default_factory=dict)
    names: dict = field(default_factory=dict)
    later: list = field(default_factory=list)

    def __post_init__(self):
        self.inode = os.stat(self.folder).st_ino
        for name in set(os.listdir(self.folder)) - LOCKS:
            path = os.path.join(self.folder, name)
            data = logs.read_file(path)
            self.names[name] = self.files[os.stat(path).st_ino] = File(data, data)

    def name_in(self, path):
        """The name of a path in the folder that may change."""
        above, name = os.path.split(path.decode())
        return name if above == self.folder and name not in LOCKS else None

    def apply(self, change):
        if change.kind in (NAMED, RENAMED, REMOVED):
            self.change_names(change)
        elif change.file == self.inode:
            self.names, self.later = self.names_with(self.later), []
        elif file := self.files.get(change.file):
            self.change_file(change, file)

    def change_names(self, change):
        name, _, other = change.data.partition(b"\0")
        name, other = self.name_in(name), self.name_in(other)
        if change.kind == NAMED:
            self.files[change.file] = File()
            self.later += [(name, self.files[change.file])] if name else []
        if change.kind == RENAMED:
            self.later += [(other, self.names_with(self.later)[name]), (name, None)]
        if change.kind == REMOVED and name:
            self.later.append((name, None))

    def change_file(self, change, file):
        if change.kind == WRITTEN:
            file.put(change.at, change.data)
        if change.kind == CUT:
            file.now = file.now[:change.at].ljust(change.at, b"\0")
        if change.kind == SYNCED:
            file.sure = file.now

    def names_with(self, later):
        """The sure names, and what these later ones make of them."""
        names = {**self.names, **dict(later)}
        return {name: file for name, file in names.items() if file}

    def contents(self):
        """The bytes of each name, as a program sees them."""
        return {name: file.now for name, file in self.names_with(self.later).items()}

    def after_a_crash(self, made=None):
        """What a crash may leave now: the bytes of each name. None of the later names is there, or all, or one of them,
        with all bytes or with those that are sure; or all names are, and one file has its sure bytes alone; and if
        something is made at random, some of the names are, each with some of its bytes."""
        for later in ([], self.later, *([one] for one in self.later)):
            names = self.names_with(later)
            yield {name: file.sure for name, file in names.items()}
            yield {name: file.now for name, file in names.items()}
        names = self.contents()
        for name, file in self.names_with(self.later).items():
            yield {**names, name: file.sure}
        for later in (self.later, *(self.some_later(made) for _ in range(2))) if made else ():
            yield {name: file.torn(made) for name, file in self.names_with(later).items()}

    def some_later(self, made):
        return [one for one in self.later if made.random() < 0.5]
