"""The files of a log, as another program writes and reads them.

A record is a RESP array: its size, the moment in milliseconds, a checksum, and the words of a command. The header is
one too, with `xs-log` in place of the moment. The bytes 0 and 1 of a word stand as 1 1 and 1 2, so that a zero in a
file was never written. The size is how many bytes stand behind it, and the line end that follows it, in the record. The
checksum is CRC-32C of the words behind the size, one behind the other and not escaped, without itself.
"""
import os
import re
import stat
from dataclasses import dataclass
from resp import request


FORMAT, MODEL = 2, 1
# A log with so many bytes is closed, and the next one begun. Closed logs of so many bytes don't cause a compaction.
FULL, LEAST_CLOSED = 16 << 20, 64 << 20
NAME = re.compile(r"log-([1-9][0-9]*)")


def table():
    rows = []
    for byte in range(256):
        for _ in range(8):
            byte = (byte >> 1) ^ (0x82F63B78 if byte & 1 else 0)
        rows.append(byte)
    return rows


TABLE = table()


def crc32c(data):
    remainder = 0xFFFFFFFF
    for byte in data:
        remainder = TABLE[(remainder ^ byte) & 0xFF] ^ (remainder >> 8)
    return remainder ^ 0xFFFFFFFF


def escaped(word):
    return word.replace(b"\1", b"\1\2").replace(b"\0", b"\1\1")


def unescaped(text):
    return re.sub(rb"\x01([\x01\x02])", lambda found: b"\0" if found[1] == b"\1" else b"\1", text)


def sent_words(words):
    """Words as they are sent, without the line that tells how many they are."""
    return request(words).partition(b"\r\n")[2]


def with_size(words):
    """The bytes of a record with these words behind its size."""
    return request([b"%d" % len(sent_words(words)), *words])


def with_checksum(first, rest):
    """The bytes of a record, or of a header."""
    return with_size([escaped(word) for word in [first, b"%d" % crc32c(b"".join([first, *rest])), *rest]])


def header(number, model=MODEL):
    return with_checksum(b"xs-log", [b"%d" % one for one in (FORMAT, number, model)])


def record(now, words):
    return with_checksum(b"%d" % now, words)


@dataclass
class Piece:
    """A header or a record that is whole: the byte at which it begins, that behind its size, and that behind it; its
    size, and the words behind that, not escaped."""

    begin: int
    head: int
    end: int
    size: bytes
    words: list

    def is_sound(self):
        first, checksum, *rest = self.words
        return (self.size, checksum) == (b"%d" % (self.end - self.head), b"%d" % crc32c(b"".join([first, *rest])))


def number_at(data, at, kind):
    """The number of a line of this kind, and where the next line begins; None where the line isn't whole."""
    end = data.find(b"\r\n", at)
    if end < 0:
        return None
    assert data[at:at + 1] == kind and data[at + 1:end].isdigit(), f"at byte {at} stands {data[at:end]!r}"
    return int(data[at + 1:end]), end + 2


def piece_at(data, at):
    """What begins at this byte; None where it isn't whole."""
    if not (found := number_at(data, at, b"*")):
        return None
    (count, place), words, head = found, [], None
    for _ in range(count):
        if not (found := number_at(data, place, b"$")):
            return None
        size, begin = found
        place = begin + size + 2
        if len(data) < place:
            return None
        assert data[place - 2:place] == b"\r\n", f"at byte {place - 2} no word ends"
        words.append(unescaped(data[begin:place - 2]))
        head = head or place
    return Piece(at, head, place, words[0], words[1:])


def pieces(data, at=0):
    """All that is whole from this byte on, up to the first zero. What isn't whole has to be the last."""
    data, found = data.partition(b"\0")[0], []
    while at < len(data) and (piece := piece_at(data, at)):
        found.append(piece)
        at = piece.end
    return found


def path_of(folder, number):
    return os.path.join(folder, f"log-{number}")


def numbers(folder):
    """The numbers of the logs in a folder, in their order."""
    return sorted(int(found[1]) for name in os.listdir(folder) if (found := NAME.fullmatch(name)))


def read_file(path, at=0):
    with open(path, "rb") as file:
        file.seek(at)
        return file.read()


def write_file(path, data):
    with open(path, "wb") as file:
        file.write(data)


def write_folder(folder, files):
    """Makes a folder that has these bytes of each name."""
    os.mkdir(folder)
    for name, data in files.items():
        write_file(os.path.join(folder, name), data)
    return folder


def write_logs(folder, *logs):
    """Makes a folder whose logs, from the first on, have these bytes."""
    return write_folder(folder, {f"log-{number}": data for number, data in enumerate(logs, 1)})


def events_in(folder, number):
    """The events of a log: the moment of each, and its words."""
    _, *records = pieces(read_file(path_of(folder, number)))
    return [(int(piece.words[0]), piece.words[2:]) for piece in records]


def records_in(folder):
    """The records of all logs. Each header and each checksum has to be right, and nothing be behind the last record."""
    found = []
    for number in numbers(folder):
        data = read_file(path_of(folder, number))
        first, *records = pieces(data)
        assert data[:first.end] == header(number), f"log-{number} begins with {data[:first.end]!r}"
        assert all(piece.is_sound() for piece in records), f"a checksum of log-{number} is wrong"
        assert [first, *records][-1].end == len(data), f"log-{number} has more than its records"
        found += records
    return found


class Reader:
    """Follows what is added to the logs of a folder."""

    def __init__(self, folder):
        self.folder = folder
        self.number = 1
        self.whole = 0
        self.records = 0

    def go_on(self):
        """Reads what is whole since the last time, and gives what stands behind it in the last log."""
        while True:
            data = read_file(path_of(self.folder, self.number), self.whole)
            found = pieces(data)
            self.records += len(found) - (self.whole == 0 and bool(found))
            end = found[-1].end if found else 0
            self.whole += end
            if not os.path.exists(path_of(self.folder, self.number + 1)):
                return data[end:]
            assert end == len(data), f"log-{self.number} is closed, and torn at byte {self.whole}"
            self.number, self.whole = self.number + 1, 0

    def path(self):
        return path_of(self.folder, self.number)


def contents(path):
    """All that is at a path and below it: the kind and the permissions of each, and its bytes or where it leads."""
    kind = os.lstat(path).st_mode
    if stat.S_ISDIR(kind):
        return kind, {name: contents(os.path.join(path, name)) for name in sorted(os.listdir(path))}
    if stat.S_ISLNK(kind):
        return kind, os.readlink(path)
    return kind, read_file(path) if stat.S_ISREG(kind) else None
