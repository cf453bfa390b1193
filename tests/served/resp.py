"""RESP2 as the tests speak it."""
import socket
import time


def request(words):
    bulks = b"".join(b"$%d\r\n%s\r\n" % (len(word), word) for word in words)
    return b"*%d\r\n%s" % (len(words), bulks)


def read_reply(stream):
    """The bytes of the reply that stands first in the stream."""
    line = stream.readline()
    kind, count = line[:1], line[1:-2]
    if kind == b"$" and count != b"-1":
        return line + stream.read(int(count) + 2)
    if kind == b"*" and count != b"-1":
        return line + b"".join(read_reply(stream) for _ in range(int(count)))
    return line


def connect(path):
    """A connection to a path, or to a port of this machine."""
    is_path = isinstance(path, str)
    for _ in range(100):
        try:
            made = socket.socket(socket.AF_UNIX if is_path else socket.AF_INET)
            made.settimeout(60)
            made.connect(path if is_path else ("127.0.0.1", path))
            return made
        except OSError:
            time.sleep(0.05)
    raise SystemExit(f"nobody listens on {path}")


def bulk(text):
    return f"${len(text)}\r\n{text}\r\n"


def number(value):
    return f":{value}\r\n"


def array(items):
    return f"*{len(items)}\r\n" + "".join(items)


def entry(identifier, *fields):
    return array([bulk(identifier), array([bulk(text) for text in fields])])
