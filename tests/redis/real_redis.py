"""A real Redis 7.0 on a socket of its own."""
import contextlib
import os
import subprocess
import sys
import tempfile

sys.path.append(os.path.join(os.path.dirname(__file__), "../served"))
from resp import connect, read_reply, request  # noqa: E402


def is_same(want, got):
    """Of an error the first word has to be the same, since texts differ; but a fault of words stands first here, and
    Redis may tell first that there is no group. Any other reply has to be the same."""
    if want[:1] == got[:1] == b"-":
        words = want.split()[0], got.split()[0]
        return words[0] == words[1] or words == (b"-ERR", b"-NOGROUP")
    return want == got


@contextlib.contextmanager
def started(port=0, environment=None):
    """The path of a new server's socket, or its port where one is named. It keeps nothing on disk, and ends with the
    block."""
    with tempfile.TemporaryDirectory() as folder:
        path = os.path.join(folder, "redis.sock")
        server = subprocess.Popen(
            ["redis-server", "--port", str(port), "--unixsocket", path, "--save", "", "--appendonly", "no",
             "--dir", folder],
            stdout=subprocess.DEVNULL, env={**os.environ, **(environment or {})},
        )
        try:
            connect(port or path).close()
            yield port or path
        finally:
            server.terminate()
            server.wait()


def batches(lines, most):
    """The lists of words in their order, so many together at most; a QUIT is the last of its batch."""
    batch = []
    for words in lines:
        batch.append(words)
        if len(batch) == most or words[0].upper() == "QUIT":
            yield batch
            batch = []
    if batch:
        yield batch


def ask(path, lines, opening=("FLUSHALL",), together=1):
    """The replies to these lists of words, behind an opening that empties what they use; so many are sent together. A
    connection ends with QUIT, and the next begins."""
    replies, made, stream = [], None, None
    with contextlib.ExitStack() as open_ones:
        for batch in batches([opening, *lines], together):
            if made is None:
                made = open_ones.enter_context(connect(path))
                stream = open_ones.enter_context(made.makefile("rb"))
            made.sendall(b"".join(request([word.encode() for word in words]) for words in batch))
            replies.extend(read_reply(stream) for _ in batch)
            made = None if batch[-1][0].upper() == "QUIT" else made
    return replies[1:]
