"""Passwords: `run --password-file`. What a client may do before it has given the password, and afterwards.

The replies are those of a real Redis 7.0 with `requirepass`, but for those to more than a client may send before: Redis
names the limit, and here it is a protocol error.
"""
import contextlib
import os
import subprocess
import tempfile
import time

import served
from greetings import OK, ask
from resp import bulk, number, request
from served import PING, PONG, asking, raw, read_exactly, read_to_end, running, say, together

NO_AUTH = "-NOAUTH Authentication required.\r\n"
WRONG = "-WRONGPASS invalid username-password pair or user is disabled.\r\n"
NO_HELLO = ("-NOAUTH HELLO must be called with the client already authenticated, otherwise the HELLO AUTH <user> "
            "<pass> option can be used to authenticate the client and select the RESP protocol version at the same time\r\n")
PROTOCOL_ERROR = b"-ERR Protocol error\r\n"

# Requests in turn before the password is given, and the replies.
REFUSED = [
    ("PING", NO_AUTH), ("XADD s 1-0 f v", NO_AUTH), ("XREADGROUP GROUP g c BLOCK 0 STREAMS s >", NO_AUTH),
    ("DEL s", NO_AUTH), ("FOO", NO_AUTH), ("CLIENT SETNAME app", NO_AUTH), ("SELECT 0", NO_AUTH), ("ECHO x", NO_AUTH),
    ("INFO", NO_AUTH),
    ("XLEN", NO_AUTH),
    ("AUTH", "-ERR wrong number of arguments\r\n"), ("AUTH wrong", WRONG), ("AUTH secre", WRONG), ("AUTH secrets", WRONG),
    ("AUTH other secret", WRONG), ("AUTH default wrong", WRONG), ("HELLO", NO_HELLO), ("HELLO 2", NO_HELLO),
    ("HELLO 2 AUTH default wrong", WRONG), ("HELLO 2 AUTH other secret", WRONG), ("RESET", "+RESET\r\n"),
    ("PING", NO_AUTH),
]

# In seconds: how long a client has to give the password, and how much later it may be told at most.
TIME, LATER = 10, 1.5


@contextlib.contextmanager
def password_file(content, mode=0o600):
    """The path of a file with this content that these may read."""
    with tempfile.TemporaryDirectory() as folder:
        path = os.path.join(folder, "password")
        with open(path, "wb") as file:
            file.write(content)
        os.chmod(path, mode)
        yield path


@contextlib.contextmanager
def guarded(program, *options, content=b"secret\n", **how):
    """A server of `run` that wants the password of a file with this content."""
    with password_file(content) as path, running(program, "--password-file", path, *options, **how) as server:
        yield server


def is_kept_out(server, stream, replies):
    """Nothing that this client asks is asked, until it gives the password."""
    for text, reply in REFUSED:
        ask(replies, stream, text, reply)
    ask(replies, stream, "AUTH secret", OK)
    ask(replies, stream, "EXISTS s", number(0))


def keeps_strangers_out(program):
    """Before the password all but a greeting is refused, and nothing is asked; then all is served, up to RESET."""
    with guarded(program) as server, raw(server.port) as stream, raw(server.port) as other:
        with stream.makefile("rb") as replies, other.makefile("rb") as others:
            is_kept_out(server, stream, replies)
            ask(replies, stream, "XADD s 1-0 f v", bulk("1-0"))
            ask(replies, stream, "RESET", "+RESET\r\n")
            ask(replies, stream, "XADD s 2-0 f v", NO_AUTH)
            ask(replies, stream, "HELLO 2 AUTH default secret SETNAME me", None)
            ask(replies, stream, "CLIENT GETNAME", bulk("me"))
            ask(replies, stream, "XLEN s", number(1))
            ask(others, other, "XLEN s", NO_AUTH)
            ask(others, other, "AUTH default secret", OK)
            ask(others, other, "XLEN s", number(1))
        with raw(server.port) as stream:
            stream.sendall(asking("XADD s 3-0 f v") + asking("QUIT") + asking("XADD s 4-0 f v"))
            assert read_to_end(stream) == (NO_AUTH.encode() + b"+OK\r\n", False)


def in_one_pipeline(program):
    """Requests behind the password in the same bytes are served, those before it aren't."""
    asked = [("XADD s 1-0 f v", NO_AUTH), ("AUTH secret", OK), ("XADD s 2-0 f v", bulk("2-0")), ("RESET", "+RESET\r\n"),
             ("XADD s 3-0 f v", NO_AUTH), ("AUTH secret", OK), ("XLEN s", number(1))]
    with guarded(program) as server, raw(server.port) as stream:
        stream.sendall(b"".join(asking(text) for text, _ in asked))
        wanted = "".join(reply for _, reply in asked).encode()
        assert (got := read_exactly(stream, len(wanted))) == wanted, got


def one_after_the_other(program):
    """The next client of a worker isn't let in by the password of the last one."""
    with guarded(program, workers=1) as server:
        for ends in ("QUIT", None, "RESET", None):
            with raw(server.port) as stream, stream.makefile("rb") as replies:
                ask(replies, stream, "PING", NO_AUTH)
                ask(replies, stream, "AUTH secret", OK)
                ask(replies, stream, "PING", PONG.decode())
                if ends:
                    ask(replies, stream, ends, None)


def lines_of_a_file(program):
    """The password is the first line of its file, of any bytes, without CR and LF. Refuses: the CR of a password's line
    is part of it."""
    for content, password in ((b"secret", b"secret"), (b"a b\r\nother\n", b"a b"), (b"\x00\xff\n\n", b"\x00\xff"),
                              (b"x" * 5000 + b"\n", b"x" * 5000)):
        with guarded(program, content=content, workers=1) as server, raw(server.port) as stream:
            for given, reply in ((password + b"\n", WRONG), (password[:-1], WRONG), (password, OK), (b"", WRONG),
                                 (password, OK)):
                stream.sendall(request([b"AUTH", given]))
                assert (got := read_exactly(stream, len(reply))) == reply.encode(), (content, given, got)
            say(stream, "PING", PONG.decode())


def as_long_as_may_be(program):
    """A password may have as many bytes as a word of a client that hasn't given it."""
    password = b"x" * 16_384
    with guarded(program, content=password + b"\r\n", workers=1) as server, raw(server.port) as stream:
        for given, reply in ((password[:-1], WRONG), (password, OK)):
            stream.sendall(request([b"AUTH", given]))
            assert (got := read_exactly(stream, len(reply))) == reply.encode(), got


def run(program, *options):
    """What becomes of `run` with these options, which ends by itself."""
    words = [*served.words_of_run(program, served.free_port(), 1), *options]
    return subprocess.run(words, capture_output=True, timeout=30)


def files_of_no_password(program):
    """Without a password in its file the program ends with 1 and says why; it says too if others may read it. Refuses:
    the CR of a password's line is part of it."""
    with (password_file(b"") as empty, password_file(b"\r\nsecret\n") as late,
          password_file(b"x" * 16_385 + b"\n") as long, tempfile.TemporaryDirectory() as folder):
        none = os.path.join(folder, "none")
        for path, cause in ((empty, b"empty"), (late, b"empty"), (none, b"can't be read"), (folder, b"read"),
                            (long, b"more than 16384 bytes")):
            done = run(program, "--password-file", path)
            assert (done.returncode, done.stdout, done.stderr.count(b"\n")) == (1, b"", 1), done
            assert path.encode() in done.stderr and cause in done.stderr, done
    for mode, is_said in ((0o600, False), (0o640, True), (0o604, True)):
        with password_file(b"secret\n", mode) as path, running(program, "--password-file", path, workers=1) as server:
            said = "".join(server.said[:-1])
            wanted = f"xs_server: others may read the password file {path}\n" if is_said else ""
            assert said == wanted, (mode, server.said)
            with raw(server.port) as stream:
                say(stream, "PING", NO_AUTH)


def others_may_reach_it(program):
    """With a password an address beyond loopback needs no `--open`. Refuses: an address beyond loopback needs `--open`
    with a password too."""
    with guarded(program, workers=1, host="0.0.0.0") as server, raw(server.port) as stream:
        say(stream, "PING", NO_AUTH)


def too_much(program):
    """A client that hasn't given the password may send requests of 10 words, and words of 16,384 bytes. Of more it is
    told, and the connection ends; what it holds then is little. With the password it may send them."""
    most, word = [b"AUTH", *[b"x"] * 9], b"x" * 16_384
    great = [[*most, b"x"], [b"AUTH", word + b"x"], [b"XADD", b"s", b"*", b"f", word * 100]]
    parts = [b"*3\r\n$4\r\nAUTH\r\n$500000000\r\n" + word * 11, b"*1048576\r\n" + b"$1\r\nx\r\n" * 24_000]
    with guarded(program, workers=1) as server:
        for words, reply in ((most, "-ERR syntax error\r\n"), ([b"AUTH", word], WRONG),
                             ([b"PING", *[word] * 9], NO_AUTH)):
            with raw(server.port) as stream:
                stream.sendall(request(words))
                assert (got := read_exactly(stream, len(reply))) == reply.encode(), got
        before = server.resident()
        for asked in [*map(request, great), *parts]:
            with raw(server.port) as stream:
                served.send_all_that_goes(stream, asked)
                got, _ = read_to_end(stream)
                assert got in (PROTOCOL_ERROR, b""), got[:100]
        with raw(server.port) as stream:
            stream.sendall(request(great[0]))
            assert read_to_end(stream) == (PROTOCOL_ERROR, False)
        assert server.resident() - before < 1_500_000, server.resident() - before
        with raw(server.port) as stream:
            say(stream, "AUTH secret", OK)
            stream.sendall(request(great[2]))
            assert (got := read_exactly(stream, 1)) == b"$", got


def ends_in_time(stream, began, asked=None):
    """A connection ends when its time is over, though it sends all the while, if it does."""
    stream.settimeout(0.2 if asked else TIME + LATER)
    got = b""
    while True:
        with contextlib.suppress(TimeoutError):
            piece = stream.recv(65_536)
            if not piece:
                break
            got += piece
        assert time.monotonic() - began < TIME + LATER, "it is still there"
        if asked:
            with contextlib.suppress(OSError):
                stream.sendall(asked)
    took = time.monotonic() - began
    assert took >= TIME - 0.1, f"it ended after {took:.2f} s"
    return got


def is_late(server, place):
    """One of the clients that give no password in time, and one that does and stays."""
    with raw(server.port) as stream:
        began = time.monotonic()
        if place == 0:
            assert ends_in_time(stream, began) == b""
        elif place == 1:
            ends_in_time(stream, began, PING)
        elif place == 2:
            stream.sendall(b"*2\r\n$4\r\nAUTH\r\n$16384\r\n")
            ends_in_time(stream, began, b"x")
        elif place == 3:
            say(stream, "AUTH secret", OK)
            time.sleep(2)
            say(stream, "RESET", "+RESET\r\n")
            ends_in_time(stream, time.monotonic(), asking("AUTH wrong"))
        else:
            time.sleep(TIME - 2)
            say(stream, "AUTH secret", OK)
            time.sleep(4)
            say(stream, "PING", PONG.decode())


def have_ten_seconds(program):
    """A client that has given no password after ten seconds is closed, whatever it sends, and also behind a RESET;
    another one stays. Refuses: a client that has given the password is closed all the same; the time that a read may
    wait isn't set on its socket."""
    with guarded(program, workers=5) as server:
        together(5, lambda place: is_late(server, place))
        # They have left their workers to others.
        with raw(server.port) as stream:
            say(stream, "AUTH secret", OK)


def idle_before_the_password(program):
    """`--idle` is kept before the password and afterwards. Refuses: the time that a read may wait isn't set on its
    socket."""
    with guarded(program, "--idle", "1", workers=2) as server, raw(server.port) as stranger, raw(server.port) as stream:
        began = time.monotonic()
        say(stream, "AUTH secret", OK)
        for other in (stranger, stream):
            assert read_to_end(other) == (b"", False)
            took = time.monotonic() - began
            assert 0.9 <= took <= 2.5, f"it ended after {took:.2f} s"


CASES = [keeps_strangers_out, in_one_pipeline, one_after_the_other, lines_of_a_file, as_long_as_may_be, files_of_no_password,
         others_may_reach_it, too_much]
AT_ONCE = [have_ten_seconds, idle_before_the_password]
