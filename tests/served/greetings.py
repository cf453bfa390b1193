"""What clients send when they connect to `run`: HELLO, AUTH, CLIENT, SELECT, ECHO, COMMAND, CONFIG GET, UNWATCH and RESET;
and errors that name an unknown command.

The replies are those of a real Redis 7.0, but that it knows RESP3 and more subcommands, and has spaces where control bytes
are escaped here. The words of libraries are those that their sources send.
"""
from resp import bulk, number, read_reply
from served import PONG, all_answer, asking, raw, read_exactly, running, say, serving

OK, NULL, NOTHING = "+OK\r\n", "$-1\r\n", "*0\r\n"
NO_RESP3 = "-NOPROTO unsupported protocol version\r\n"
BAD_NAME = "-ERR Client names cannot contain spaces, newlines or special characters.\r\n"
NO_PASSWORD = ("-ERR AUTH <password> called without any password configured for the default user. "
               "Are you sure your configuration is correct?\r\n")


def unknown(name, *words):
    said = "".join(f"'{word}' " for word in words)
    return f"-ERR unknown command '{name}', with args beginning with: {said}\r\n"


# What a library sends, and the replies; None stands for any one reply that is no error.
LIBRARIES = {
    "redis-py 4 with a name and a database": [("CLIENT SETNAME app", OK), ("SELECT 0", OK)],
    "redis-py 5": [("CLIENT SETINFO LIB-NAME redis-py", OK), ("CLIENT SETINFO LIB-VER 5.0.1", OK)],
    "node-redis with a name": [("CLIENT SETNAME app", OK)],
    "go-redis 9": [("HELLO 3", NO_RESP3), ("CLIENT SETINFO LIB-NAME go-redis(,go1.22)", OK),
                   ("CLIENT MAINT_NOTIFICATIONS ON", unknown("CLIENT", "MAINT_NOTIFICATIONS", "ON"))],
    "rueidis": [("HELLO 3", NO_RESP3), ("CLIENT TRACKING ON OPTIN", unknown("CLIENT", "TRACKING", "ON", "OPTIN"))],
    "Lettuce 6": [("HELLO 3", NO_RESP3), ("PING", PONG.decode()), ("CLIENT SETINFO lib-name Lettuce", OK)],
    "redis-client of Ruby": [("HELLO 3", NO_RESP3)],
    "StackExchange.Redis": [("HELLO 3", NO_RESP3), ("CLIENT SETNAME host", OK), ("CLIENT ID", None),
                            ("CONFIG GET timeout", NOTHING), ("INFO replication", None), ("ECHO x", bulk("x"))],
    "ioredis 5": [("CLIENT SETINFO LIB-NAME ioredis", OK), ("INFO", None)],
    "Jedis 5, redis-rs and node-redis 5": [("CLIENT SETINFO LIB-NAME jedis", OK), ("CLIENT SETINFO lib-ver 5.1", OK)],
    "redisqueue of Go": [("INFO", None)],
    "deadpool-redis": [("UNWATCH", OK), ("PING 1", bulk("1"))],
}

# Requests in turn over one connection, and the replies.
TOLD = [
    ("CLIENT GETNAME", NULL), ("CLIENT SETNAME app", OK), ("client getname", bulk("app")), ("HELLO 2 SETNAME n", None),
    ("CLIENT GETNAME", bulk("n")), ("HELLO 2 AUTH default x", None),
    ("HELLO 2 AUTH other x", "-WRONGPASS invalid username-password pair or user is disabled.\r\n"),
    ("HELLO 4", NO_RESP3), ("HELLO 3x", "-ERR value is not an integer or out of range\r\n"),
    ("HELLO 2 FOO", "-ERR syntax error\r\n"), ("AUTH x", NO_PASSWORD), ("AUTH default x", OK),
    ("AUTH other x", "-WRONGPASS invalid username-password pair or user is disabled.\r\n"),
    ("AUTH a b c", "-ERR syntax error\r\n"), ("SELECT 0", OK), ("SELECT 99", "-ERR DB index is out of range\r\n"),
    ("SELECT -1", "-ERR DB index is out of range\r\n"), ("SELECT x", "-ERR value is not an integer or out of range\r\n"),
    ("ECHO hi", bulk("hi")), ("COMMAND", NOTHING), ("COMMAND DOCS xadd", NOTHING), ("CONFIG GET *", NOTHING),
    ("UNWATCH", OK), ("RESET", "+RESET\r\n"), ("CLIENT GETNAME", NULL),
    ("FOO", unknown("FOO")), ("FOO a b", unknown("FOO", "a", "b")), ("FOO " + "x" * 200 + " y", unknown("FOO", "x" * 128)),
    ("F" * 200 + " " + " ".join(letter * 60 for letter in "xyzw"), unknown("F" * 128, "x" * 60, "y" * 60, "zz")),
    ("F\t \x7f", unknown("F\\x09", "\\x7f")), ("CLIENT SETNAME \x7f", BAD_NAME),
    ("ECHO", "-ERR wrong number of arguments\r\n"), ("XLEN s", number(0)),
]


def ask(replies, stream, text, reply):
    """Sends a request; its reply has to be this one, or, if it is None, any that is no error."""
    stream.sendall(asking(text))
    got = read_reply(replies)
    assert got == reply.encode() if reply is not None else not got.startswith(b"-"), f"{text!r} was answered {got!r}"
    return got


def greets_libraries(program):
    """What libraries send when they connect is answered so that they go on, and then they are served."""
    with running(program) as server:
        for library, said in LIBRARIES.items():
            with raw(server.port) as stream, stream.makefile("rb") as replies:
                for text, reply in said:
                    ask(replies, stream, text, reply)
                say(stream, "PING", PONG.decode())
        all_answer(server)


def tells_of_itself(program):
    """Each command of a connection is answered as Redis answers it, one by one and all in one pipeline."""
    with running(program) as server:
        with raw(server.port) as stream, stream.makefile("rb") as replies:
            told = [ask(replies, stream, text, reply) for text, reply in TOLD]
        with raw(server.port) as stream:
            stream.sendall(b"".join(asking(text) for text, _ in TOLD))
            for (text, _), reply in zip(TOLD, told):
                # A HELLO tells the number of the connection, which has as many digits.
                got = read_exactly(stream, len(reply))
                assert got == reply or text.startswith("HELLO 2"), f"{text!r} was answered {got!r}, not {reply!r}"


def forgets_the_last_client(program):
    """The next connection over the same worker has no name, and another number."""
    numbers = []
    with running(program, workers=1) as server:
        for _ in range(3):
            with raw(server.port) as stream, stream.makefile("rb") as replies:
                ask(replies, stream, "CLIENT GETNAME", NULL)
                ask(replies, stream, "CLIENT SETNAME app", OK)
                numbers.append(ask(replies, stream, "CLIENT ID", None))
                told = ask(replies, stream, "CLIENT LIST", None)
                assert b" name=app " in told and told.count(b"\n") == 3, told
            all_answer(server)
    assert len(set(numbers)) == 3, numbers


def answers_in_order(program):
    """Answers of the connection stand between those of the keyspace, in the order of the requests."""
    asked = ["XADD s 1-0 f v", "ECHO a", "XREADGROUP GROUP g c STREAMS s >", "FOO", "XLEN s", "CLIENT ID", "XDEL s 1-0"]
    with running(program) as server, raw(server.port) as stream, stream.makefile("rb") as replies:
        stream.sendall(b"".join(map(asking, asked)))
        got = [read_reply(replies) for _ in asked]
        assert got[:2] == [bulk("1-0").encode(), bulk("a").encode()] and got[3] == unknown("FOO").encode(), got
        assert got[2].startswith(b"-NOGROUP") and got[4] == got[6] == number(1).encode() and got[5][:1] == b":", got


def plainly_unknown(program):
    """`serve` answers none of them."""
    with serving(program, workers=1) as server, raw(server.port) as stream:
        for text in ("HELLO", "CLIENT ID", "SELECT 0", "ECHO a", "RESET", "AUTH a", "FOO a"):
            say(stream, text, "-ERR unknown command\r\n")


CASES = [greets_libraries, tells_of_itself, forgets_the_last_client, answers_in_order, plainly_unknown]
