#!/usr/bin/env python3
"""Sends connections made at random to the program as a server, and compares what is answered.

    sessions.py [--bytes N] [--seed N] PROGRAM

A connection is a list of almost-requests: whole ones with words of any bytes, requests of no words, wrong headers,
requests with a byte changed or some left out, and a cut end. It is sent in pieces made at random, while the replies are
read. What is wanted is what the plain reader below makes of the whole list of bytes.
The last line is 'N connections, M bytes, peak P MiB'; the status is 1 where an answer differs or the peak is 64 MiB.
"""
import argparse
import contextlib
import random
import socket
import sys
import threading

from served import raw, read_to_end, serving

MOST_WORDS, MOST_BYTES, LONGEST_HEADER = 1_048_576, 536_870_912, 31
PEAK = 64 * 2**20


# ---- the plain reader: RESP protocol specification, version 2, with the limits of this server


class Wrong(Exception):
    """The bytes are no request, whatever follows."""


class Unfinished(Exception):
    """More bytes decide."""


def header(data, at, marker, limit):
    """The number of the header at a place, and the place behind it."""
    if at == len(data):
        raise Unfinished
    if data[at] != marker:
        raise Wrong
    line = data[at + 1 : at + LONGEST_HEADER]
    text, cr, _ = line.partition(b"\r")
    behind = at + 1 + len(text) + 1
    if not cr:
        raise Wrong if len(line) == LONGEST_HEADER - 1 else Unfinished
    if behind == len(data):
        raise Unfinished
    if data[behind] != ord("\n"):
        raise Wrong
    if marker == ord("*") and text == b"-1":
        return 0, behind + 1
    if not text.isdigit() or (text[0] == ord("0") and len(text) > 1) or int(text) > limit:
        raise Wrong
    return int(text), behind + 1


def word(data, at):
    size, start = header(data, at, ord("$"), MOST_BYTES)
    end = start + size
    for place, byte in ((end, ord("\r")), (end + 1, ord("\n"))):
        if place >= len(data):
            raise Unfinished
        if data[place] != byte:
            raise Wrong
    return data[start:end], end + 2


def request(data, at):
    count, at = header(data, at, ord("*"), MOST_WORDS)
    words = []
    for _ in range(count):
        text, at = word(data, at)
        words.append(text)
    return words, at


def reply(words):
    name, *others = words
    if name.lower() == b"quit":
        return b"+OK\r\n"
    if name.lower() != b"ping":
        return b"-ERR unknown command\r\n"
    if len(others) > 1:
        return b"-ERR wrong number of arguments\r\n"
    return b"$%d\r\n%s\r\n" % (len(others[0]), others[0]) if others else b"+PONG\r\n"


def served(data):
    """What a connection is answered, up to its end."""
    at, answers = 0, []
    while at < len(data):
        try:
            words, at = request(data, at)
        except Wrong:
            answers.append(b"-ERR Protocol error\r\n")
            break
        except Unfinished:
            break
        if words:
            answers.append(reply(words))
            if words[0].lower() == b"quit":
                break
    return b"".join(answers)


# ---- the maker


WRONG = (
    *(b"*1\r\n$03\r\nabc\r\n", b"*\r\n", b"*-2\r\n", b"*01\r\n", b"*1\r\n$-1\r\n", b"PING\r\n", b"*1\r\n$4\r\nPINGx"),
    *(b"*1\r\n$1\r\na\rx", b"*1\rx", b"$1\r\n", b"*1\r\n*1\r\n", b"*1048577\r\n", b"*1\r\n$536870913\r\n", b"*" + b"1" * 30),
    *(b"*1\r\n$+4\r\nPING\r\n", b"*1 \r\n", b"*1\n$4\nPING\n", b"*18446744073709551617\r\n", b"*0x1\r\n", b"\r\n"),
)
PROMISES = (b"*1048576\r\n", b"*2\r\n$536870912\r\n", b"*3\r\n$4\r\nPING\r\n")


def binary(made, most):
    return made.randbytes(made.randrange(most))


def spelled(words):
    return b"*%d\r\n" % len(words) + b"".join(b"$%d\r\n%s\r\n" % (len(text), text) for text in words)


def almost_request(made):
    """A request, or what looks like one; mostly one."""
    kind = made.randrange(1000)
    if kind < 300:
        return spelled([made.choice([b"PING", b"ping", b"PiNg"])])
    if kind < 600:
        return spelled([b"ping", binary(made, made.choice([3, 40, 40, 400, 4_000]))])
    if kind < 850:
        return spelled([b"?" + binary(made, 20), *(binary(made, 300) for _ in range(made.randrange(6)))])
    if kind < 900:
        return made.choice([b"*0\r\n", b"*-1\r\n"])
    if kind < 990:
        return spelled([b"ping"] * made.randrange(1, 5))
    if kind < 993:
        return spelled([b"quit", *(binary(made, 9) for _ in range(made.randrange(3)))])
    if kind < 995:
        return made.choice(WRONG)
    if kind < 996:
        return made.choice(PROMISES)
    whole = bytearray(spelled([b"ping", binary(made, 50)]))
    at = made.randrange(len(whole))
    if kind < 998:
        whole[at] = made.randrange(256)
    else:
        del whole[at : at + made.randrange(1, 5)]
    return bytes(whole)


def connection(made):
    parts = [almost_request(made) for _ in range(made.randrange(1, 250))]
    if made.randrange(200) == 0:
        parts.append(spelled([b"ping", made.randbytes(made.randrange(2_000_000))]))
    data = b"".join(parts)
    return data[: made.randrange(1, len(data) + 1)] if made.randrange(2) else data


# ---- the sender


def send(stream, data, made):
    """Sends the bytes cut at random, and the end; a peer that has ended the connection is passed over."""
    most, at = made.choice([2, 20, 1000, 16_384, 100_000]), 0
    with contextlib.suppress(OSError):
        while at < len(data):
            piece = data[at : at + made.randrange(1, most + 1)]
            stream.sendall(piece)
            at += len(piece)
        stream.shutdown(socket.SHUT_WR)


def answered(port, data, seed):
    """What the server on this port answers a connection of these bytes, cut as the seed says."""
    with raw(port) as stream:
        stream.setsockopt(socket.IPPROTO_TCP, socket.TCP_NODELAY, True)
        sender = threading.Thread(target=send, args=(stream, data, random.Random(seed)))
        sender.start()
        got, _ = read_to_end(stream)
        sender.join()
    return got


def first_difference(got, wanted):
    at = next((at for at, (one, other) in enumerate(zip(got, wanted)) if one != other), min(len(got), len(wanted)))
    return f"at byte {at} of the answer: got {got[at : at + 60]}, wanted {wanted[at : at + 60]}"


def main():
    parser = argparse.ArgumentParser(description=__doc__, formatter_class=argparse.RawDescriptionHelpFormatter)
    parser.add_argument("--bytes", type=int, default=100_000_000)
    parser.add_argument("--seed", type=int, default=1)
    parser.add_argument("program")
    asked = parser.parse_args()
    made, sent, count, failed = random.Random(asked.seed), 0, 0, 0
    with serving(asked.program) as server:
        while sent < asked.bytes:
            data = connection(made)
            got, wanted = answered(server.port, data, made.random()), served(data)
            if got != wanted:
                print(f"connection {count} differs {first_difference(got, wanted)}")
                failed += 1
            sent, count = sent + len(data), count + 1
        peak = server.peak()
    print(f"{count} connections, {sent} bytes, peak {peak / 2**20:.1f} MiB")
    return 1 if failed or peak >= PEAK else 0


if __name__ == "__main__":
    sys.exit(main())
