#!/usr/bin/env python3
"""Runs great scripts and command lines through the program: 10,000 entries, replies of 10 MB, lines at their limit.

    great.py PROGRAM

No proof can tell a want of memory that is invented past some size; so these have ample memory, and each reply is the
one that the Redis page of its command tells. One more has too little memory for its additions: these are refused, and
the commands of consumers are not. The last line is 'N passed, M failed'; the status is 1 where M > 0.
"""
import io
import os
import resource
import subprocess
import sys

sys.path.append(os.path.join(os.path.dirname(__file__), "../served"))
from resp import array, bulk, entry, number, read_reply  # noqa: E402

MANY = 10_000
GREAT = 1_000_000
LINE_LIMIT = 1_048_576


IDS = [f"{place}-0" for place in range(1, MANY + 1)]
ALL_IDS = " ".join(IDS)
ENTRIES = [entry(identifier, "f", "v") for identifier in IDS]
ADDED = [(f"XADD s {identifier} f v", bulk(identifier)) for identifier in IDS]


def many_entries():
    yield from ADDED
    yield "XLEN s", number(MANY)
    yield "XRANGE s - +", array(ENTRIES)
    yield "XREVRANGE s + -", array(ENTRIES[::-1])
    yield f"XTRIM s MAXLEN {MANY - 1}", number(1)
    yield f"XDEL s {ALL_IDS}", number(MANY - 1)
    yield "XLEN s", number(0)


def many_deliveries():
    yield from ADDED
    yield "XGROUP CREATE s g 0", "+OK\r\n"
    yield f"XREADGROUP GROUP g a COUNT {MANY} STREAMS s >", array([array([bulk("s"), array(ENTRIES)])])
    yield f"XREADGROUP GROUP g a COUNT {MANY} STREAMS s 0", array([array([bulk("s"), array(ENTRIES)])])
    yield "XPENDING s g", array([
        number(MANY), bulk(IDS[0]), bulk(IDS[-1]), array([array([bulk("a"), bulk(str(MANY))])])])
    yield f"XPENDING s g - + {MANY}", array([
        array([bulk(identifier), bulk("a"), number(0), number(2)]) for identifier in IDS])
    yield f"XCLAIM s g b 0 {ALL_IDS}", array(ENTRIES)
    yield f"XAUTOCLAIM s g c 0 - COUNT {MANY} JUSTID", array([
        bulk("0-0"), array([bulk(identifier) for identifier in IDS]), array([])])
    yield f"XACK s g {ALL_IDS}", number(MANY)
    yield "XPENDING s g", array([number(0), "$-1\r\n", "$-1\r\n", "*-1\r\n"])


def many_consumers():
    yield from ADDED
    yield "XGROUP CREATE s g 0", "+OK\r\n"
    for place, one in enumerate(ENTRIES):
        yield f"XREADGROUP GROUP g c{place:05} COUNT 1 STREAMS s >", array([array([bulk("s"), array([one])])])
    yield "XPENDING s g", array([
        number(MANY), bulk(IDS[0]), bulk(IDS[-1]),
        array([array([bulk(f"c{place:05}"), bulk("1")]) for place in range(MANY)])])


def many_fields():
    fields = [text for place in range(MANY) for text in (f"f{place}", f"v{place}")]
    yield "XADD s 1-0 " + " ".join(fields), bulk("1-0")
    yield "XRANGE s - +", array([entry("1-0", *fields)])


def many_keys():
    keys = [f"k{place}" for place in range(MANY)]
    for key in keys:
        yield f"XADD {key} 1-0 f v", bulk("1-0")
    yield "DEL " + " ".join(keys), number(MANY)


def great_values():
    values = [chr(ord("a") + place) * GREAT for place in range(10)]
    for identifier, value in zip(IDS, values):
        yield f"XADD s {identifier} f {value}", bulk(identifier)
    yield "XRANGE s - +", array([entry(identifier, "f", value) for identifier, value in zip(IDS, values)])


def longest_line():
    text = "x" * (LINE_LIMIT - len("0 c PING "))
    yield f"PING {text}", bulk(text)


SCRIPTS = [many_entries, many_deliveries, many_consumers, many_fields, many_keys, great_values, longest_line]


def run(program, words, script=b""):
    done = subprocess.run([program, *words], input=script, capture_output=True, timeout=300)
    return done.stdout, done.returncode, done.stderr


def runs_as_told(program, script):
    pairs = list(script())
    lines = "".join(f"0 c {command}\n" for command, _ in pairs)
    return run(program, ["script"], lines.encode()) == ("".join(reply for _, reply in pairs).encode(), 0, b"")


def refuses_additions_first(program):
    """Under a limit of its address space additions are refused, and nothing that consumers ask. Once the queue is empty
    there is memory for additions again."""
    limit, count = 60_000_000, 60_000
    added = [f"XADD q {place}-1 f {'v' * 1000}" for place in range(1, count + 1)]
    asked = ["XREADGROUP GROUP g c COUNT 100 STREAMS q >", "XPENDING q g", "XLEN q"] * 100
    commands = ["XGROUP CREATE q g 0 MKSTREAM", *added, *asked, "XTRIM q MAXLEN 0", "XADD q 100000-1 f v"]
    done = subprocess.run([program, "script"], input="".join(f"0 c {command}\n" for command in commands).encode(),
                          capture_output=True, timeout=300,
                          preexec_fn=lambda: resource.setrlimit(resource.RLIMIT_AS, (limit, limit)))
    stream = io.BytesIO(done.stdout)
    replies = [read_reply(stream) for _ in commands]
    refused = [reply.startswith(b"-OOM ") for reply in replies]
    entries = refused[1:count + 1].count(False)
    return (done.returncode == 0 and not stream.read() and 1000 < entries < count and True not in refused[count + 1:]
            and replies[-2:] == [number(entries).encode(), bulk("100000-1").encode()])


def refuses_a_longer_line(program):
    line = "0 c PING " + "x" * (LINE_LIMIT + 1 - len("0 c PING ")) + "\n"
    return run(program, ["script"], line.encode()) == (b"", 2, b"xs_server: line 1 is not a script line\n")


def refuses_words(program, words):
    out, status, complaint = run(program, words)
    return out == b"" and status == 2 and complaint != b"xs_server: out of memory\n"


def checks(program):
    for script in SCRIPTS:
        yield script.__name__, runs_as_told(program, script)
    yield "additions are refused first", refuses_additions_first(program)
    yield "a line above the limit", refuses_a_longer_line(program)
    yield "a command line of many words", refuses_words(program, ["script"] * MANY)
    yield "a command line of a great word", refuses_words(program, ["x" * 100_000])


def main(words):
    if len(words) != 1:
        print(__doc__)
        return 2
    passed, failed = 0, 0
    for title, holds in checks(words[0]):
        if holds:
            passed += 1
        else:
            failed += 1
            print(f"{title.replace('_', ' ')}: not as told")
    print(f"{passed} passed, {failed} failed")
    return 1 if failed or not passed else 0


if __name__ == "__main__":
    sys.exit(main(sys.argv[1:]))
