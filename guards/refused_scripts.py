#!/usr/bin/env python3
"""Refuses the allocations of whole scripts, one after the other.

    refused_scripts.py [--only WORD] PROGRAM [ARG ..]

Each case of tests/cases runs once with ample memory, with lines behind it that ask for all that its keys hold.
Then it runs with its first allocation refused (refuse.c, loaded into the program), then with its second, and so on,
until a run asks for fewer. A run whose replies are all as before has absorbed the refusal. Else one line is answered
`OOM out of memory`: the replies before it are as before, and a run with that line given twice has, behind the `OOM`,
all replies as before, so the refusal changed nothing. Or the program ends with status 1 and `out of memory`: what it
wrote are the replies to the lines before. The last line is 'N passed, M failed', by runs; the status is 1 where
M > 0 or nothing ran. Debian: apt-get install gcc
"""
import argparse
import io
import os
import subprocess
import sys
import tempfile

sys.path.append(os.path.join(os.path.dirname(__file__), "../scripts"))
sys.path.append(os.path.join(os.path.dirname(__file__), "../tests/cases"))
sys.path.append(os.path.join(os.path.dirname(__file__), "../tests/served"))
from cases import read_all  # noqa: E402
from needs import need  # noqa: E402
from resp import read_reply  # noqa: E402

HERE = os.path.dirname(os.path.abspath(__file__))
OOM = b"-OOM out of memory\r\n"
ENDED = b"xs_server: out of memory\n"
KEYWORDS = {"XADD", "XDEL", "XTRIM", "XLEN", "XRANGE", "XREVRANGE", "XACK", "XPENDING", "XCLAIM", "XAUTOCLAIM"}


def keys_of(lines):
    """The keys that the lines name."""
    keys = {}
    for _, _, name, *words in (line.split(" ") for line in lines):
        name = name.upper()
        if name in KEYWORDS and words:
            keys[words[0]] = None
        if name == "XGROUP" and len(words) > 1:
            keys[words[1]] = None
    return keys


def groups_of(lines):
    """The groups that the lines make."""
    parts = (line.split(" ") for line in lines)
    return dict.fromkeys(words[5] for words in parts if len(words) > 5 and [w.upper() for w in words[2:4]] == ["XGROUP", "CREATE"])


def questions(lines):
    """Lines that ask for all that the keys hold; the last ones add and read, which shows tops and cursors."""
    keys, groups = keys_of(lines), groups_of(lines)
    for key in keys:
        yield f"9000 a XRANGE {key} - +"
        for group in groups:
            yield f"9000 a XPENDING {key} {group}"
            yield f"9000 a XPENDING {key} {group} - + 100"
    for key in keys:
        yield f"9000 a XADD {key} 18446744073709551615-* f v"
        for group in groups:
            yield f"9000 a XREADGROUP GROUP {group} asker STREAMS {key} >"
            for consumer in "abcde":
                yield f"9000 a XGROUP CREATECONSUMER {key} {group} {consumer}"


class Runner:
    def __init__(self, program, folder):
        self.program, self.told = program, os.path.join(folder, "told")
        self.library = os.path.join(folder, "refuse.so")
        source = os.path.join(HERE, "refuse.c")
        subprocess.run(["cc", "-O2", "-shared", "-fPIC", "-o", self.library, source], check=True)

    def run(self, lines, refused):
        """Status, standard error, replies, and how many allocations there were."""
        asked = {"LD_PRELOAD": self.library, "REFUSE_TOLD": self.told}
        asked |= {"REFUSE_FROM": str(refused), "REFUSE_TO": str(refused)}
        if os.path.exists(self.told):
            os.remove(self.told)
        script = "".join(line + "\n" for line in lines).encode()
        done = subprocess.run(self.program, input=script, capture_output=True, timeout=60, env={**os.environ, **asked})
        stream, replies = io.BytesIO(done.stdout), []
        while stream.tell() < len(done.stdout):
            replies.append(read_reply(stream))
        return done.returncode, done.stderr, replies, int(open(self.told, encoding="ascii").read())

    def is_right(self, lines, want, refused):
        """Whether a run with this allocation refused is right, and how many allocations it asked for."""
        status, errors, replies, asked = self.run(lines, refused)
        if status != 0:
            return status == 1 and errors == ENDED and replies == want[:len(replies)], asked
        if OOM not in replies:
            return replies == want, asked
        at = replies.index(OOM)
        again = self.run([*lines[:at + 1], *lines[at:]], refused)
        return replies[:at] == want[:at] and again[:3] == (0, b"", [*want[:at], OOM, *want[at:]]), asked

    def refuse(self, case):
        """How many runs of a case passed, and the numbers of the allocations at which one failed."""
        lines = [*case.lines, *questions(case.lines)]
        status, _, want, count = self.run(lines, 0)
        if status != 0 or want[:len(case.replies)] != case.replies:
            return 0, [0]
        failed = [n for n in range(1, count + 1) if not self.is_right(lines, want, n)[0]]
        return count - len(failed), failed


def main():
    parser = argparse.ArgumentParser(description=__doc__, formatter_class=argparse.RawDescriptionHelpFormatter)
    parser.add_argument("--only", default="", help="the cases whose titles have this word")
    parser.add_argument("program", nargs="+")
    given = parser.parse_args()
    need("cc", "gcc")
    cases = [case for case in read_all() if case.status == 0 and given.only in case.title]
    passed = failed = 0
    with tempfile.TemporaryDirectory() as folder:
        runner = Runner(given.program, folder)
        for case in cases:
            good, bad = runner.refuse(case)
            passed, failed = passed + good, failed + len(bad)
            print(f"{case.title}: {good} passed" + (f", failed where it refused {bad[:20]}" if bad else ""), flush=True)
    print(f"{passed} passed, {failed} failed")
    return 1 if failed or not passed else 0


if __name__ == "__main__":
    sys.exit(main())
