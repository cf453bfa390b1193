#!/usr/bin/env python3
"""Refuses the allocations of tests, one after the other.

    refusals.py [CRATE ..]      the tests of these crates, or of all

Tests that only refusals can fail are crates of extra.txt, so that CI doesn't prove them. It builds the tests by
`rt test`, and then runs the test program with refuse.c loaded into it (`cc` makes a library of that file). A test whose
name says `a_refused` or `a_refusal` runs with its first allocation refused, then with its second, and so on, until a run
asks for fewer; one whose name says `take_no_memory` or `takes_no_memory` with all refused from the first on, then from
the second on, and so on. Each run has to pass. The last line is 'N passed, M failed', by runs; the status is 1 if M > 0
or nothing ran. Debian: apt-get install gcc
"""
import os
import subprocess
import sys
import tempfile

sys.path.append(os.path.join(os.path.dirname(__file__), "../scripts"))
import laid_down  # noqa: E402
from needs import need  # noqa: E402

HERE = os.path.dirname(os.path.abspath(__file__))
MANY = 1_000_000_000


def how_many(test):
    """How many allocations are refused at once, or None where the test isn't for this."""
    name = test.rsplit("::", 1)[-1]
    if name.startswith(("a_refused", "a_refusal")):
        return 1
    if name.endswith(("take_no_memory", "takes_no_memory")):
        return MANY
    return None


def run(program, test, library, told, first, count):
    """Whether the test passes, and how many allocations it asked for."""
    asked = {"LD_PRELOAD": library, "REFUSE_TOLD": told, "REFUSE_FROM": str(first), "REFUSE_TO": str(first + count - 1)}
    if os.path.exists(told):
        os.remove(told)
    done = subprocess.run([program, test], env={**os.environ, **asked}, capture_output=True, timeout=60)
    if done.returncode != 0 or not os.path.exists(told):
        return False, 0
    return True, int(open(told, encoding="ascii").read())


def step(program, test, library, told):
    """How many runs passed, and the numbers of the allocations at which one failed."""
    count, passed, failed = how_many(test), 0, []
    for first in range(1, MANY):
        passes, asked = run(program, test, library, told, first, count)
        if passes:
            passed += 1
        else:
            failed.append(first)
        if (passes and asked < first) or len(failed) > 20:
            return passed, failed
    return passed, failed


def built(folder, crate):
    """The test program of a crate, or None if its tests don't pass with ample memory."""
    extra = laid_down.lay_down(folder, [crate] if crate in laid_down.lines_of("extra.txt") else [])
    place = extra[0] if extra else os.path.join(folder, "crates", crate)
    done = subprocess.run(["rt", "test"], cwd=place, stdout=subprocess.DEVNULL)
    return os.path.join(place, "out", f"{crate}_tests") if done.returncode == 0 else None


def refuse(program, crate, library, told):
    listed = subprocess.run([program, "--list"], capture_output=True, text=True, check=True).stdout.splitlines()
    tests = [line.removesuffix(": test") for line in listed if line.endswith(": test")]
    passed = failed = 0
    for test in filter(how_many, tests):
        good, bad = step(program, test, library, told)
        passed, failed = passed + good, failed + len(bad)
        print(f"{crate} {test}: {good} passed" + (f", failed where it refused {bad}" if bad else ""), flush=True)
    return passed, failed


def build_and_refuse(crate, library, told):
    with laid_down.new_folder() as folder:
        program = built(folder, crate)
        if program:
            return refuse(program, crate, library, told)
        print(f"{crate}: its tests don't pass with memory")
        return 0, 1


def all_tested():
    """The crates whose tests are run with allocations refused: those for this, and those of crates.txt that have tests."""
    source = [(name, os.path.join(laid_down.TOP, "crates", name, "src")) for name in laid_down.lines_of("crates.txt")]
    tested = [name for name, at in source if any("tests.rt" in names for _, _, names in os.walk(at))]
    return [*(name for name in laid_down.lines_of("extra.txt") if name.endswith("_refusals")), *tested]


def main(asked):
    need("cc", "gcc")
    crates = asked or all_tested()
    with tempfile.TemporaryDirectory() as folder:
        library, told = os.path.join(folder, "refuse.so"), os.path.join(folder, "told")
        subprocess.run(["cc", "-O2", "-shared", "-fPIC", "-o", library, os.path.join(HERE, "refuse.c")], check=True)
        counts = [build_and_refuse(crate, library, told) for crate in crates]
    passed, failed = (sum(count) for count in zip(*counts))
    print(f"{passed} passed, {failed} failed")
    return 1 if failed or not passed else 0


if __name__ == "__main__":
    sys.exit(main(sys.argv[1:]))
