#!/usr/bin/env python3
"""Runs the cases of this folder through a program that reads a script.

    run.py PROGRAM [ARG ..]

Each case is a run of its own. The last line is 'N passed, M failed'; the status is 1 where M > 0.
"""
import subprocess
import sys

from cases import read_all


def run(program, case):
    """What differs, or nothing."""
    script = "".join(line + "\n" for line in case.lines).encode()
    done = subprocess.run(program, input=script, capture_output=True, timeout=60)
    got = (done.stdout, done.returncode, done.stderr)
    want = (b"".join(case.replies), case.status, case.complaint.encode())
    return [] if got == want else [f"  want {want}", f"  got  {got}"]


def main(program):
    if not program:
        print(__doc__)
        return 2
    cases, failed = read_all(), 0
    for case in cases:
        differs = run(program, case)
        if differs:
            failed += 1
            print("\n".join([case.title, *differs]))
    print(f"{len(cases) - failed} passed, {failed} failed")
    return 1 if failed or not cases else 0


if __name__ == "__main__":
    sys.exit(main(sys.argv[1:]))
