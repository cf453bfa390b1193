#!/usr/bin/env python3
"""Proves and builds the program, and prints a line for each crate that is proved anew.

    build.py LOG        all that the toolchain prints goes to the file LOG

The status is 0 if the program is built.
"""
import os
import re
import shutil
import subprocess
import sys
import time

TOP = os.path.dirname(os.path.dirname(os.path.abspath(__file__)))
CRATE = os.path.join(TOP, "crates", "xs_server")


def crates_below(name):
    """The crates that a crate stands on, and itself, each behind those that it uses: as crates.txt lists them."""
    uses = {}
    with open(os.path.join(TOP, "crates.txt"), encoding="utf-8") as lines:
        for line in lines:
            if ":" in line and not line.startswith("#"):
                head, _, deps = line.partition(":")
                uses[head.split()[0]] = deps.split()
    found = []

    def visit(crate):
        for below in uses.get(crate, []):
            visit(below)
        if crate in uses and crate not in found:
            found.append(crate)

    visit(name)
    return found


def tell(lines, log, crates):
    """Writes these lines to the log, and says which crate is at work, and of each one that is done how many of its functions
    are proved, and in what time."""
    began, verdicts, name = time.monotonic(), [], ""
    for line in lines:
        log.write(line)
        function = re.match(r"fn (\w+)::\S+: (.*)", line)
        if function:
            name = function[1]
            if not verdicts:
                place = crates.index(name) + 1 if name in crates else len(crates)
                print(f"{place} of {len(crates)}  {name} ..", flush=True)
            verdicts.append(function[2].startswith("proved"))
        if line.startswith(("logic=", "only=")):
            if verdicts:
                seconds = time.monotonic() - began
                print(f"    {sum(verdicts)} of {len(verdicts)} functions proved, {seconds:.0f} s", flush=True)
            began, verdicts = time.monotonic(), []


def main(arguments):
    if len(arguments) != 1:
        print(__doc__)
        return 2
    if shutil.which("rt") is None:
        print("rt, the command of the Rattle toolchain, is missing: README.md says what is needed")
        return 1
    path = os.path.abspath(arguments[0])
    os.makedirs(os.path.dirname(path), exist_ok=True)
    crates = crates_below("xs_server")
    print(f"proving and building {len(crates)} crates; {arguments[0]} says more", flush=True)
    with open(path, "w", encoding="utf-8") as log, open(os.path.join(CRATE, "stdin"), encoding="ascii") as script:
        child = subprocess.Popen(["rt", "run", "--", "script"], cwd=CRATE, stdin=script, stdout=subprocess.DEVNULL,
                                 stderr=subprocess.PIPE, text=True)
        tell(child.stderr, log, crates)
    if child.wait() != 0:
        print(f"the program isn't built; {arguments[0]} says why")
    return child.returncode


if __name__ == "__main__":
    sys.exit(main(sys.argv[1:]))
