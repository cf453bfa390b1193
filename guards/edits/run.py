#!/usr/bin/env python3
"""Tries the wrong bodies of this folder: the prover has to refuse each.

    run.py [CRATE..]        needs the toolchain

CI tries those of crates/CRATE/must-fail; the ones here show clauses that no edit there does. CRATE/NAME.edit
has the same form. In a copy of the repository they stand in the place of those in must-fail/, and `rt must-fail` tries
them, over what checks in this repository kept. It prints a line for each, with the first goal that stays open. The last
line is 'N refused, M failed'; the status is 1 if M > 0.
"""
import os
import re
import shutil
import subprocess
import sys

sys.path.append(os.path.join(os.path.dirname(__file__), "../../scripts"))
import laid_down  # noqa: E402

HERE = os.path.dirname(os.path.abspath(__file__))


def lay_down(folder, tried):
    """Copies the repository, with the edits of these crates in the place of those in must-fail/."""
    laid_down.lay_down(folder)
    for crate in tried:
        place = os.path.join(folder, "crates", crate, "must-fail")
        shutil.rmtree(place, ignore_errors=True)
        shutil.copytree(os.path.join(HERE, crate), place)


def main():
    crates = sys.argv[1:] or sorted(name for name in os.listdir(HERE) if os.path.isdir(os.path.join(HERE, name)))
    refused = failed = 0
    with laid_down.new_folder() as folder:
        lay_down(folder, crates)
        asked = ["rt", "must-fail", *crates]
        with subprocess.Popen(asked, cwd=folder, text=True, stdout=subprocess.PIPE, stderr=subprocess.STDOUT) as tries:
            for line in tries.stdout:
                print(line, end="", flush=True)
                said = re.search(r"must-fail \S+\.edit: (refused, as it must be(?!.*\(only))?", line)
                refused += bool(said and said.group(1))
                failed += bool(said and not said.group(1))
    wanted = sum(name.endswith(".edit") for crate in crates for name in os.listdir(os.path.join(HERE, crate)))
    failed += wanted - refused - failed
    print(f"{refused} refused, {failed} failed")
    sys.exit(failed > 0)


if __name__ == "__main__":
    main()
