#!/usr/bin/env python3
"""Works on the crates of extra.txt, which CI leaves out, in a copy of the repository.

    extra.py fmt            lays out their files as rt fmt does
    extra.py check [NAME..] proves them, over the crates of crates.txt as they were checked last
    extra.py test [NAME..]  proves and runs their tests

The status is 0 if all pass.
"""
import os
import shutil
import subprocess
import sys

import laid_down


def lay_out(crate):
    """Lays out the files of a crate, and takes over what has changed."""
    done = subprocess.run(["rt", "fmt"], cwd=crate)
    for path, place in laid_down.files_of(os.path.basename(crate)):
        shutil.copyfile(os.path.join(crate, place), path)
    return done.returncode == 0


def passes(command, crate):
    if command == "fmt":
        return lay_out(crate)
    done = subprocess.run(["rt", command], cwd=crate)
    print(f"{os.path.basename(crate)}: {'passed' if done.returncode == 0 else 'failed'}", flush=True)
    return done.returncode == 0


def main(arguments):
    command, names = arguments[:1], arguments[1:]
    listed = laid_down.lines_of("extra.txt")
    if command not in (["fmt"], ["check"], ["test"]) or any(name not in listed for name in names):
        print(__doc__)
        return 2
    with laid_down.new_folder() as folder:
        crates = laid_down.lay_down(folder, names or list(listed))
        return 0 if all([passes(command[0], crate) for crate in crates]) else 1


if __name__ == "__main__":
    sys.exit(main(sys.argv[1:]))
