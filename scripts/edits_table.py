#!/usr/bin/env python3
"""Writes the list of the wrong bodies that CI tries into guards/README.md.

    edits_table.py            writes it
    edits_table.py --check    says whether it is as the folders have it; the status is 1 if it isn't
"""
import os
import sys

TOP = os.path.dirname(os.path.dirname(os.path.abspath(__file__)))
PAGE = os.path.join(TOP, "guards", "README.md")
BEGIN, END = "<!-- edits: scripts/edits_table.py -->\n", "<!-- end of edits -->\n"


def edits_of(crate):
    """The names of a crate's edits."""
    folder = os.path.join(TOP, "crates", crate, "must-fail")
    files = os.listdir(folder) if os.path.isdir(folder) else []
    return sorted(file.removesuffix(".edit") for file in files if file.endswith(".edit"))


def names():
    """An item for each crate that has edits."""
    edits = {crate: edits_of(crate) for crate in sorted(os.listdir(os.path.join(TOP, "crates")))}
    return "".join(f"- `{crate}`: {', '.join(f'`{name}`' for name in edits[crate])}\n" for crate in edits if edits[crate])


def main(arguments):
    if arguments not in ([], ["--check"]):
        print(__doc__)
        return 2
    with open(PAGE, encoding="utf-8") as page:
        text = page.read()
    before, rest = text.split(BEGIN)
    new = before + BEGIN + names() + END + rest.split(END)[1]
    if arguments:
        if new != text:
            print("guards/README.md has other edits than the folders: run scripts/edits_table.py")
        return int(new != text)
    with open(PAGE, "w", encoding="utf-8") as page:
        page.write(new)
    return 0


if __name__ == "__main__":
    sys.exit(main(sys.argv[1:]))
