"""A repository that is laid down for a while: the crates of crates.txt, and some of those of extra.txt."""
import os
import re
import shutil
import subprocess
import tempfile

TOP = os.path.dirname(os.path.dirname(os.path.abspath(__file__)))
EXTRA = os.path.join(TOP, "extra")


def new_folder():
    """A folder for a while, on the device of the repository, so that `link` copies nothing."""
    place = os.path.join(TOP, "out")
    os.makedirs(place, exist_ok=True)
    return tempfile.TemporaryDirectory(dir=place)


def lines_of(name):
    """The lines of a list of crates, by the crates' names."""
    with open(os.path.join(TOP, name), encoding="utf-8") as listed:
        lines = [line for line in listed.read().splitlines() if line and not line.startswith("#")]
    return {re.match(r"\w+", line)[0]: line for line in lines}


def link(source, copy):
    """Gives a file one more name, or copies it if it lies on another device."""
    try:
        os.link(source, copy)
    except OSError:
        shutil.copy2(source, copy)


def copy_crate(source, copy):
    """Copies the sources of a crate. What was proved of it is gigabytes, which rt replaces and never writes to, so it
    has its files only once."""
    shutil.copytree(source, copy, ignore=shutil.ignore_patterns("out"))
    proved = os.path.join(source, "out")
    if os.path.isdir(proved):
        shutil.copytree(proved, os.path.join(copy, "out"), copy_function=link)


def files_of(name):
    """The files of an extra crate: where each stands, and its place in the crate that is laid down."""
    folder = os.path.join(EXTRA, name)
    for at, _, files in os.walk(folder):
        for file in files:
            path = os.path.join(at, file)
            yield path, os.path.relpath(path, folder).removesuffix(".txt")


def lay_extra(folder, name):
    """Lays down an extra crate."""
    crate = os.path.join(folder, "crates", name)
    for path, place in files_of(name):
        to = os.path.join(crate, place)
        os.makedirs(os.path.dirname(to), exist_ok=True)
        shutil.copy(path, to)
    return crate


def lay_down(folder, names=()):
    """Lays down the crates of crates.txt, and these of extra.txt; gives the folders of the latter."""
    listed, extra = lines_of("crates.txt"), lines_of("extra.txt")
    lines = [*listed.values(), *(extra[name] for name in names)]
    with open(os.path.join(folder, "crates.txt"), "w", encoding="utf-8") as out:
        out.write("\n".join([*lines, ""]))
    shutil.copy2(os.path.join(TOP, "HANDLES"), folder)
    for crate in listed:
        copy_crate(os.path.join(TOP, "crates", crate), os.path.join(folder, "crates", crate))
    subprocess.run(["git", "init", "-q"], cwd=folder, check=True)
    return [lay_extra(folder, name) for name in names]


def build_by_run(crate, words):
    """Builds the program of this crate by a run with these words on no input, and gives its path."""
    asked = ["rt", "run", "--", *words]
    subprocess.run(asked, cwd=crate, check=True, stdin=subprocess.DEVNULL, stdout=subprocess.DEVNULL)
    return os.path.join(crate, "out", os.path.basename(crate))


def build(folder, name, words=()):
    """Lays down an extra crate, builds its program by a run with these words, and gives its path."""
    crate, = lay_down(folder, [name])
    return build_by_run(crate, words)
