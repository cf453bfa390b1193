"""Programs that are measured: how one of plain Rust is built, and what a run told and used."""
import argparse
import os
import subprocess
import sys

HERE = os.path.dirname(os.path.abspath(__file__))
sys.path.append(os.path.join(os.path.dirname(HERE), "scripts"))
import laid_down  # noqa: E402,F401


def build_plain(folder, *source):
    """Builds a program of plain Rust, and gives its path."""
    program = os.path.join(folder, "plain")
    path = os.path.join(HERE, *source)
    subprocess.run(["rustc", "--edition", "2021", "-O", "-o", program, path], check=True)
    return program


def run(program, *words):
    """What the program told, and what the kernel says that it used."""
    child = subprocess.Popen([program, *words], stdout=subprocess.PIPE, text=True)
    told = child.stdout.read()
    _, status, used = os.wait4(child.pid, 0)
    child.returncode = os.waitstatus_to_exitcode(status)
    if child.returncode != 0:
        raise SystemExit(f"{program} {' '.join(words)}: status {child.returncode}")
    return told, used


def runs(told):
    """How many runs the command line asks for; the text is what it tells if it is asked for help."""
    parser = argparse.ArgumentParser(description=told, formatter_class=argparse.RawDescriptionHelpFormatter)
    parser.add_argument("--runs", type=int, default=5)
    return parser.parse_args().runs
