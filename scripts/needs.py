"""Ends a script before it starts if something that it needs isn't installed."""
import os
import shutil
import subprocess
import sys

# Debian's modules are those of Debian's Python.
PYTHON = "/usr/bin/python3"


def is_there(name):
    """Whether there is a program of this name, a file if it is a path, or a module if it is `import NAME`."""
    if name.startswith("import "):
        return subprocess.run([PYTHON, "-c", name], stderr=subprocess.DEVNULL).returncode == 0
    return os.path.exists(name) if "/" in name else shutil.which(name) is not None


def need(name, packages, installs=False):
    """Ends the script with a line and status 2 if the name isn't there. These packages of Debian have it; what CI runs
    installs them."""
    if installs and not is_there(name):
        subprocess.run(f"apt-get update && apt-get install -y {packages}", shell=True, stdout=subprocess.DEVNULL)
    if not is_there(name):
        print(f"{name.replace('import ', 'the Python module ')} isn't installed; Debian: apt-get install {packages}")
        sys.exit(2)
