"""Other work on the machine: processes that only count, and end where the one that started them is gone."""
import contextlib
import subprocess
import sys


COUNT = "import os; above = os.getppid()\nwhile os.getppid() == above: pass"


@contextlib.contextmanager
def busy(count):
    started = [subprocess.Popen([sys.executable, "-c", COUNT]) for _ in range(count)]
    try:
        yield
    finally:
        for one in started:
            one.kill()
            one.wait()
