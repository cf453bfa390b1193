#!/usr/bin/env python3
"""Clients of others do the work of a queue on the program and on a real Redis 7.0, and tell the same answers.

    clients.py [--show] PROGRAM

Each client of clients/ adds jobs, reads them by two consumers, acknowledges, leaves some and claims them by id and by
scan, trims, deletes, and is refused what is wrong, on a server of its own; it prints a line for each step, in the form
that clients/forms.py tells. All lines have to be those that the same client prints with Redis, and a step has to be
answered alike to all clients. Those of clients/guarded do a thousand jobs behind a name, a database, a password and
transactions, and those of clients/started start and tell what they found, with `run` and with Redis. A client that
isn't installed is skipped, and counts as neither.
`--show` prints the lines of each. The last line is 'N passed, M failed'; the status is 1 where M > 0. The
Makefile names the Debian packages.
"""
import argparse
import contextlib
import os
import shutil
import subprocess
import sys
import tempfile
from dataclasses import dataclass, field

import real_redis

sys.path.append(os.path.join(os.path.dirname(__file__), "../served"))
sys.path.append(os.path.join(os.path.dirname(__file__), "../../scripts"))
import passwords  # noqa: E402
from needs import PYTHON, need  # noqa: E402
from resp import connect  # noqa: E402
from served import asking, free_port, running, serving  # noqa: E402

HERE = os.path.join(os.path.dirname(os.path.abspath(__file__)), "clients")
STEPS = os.path.join(HERE, "steps.txt")
WORKERS = 16


def in_folder(words, folder):
    return [word.replace("@", folder) for word in words]


@dataclass
class Client:
    """How a client is run, whether it is there, and what makes it. @ stands for the folder of what was made."""

    name: str
    words: list
    there: list
    made: list = field(default_factory=list)
    surroundings: dict = field(default_factory=dict)
    behind: list = field(default_factory=list)

    def is_there(self):
        if shutil.which(self.there[0]) is None:
            return False
        done = subprocess.run(self.there, env=self.environment(), capture_output=True, timeout=60)
        return done.returncode == 0

    def environment(self):
        return {**os.environ, **self.surroundings}

    def make(self, folder):
        if self.made:
            subprocess.run(in_folder(self.made, folder), env=self.environment(), check=True, timeout=300)

    def told(self, folder, port):
        """The answers of each step, by its name."""
        words = [*in_folder(self.words, folder), str(port), *self.behind]
        done = subprocess.run(words, capture_output=True, env=self.environment(), timeout=60)
        if done.returncode != 0:
            raise AssertionError(f"status {done.returncode}: {done.stderr.decode()[-500:]}")
        return dict(line.split(": ", 1) for line in done.stdout.decode().splitlines())


def in_here(name):
    return os.path.join(HERE, name)


def redis_py(variant):
    module = "hiredis, redis" if "hiredis" in variant else "redis"
    return Client(f"redis-py, {variant}", [PYTHON, in_here("redis_py.py")], [PYTHON, "-c", f"import {module}"],
                  behind=[variant])


NODE = {"NODE_PATH": "/usr/share/nodejs"}
GO = {"GOPATH": "/usr/share/gocode", "GO111MODULE": "off", "GOFLAGS": "-buildvcs=false"}
CLIENTS = [
    *(redis_py(variant) for variant in ("python", "hiredis", "python-asyncio", "hiredis-asyncio")),
    Client("redis-cli", [PYTHON, in_here("redis_cli.py")], ["redis-cli", "--version"]),
    Client("hiredis", ["@/hiredis"], ["sh", "-c", "command -v cc && test -f /usr/include/hiredis/hiredis.h"],
           made=["cc", "-O1", "-o", "@/hiredis", in_here("hiredis.c"), "-lhiredis"], behind=[STEPS]),
    Client("node-redis", ["node", in_here("node_redis.js")], ["node", "-e", 'require("redis")'], surroundings=NODE),
    Client("redis-rb", ["ruby", in_here("redis_rb.rb")], ["ruby", "-e", 'require "redis"']),
    Client("redigo", ["@/redigo"], ["go", "list", "github.com/gomodule/redigo/redis"],
           made=["go", "build", "-o", "@/redigo", in_here("redigo.go")], surroundings=GO, behind=[STEPS]),
    Client("phpredis", ["php", in_here("phpredis.php")], ["php", "-r", 'exit(class_exists("Redis") ? 0 : 1);']),
    Client("Predis", ["php", in_here("predis.php")],
           ["php", "-r", 'exit((@include "Predis/autoload.php") ? 0 : 1);']),
]


def guarded(name, words, there, **how):
    """A client that does a thousand jobs behind a name, a database, a password and transactions."""
    return Client(f"{name}, guarded", words, there, **how)


GUARDED = [
    guarded("redis-py", [PYTHON, in_here("guarded/redis_py.py")], [PYTHON, "-c", "import redis"]),
    guarded("hiredis", ["@/hiredis"], ["sh", "-c", "command -v cc && test -f /usr/include/hiredis/hiredis.h"],
            made=["cc", "-O1", "-o", "@/hiredis", in_here("guarded/hiredis.c"), "-lhiredis"]),
    guarded("node-redis", ["node", in_here("guarded/node_redis.js")], ["node", "-e", 'require("redis")'],
            surroundings=NODE),
    guarded("redis-rb", ["ruby", in_here("guarded/redis_rb.rb")], ["ruby", "-e", 'require "redis"']),
    guarded("redigo", ["@/redigo"], ["go", "list", "github.com/gomodule/redigo/redis"],
            made=["go", "build", "-o", "@/redigo", in_here("guarded/redigo.go")], surroundings=GO),
    guarded("phpredis", ["php", in_here("guarded/phpredis.php")],
            ["php", "-r", 'exit(class_exists("Redis") ? 0 : 1);']),
    guarded("Predis", ["php", in_here("guarded/predis.php")],
            ["php", "-r", 'exit((@include "Predis/autoload.php") ? 0 : 1);']),
]
STARTED = [
    Client("prometheus-redis-exporter", [PYTHON, in_here("started/redis_exporter.py")],
           ["prometheus-redis-exporter", "--version"]),
    Client("Symfony Messenger", ["php", in_here("started/symfony_messenger.php")],
           ["php", "-r", 'exit((@include "Symfony/Component/Messenger/Bridge/Redis/autoload.php") ? 0 : 1);']),
]
DONE = "1000, left: 0, pending: 0"


def difference(what, ours, theirs):
    """What is told of the first step that was answered in two ways."""
    for step in {**theirs, **ours}:
        if ours.get(step) != theirs.get(step):
            return f"{what}, step {step!r}:\n  {ours.get(step)}\n  {theirs.get(step)}"
    return None


def faults_of(client, program, folder, standard):
    """The first difference from Redis, or from the answers that the other clients had."""
    client.make(folder)
    with serving(program, workers=WORKERS) as server:
        ours = client.told(folder, server.port)
        again = client.told(folder, server.port)
    with real_redis.started(port=free_port()) as port:
        theirs = client.told(folder, port)
    common = {step: answer for step, answer in standard.items() if step in ours}
    standard.update({step: answer for step, answer in ours.items() if step not in standard})
    return ours, (difference("here and on Redis", ours, theirs) or difference("the first time and again", ours, again)
                  or difference("here and by other clients", {step: ours[step] for step in common}, common))


def faults_of_guarded(client, program, folder, _):
    """The first difference from Redis, or from what has to be done."""
    client.make(folder)
    with passwords.guarded(program, workers=WORKERS) as server:
        ours = client.told(folder, server.port)
    with real_redis.started(port=free_port()) as port:
        with contextlib.closing(connect(port)) as stream:
            stream.sendall(asking("CONFIG SET requirepass secret"))
            stream.recv(100)
        theirs = client.told(folder, port)
    return ours, difference("here and on Redis", ours, theirs) or difference("here", {"done": ours.get("done")}, {"done": DONE})


def faults_of_started(client, program, folder, _):
    """The first difference from Redis of what it found."""
    with running(program, workers=WORKERS) as server:
        ours = client.told(folder, server.port)
    with real_redis.started(port=free_port()) as port:
        theirs = client.told(folder, port)
    return ours, difference("here and on Redis", ours, theirs)


def main():
    parser = argparse.ArgumentParser(description=__doc__, formatter_class=argparse.RawDescriptionHelpFormatter)
    parser.add_argument("--show", action="store_true")
    parser.add_argument("program")
    given = parser.parse_args()
    need("redis-server", "redis-server")
    passed, failed, standard = 0, 0, {}
    kinds = ((CLIENTS, faults_of), (GUARDED, faults_of_guarded), (STARTED, faults_of_started))
    for client, faults in ((client, faults) for clients, faults in kinds for client in clients):
        if not client.is_there():
            print(f"{client.name}: skipped, it isn't installed", flush=True)
            continue
        try:
            with tempfile.TemporaryDirectory() as folder:
                ours, fault = faults(client, given.program, folder, standard)
        except (AssertionError, OSError, subprocess.SubprocessError) as error:
            ours, fault = {}, f"{type(error).__name__} {error}"
        if given.show:
            print("".join(f"  {step}: {answer}\n" for step, answer in ours.items()), end="")
        print(f"{client.name}: {fault or f'{len(ours)} steps are answered as by Redis'}", flush=True)
        passed, failed = passed + (fault is None), failed + (fault is not None)
    print(f"{passed} passed, {failed} failed")
    return 1 if failed else 0


if __name__ == "__main__":
    sys.exit(main())
