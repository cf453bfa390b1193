"""The work of a queue by redis-cli: redis_cli.py PORT

Each run of redis-cli does the lines of clients/steps.txt that stand together and have one name, from its standard
input. The step of all bytes is left out, since redis-cli ends a text in JSON at a byte of 0.
"""
import itertools
import json
import os
import subprocess
import sys

from forms import entries, say, text, texts

STEPS = os.path.join(os.path.dirname(os.path.abspath(__file__)), "steps.txt")


def pairs_of(found):
    return entries((one[0], one[1] and list(zip(one[1][::2], one[1][1::2]))) for one in found)


FORMS = {
    "value": text,
    "values": texts,
    "entries": pairs_of,
    "streams": lambda found: pairs_of(found[0][1] if found else []),
    "pending": lambda found: f"{found[0]} {text(found[1])} {text(found[2])} " + " ".join(
        f"{text(name)}={text(count)}" for name, count in found[3]),
    "rows": lambda found: " ".join(f"{text(row[0])}/{text(row[1])}/{row[3]}" for row in found),
    "scan": lambda found: f"{text(found[0])} {pairs_of(found[1])}",
}


def told(shape, line):
    if line.startswith("error:"):
        return "error " + json.loads(line[len("error:"):]).split()[0]
    return FORMS[shape](json.loads(line))


def main(port):
    with open(STEPS, encoding="ascii") as steps:
        lines = [line.rstrip("\n").split("|") for line in steps if "bytes" not in line.split("|")[1]]
    for step, group in itertools.groupby(lines, key=lambda line: line[1]):
        asked = list(group)
        done = subprocess.run(["redis-cli", "-p", port, "-2", "--json"], capture_output=True, check=True, timeout=30,
                              input="".join(f"{words}\n" for _, _, _, words in asked).encode())
        answers = done.stdout.decode().split("\n")[:-1]
        say(step, " ".join(told(one[2], answer) for one, answer in zip(asked, answers, strict=True)))


if __name__ == "__main__":
    main(*sys.argv[1:])
