"""Reads the cases of this folder.

A file NAME.case has one case after another. Each begins with a line `case TITLE`. A line `> ..` is a script line: the
moment, the client's name and the words. The line under it is its reply, with one space between the lines of RESP2 (on
the wire each ends with CR LF); an error is one line, spaces and all. `<1-0>` stands for the entry 1-0 with the one
field f and its value v. `ends STATUS TEXT` says how a run ends that doesn't end with status 0, and what is on standard
error. `only ours: WHY` says that the case isn't compared with Redis.
"""
import os
import re
from dataclasses import dataclass, field

FOLDER = os.path.dirname(os.path.abspath(__file__))


@dataclass
class Case:
    title: str
    only_ours: bool = False
    lines: list = field(default_factory=list)
    replies: list = field(default_factory=list)
    status: int = 0
    complaint: str = ""


def entry(match):
    text = match.group(1)
    return f"*2 ${len(text)} {text} *2 $1 f $1 v"


def wire(reply):
    """The bytes of a reply."""
    if reply.startswith("-"):
        return reply.encode() + b"\r\n"
    expanded = re.sub(r"<([0-9]+-[0-9]+)>", entry, reply)
    return "".join(line + "\r\n" for line in expanded.split(" ")).encode()


def read_file(path):
    cases = []
    for line in open(path, encoding="utf-8"):
        line = line.rstrip("\n")
        if not line or line.startswith("#"):
            continue
        if line.startswith("case "):
            cases.append(Case(line[len("case "):]))
        elif line.startswith("only ours: "):
            cases[-1].only_ours = True
        elif line.startswith("> "):
            cases[-1].lines.append(line[2:])
        elif line.startswith("ends "):
            _, status, complaint = line.split(" ", 2)
            cases[-1].status, cases[-1].complaint = int(status), complaint + "\n"
        else:
            cases[-1].replies.append(wire(line))
    return cases


def read_all():
    names = sorted(name for name in os.listdir(FOLDER) if name.endswith(".case"))
    return [case for name in names for case in read_file(os.path.join(FOLDER, name))]
