"""The normal form in which each client tells its answers: a line for each step, its name and what it was answered.

A text is told as it is where it has letters, digits and - alone, else by its bytes in hexadecimal digits; an entry as
its id with its fields in braces, and none in place of fields that are gone; an error by its first word, where the
client told it as an error of its own.
"""
import re


def text(value):
    data = value if isinstance(value, bytes) else str(value).encode()
    return data.decode() if re.fullmatch(rb"[A-Za-z0-9-]+", data) else "hex:" + data.hex()


def texts(values):
    return " ".join(map(text, values))


def entry(identifier, fields):
    """An entry whose fields are a list of pairs, or None."""
    shown = "none" if not fields else "{" + " ".join(f"{text(name)}={text(value)}" for name, value in fields) + "}"
    return text(identifier) + shown


def entries(pairs):
    return " ".join(entry(identifier, fields) for identifier, fields in pairs) or "nothing"


def say(step, answer):
    print(f"{step}: {answer}")
