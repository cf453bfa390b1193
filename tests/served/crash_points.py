"""Every point at which a crash may cut a log: the start behind it has what the records before have, and no more."""
import itertools
import os
import random
import time
from dataclasses import dataclass

import commands
import logs
import states
from books import Connection
from logged import logged, new_folder, read_at_start
from states import words_of

SEED, CLIENTS, COMMANDS = 50, 4, 200
KEYS, GROUPS, CONSUMERS = ("s", "t", "u", "x"), ("g", "h"), ("a", "b", "B")
# Among the commands at random, in turn: what they leave out.
MORE = ["XADD x * f \1\0\1\1\0\2", "XREADGROUP GROUP g a COUNT 1 STREAMS x >",
        "XADD x NOMKSTREAM MAXLEN 4 * f \0 \1 \1\2", "XREADGROUP GROUP g b NOACK COUNT 1 STREAMS x >",
        "XREADGROUP BLOCK 5 GROUP g a COUNT 1 STREAMS x >",
        "XREADGROUP BLOCK 1 GROUP g a STREAMS x >", "XREADGROUP GROUP g a STREAMS x >", "XCLAIM x g b 0 1-0 0-1",
        "XAUTOCLAIM x g B 0 0 COUNT 1", "XADD x 1-0 f v", "XREADGROUP GROUP h b COUNT 2 STREAMS x >", "XADD x 2",
        "XGROUP DESTROY x h", "XGROUP CREATE x h 0", "XTRIM x MAXLEN 2",
        "XGROUP CREATECONSUMER x g new", "XGROUP DELCONSUMER x g B"]
OPENING = ["XGROUP CREATE x g 0 MKSTREAM", "XGROUP CREATE x h $",
           *(f"XGROUP CREATE {key} g 0 MKSTREAM" for key in "stu")]
# Of each of these the log has to have a record whose reply tells of an effect: its name, and words among the others.
NOTED = ["XADD x *", "XADD s", "XDEL", "XTRIM", "XGROUP CREATE", "XGROUP DESTROY", "XGROUP CREATECONSUMER",
         "XGROUP DELCONSUMER", "XREADGROUP NOACK", "XREADGROUP >", "XREADGROUP 0", "XACK", "XCLAIM", "XAUTOCLAIM",
         "DEL"]

LOOKS = [words_of(text) for key in KEYS for text in (
    f"XLEN {key}", f"XRANGE {key} - +",
    *(f"XPENDING {key} {group}{rows}" for group in GROUPS for rows in ("", " - + 1000")))]
OWN = [words_of(f"XREADGROUP GROUP {group} {consumer} STREAMS {key} 0")
       for key in KEYS for group in GROUPS for consumer in CONSUMERS]
CONSUMERS_THERE = [words_of(f"XGROUP CREATECONSUMER {key} {group} {name}")
                   for key in KEYS for group in GROUPS for name in "abByz"]
FURTHER = [words_of(text) for key in KEYS for text in (
    *(f"XREADGROUP GROUP {group} {consumer} COUNT 2 STREAMS {key} >" for group in GROUPS for consumer in "ab"),
    f"XAUTOCLAIM {key} g b 0 0 COUNT 2", f"XACK {key} h 1-0 2-0 3-0", f"XTRIM {key} MAXLEN 5")]


@dataclass
class Sent:
    """A command that was sent, the reply, and the moment of its record, or of the last one before it."""

    words: list
    reply: bytes
    moment: int = 0
    is_noted: bool = False


@dataclass
class Life:
    """The bytes of a log, what is whole in them, and what was sent."""

    data: bytes
    pieces: list
    sent: list


def commands_of_a_life():
    maker, more, made = commands.Maker(SEED), itertools.cycle(MORE), [words_of(text) for text in OPENING]
    while len(made) < COMMANDS:
        words = [word.encode() for word in maker.command()] if len(made) % 3 else words_of(next(more))
        # XINFO CONSUMERS tells how long each is idle.
        if words[0].upper() != b"QUIT" and words[1:2] != [b"CONSUMERS"]:
            made.append(words)
    return made


def lead_a_life(program):
    """Four clients send the commands, each when the one before it is answered."""
    made = random.Random(SEED)
    with new_folder() as folder:
        with logged(program, folder) as server:
            clients = [Connection(server.port) for _ in range(CLIENTS)]
            sent = [Sent(words, states.ask_all(made.choice(clients), [words])[0]) for words in commands_of_a_life()]
            for client in clients:
                client.close()
        records = logs.records_in(folder)
        data = logs.read_file(logs.path_of(folder, 1))
    return Life(data, logs.pieces(data), with_moments(sent, records))


def with_moments(sent, records):
    """The records are those of the commands that changed something, in their order: not of those that only read or were
    refused, nor of all polls that found nothing."""
    left = list(records)
    moment = int(left[0].words[0])
    for one in sent:
        name = one.words[0].upper()
        may_be, has_to_be = name not in states.READS and one.reply[:1] != b"-", one.reply != b"*-1\r\n"
        one.is_noted = may_be and bool(left) and left[0].words[2:] == one.words
        assert one.is_noted or not may_be or not has_to_be, f"no record has {one.words}"
        moment = one.moment = int(left.pop(0).words[0]) if one.is_noted else moment
    assert not left, f"what was sent doesn't have the record {left[0].words}"
    return sent


def is_a_life_of_the_model(program, life):
    """What was answered is the model's too, and there is a record of each kind, and commands without one."""
    want = states.script_replies(program, [(one.moment, one.words) for one in life.sent])
    states.same_replies([one.words for one in life.sent], want, [one.reply for one in life.sent])
    noted = [[word.upper() for word in one.words] for one in life.sent
             if one.is_noted and one.reply not in (b":0\r\n", b"*0\r\n", b"*-1\r\n")]
    for kind in NOTED:
        name, *rest = kind.encode().upper().split(b" ")
        assert any(words[0] == name and all(word in words for word in rest) for words in noted), f"no record has {kind}"
    left_out = [one for one in life.sent if not one.is_noted]
    assert sum(one.reply[:1] == b"-" for one in left_out) > 5 and sum(one.reply == b"*-1\r\n" for one in left_out) > 2


# ---- behind a crash


@dataclass
class Model:
    """What is asked behind the start, and what the model answers if the log has the records up to one."""

    questions: list
    replies: list
    moment: int


def model_behind(program, noted):
    """The last questions show where a group goes on, the top of each stream, and which consumers are there."""
    moment = noted[-1].moment if noted else 0
    tops = []
    for key in KEYS:
        ids = [one.reply.split(b"\r\n")[1] for one in noted if one.words[:2] == [b"XADD", key.encode()]
               and one.reply != b"$-1\r\n"]
        tops.append(words_of(f"XADD {key} {ids[-1].decode().split('-')[0] if ids else 7}-* f v"))
    questions = [*LOOKS, *OWN, *tops, *FURTHER, *CONSUMERS_THERE, *LOOKS]
    events = [(one.moment, one.words) for one in noted] + [(moment, words) for words in questions]
    return Model(questions, states.script_replies(program, events)[len(noted):], moment)


def starts_with(program, folder, model, records, dropped):
    """A start tells of so many records and dropped bytes, has what they leave, and goes on as the model says."""
    with logged(program, folder, "no", workers=2) as server:
        told = read_at_start(server, folder)
        assert told == (records, dropped), f"it told of {told}, not of {(records, dropped)}"
        with Connection(server.port) as one:
            begin = int(time.time() * 1000)
            got = states.ask_all(one, model.questions)
            end = int(time.time() * 1000)
    states.same_replies(model.questions, model.replies, got)
    first = model.questions[:len(LOOKS)], model.replies[:len(LOOKS)], got[:len(LOOKS)]
    states.idle_since(*first, (begin - model.moment - 20, end - model.moment + 20))


def goes_on_behind(folder, kept, model):
    """The last log has these bytes, and behind them only records of what was asked, in its order."""
    number = logs.numbers(folder)[-1]
    data = logs.read_file(logs.path_of(folder, number))
    assert data.startswith(kept), f"log-{number} doesn't begin with the {len(kept)} bytes that were whole"
    left = iter(model.questions)
    behind = logs.pieces(data, len(kept))
    for piece in behind:
        assert piece.is_sound() and piece.words[2:] in left, f"log-{number} has {piece.words}"
    assert behind and behind[-1].end == len(data), f"log-{number} has more than its records"


def starts_again(program, folder, model):
    """A further start has all that was answered."""
    looks, want = model.questions[-len(LOOKS):], model.replies[-len(LOOKS):]
    with logged(program, folder, workers=2) as server, Connection(server.port) as one:
        assert read_at_start(server, folder)[1] == 0
        states.same_replies(looks, want, states.ask_all(one, looks))


def left_by_a_crash(life, whole, made):
    """What a crash may leave if so many pieces are whole in it: the bytes up to the next piece, a beginning of it, one
    with zeros behind it, and all that was written but for a few bytes of it, which are zero. What is behind the header
    was written only once that was kept."""
    data = life.data if whole else life.data[:life.pieces[0].end]
    begin = life.pieces[whole - 1].end if whole else 0
    yield data[:begin]
    if begin == len(data):
        yield data + bytes(made.randrange(1, 9000))
        return
    size = life.pieces[whole].end - begin
    yield data[:begin + made.choice((1, size - 1, made.randrange(1, size)))]
    yield data[:begin + made.choice((size - 1, size - 2, made.randrange(size)))] + bytes(made.choice((1, 99, 4000)))
    first = begin + made.randrange(size)
    end = made.randrange(first, begin + size) + 1
    yield data[:first] + bytes(end - first) + data[end:]


def starts_behind(program, folder, datas, model, kept, records):
    """It starts on the folder once its logs have these bytes, of which in the last one so many are kept."""
    *_, data = datas
    for number, one in enumerate(datas, 1):
        logs.write_file(logs.path_of(folder, number), one)
    try:
        starts_with(program, folder, model, records, len(data[kept:].partition(b"\0")[0]))
        goes_on_behind(folder, data[:kept] or logs.header(len(datas)), model)
        if len(data) % 4 == 0:
            starts_again(program, folder, model)
    except AssertionError as fault:
        raise AssertionError(f"behind {records} records, of {len(data)} bytes: {fault}") from fault


def every_crash_point(program):
    """A log of 200 commands is cut behind each record, and within it, with zeros or later bytes behind. It refuses a
    server that drops a whole record, or reads one that isn't; that leaves what is torn, and writes behind it; or that
    has a group, a top, a consumer, a count or a time otherwise than it was."""
    life, made = lead_a_life(program), random.Random(SEED)
    is_a_life_of_the_model(program, life)
    noted = [one for one in life.sent if one.is_noted]
    with new_folder() as folder:
        os.mkdir(folder)
        for whole in range(len(life.pieces) + 1):
            records = max(whole - 1, 0)
            model, kept = model_behind(program, noted[:records]), life.pieces[whole - 1].end if whole else 0
            for data in left_by_a_crash(life, whole, made):
                starts_behind(program, folder, [data], model, kept, records)


def every_crash_point_of_a_second_log(program):
    """The first log is closed, and the second one has a beginning of its header, or that and a record and a half. It
    refuses a server that reads no further log, that takes the first one for the last, or that begins the next one
    behind a torn header."""
    life = lead_a_life(program)
    noted, first = [one for one in life.sent if one.is_noted], len(life.pieces) // 2
    closed, header = life.data[:life.pieces[first].end], logs.header(2)
    with new_folder() as folder:
        os.mkdir(folder)
        model = model_behind(program, noted[:first])
        for size in range(len(header) + 1):
            kept = size if size == len(header) else 0
            starts_behind(program, folder, [closed, header[:size] + bytes(size % 3 * 1000)], model, kept, first)
        begin, end = life.pieces[first].end, life.pieces[first + 1].end
        model = model_behind(program, noted[:first + 1])
        rest = life.data[end:]
        for behind in (b"", rest[:20], bytes(5000), rest[:9] + bytes(9) + rest[18:]):
            data = header + life.data[begin:end] + behind
            starts_behind(program, folder, [closed, data], model, len(header) + end - begin, first + 1)


CASES = (every_crash_point, every_crash_point_of_a_second_log)
