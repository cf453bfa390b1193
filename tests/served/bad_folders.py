"""Folders and logs that aren't right, and those that a crash may have left."""
import os
import random
import shutil
import subprocess
import tempfile

import clock_steps
import logs
import served
from logged import GOOD, NEXT, RECORDS, goes_on, is_refusal, logged, new_folder, options_of, read_at_start, start
from resp import array, bulk, entry, number, request
from served import raw, say_at
from waiting import add

NOBODY = 65534


def refused_as_it_is(program, folder, text, before=None):
    """It is refused, and nothing is changed; empty locks may be new."""
    above = os.path.dirname(folder)
    was = logs.contents(above)
    is_refusal(start(program, folder, before=before), folder, text)
    now = logs.contents(above)
    for lock in ("lock", "compacting") if os.path.isdir(folder) else ():
        if lock not in was[1]["log"][1] and now[1]["log"][1].get(lock, (0, 0))[1] == b"":
            del now[1]["log"][1][lock]
    assert now == was, f"{text}: something was changed"


def folder_with(*files):
    """Makes a folder with these names, each with its bytes, or with what is called to make it."""
    def make_it(folder):
        os.mkdir(folder)
        for name, data in files:
            path = os.path.join(folder, name)
            data(path) if callable(data) else logs.write_file(path, data)
    return make_it


def link_to_nothing(path):
    os.symlink(os.path.join(os.path.dirname(path), "nothing"), path)


OTHERS = b"".join(request([word]) for word in (b"SELECT", b"0")) * 40
WRONG_COMMAND = logs.record(1_700_000_000_005, [b"XADD", b"s"])
OTHER_FORMAT = logs.with_checksum(b"xs-log", [b"3", b"1", b"1"])
# The header of a log of format 1, whose records have no size.
FIRST_FORMAT = request([b"xs-log", b"1665449851", b"1", b"1", b"1"])
OF_OTHER_FORMAT = "log-1 is of another format, and this program has format 2"
FOREIGN = "log-1 is (no log of this program|damaged at byte 0)"
# How a folder is made, and what is said of it.
WRONG = [
    (lambda folder: logs.write_file(folder, GOOD), "it is no folder"),
    (os.mkfifo, "it is no folder"),
    (link_to_nothing, "it is a link to nothing"),
    (folder_with(("log-1", os.mkdir)), "log-1 is no file"),
    (folder_with(("log-1", os.mkfifo)), "log-1 is no file"),
    (folder_with(("log-1", GOOD), ("log-2", os.mkfifo)), "log-2 is no file"),
    (folder_with(("log-1", link_to_nothing)), "log-1 is missing"),
    (folder_with(("lock", os.mkdir), ("log-1", GOOD)), "lock is no file"),
    (folder_with(("lock", os.mkfifo), ("log-1", GOOD)), "lock is no file"),
    (folder_with(("compacting", os.mkfifo), ("log-1", GOOD)), "compacting is no file"),
    (folder_with(("log-1", GOOD), ("snapshot-1", os.mkfifo)), "snapshot-1 is no file"),
    (folder_with(("log-1", b"what another program has written\n")), FOREIGN),
    (folder_with(("log-1", OTHERS)), FOREIGN),
    (folder_with(("log-1", b"x")), FOREIGN),
    (folder_with(("log-1", bytes(5000))), FOREIGN),
    (folder_with(("log-1", OTHER_FORMAT + RECORDS[0])), OF_OTHER_FORMAT),
    (folder_with(("log-1", FIRST_FORMAT)), OF_OTHER_FORMAT),
    (folder_with(("log-1", FIRST_FORMAT[:40])), FOREIGN),
    (folder_with(("log-1", GOOD), ("log-3", logs.header(3))), "log-2 is missing"),
    (folder_with(("log-2", logs.header(2))), "log-1 is missing"),
    (folder_with(("log-1", logs.header(2) + RECORDS[0])), "log-1 is the log of another number"),
    (folder_with(("log-1", GOOD), ("log-2", GOOD)), "log-2 is the log of another number"),
    (folder_with(("log-1", logs.header(1, 2) + RECORDS[0])), "log-1 is of model 2, and this program has model 1"),
    (folder_with(("log-1", GOOD + WRONG_COMMAND + NEXT)), f"log-1 is damaged at byte {len(GOOD)}"),
    (folder_with(("log-1", GOOD + b"PING\r\n" + NEXT)), f"log-1 is damaged at byte {len(GOOD)}"),
    # only the last log may be torn
    (folder_with(("log-1", GOOD + NEXT[:-3]), ("log-2", logs.header(2))), f"log-1 is damaged at byte {len(GOOD)}"),
    (folder_with(("log-1", GOOD + bytes(9)), ("log-2", logs.header(2))), f"log-1 is damaged at byte {len(GOOD)}"),
    (folder_with(("log-1", b""), ("log-2", logs.header(2))), "log-1 is damaged at byte 0"),
]


def wrong_folders(program):
    """What is no folder of logs, or has a log that isn't right, is refused at the start, and stays as it is."""
    for make_it, text in WRONG:
        with new_folder() as folder:
            make_it(folder)
            refused_as_it_is(program, folder, text)
    with new_folder() as above:
        folder = os.path.join(above, "log")
        is_refusal(start(program, folder), folder, "the folder above it isn't there")
        assert not os.path.exists(above)
        logs.write_file(above, b"a file")
        is_refusal(start(program, folder), folder, "the folder above it isn't there")
        assert logs.read_file(above) == b"a file"


def no_access(program):
    """A folder or a log that may not be read or written is refused. The superuser runs it as another user."""
    def as_nobody():
        if os.geteuid() == 0:
            os.setgroups([])
            os.setgid(NOBODY)
            os.setuid(NOBODY)

    with new_folder() as folder:
        above = os.path.dirname(folder)
        copy = shutil.copy(program, above)
        os.chmod(above, 0o755)
        if start(copy, os.path.join(above, "none", "log"), before=as_nobody).returncode != 1:
            print("passed over: another user can't run the program there", flush=True)
            return
        logs.write_logs(folder, GOOD)
        lock, compacting = os.path.join(folder, "lock"), os.path.join(folder, "compacting")
        log = logs.path_of(folder, 1)
        logs.write_file(lock, b"")
        logs.write_file(compacting, b"")
        for path in (folder, lock, compacting, log):
            if os.geteuid() == 0:
                os.chown(path, NOBODY, NOBODY)
        for path, mode, text in ((folder, 0o000, r"it can't be (read|written)"), (folder, 0o300, "it can't be read"),
                                 (lock, 0o400, "it can't be written"), (compacting, 0o400, "it can't be written"),
                                 (log, 0o000, "log-1 can't be read"), (log, 0o400, "log-1 can't be written")):
            whole, was = os.stat(path).st_mode, logs.contents(folder)
            os.chmod(path, mode)
            is_refusal(start(copy, folder, before=as_nobody), folder, f"{text}.*")
            os.chmod(path, whole)
            assert logs.contents(folder) == was, text
        new = os.path.join(above, "new")
        os.chmod(above, 0o555)
        is_refusal(start(copy, new, before=as_nobody), new, "it can't be written.*")


def in_use(program):
    """A folder that another server uses is refused, and that one goes on. Its lock ends with it, also by a kill."""
    with new_folder() as folder:
        with logged(program, folder) as server, raw(server.port) as one:
            add(one, "s", 1)
            was = logs.contents(folder)
            is_refusal(start(program, folder), folder, "another server uses it")
            assert logs.contents(folder) == was
            add(one, "s", 2)
        goes_on(program, folder, "s", 2, 2)


def in_use_before_it_is_read(program):
    """A start takes the lock before it reads: what it had read before would be too little once the other server has
    gone on and ended. Refuses: the lock of a folder is taken after its logs are read, or isn't held if there are
    any."""
    records = [logs.record(1_700_000_000_000 + place, [b"XADD", b"s", b"%d-0" % place, b"f", b"v" * 60_000])
               for place in range(1, 41)]
    with new_folder() as folder, tempfile.TemporaryDirectory() as above:
        logs.write_logs(folder, logs.header(1) + b"".join(records))
        environment = {"LD_PRELOAD": clock_steps.library_of("slow_reads.c", above)}
        with logged(program, folder) as server:
            refused = start(program, folder, environment=environment)
            is_refusal(refused, folder, "another server uses it")
            assert b" bytes read\n" not in refused.stderr, refused
            say_at(server, "XLEN s", number(40))


def turned_bits(program):
    """A bit of a record in the middle is turned, in each of its lines: the start tells the file and the byte where the
    record begins, and changes nothing."""
    made = random.Random(11)
    with new_folder() as folder:
        with logged(program, folder) as server, raw(server.port) as one:
            for place in range(1, 8):
                add(one, "s", place)
        path = logs.path_of(folder, 1)
        whole = logs.read_file(path)
        pieces = logs.pieces(whole)
        piece = pieces[4]
        at = piece.begin
        for line in whole[piece.begin:piece.end].split(b"\r\n"):
            if line:
                place = at + made.randrange(len(line))
                turned = bytearray(whole)
                turned[place] ^= 1 << made.randrange(7)
                if turned[place] == 0:
                    turned[place] = 0x7f
                logs.write_file(path, turned)
                refused_as_it_is(program, folder, f"log-1 is damaged at byte {piece.begin}")
            at += len(line) + 2
        logs.write_file(path, whole)
        goes_on(program, folder, "s", 7, 7)


def torn_ends(program):
    """A folder that is missing is made. An end that a crash may have left is dropped, with what stands behind the first
    zero, and it says how much of a record that was; then more is kept behind the records that are whole."""
    header = logs.header(1)
    half = NEXT[:len(NEXT) // 2]
    for data, records, torn in ((None, 0, 0), (b"", 0, 0), (header[:1], 0, 1), (header[:20], 0, 20), (bytes(100), 0, 0),
                                (header, 0, 0), (GOOD, 4, 0), (GOOD + half, 4, len(half)), (GOOD + NEXT[:-1], 4, None),
                                (GOOD + bytes(9000), 4, 0), (GOOD + half + bytes(10) + NEXT, 4, len(half))):
        with new_folder() as folder:
            if data is not None:
                logs.write_logs(folder, data)
            with logged(program, folder) as server, raw(server.port) as one:
                had = read_at_start(server, folder)
                wanted = len(NEXT) - 1 if torn is None else torn
                assert had[0] == records and had[1] in (wanted, len(data or b"") - len(GOOD)), (data, had)
                log = logs.read_file(logs.path_of(folder, 1))
                assert log == (GOOD if records else header), log
                add(one, "s", 3)
            assert len(logs.records_in(folder)) == records + 1
            with logged(program, folder) as server:
                assert read_at_start(server, folder) == (records + 1, 0)
                places = (1, 2, 3) if records else (3,)
                say_at(server, "XRANGE s - +", array([entry(f"{place}-0", "f", "v") for place in places]))


def torn_next_log(program):
    """A crash while the next log is begun leaves none, an empty one, or a part of its header: the log before it is
    read, and the next one gone on with."""
    header = logs.header(2)
    for data in (b"", header[:1], header[:-1], bytes(62), header[:30] + bytes(32), header):
        with new_folder() as folder:
            logs.write_logs(folder, GOOD, data)
            with logged(program, folder) as server, raw(server.port) as one:
                assert read_at_start(server, folder)[0] == len(RECORDS), (data, server.said)
                add(one, "s", 3)
            assert logs.read_file(logs.path_of(folder, 1)) == GOOD
            assert len(logs.records_in(folder)) == len(RECORDS) + 1, data
            with logged(program, folder) as server:
                say_at(server, "XRANGE s - +", array([entry(f"{place}-0", "f", "v") for place in (1, 2, 3)]))


def where_it_is_made(program):
    """A folder is made in the one where the program is started, if its name is no path; a link to a folder, and a slash
    behind its name, are taken."""
    with new_folder() as folder:
        above = os.path.dirname(folder)
        os.mkdir(os.path.join(above, "true"))
        os.symlink("true", os.path.join(above, "linked"))
        linked = os.path.join(above, "true")
        names = (("log", folder), ("log/", folder), ("linked", linked), ("./log", folder))
        for count, (name, path) in enumerate(names):
            port = served.free_port()
            words = served.words_of_run(os.path.abspath(program), port, 2)
            words = ["env", "-C", above, *words, *options_of(name, "no")]
            with served.Server(words, port, 2, None) as server:
                server.lines_until(server.child.stderr, "listening on")
                say_at(server, f"XADD s {count + 1}-0 f v", bulk(f"{count + 1}-0"))
            assert logs.numbers(path) == [1], name
        assert len(logs.records_in(folder)) == 3


def wrong_options(program):
    """Options of a log that have no value or a wrong one end it with status 2, and are named."""
    with new_folder() as folder:
        for line in (["--log"], ["--log", ""], ["--sync"], ["--log", folder, "--sync"],
                     ["--log", folder, "--sync", "often"], ["--log", folder, "--sync", ""],
                     ["--sync", "no"], ["--log", folder, "--log", folder]):
            words = [*served.words_of_run(program, served.free_port(), 2), *line]
            done = subprocess.run(words, capture_output=True, timeout=30)
            name = "--sync" if "--sync" in line else "--log"
            assert (done.returncode, done.stdout) == (2, b"") and name.encode() in done.stderr, (line, done)
        assert not os.path.exists(folder)
        done = subprocess.run([program, "run", "--help"], capture_output=True, timeout=30)
        assert b"--log" in done.stdout and b"--sync" in done.stdout, done


CASES = (wrong_options, wrong_folders, no_access, in_use, in_use_before_it_is_read, torn_ends, torn_next_log,
         where_it_is_made, turned_bits)
