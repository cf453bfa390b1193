"""The program as a server on a port of its own, plain connections to it, and the cases that are tried over it."""
import contextlib
import ctypes
import errno
import os
import resource
import signal
import socket
import struct
import subprocess
import threading
import time
from concurrent.futures import ThreadPoolExecutor

from resp import array, bulk, entry, request

HOST = "127.0.0.1"
# How many seconds a connection waits for the next bytes, and after how many faults no further case is tried.
PATIENCE = 20
MOST_FAULTS = 3
# The names of the cases that failed: the end of a long output says which they were.
FAILED = []
PING, PONG = request([b"PING"]), b"+PONG\r\n"
# What `run` tells a connection for which no worker is free in time.
FULL = b"-ERR max number of clients reached\r\n"


# The ports that were given out: cases that run at once don't get the same one.
given_ports, giving = set(), threading.Lock()


def free_port():
    """A port on which nobody listens, and which was not given out before."""
    with giving:
        while True:
            with socket.socket() as probe:
                probe.bind((HOST, 0))
                port = probe.getsockname()[1]
            if port not in given_ports:
                given_ports.add(port)
                return port


def words_of(program, port, workers, each):
    return [program, "serve", "--port", str(port), "--workers", str(workers), "--each", str(each)]


def words_of_run(program, port, workers, host=HOST):
    """The words that run the program on this address, without the address if it is the ordinary one."""
    return [program, "run", "--port", str(port), "--workers", str(workers), *(["--bind", host] if host != HOST else [])]


def address(host, port):
    """An address as the program writes it."""
    return f"[{host}]:{port}" if ":" in host else f"{host}:{port}"


def with_limits(limits):
    """What a process does before its program starts, so that it has these limits."""
    def set_limits():
        if resource.RLIMIT_FSIZE in limits:
            signal.signal(signal.SIGXFSZ, signal.SIG_IGN)
        for which, most in limits.items():
            resource.setrlimit(which, (most, resource.getrlimit(which)[1]))
    return set_limits if limits else None


class Server:
    """A running server, which ends with the block. `port` is where it listens, `child` its process, `said` the lines
    that it wrote before it listened."""

    def __init__(self, words, port, workers, limits, environment=None):
        self.port = port
        self.workers = workers
        self.said = []
        self.child = subprocess.Popen(words, stdout=subprocess.PIPE, stderr=subprocess.PIPE,
                                      preexec_fn=with_limits(limits), env={**os.environ, **(environment or {})})

    def __enter__(self):
        return self

    def __exit__(self, *_):
        self.end()

    def lines_until(self, stream, text):
        """The lines that it writes there, up to the first that holds this text. There has to be one."""
        lines, too_late = [], threading.Timer(PATIENCE, self.child.kill)
        too_late.start()
        for line in stream:
            lines.append(line.decode())
            if text in lines[-1]:
                break
        too_late.cancel()
        if not lines or text not in lines[-1]:
            raise SystemExit(f"the server said {lines!r}, and not {text!r}")
        return lines

    def end(self):
        if self.child.poll() is None:
            self.child.kill()
        self.child.communicate()

    def ends_by_itself(self, within=PATIENCE):
        """Its status, and what it wrote on standard error behind the lines of its start."""
        status = self.child.wait(timeout=within)
        return status, self.child.stderr.read().decode()

    def threads(self):
        return len(os.listdir(f"/proc/{self.child.pid}/task"))

    def processor_time(self):
        """The seconds of processor time that the process has used."""
        with open(f"/proc/{self.child.pid}/stat", encoding="ascii") as stat:
            fields = stat.read().rpartition(")")[2].split()
        return (int(fields[11]) + int(fields[12])) / os.sysconf("SC_CLK_TCK")

    def writes(self):
        """How many calls that write the process has made."""
        with open(f"/proc/{self.child.pid}/io", encoding="ascii") as lines:
            return next(int(line.split()[1]) for line in lines if line.startswith("syscw:"))

    def waits(self):
        """How often its threads have gone to sleep."""
        folder, count = f"/proc/{self.child.pid}/task", 0
        for name in os.listdir(folder):
            with open(f"{folder}/{name}/status", encoding="ascii") as lines:
                count += next(int(line.split()[1]) for line in lines if line.startswith("voluntary_ctxt_switches:"))
        return count

    def stop_and_continue(self):
        """Stops the process by a signal, and lets it go on once it has stopped."""
        self.child.send_signal(signal.SIGSTOP)
        for _ in range(1000):
            with open(f"/proc/{self.child.pid}/stat", encoding="ascii") as stat:
                if stat.read().rpartition(")")[2].split()[0] == "T":
                    break
            time.sleep(0.001)
        self.child.send_signal(signal.SIGCONT)

    def address_space(self):
        """The bytes of address space that the process has taken."""
        with open(f"/proc/{self.child.pid}/statm", encoding="ascii") as statm:
            return int(statm.read().split()[0]) * 4096

    def resident(self):
        """The bytes of memory that the process has in use."""
        with open(f"/proc/{self.child.pid}/statm", encoding="ascii") as statm:
            return int(statm.read().split()[1]) * 4096

    def peak(self):
        """The most bytes of memory that the process has had in use."""
        with open(f"/proc/{self.child.pid}/status", encoding="ascii") as status:
            return int(next(line for line in status if line.startswith("VmHWM:")).split()[1]) * 1024


@contextlib.contextmanager
def serving(program, workers=4, each=1_000_000, limits=None):
    """A new server of `serve`, which ends with the block."""
    port = free_port()
    with Server(words_of(program, port, workers, each), port, workers, limits) as server:
        line = f"listening {HOST}:{port}\n"
        if (lines := server.lines_until(server.child.stdout, line)) != [line]:
            raise SystemExit(f"the server said {lines!r}")
        yield server


@contextlib.contextmanager
def running(program, *options, workers=4, limits=None, host=HOST, environment=None, port=None):
    """A new server of `run`, which ends with the block. It listens on a port of its own, unless one is named."""
    port = port or free_port()
    words = [*words_of_run(program, port, workers, host), *options]
    with Server(words, port, workers, limits, environment) as server:
        server.said = server.lines_until(server.child.stderr, f"listening on {address(host, port)},")
        yield server


@contextlib.contextmanager
def full_pipe():
    """The end of a pipe that has no more room, and that nobody reads."""
    reader, writer = os.pipe()
    try:
        os.set_blocking(writer, False)
        with contextlib.suppress(BlockingIOError):
            while True:
                os.write(writer, bytes(4096))
        os.set_blocking(writer, True)
        yield writer
    finally:
        os.close(reader)
        os.close(writer)


def raw(port):
    return socket.create_connection((HOST, port), timeout=PATIENCE)


def asking(text):
    return request([word.encode() for word in text.split(" ")])


def say(stream, text, reply):
    """Sends a request, and its reply has to be this one."""
    stream.sendall(asking(text))
    got = read_exactly(stream, len(reply))
    assert got == reply.encode(), f"{text[:60]!r} was answered {got[:60]!r}"


def say_at(server, text, reply):
    with raw(server.port) as stream:
        say(stream, text, reply)


def fill(server, key, count, size):
    """Adds entries whose values have this size, and gives the reply that lists them all."""
    with raw(server.port) as stream:
        for place in range(1, count + 1):
            say(stream, f"XADD {key} {place}-0 f {'v' * size}", bulk(f"{place}-0"))
    return array([entry(f"{place}-0", "f", "v" * size) for place in range(1, count + 1)]).encode()


def add_many(server, key, first, count, size):
    """Adds entries with one field of this size, many at a time."""
    with raw(server.port) as stream:
        for start in range(first, first + count, 1000):
            ids = [f"{place}-0" for place in range(start, start + 1000)]
            stream.sendall(b"".join(asking(f"XADD {key} {one} f {'v' * size}") for one in ids))
            wanted = "".join(bulk(one) for one in ids).encode()
            assert read_exactly(stream, len(wanted)) == wanted


def copy_of(server, number):
    """A copy of a descriptor of the server, as a socket. Linux lets a parent have it, if nothing forbids it, and then
    there is none."""
    process = os.pidfd_open(server.child.pid)
    # 438 is the number of pidfd_getfd, which Python doesn't name
    copy = ctypes.CDLL(None, use_errno=True).syscall(438, process, number, 0)
    os.close(process)
    if copy < 0 and ctypes.get_errno() in (errno.EPERM, errno.ENOSYS):
        print("passed over: the system gives no descriptor of another process", flush=True)
        return None
    assert copy >= 0, os.strerror(ctypes.get_errno())
    return socket.socket(fileno=copy)


def sockets_of(server):
    """The numbers of the server's descriptors that are sockets, each with its inode."""
    folder = f"/proc/{server.child.pid}/fd"
    links = [(int(name), os.readlink(f"{folder}/{name}")) for name in os.listdir(folder)]
    return [(number, link[8:-1]) for number, link in links if link.startswith("socket:[")]


def receive_timeouts(server):
    """After how many seconds each socket of the server gives up to wait for bytes, 0 if never; none if Linux doesn't
    show it."""
    found = []
    for number, _ in sockets_of(server):
        if not (copy := copy_of(server, number)):
            return []
        with copy:
            found.append(struct.unpack("ll", copy.getsockopt(socket.SOL_SOCKET, socket.SO_RCVTIMEO, 16))[0])
    return found


def listeners(server):
    """The numbers of the server's descriptors for the socket that it listens on."""
    with open(f"/proc/{server.child.pid}/net/tcp", encoding="ascii") as rows:
        fields = [row.split() for row in list(rows)[1:]]
    # 0A is the state of a socket that listens
    inode = next(it[9] for it in fields if it[3] == "0A" and it[1].endswith(f":{server.port:04X}"))
    return [number for number, one in sockets_of(server) if one == inode]


def shut_listener(server):
    """Shuts the socket down that the server listens on, so that it gives no connection any more, and says whether it
    could."""
    if not (listener := copy_of(server, listeners(server)[0])):
        return False
    with listener:
        listener.shutdown(socket.SHUT_RDWR)
    return True


def read_exactly(stream, count):
    """So many bytes, or those up to the end."""
    got = bytearray()
    while len(got) < count:
        piece = stream.recv(min(count - len(got), 65_536))
        if not piece:
            break
        got += piece
    return bytes(got)


def read_to_end(stream):
    """The bytes up to the end of the connection, and whether it was reset."""
    got = bytearray()
    try:
        while piece := stream.recv(65_536):
            got += piece
    except ConnectionResetError:
        return bytes(got), True
    return bytes(got), False


def send_all_that_goes(stream, asked):
    """Sends these bytes, or those up to the end of the connection."""
    with contextlib.suppress(OSError):
        stream.sendall(asked)


def reset(stream):
    """Ends a connection as one whose process was killed with bytes unread: the peer is told of a reset."""
    stream.setsockopt(socket.SOL_SOCKET, socket.SO_LINGER, struct.pack("ii", 1, 0))
    stream.close()


def all_answer(server):
    """Each worker answers a PING while the others have a connection too."""
    with contextlib.ExitStack() as open_ones:
        streams = [open_ones.enter_context(raw(server.port)) for _ in range(server.workers)]
        for stream in streams:
            stream.sendall(PING)
        for stream in streams:
            got = read_exactly(stream, len(PONG))
            assert got == PONG, f"PING was answered {got!r}"


def together(count, work):
    """Does the work in so many threads, each of which is given its number, and tells the first fault."""
    faults = []

    def run(place):
        try:
            work(place)
        except (AssertionError, OSError, threading.BrokenBarrierError) as fault:
            faults.append(fault)

    threads = [threading.Thread(target=run, args=(place,)) for place in range(count)]
    for thread in threads:
        thread.start()
    for thread in threads:
        thread.join()
    if faults:
        raise faults[0]


def answers_at(port):
    """Whoever listens on this port answers a PING; it may begin to listen only now."""
    deadline = time.monotonic() + PATIENCE
    while True:
        try:
            stream = raw(port)
            break
        except ConnectionRefusedError:
            assert time.monotonic() < deadline, "it doesn't listen"
            time.sleep(0.02)
    with stream:
        stream.settimeout(5)
        say(stream, "PING", "+PONG\r\n")


def timed(case):
    """Marks a case that only tells how long something takes, or what it costs: a busy machine may break its bound, so it is
    tried three times, and one has to pass. No case that says what is answered may have it."""
    case.tries = 3
    return case


def passes(case, given, behind=None):
    """Whether the case passes, and what stands behind it; its faults are shown."""
    passed = any(is_passed(case, given, behind) for _ in range(getattr(case, "tries", 1)))
    if not passed:
        FAILED.append(case.__name__)
    return passed


def is_passed(case, given, behind):
    """Whether it passes this time."""
    began = time.monotonic()
    try:
        case(given)
        if behind:
            behind(given)
    except (AssertionError, OSError, subprocess.SubprocessError, threading.BrokenBarrierError, SystemExit) as fault:
        print(f"{case.__name__}: {type(fault).__name__} {fault}", flush=True)
        return False
    print(f"{case.__name__}: passed in {time.monotonic() - began:.1f} s", flush=True)
    return True


def pass_together(cases, given):
    """Tries these cases at the same time, and tells of each whether it passes."""
    with ThreadPoolExecutor(max(len(cases), 1)) as pool:
        return list(pool.map(lambda case: passes(case, given), cases))


def tell(results):
    """Says which cases failed, and how many of these passed, and gives the status."""
    passed, faults = results.count(True), results.count(False)
    if FAILED:
        print(f"failed: {', '.join(FAILED)}")
    print(f"{passed} passed, {faults} failed")
    return 1 if faults else 0


def try_all(program, over_server, over_program, workers):
    """Tries each of these cases, the former over one server, up to a few faults; says how many passed, and gives the
    status. Behind each of the former all workers have to answer."""
    results = []
    with serving(program, workers=workers) as server:
        for case, *given in [*((case, server, all_answer) for case in over_server),
                             *((case, program) for case in over_program)]:
            if results.count(False) < MOST_FAULTS:
                results.append(passes(case, *given))
    return tell(results)
