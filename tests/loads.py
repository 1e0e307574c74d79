"""What bench-beside.py and bench-debian.py share: servers, loads on them in slices that take turns, and ratios of the best.

Other work on the machine only ever slows a slice. So of the slices of each server one is taken that a tenth are better
than, and two servers are compared in one run. Where load and server take turns they share a processor: left to the system they
do so in some slices and not in others, which changes a call by half.
"""
import math
import os
import socket
import struct
import subprocess
import time

from ask import as_record, fragments_from, read_all
from row import Encoder

COMPILER = os.environ.get("CC", "cc")
HOST = "127.0.0.1"
SLICES, LEAST_SLICES = 100, 10
MILLISECONDS = 40
LONGEST = 12.0  # seconds for a load, after its least slices
DEEP = 16
AT_ONCE = 100
PROCESSORS = os.sched_getaffinity(0)

ENCODER = Encoder()


def encoded(words):
    return ENCODER.bytes_of(words.split())


def compile_in(folder):
    """Compiles the load and the least server in a folder."""
    here = os.path.dirname(os.path.abspath(__file__))
    for name in ("load", "least-server"):
        subprocess.run([COMPILER, "-O2", "-o", f"{folder}/{name}", f"{here}/{name}.c"], check=True)


def state_of(pid):
    with open(f"/proc/{pid}/stat") as stat:
        return stat.read().rpartition(")")[2].split()[0]


def processor_seconds(pid):
    with open(f"/proc/{pid}/schedstat") as stat:
        return int(stat.read().split()[0]) / 1e9


class Load:
    """A call again and again: `tcp` with so many at once on one connection, `udp` with so many out, or `connect` with a
    connection for each, so many at a time. With one call out at a time, and no long list, load and server take turns."""

    def __init__(self, name, kind, count, words):
        self.name, self.kind, self.count = name, kind, count
        self.is_stream = kind != "udp"
        self.takes_turns = kind != "connect" and count == 1 and "dump" not in words
        self.call = as_record(encoded(words)) if self.is_stream else encoded(words)


class Server:
    """A server of a process of its own, at a port, which says that it listens."""

    def __init__(self, words, port, given=None):
        self.port = port
        self.process = subprocess.Popen(words, stdin=subprocess.PIPE, stdout=subprocess.PIPE, stderr=subprocess.STDOUT)
        if given is not None:
            self.process.stdin.write(given.encode())
        self.process.stdin.close()
        while b"listening" not in (line := self.process.stdout.readline()):
            if not line:
                raise SystemExit(f"{words[0]} does not listen")

    def connected(self, load, host=HOST):
        family = socket.AF_INET6 if ":" in host else socket.AF_INET
        asker = socket.socket(family, socket.SOCK_STREAM if load.is_stream else socket.SOCK_DGRAM)
        asker.settimeout(30)
        asker.connect((host, self.port))
        return asker

    def reply(self, load, host=HOST):
        """The whole reply to a load's call, over TCP with the marks of its fragments."""
        with self.connected(load, host) as asker:
            asker.sendall(load.call)
            if not load.is_stream:
                return asker.recv(65536)
            found = list(fragments_from(asker))
            marks = [struct.pack(">I", len(it) | (i == len(found) - 1) << 31) for i, it in enumerate(found)]
            return b"".join(mark + it for mark, it in zip(marks, found))

    def await_sleep(self):
        """Until the process has nothing left to do, and sleeps."""
        while state_of(self.process.pid) != "S":
            time.sleep(0.0001)

    def ask(self, load, calls):
        """Makes so many calls, as many at once as the load does, and each time once the server sleeps."""
        length = len(self.reply(load))
        with self.connected(load) as asker:
            for _ in range(calls // load.count):
                self.await_sleep()
                for _ in range(load.count) if not load.is_stream else [0]:
                    asker.sendall(load.call * (load.count if load.is_stream else 1))
                for _ in range(load.count):
                    read_all(asker, length)

    def end(self):
        self.process.kill()
        self.process.wait()
        self.process.stdout.close()


def slice_of(folder, server, load, length, host=HOST, milliseconds=MILLISECONDS):
    """Calls a second, and processor seconds of the server for each."""
    words = [host, server.port, load.kind, load.count, milliseconds, length, load.call.hex()]
    processors = {max(PROCESSORS)} if load.takes_turns else PROCESSORS
    os.sched_setaffinity(server.process.pid, processors)
    began = processor_seconds(server.process.pid)
    asks = [f"{folder}/load", *map(str, words)]
    run = subprocess.run(asks, capture_output=True, text=True, preexec_fn=lambda: os.sched_setaffinity(0, processors))
    if run.returncode:
        raise SystemExit(f"{load.name}: {run.stderr}")
    count, nanoseconds = map(int, run.stdout.split())
    if count == 0:  # the machine stood still
        return 0.0, math.inf
    return 1e9 * count / nanoseconds, (processor_seconds(server.process.pid) - began) / count


class Beside:
    """Calls a second and microseconds of processor time a call, of one server and of another."""

    def __init__(self, calls, taken):
        self.calls, self.taken = calls, [1e6 * it for it in taken]
        self.of_calls, self.times = calls[0] / calls[1], taken[0] / taken[1]


def compare(folder, ours, other, load, host=HOST):
    """What a load gets of ours, beside the other."""
    lengths = [len(server.reply(load, host)) for server in (ours, other)]
    slices = ([], [])
    turns = list(zip(slices, (ours, other), lengths))
    end = time.monotonic() + LONGEST
    for i in range(SLICES):
        if i >= LEAST_SLICES and time.monotonic() > end:
            break
        turns.reverse()
        for found, server, length in turns:
            found.append(slice_of(folder, server, load, length, host))
    few = len(slices[0]) // 10
    calls = [sorted(it[0] for it in found)[-1 - few] for found in slices]
    taken = [sorted(it[1] for it in found)[few] for found in slices]
    return Beside(calls, taken)


def fill(port, changes):
    """Makes these changes, words of calls, by a caller whose claims are believed."""
    with socket.create_connection((HOST, port)) as client:
        client.settimeout(60)
        for first in range(0, len(changes), AT_ONCE):
            some = changes[first : first + AT_ONCE]
            client.sendall(b"".join(as_record(encoded(words)) for words in some))
            for words in some:
                if read_all(client, 32)[28:] != struct.pack(">I", 1):
                    raise SystemExit(f"{words}: not answered with TRUE")


def pace():
    """What the fixed loop takes now: the middle of three runs."""
    here = os.path.dirname(os.path.abspath(__file__))
    runs = [subprocess.run([f"{here}/fixed-loop.py"], capture_output=True, text=True, check=True) for _ in range(3)]
    return sorted(float(run.stdout) for run in runs)[1]


def say_pace(before):
    told = f"{before:.2f} seconds before these, and {pace():.2f} after"
    print(f"the machine: a fixed loop, which takes half a second of a quiet one, took {told}")
