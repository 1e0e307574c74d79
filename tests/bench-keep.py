#!/usr/bin/env python3
"""What a SET costs with --keep, beside one without: bench-keep.py PROGRAM.

A daemon without --keep, one that keeps its rows on a tmpfs and one that keeps them on a disk are asked in turn, by rounds, at
20 rows, at 1,000 and at 4,000: a SET and its UNSET again and again over UDP, one call out; and sixteen SETs at once and then
their UNSETs, by datagrams, on one connection, and on sixteen. A line has the medians of the rounds: microseconds for each
call as the client sees it, and of these how many are the daemon's processor time.

The last line is of starts with the longest journal of 4,000 rows: milliseconds until the daemon listens, and those of its
processor time.

The tmpfs is /dev/shm, or KEEP_TMPFS of the environment, the disk the folder of temporary files, or KEEP_DISK.
"""
import os
import socket
import statistics
import struct
import subprocess
import sys
import tempfile
import time

from ask import number_from, read_all
from row import Encoder

PORT = 20116
HOST = "127.0.0.1"
ROUNDS = 7
SECONDS = 0.3
AT_ONCE = 16
ROWS = [20, 1000, 4000]

# a file of kept rows has at most twice as many lines as rows, and 64 more
MOST_ROWS, MOST_LINES = 4000, 8064

ENCODER = Encoder()


def encoded(words):
    return ENCODER.bytes_of(words.split())


def line_of(program):
    """The line of a file of rows that keeps a row of a program."""
    return line_with(f"set {program} 1 udp {HOST}.8.1")


def line_with(words):
    return f"datagram 0 {HOST}:0 {encoded(f'xid=0 4 {words}').hex()}\n"


def record(call):
    return struct.pack(">I", 1 << 31 | len(call)) + call


def check(reply):
    if reply[24:] != struct.pack(">I", 1):
        raise SystemExit("a change was not answered with TRUE")


def take_reply(stream):
    check(read_all(stream, number_from(read_all(stream, 4))[0] & 0x7FFFFFFF))


class Daemon:
    """A daemon with this many rows, its own among them, which keeps them in a folder if one is given."""

    def __init__(self, program, rows, folder):
        self.folder = folder and tempfile.TemporaryDirectory(dir=folder)
        # by what they claim all callers may set the last quarter of the rows
        words = [program, "serve", "--port", str(PORT), "--rows", "4096", "--believe-claims"]
        self.programs = range(300001, 300001 + rows - 6)
        if self.folder:
            path = os.path.join(self.folder.name, "rows")
            with open(path, "w") as file:
                file.writelines(map(line_of, self.programs))
            words += ["--keep", path]
        self.process = subprocess.Popen(words, stdout=subprocess.PIPE, text=True)
        if "listening" not in self.process.stdout.readline():
            raise SystemExit("the daemon does not listen")
        self.datagrams = socket.socket(socket.AF_INET, socket.SOCK_DGRAM)
        self.datagrams.connect((HOST, PORT))
        self.stream, *self.others = [socket.create_connection((HOST, PORT)) for _ in range(AT_ONCE + 1)]

    def fill(self):
        """Sets the rows that no file has."""
        if not self.folder:
            for program in self.programs:
                self.ask(encoded(f"4 set {program} 1 udp {HOST}.8.1"))

    def ask(self, call):
        self.datagrams.send(call)
        check(self.datagrams.recv(100))

    def ask_at_once(self, calls):
        self.stream.sendall(b"".join(map(record, calls)))
        for _ in calls:
            take_reply(self.stream)

    def ask_on_each(self, calls):
        for stream, call in zip(self.others, calls):
            stream.sendall(record(call))
        for stream in self.others:
            take_reply(stream)

    def ask_by_datagrams(self, calls):
        for call in calls:
            self.datagrams.send(call)
        for _ in calls:
            check(self.datagrams.recv(100))

    def processor_seconds(self):
        with open(f"/proc/{self.process.pid}/schedstat") as stat:
            return int(stat.read().split()[0]) / 1e9

    def end(self):
        self.process.kill()
        self.process.wait()
        for it in [self.datagrams, self.stream, *self.others]:
            it.close()
        if self.folder:
            self.folder.cleanup()


def one_out(daemon):
    """How many changes."""
    daemon.ask(SET)
    daemon.ask(UNSET)
    return 2


def sixteen_at_once(daemon):
    daemon.ask_at_once(SETS)
    daemon.ask_at_once(UNSETS)
    return 2 * AT_ONCE


def on_sixteen(daemon):
    daemon.ask_on_each(SETS)
    daemon.ask_on_each(UNSETS)
    return 2 * AT_ONCE


def sixteen_datagrams(daemon):
    daemon.ask_by_datagrams(SETS)
    daemon.ask_by_datagrams(UNSETS)
    return 2 * AT_ONCE


def round_of(daemon, change):
    """Microseconds for each change, and those of the daemon's processor time."""
    count, began = 0, daemon.processor_seconds()
    begin = time.monotonic()
    while time.monotonic() < begin + SECONDS:
        count += change(daemon)
    taken = time.monotonic() - begin
    return 1e6 * taken / count, 1e6 * (daemon.processor_seconds() - began) / count


def measure(program, rows, folder):
    """For each load the rounds of a daemon."""
    daemon = Daemon(program, rows, folder)
    try:
        daemon.fill()
        return {name: round_of(daemon, change) for name, change in LOADS.items()}
    finally:
        daemon.end()


def start_of(program):
    """Milliseconds of a start with a journal of the most lines, and those of the processor time."""
    with tempfile.TemporaryDirectory() as folder:
        path = os.path.join(folder, "rows")
        changes = [line_of(200001), line_with("unset 200001 1 udp")] * ((MOST_LINES - MOST_ROWS) // 2)
        with open(path, "w") as file:
            file.writelines([*map(line_of, range(300001, 300001 + MOST_ROWS)), *changes])
        begin = time.monotonic()
        words = [program, "serve", "--port", str(PORT), "--rows", "4096", "--keep", path]
        with subprocess.Popen(words, stdout=subprocess.PIPE, text=True) as process:
            process.stdout.readline()
            taken = time.monotonic() - begin
            with open(f"/proc/{process.pid}/schedstat") as stat:
                used = int(stat.read().split()[0]) / 1e9
            process.kill()
    return 1e3 * taken, 1e3 * used


def median_of(rounds, name):
    return [statistics.median(each[name][i] for each in rounds) for i in (0, 1)]


def main():
    program = os.path.abspath(sys.argv[1])
    kinds = {
        "without --keep": None,
        "on a tmpfs": os.environ.get("KEEP_TMPFS", "/dev/shm"),
        "on a disk": os.environ.get("KEEP_DISK", tempfile.gettempdir()),
    }
    for rows in ROWS:
        rounds = {kind: [] for kind in kinds}
        for _ in range(ROUNDS):
            for kind, folder in kinds.items():
                rounds[kind].append(measure(program, rows, folder))
        for name in LOADS:
            for kind in kinds:
                taken, processor = median_of(rounds[kind], name)
                print(f"a change at {rows} rows, {name}, {kind}: {taken:.1f} microseconds, {processor:.1f} of the processor")
    taken, processor = map(statistics.median, zip(*(start_of(program) for _ in range(ROUNDS))))
    print(f"a start with {MOST_ROWS} rows and {MOST_LINES} lines: {taken:.0f} milliseconds, {processor:.0f} of the processor")


SET = encoded(f"4 set 200001 1 udp {HOST}.8.1")
UNSET = encoded("4 unset 200001 1 udp")
SETS = [encoded(f"4 set {200002 + i} 1 udp {HOST}.8.1") for i in range(AT_ONCE)]
UNSETS = [encoded(f"4 unset {200002 + i} 1 udp") for i in range(AT_ONCE)]
LOADS = {
    "over UDP, one out": one_out,
    "over UDP, sixteen at once": sixteen_datagrams,
    "over TCP, sixteen at once": sixteen_at_once,
    "over TCP, one on each of sixteen connections": on_sixteen,
}

if __name__ == "__main__":
    main()
