#!/usr/bin/env python3
"""The built daemon beside the least server, which looks at nothing and answers by the same bytes: bench-beside.py PROGRAM.

A line of a load has the calls a second and the processor time of a call as ratios to the least server's, the microseconds of
both, and the instructions of a call of the daemon's by callgrind, which is the steady measure. The servers take turns in
slices of 40 ms, and of each one of its best slices counts. At most some three minutes. Needs a C compiler; without valgrind
the instructions are left out.
"""
import os
import shutil
import subprocess
import sys
import tempfile
import time

from loads import COMPILER, DEEP, HOST, Load, Server, compare, compile_in, fill, pace, say_pace

PORT, LEAST_PORT, COUNTED_PORT = 20117, 20118, 20119
LISTED = 200001
NETIDS = {"udp": f"{HOST}.8.1", "tcp": f"{HOST}.8.1", "udp6": "::1.8.1", "tcp6": "::1.8.1", "local": "/run/listed.sock"}

# by the rows that the daemon has
LOADS = {
    16: [
        Load("NULL over TCP, sixteen at once", "tcp", DEEP, "2 null"),
        Load("NULL over TCP, one at a time", "tcp", 1, "2 null"),
        Load("NULL over UDP, one out", "udp", 1, "2 null"),
        Load("NULL over UDP, sixteen out", "udp", DEEP, "2 null"),
        Load("GETPORT over UDP, one out", "udp", 1, f"2 getport {LISTED} 1 udp"),
        Load("GETPORT over UDP, sixteen out", "udp", DEEP, f"2 getport {LISTED} 1 udp"),
        Load("GETADDR over UDP, one out", "udp", 1, f"4 getaddr {LISTED} 1 udp"),
        Load("GETADDR over UDP, sixteen out", "udp", DEEP, f"4 getaddr {LISTED} 1 udp"),
    ],
    1000: [
        Load("DUMP of version 3, 1,000 rows", "tcp", 1, "3 dump"),
        Load("DUMP of version 2, 1,000 rows", "tcp", 1, "2 dump"),
    ],
    4000: [
        Load("DUMP of version 3, 4,000 rows", "tcp", 1, "3 dump"),
        Load("DUMP of version 2, 4,000 rows", "tcp", 1, "2 dump"),
        Load("GETADDRLIST of 5 rows at 4,000", "tcp", 1, f"4 getaddrlist {LISTED} 1 tcp"),
    ],
}


def daemon_words(program, port):
    return [program, "serve", "--port", str(port), "--rows", "4096", "--believe-claims"]


def changes_for(rows):
    """SETs after which there are so many rows, 6 of the daemon's own among them, and 5 of the program that is listed."""
    listed = [f"4 set {LISTED} 1 {netid} {address}" for netid, address in NETIDS.items()]
    return listed + [f"4 set {300000 + i} 1 udp {HOST}.8.1" for i in range(rows - 6 - len(listed))]


def answer_line(load, reply):
    call = load.call[4:] if load.is_stream else load.call
    return f"{'tcp' if load.is_stream else 'udp'} {call[19]} {call[23]} {len(load.call)} {reply.hex()}\n"


# ---- instructions


class Counted:
    """A daemon under callgrind, whose instructions are counted between two moments. It goes on where and when this process
    waits for a reply, so that all calls that are out together are there then, in one turn, whatever the pace."""

    def __init__(self, program, folder, rows):
        self.out = f"{folder}/counts-{rows}"
        words = ["valgrind", "--tool=callgrind", f"--callgrind-out-file={self.out}", *daemon_words(program, COUNTED_PORT)]
        self.server = Server(words, COUNTED_PORT)
        self.processors = os.sched_getaffinity(0)
        os.sched_setaffinity(self.server.process.pid, {max(self.processors)})
        os.sched_setscheduler(self.server.process.pid, os.SCHED_BATCH, os.sched_param(0))
        self.dumps = 0

    def control(self, word):
        subprocess.run(["callgrind_control", word, str(self.server.process.pid)], capture_output=True, check=True)

    def instructions(self, load):
        """Those of a call, by the counts of some and of more."""
        few, many = (8, 40) if len(self.server.reply(load)) > 10000 else (160, 1760)
        counts = [self.count(load, calls) for calls in (few, many)]
        return (counts[1] - counts[0]) / (many - few)

    def count(self, load, calls):
        self.control("--zero")
        os.sched_setaffinity(0, {max(self.processors)})
        self.server.ask(load, calls)
        os.sched_setaffinity(0, self.processors)
        self.control("--dump")
        self.dumps += 1
        return total_of(f"{self.out}.{self.dumps}")


def total_of(path):
    for _ in range(100):
        if os.path.exists(path):
            with open(path) as lines:
                for line in lines:
                    if line.startswith("totals:"):
                        return int(line.split()[1])
        time.sleep(0.1)
    raise SystemExit(f"callgrind wrote no {path}")


def instructions_of(program, folder, rows, loads):
    if not shutil.which("valgrind"):
        return ["" for _ in loads]
    counted = Counted(program, folder, rows)
    try:
        fill(COUNTED_PORT, changes_for(rows))
        return [f", {counted.instructions(load):,.0f} instructions" for load in loads]
    finally:
        counted.server.end()


# ---- ratios


def ratios_of(program, folder, rows, loads):
    ours = Server(daemon_words(program, PORT), PORT)
    try:
        fill(PORT, changes_for(rows))
        given = "".join(answer_line(load, ours.reply(load)) for load in loads)
        least = Server([f"{folder}/least-server", str(LEAST_PORT)], LEAST_PORT, given)
        try:
            return [compare(folder, ours, least, load) for load in loads]
        finally:
            least.end()
    finally:
        ours.end()


def main():
    program = os.path.abspath(sys.argv[1])
    if not shutil.which(COMPILER):
        print("skipped: the ratios to the least server want a C compiler")
        return
    before = pace()
    with tempfile.TemporaryDirectory() as folder:
        compile_in(folder)
        for rows, loads in LOADS.items():
            ratios = ratios_of(program, folder, rows, loads)
            counts = instructions_of(program, folder, rows, loads)
            for load, ratio, count in zip(loads, ratios, counts):
                told = f"{ratio.of_calls:.2f} of the least server's calls, {ratio.times:.2f} times its processor time"
                ours, least = ratio.taken
                print(f"{load.name}: {told} ({ours:.2f} to {least:.2f} microseconds){count}", flush=True)
    say_pace(before)


if __name__ == "__main__":
    main()
