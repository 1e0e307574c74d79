#!/usr/bin/env python3
"""Connections from this machine to the built daemon in its default mode, beside Debian's rpcbind: bench-debian.py PROGRAM.

Both listen at once, on IPv4 and IPv6, in namespaces of their own: `run-bench.sh` makes them. First come the medians of a
SET over a new TCP connection of another user than root, and of `rpcinfo -p`, beside a daemon that believes claims. Then a
line has the connections a second and their processor time, as ratios to Debian's: one after another with one NULL or GETPORT
each, and 64 at once. On a busy machine the processor time is the steady one. At most two minutes. Needs a C compiler, root
and Debian's package rpcbind.
"""
import os
import shutil
import socket
import statistics
import struct
import subprocess
import sys
import tempfile
import time

from ask import as_record, read_all
from loads import COMPILER, HOST, Load, Server, compare, compile_in, encoded, pace, say_pace

THEIRS = "/usr/sbin/rpcbind"
DEBIANS, PORT, BELIEVING_PORT = 111, 20117, 20118
AT_ONCE = 64
USER = 65534
SETS = 200
LISTS = 40

LOADS = [
    Load("one NULL each", "connect", 1, "2 null"),
    Load("one GETPORT each", "connect", 1, "2 getport 100000 2 tcp"),
    Load("one NULL each, 64 at once", "connect", AT_ONCE, "2 null"),
    Load("one GETPORT each, 64 at once", "connect", AT_ONCE, "2 getport 100000 2 tcp"),
]


def why_skipped():
    if not shutil.which(COMPILER):
        return "there is no C compiler"
    if os.getuid() != 0:
        return "that wants root"
    if subprocess.run(["dpkg-query", "-W", "rpcbind"], capture_output=True).returncode or not os.path.exists(THEIRS):
        return "Debian's package rpcbind is not installed"
    return None


class Debians(Server):
    """Debian's rpcbind, which says nothing once it listens."""

    def __init__(self):
        self.port = DEBIANS
        self.process = subprocess.Popen([THEIRS, "-f"], stdout=subprocess.PIPE, stderr=subprocess.DEVNULL)
        for host in (HOST, "::1"):
            self.await_listening(host)

    def await_listening(self, host):
        for _ in range(100):
            try:
                socket.create_connection((host, self.port), 1).close()
                return
            except OSError:
                time.sleep(0.1)
        raise SystemExit(f"Debian's rpcbind does not listen at {host}")


def daemon(program, port, *options):
    words = [program, "serve", "--port", str(port), "--bind", HOST, "--loopback6", *options]
    return Server(words, port)


# ---- SETs of a user


def seconds_of(port, words):
    """What a call over a connection of its own takes, which is answered TRUE."""
    begin = time.monotonic()
    with socket.create_connection((HOST, port), 30) as client:
        client.sendall(as_record(encoded(words)))
        if read_all(client, 32)[28:] != struct.pack(">I", 1):
            raise SystemExit(f"{words}: not answered with TRUE")
    return time.monotonic() - begin


def sets_of_user(port):
    """The milliseconds of SETs and UNSETs, in turn."""
    read, write = os.pipe()
    pid = os.fork()
    if pid == 0:
        try:
            os.setgid(USER)
            os.setuid(USER)
            changes = ["2 set 300001 1 tcp 2049", "2 unset 300001 1 tcp"]
            found = [1000 * seconds_of(port, changes[i % 2]) for i in range(SETS)]
            os.write(write, struct.pack(f"{SETS}d", *found))
        finally:
            os._exit(0)
    os.close(write)
    with os.fdopen(read, "rb") as pipe:
        found = pipe.read()
    os.waitpid(pid, 0)
    return struct.unpack(f"{len(found) // 8}d", found)


def say_sets(port):
    found = sets_of_user(port)
    if found:
        told = f"median {statistics.median(found):.2f} ms, at worst {max(found):.1f}"
        print(f"SETs and UNSETs of user {USER}, a connection for each: {told}")
    else:
        print(f"failed: a SET of user {USER} is not answered with TRUE")


# ---- rpcinfo -p


def say_lists(rpcinfo, ports):
    """What `rpcinfo -p` takes, of each in turn."""
    found = [[] for _ in ports]
    for _ in range(LISTS):
        for taken, port in zip(found, ports):
            begin = time.monotonic()
            subprocess.run([rpcinfo, "--port", str(port), "-p", HOST], stdout=subprocess.DEVNULL, check=True)
            taken.append(1000 * (time.monotonic() - begin))
    ours, believing = map(statistics.median, found)
    print(f"rpcinfo -p: {ours / believing:.2f} times what it takes with --believe-claims ({ours:.1f} to {believing:.1f} ms)")


def main():
    program = os.path.abspath(sys.argv[1])
    rpcinfo = os.path.abspath(sys.argv[2])
    if reason := why_skipped():
        print(f"skipped: connections beside Debian's rpcbind: {reason}")
        return
    before = pace()
    with tempfile.TemporaryDirectory() as folder:
        compile_in(folder)
        servers = [daemon(program, PORT), Debians(), daemon(program, BELIEVING_PORT, "--believe-claims")]
        try:
            # before there are thousands of connections that have ended, each of which is a line of the kernel's table
            say_sets(PORT)
            say_lists(rpcinfo, (PORT, BELIEVING_PORT))
            for host in (HOST, "::1"):
                for load in LOADS:
                    ratio = compare(folder, servers[0], servers[1], load, host)
                    ours, debians = ratio.calls
                    told = f"{ratio.of_calls:.2f} of Debian's ({ours:,.0f} to {debians:,.0f} a second)"
                    print(f"connections to {host}, {load.name}: {told}, {ratio.times:.2f} times its processor time", flush=True)
        finally:
            for server in servers:
                server.end()
    say_pace(before)


if __name__ == "__main__":
    main()
