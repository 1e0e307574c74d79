#!/usr/bin/env -S python3 -B
"""The daemon under a service manager, in scenarios that tests/run-rows.sh runs: managed.py NAME. With --names it prints their
names. The manager hands over sockets, and is told of the start. A socket is `tcp:HOST:PORT`, `udp:HOST:PORT` or `unix:PATH[:MODE]`;
IPv6 hosts stand in brackets, and their sockets are of IPv6 alone. `both:PORT` is a listener of both families, `idle:HOST:PORT` a
connection, `file:PATH` no socket, `datagrams:PATH` a local one of datagrams.
"""
import os
import select
import signal
import socket
import stat
import struct
import time
from dataclasses import dataclass, field

from scenarios import RPCBIND, WORK, Background, judge, lines, read, run_named, same

LONGEST = 120
NULL_CALL = struct.pack(">10I", 7, 0, 2, 100000, 2, 0, 0, 0, 0, 0)
SET_CALL = struct.pack(">14I", 8, 0, 2, 100000, 2, 1, 0, 0, 0, 0, 200001, 1, 6, 2049)
IS_SET = struct.pack(">7I", 8, 1, 0, 0, 0, 0, 1)
ENDED = -signal.SIGTERM
ELSEWHERE = "(0.0.0.0:20112) is where no option listens (--bind, --loopback6, --local)"


# ---- sockets

def inet(text, kind, is_of_both=False):
    """A socket of a kind, bound to `HOST:PORT`."""
    host, _, port = text.rpartition(":")
    family = socket.AF_INET6 if host.startswith("[") else socket.AF_INET
    made = socket.socket(family, kind)
    made.setsockopt(socket.SOL_SOCKET, socket.SO_REUSEADDR, 1)
    if family == socket.AF_INET6:
        made.setsockopt(socket.IPPROTO_IPV6, socket.IPV6_V6ONLY, not is_of_both)
    made.bind((host.strip("[]"), int(port)))
    return made


def listening(made):
    made.listen(64)
    return made


def connection(text):
    """The far end of a connection to a listener, which goes on."""
    with listening(inet(text, socket.SOCK_STREAM)) as listener:
        connection.near = socket.create_connection(listener.getsockname())
        return listener.accept()[0]


def local(text, kind=socket.SOCK_STREAM):
    path, _, mode = text.partition(":")
    if os.path.exists(path):
        os.unlink(path)
    made = socket.socket(socket.AF_UNIX, kind)
    mask = os.umask(0o777 & ~int(mode or "600", 8))
    made.bind(path)
    os.umask(mask)
    return made


MAKERS = {
    "tcp": lambda text: listening(inet(text, socket.SOCK_STREAM)),
    "udp": lambda text: inet(text, socket.SOCK_DGRAM),
    "unix": lambda text: listening(local(text)),
    "datagrams": lambda text: local(text, socket.SOCK_DGRAM),
    "both": lambda text: listening(inet(f"[::]:{text}", socket.SOCK_STREAM, is_of_both=True)),
    "idle": connection,
    "file": lambda text: open(text, "rb"),
}


def make(text):
    kind, _, rest = text.partition(":")
    return MAKERS[kind](rest)


# ---- the manager

@dataclass
class Manager:
    """What starts the daemon with these sockets and words. With `end_after` the daemon is ended once so many messages had the
    text. Where `is_asked_first` a null call is sent to the first of the sockets before the start, and a SET by a datagram to that
    port of 127.0.0.1; the replies are waited for, and the SET's has to be TRUE. It is told at a path, or at a `name`; a quiet one
    is not told. A full one has no room for what it is told until the daemon listens and for a second more. `variables` take the
    place of what is true."""

    sockets: str
    words: str
    end_after: str = ""
    times: int = 1
    is_asked_first: bool = False
    has_name: bool = False
    is_quiet: bool = False
    is_full: bool = False
    variables: dict = field(default_factory=dict)

    def run(self):
        """What is told, each message in a line in which its own line ends are `|`, behind what the daemon writes. Gives the
        manager, with `status` of the daemon, None if what is waited for did not come in two minutes; `told`; and `said`."""
        made = [make(it) for it in self.sockets.split()]
        name = "\0" + WORK if self.has_name else f"{WORK}/notify"
        with socket.socket(socket.AF_UNIX, socket.SOCK_DGRAM) as told, open(f"{WORK}/told", "a+b") as output, \
                open(f"{WORK}/said", "wb") as errors:
            output.truncate(0)
            told.bind(name)
            variables = {"LISTEN_PID": "PID", "LISTEN_FDS": str(len(made)), **self.variables}
            if not self.is_quiet:
                variables["NOTIFY_SOCKET"] = name.replace("\0", "@")
            asked = callers(made[0]) if self.is_asked_first else None
            if self.is_full:
                fill(name)
            pid = start(made, [RPCBIND, *self.words.split()], variables, output, errors)
            self.status = self.attend(pid, told, output, asked)
        for it in made:
            it.close()
        if not self.has_name:
            os.unlink(name)
        self.told, self.said = read(f"{WORK}/told"), read(f"{WORK}/said")
        return self

    def attend(self, pid, told, output, asked):
        left, latest = self.times, time.monotonic() + LONGEST
        if self.is_full:
            while "listening" not in read(f"{WORK}/told") and time.monotonic() < latest:
                time.sleep(0.05)
            time.sleep(1)
        while time.monotonic() < latest:
            if select.select([told], [], [], 0.05)[0]:
                message = told.recv(4096).decode()
                output.write(message.replace("\n", "|").encode() + b"\n")
                output.flush()
                left -= bool(self.end_after) and self.end_after in message
                if left <= 0:
                    if asked is not None and not have_replies(*asked):
                        break
                    os.kill(pid, signal.SIGTERM)
                    left = 1 << 30
                continue
            ended, status = os.waitpid(pid, os.WNOHANG)
            if ended:
                return os.waitstatus_to_exitcode(status)
        os.kill(pid, signal.SIGKILL)
        os.waitpid(pid, 0)
        return None

    def ended_by(self, status, words):
        """Whether it ended so, and these are the last words of what it said."""
        last = self.said.splitlines()[-1:]
        is_right = self.status == status and last and words in last[0]
        if not is_right:
            print(f"status {self.status}, not {status}", *last)
        return is_right


def start(made, words, variables, output, errors):
    """Starts a program with these sockets from descriptor 3 on, and gives its number."""
    pid = os.fork()
    if pid:
        return pid
    os.dup2(os.open(os.devnull, os.O_RDONLY), 0)
    os.dup2(output.fileno(), 1)
    os.dup2(errors.fileno(), 2)
    high = [os.dup2(one.fileno(), 200 + i) for i, one in enumerate(made)]
    for i, number in enumerate(high):
        os.dup2(number, 3 + i)
    os.closerange(3 + len(made), 300)
    mine = {name: value.replace("PID", str(os.getpid())) for name, value in variables.items()}
    os.execve(words[0], words, {**os.environ, **mine})


def fill(name):
    """Sends messages to a local socket until it has no room for more."""
    with socket.socket(socket.AF_UNIX, socket.SOCK_DGRAM) as filler:
        filler.setblocking(False)
        try:
            while True:
                filler.sendto(b"full", name)
        except BlockingIOError:
            pass


def callers(first):
    """A connection to the listener and a socket of datagrams, over each of which a call was sent."""
    near = socket.create_connection(first.getsockname())
    near.sendall(struct.pack(">I", 0x80000000 | len(NULL_CALL)) + NULL_CALL)
    asker = socket.socket(socket.AF_INET, socket.SOCK_DGRAM)
    asker.connect(("127.0.0.1", near.getpeername()[1]))
    asker.send(SET_CALL)
    return near, asker


def have_replies(near, asker):
    near.settimeout(LONGEST)
    asker.settimeout(LONGEST)
    return near.recv(64)[4:8] == NULL_CALL[:4] and asker.recv(64) == IS_SET


def hand_over(sockets, words, **more):
    return Manager(sockets, f"serve {words}", **more).run()


# ---- scenarios

# MANAGER-1 HANDED-1 HANDED-2 HANDED-3 HANDED-6
# All that the unit of sockets hands over, in any order: it says where, calls that came before the start are answered, that by a
# datagram as one at 127.0.0.1, and the manager is told READY=1 with the load.
def sockets_are_handed_over():
    path = f"{WORK}/handed.sock"
    wanted = [*(f"rpcbind: listening on {it}" for it in ("0.0.0.0 port 20112", ":: port 20112", path)),
              "READY=1|STATUS=12 of 1024 rows, 0 of 64 connections"]
    it = hand_over("tcp:0.0.0.0:20112 udp:127.0.0.1:20112 tcp:[::]:20112 udp:[::1]:20112 udp:[::]:20112 udp:0.0.0.0:20112 unix:" + path,
                   f"--port 20112 --local {path}", is_asked_first=True, end_after="READY=1")
    judge(it.status == ENDED and same(lines(*wanted), it.told, "standard output"), "a daemon with all of its sockets handed over")


# BIND-4 HANDED-2
# The sockets of datagrams at 127.0.0.1 and ::1 are bound beside those that are handed over, if they are not.
def loopbacks_are_bound():
    it = hand_over("tcp:0.0.0.0:20112 udp:0.0.0.0:20112", "--bind 0.0.0.0 --port 20112 --turns 1")
    judge(it.status == 0 and "STOPPING=1" in it.told.splitlines(), "a daemon that binds 127.0.0.1 beside what is handed over")


# HANDED-2 HANDED-3 HANDED-4
# What is not taken, and why.
def some_sockets_are_not_taken():
    own, nowhere = f"{WORK}/own.sock", "is where no option listens (--bind, --loopback6, --local)"
    for sockets, reason in (
            ("both:20112", "is of IPv4 and IPv6 (BindIPv6Only= must be ipv6-only)"),
            ("idle:127.0.0.1:20112", "does not listen (Accept= must be no)"),
            ("tcp:127.0.0.1:20113", "has another port than --port"),
            ("tcp:127.0.0.2:20112", f"(127.0.0.2:20112) {nowhere}"),
            ("udp:[::1]:20112", f"([::1]:20112) {nowhere}"),
            (f"unix:{WORK}/other.sock", "descriptor 3 is where no option listens"),
            (f"datagrams:{own}", "does not listen (Accept= must be no)"),
            ("file:/dev/null", "is none of TCP, UDP or a local listener"),
            ("udp:127.0.0.1:20112 udp:127.0.0.1:20112", "descriptor 4 (127.0.0.1:20112) has the address of another one")):
        it = hand_over(sockets, f"--bind 127.0.0.1 --port 20112 --turns 1 --local {own}")
        judge(it.ended_by(3, reason) and "READY" not in it.told, f"not taken: {sockets}")
    it = hand_over("tcp:0.0.0.0:20112", "--bind all --port 20112 --turns 1")
    judge(it.ended_by(3, ELSEWHERE), "not taken: a socket of 0.0.0.0 with --bind all")


# HANDED-1
# A number of sockets that can't be read, and sockets of another process, of which none is taken.
def other_environments_are_refused():
    it = hand_over("", "--port 20112 --turns 1", is_quiet=True, variables={"LISTEN_FDS": "65"})
    judge(it.ended_by(3, "LISTEN_FDS is no number of at most 64"), "LISTEN_FDS=65")
    it = hand_over("file:/dev/null", "--port 20112 --turns 1", variables={"LISTEN_PID": "1"})
    judge(it.status == 0, "sockets of another process")


# HANDED-5
# Who comes in at the local socket, by the mode of its file.
def local_sockets_are_handed_over():
    path = f"{WORK}/handed.sock"
    for mode in "600", "666":
        it = hand_over(f"unix:{path}:{mode}", f"--port 20112 --local {path}", end_after="READY=1")
        judge(it.status == ENDED and stat.S_IMODE(os.stat(path).st_mode) == int(mode, 8),
              f"a local socket of mode {mode} that is handed over")


# BIND-3
# No socket is open for forwarded calls unless there may be some: of UDP it has that of 0.0.0.0 and that of 127.0.0.1.
def forwarded_calls_have_a_socket():
    for forwards in 0, 1:
        with Background("listening", f"{RPCBIND} serve --bind 0.0.0.0 --port 20112 --forwards {forwards}".split()) as daemon:
            folder = f"/proc/{daemon.process.pid}/fd"
            links = {os.readlink(f"{folder}/{it}") for it in os.listdir(folder)}
            count = sum(f"socket:[{it.split()[9]}]" in links for it in read("/proc/net/udp").splitlines()[1:])
            judge(count == 2 + forwards, f"sockets of UDP with --forwards {forwards}: {count}")


# WATCHDOG-1 WATCHDOG-2
# An idle daemon tells the watchdog, at half of its time.
def watchdog_is_told():
    it = hand_over("tcp:127.0.0.1:20112", "--port 20112", end_after="WATCHDOG=1", times=4,
                   variables={"WATCHDOG_USEC": "400000", "WATCHDOG_PID": "PID"})
    judge(it.status == ENDED and "WATCHDOG=1|STATUS=6 of 1024 rows, 0 of 64 connections" in it.told.splitlines(),
          "an idle daemon with a watchdog")


# START-3 EXIT-1
# An address that the machine does not have is waited for, which is told once; after 30 seconds the start ends.
def missing_address_is_waited_for():
    it = hand_over("", "--bind 192.0.2.1 --port 20119")
    said = ("waits for the address 192.0.2.1", "socket failed",
            "bind TCP 192.0.2.1:20119: Cannot assign requested address (os error 99)")
    judge(it.status == 3 and same(lines("STATUS=waits for the address 192.0.2.1", "STOPPING=1"), it.told, "standard output")
          and same(lines(*(f"rpcbind: {it}" for it in said)), it.said, "standard error"), "a start that waits for an address")


# HANDED-6
# `--bind` says where the daemon listens, in each of its forms: a socket elsewhere is not taken.
def bind_says_where_it_listens():
    for words in "--bind 127.0.0.1", "--bind=127.0.0.1":
        it = hand_over("tcp:0.0.0.0:20112", f"{words} --port 20112 --turns 1")
        judge(it.ended_by(3, ELSEWHERE), f"a socket of every host beside {words}")


# MANAGER-1
# A manager may listen at a name.
def manager_may_have_a_name():
    it = hand_over("tcp:127.0.0.1:20112", "--port 20112", has_name=True, end_after="READY=1")
    judge(it.status == ENDED, "a manager at a name")


# MANAGER-1
# READY=1 waits until the manager has room for it.
def manager_may_have_no_room():
    it = hand_over("tcp:127.0.0.1:20112", "--port 20112", is_full=True, end_after="READY=1")
    judge(it.status == ENDED and "full" in it.told.splitlines(), "a manager that has no room for READY=1 at first")


if __name__ == "__main__":
    run_named(sockets_are_handed_over, some_sockets_are_not_taken, loopbacks_are_bound, other_environments_are_refused,
              local_sockets_are_handed_over, forwarded_calls_have_a_socket, watchdog_is_told, bind_says_where_it_listens,
              manager_may_have_a_name, manager_may_have_no_room, missing_address_is_waited_for)
