"""Faults of the built daemon's system calls, injected by strace.

Each fault is one call that fails with one error for three seconds, while clients come over UDP, over TCP and on the
local socket. A daemon of its own bears it, several of them side by side. It must not end, must not take more than a
tenth of a processor, and must answer all three again afterwards, with as many descriptors as before. Waits for events
that fail for longer than five seconds end it, with their reason.
"""

import concurrent.futures
import os
import signal
import socket
import subprocess
import tempfile
import time

from calls import PATIENCE, PROGRAM, connect, null, record, reset, send_some, success, udp_socket

SECONDS = 3.0
MOST_OF_PROCESSOR = 0.10
HOST = "127.0.0.1"
FIRST_PORT = 20140

# how many faults are tried side by side, and how long a daemon may take until it has recovered
WORKERS = max(4, min(8, os.cpu_count() or 4))
RECOVERY = 10.0

# How long it takes until two clients come, and how many stay connected: fewer than there are places. All stay if a
# call says EAGAIN, which is untrue: such a socket is looked at again when its client goes.
PAUSE = 0.2
STAYING = 10
MOST_STAYING = 60

# The errors of each call: those of its page of the manual, but EBADF, and of accept4 and sendto those of the network.
ERRORS = {
    "accept4": "EAGAIN ECONNABORTED EFAULT EINTR EINVAL EMFILE ENFILE ENOBUFS ENOMEM ENOTSOCK EOPNOTSUPP EPERM EPROTO"
    " ENOSR ESOCKTNOSUPPORT EPROTONOSUPPORT ETIMEDOUT ENETDOWN ENOPROTOOPT EHOSTDOWN ENONET EHOSTUNREACH ENETUNREACH",
    "recvfrom": "EAGAIN ECONNREFUSED EFAULT EINTR EINVAL ENOMEM ENOTCONN ENOTSOCK ECONNRESET ETIMEDOUT EIO ENOBUFS",
    "sendto": "EACCES EAGAIN EALREADY ECONNRESET EDESTADDRREQ EFAULT EINTR EINVAL EISCONN EMSGSIZE ENOBUFS ENOMEM"
    " ENOTCONN ENOTSOCK EOPNOTSUPP EPIPE EPERM EHOSTUNREACH ENETUNREACH",
    "close": "EINTR EIO ENOSPC EDQUOT",
    "ioctl": "EFAULT EINVAL ENOTTY",
    "epoll_wait": "EFAULT EINTR EINVAL",
}

# An interrupted accept is made again by the library that makes it, as often as it is interrupted, so only every second is.
WHEN = {("accept4", "EINTR"): ":when=1+2"}

# how long waits for events fail at most until the daemon ends, and what it says then
END = 30.0
FAILED = "rpcbind: wait for events: Invalid argument (os error 22)"
LAST_WORDS = f"{FAILED}; it is tried again; rpcbind: socket failed; {FAILED}; status 1"

FAULTS = [(name, error) for name, errors in ERRORS.items() for error in errors.split()]


class Daemon:
    """A daemon at a port and at a local socket of its own."""

    def __init__(self, port, folder):
        self.port = port
        self.local = os.path.join(folder, f"socket-{port}")
        self.written = tempfile.TemporaryFile()
        command = [PROGRAM, "serve", "--port", str(port), "--local", self.local]
        self.process = subprocess.Popen(command, stdout=self.written, stderr=self.written)

    def said(self):
        self.written.seek(0)
        return self.written.read().decode()

    def last_words(self):
        """What it said after the lines of its two listeners, and its status."""
        return "; ".join(self.said().splitlines()[2:] + [f"status {self.process.poll()}"])

    def is_there(self):
        return self.process.poll() is None

    def is_listening(self):
        """Waits until it says where it listens, as long as it is there; whether it does."""
        while self.is_there() and self.said().count("listening") < 2:
            time.sleep(0.05)
        return self.is_there()

    def end(self):
        self.process.kill()
        self.process.wait()

    def processor_seconds(self):
        with open(f"/proc/{self.process.pid}/stat") as stat:
            fields = stat.read().rsplit(")", 1)[1].split()
        return (int(fields[11]) + int(fields[12])) / os.sysconf("SC_CLK_TCK")

    def descriptors(self):
        return len(os.listdir(f"/proc/{self.process.pid}/fd"))


# ---- clients


def connect_local(path):
    client = socket.socket(socket.AF_UNIX, socket.SOCK_STREAM)
    client.settimeout(PATIENCE)
    try:
        client.connect(path)
    except OSError:
        client.close()
        return None
    return client


def is_answered_by(client):
    """Whether a call on this connection is answered; the connection is over then."""
    if client is None:
        return False
    try:
        client.sendall(record(null(1)))
        got = b""
        while len(got) < 28:
            piece = client.recv(28 - len(got))
            if not piece:
                return False
            got += piece
        return got == record(success(1))
    except OSError:
        return False
    finally:
        reset(client)


def is_answered_over_udp(port):
    client = udp_socket(HOST)
    client.settimeout(PATIENCE)
    try:
        client.sendto(null(1), (HOST, port))
        return client.recv(100) == success(1)
    except OSError:
        return False
    finally:
        client.close()


def unanswered(daemon):
    """On which ways a call is not answered."""
    ways = {
        "UDP": lambda: is_answered_over_udp(daemon.port),
        "TCP": lambda: is_answered_by(connect(HOST, HOST, port=daemon.port)),
        "the local socket": lambda: is_answered_by(connect_local(daemon.local)),
    }
    return [name for name, is_answered in ways.items() if not is_answered()]


def call_on(client):
    """Sends a call, and waits for no answer."""
    if client is not None:
        send_some(client, record(null(1)))
    return client


def call_for(seconds, daemon, most):
    """Clients come and call on each way, and the earliest of more than `most` go; those that are there at the end."""
    datagrams = udp_socket(HOST)
    kept = []
    end = time.monotonic() + seconds
    while time.monotonic() < end and daemon.is_there():
        datagrams.sendto(null(1), (HOST, daemon.port))
        kept += [call_on(connect(HOST, HOST, 0.2, daemon.port)), call_on(connect_local(daemon.local))]
        let_go(kept[:-most])
        kept = kept[-most:]
        time.sleep(PAUSE)
    datagrams.close()
    return kept


def let_go(clients):
    for client in clients:
        if client is not None:
            reset(client)


# ---- strace


def attach(daemon, name, error, counts):
    """An strace that lets each of these calls fail, and counts them; None if it could not be attached."""
    pid = daemon.process.pid
    inject = f"inject={name}:error={error}" + WHEN.get((name, error), "")
    options = ["-qq", "-c", "-o", counts, "-e", f"trace={name}", "-e", inject, "-p", str(pid)]
    tracer = subprocess.Popen(["strace", *options], stdout=subprocess.DEVNULL, stderr=subprocess.DEVNULL)
    for _ in range(100):
        with open(f"/proc/{pid}/status") as status:
            if f"TracerPid:\t{tracer.pid}\n" in status.read():
                return tracer
        if tracer.poll() is not None:
            return None
        time.sleep(0.05)
    detach(tracer, daemon.process)
    return None


def detach(tracer, process):
    """Ends an strace while the process stands still: a call that it is about to let fail would not be made at all."""
    process.send_signal(signal.SIGSTOP)
    time.sleep(0.2)
    tracer.send_signal(signal.SIGINT)
    try:
        tracer.wait(timeout=RECOVERY)
    except subprocess.TimeoutExpired:
        tracer.kill()
        tracer.wait()
    process.send_signal(signal.SIGCONT)


def failed_calls(counts):
    """How many calls failed, by the table that strace has written."""
    with open(counts) as table:
        for line in table:
            fields = line.split()
            if len(fields) == 6 and fields[5] in ERRORS:
                return int(fields[4])
    return 0


def within(seconds, is_so):
    end = time.monotonic() + seconds
    while not is_so():
        if time.monotonic() > end:
            return False
        time.sleep(0.1)
    return True


# ---- a fault


def bear(daemon, name, error, counts):
    """What is wrong about how a daemon bears a fault, and what is told of it."""
    if not daemon.is_listening():
        return ["it does not listen"], ""
    if unanswered(daemon):
        return ["it did not answer before"], ""
    before = daemon.descriptors()
    tracer = attach(daemon, name, error, counts)
    if tracer is None:
        return ["strace could not be attached"], ""
    used, begin = daemon.processor_seconds(), time.monotonic()
    clients = call_for(SECONDS, daemon, MOST_STAYING if error == "EAGAIN" else STAYING)
    if not daemon.is_there():
        detach(tracer, daemon.process)
        return ["it has ended: " + daemon.last_words()], ""
    share = (daemon.processor_seconds() - used) / (time.monotonic() - begin)
    detach(tracer, daemon.process)
    let_go(clients)
    failed = failed_calls(counts)
    return judge(daemon, name, before, share, failed), f"{100 * share:.0f} % of a processor, {failed} calls failed"


def judge(daemon, name, before, share, failed):
    faults = []
    if failed == 0:
        faults.append("no call was made")
    if share > MOST_OF_PROCESSOR:
        faults.append("it spins")
    if not within(RECOVERY, lambda: not unanswered(daemon)):
        faults.append("not answered afterwards: " + ", ".join(unanswered(daemon)))
    if not daemon.is_there():
        return faults + ["it has ended afterwards: " + daemon.last_words()]
    # a close that strace lets fail is not made, so that descriptor is still there
    most = before + (failed if name == "close" else 0)
    if not within(RECOVERY, lambda: daemon.descriptors() <= most):
        faults.append(f"{daemon.descriptors()} descriptors, and {before} before")
    return faults


def run_fault(port, name, error):
    """Runs a fault, prints its line, and returns whether it passed."""
    with tempfile.TemporaryDirectory() as folder:
        daemon = Daemon(port, folder)
        try:
            wrong, told = bear(daemon, name, error, os.path.join(folder, "counts"))
        except OSError as fault:
            wrong, told = [f"{type(fault).__name__}: {fault}"], ""
        daemon.end()
    told = "; ".join([told] * bool(told) + wrong)
    print(f"{'failed' if wrong else 'passed'}: {name}_{error}: {told}", flush=True)
    return not wrong


# WAIT-6
def run_end(port):
    """Runs waits for events that fail until the daemon ends, prints the line, and returns whether that passed."""
    with tempfile.TemporaryDirectory() as folder:
        daemon = Daemon(port, folder)
        daemon.is_listening()
        tracer = attach(daemon, "epoll_wait", "EINVAL", os.path.join(folder, "counts"))
        begin = time.monotonic()
        has_ended = tracer is not None and within(END, lambda: not daemon.is_there())
        took = time.monotonic() - begin
        daemon.end()
        if tracer is not None:
            tracer.wait()
    told = daemon.last_words()
    passed = has_ended and took >= SECONDS and told == LAST_WORDS
    print(f"{'passed' if passed else 'failed'}: epoll_wait_end: after {took:.1f} s: {told}", flush=True)
    return passed


def why_not():
    """Why no fault can be injected here, or None."""
    sleeper = subprocess.Popen(["sleep", "10"])
    try:
        options = ["-qq", "-o", "/dev/null", "-e", "trace=close", "-p", str(sleeper.pid)]
        tracer = subprocess.Popen(["strace", *options], stdout=subprocess.DEVNULL, stderr=subprocess.PIPE, text=True)
        time.sleep(0.5)
        if tracer.poll() is not None:
            return tracer.stderr.read().strip().replace("\n", "; ")
        detach(tracer, sleeper)
        return None
    except FileNotFoundError:
        return "there is no strace"
    finally:
        sleeper.kill()
        sleeper.wait()


# RECEIVE-1 TURN-5
def run_faults(names):
    """Runs the faults of these names, or of these calls, or all if there is no name; how many passed, and failed."""
    faults = [(name, error) for name, error in FAULTS if not names or {name, f"{name}_{error}", "faults"} & set(names)]
    ends = not names or bool({"epoll_wait", "epoll_wait_end", "faults"} & set(names))
    if not faults and not ends:
        return 0, 0
    missing = why_not()
    if missing:
        print(f"skipped: faults of system calls: {missing}", flush=True)
        return 0, 0
    with concurrent.futures.ThreadPoolExecutor(WORKERS) as pool:
        passed = sum(pool.map(lambda fault: run_fault(FIRST_PORT + fault[0], *fault[1]), enumerate(faults)))
    if not ends:
        return passed, len(faults) - passed
    passed += run_end(FIRST_PORT + len(FAULTS))
    return passed, len(faults) + 1 - passed
