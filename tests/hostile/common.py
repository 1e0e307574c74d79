"""What attacks share: the hosts of daemon and clients, the daemon, and the time that an attack takes."""

import os
import subprocess
import tempfile
import time

from calls import PORT, PROGRAM, record, success

# whether the daemon records its events, up to this many bytes, which is the most that a replay reads
RECORDS = bool(os.environ.get("RECORD"))
RECORD_LIMIT = 16_777_216

# how long an attack goes on
SECONDS = 3.0
CATCH_UP = 0.003

LOOPBACK = "127.0.0.1"


class Unpassed(Exception):
    """What should have passed did not."""


def in_time(count, seconds=SECONDS):
    """Counts, so that the whole count takes the seconds, or longer if the machine is busy: what was missed is made
    up for by no more than a few milliseconds at a time. After three times the seconds no more is counted."""
    begin = time.monotonic()
    end = begin + 3 * seconds
    for i in range(count):
        now = time.monotonic()
        ahead = begin + seconds * i / count - now
        if ahead > 0.001:
            time.sleep(ahead)
        elif ahead < -CATCH_UP:
            begin -= ahead + CATCH_UP
        if now > end:
            return
        yield i


# ---- hosts


class Hosts:
    """Addresses of the daemon, the good client and attackers: on the loopback all are peers of this host, and else the
    clients are strangers. Peers of the daemon's host call from the loopback."""

    def __init__(self, has_own):
        self.has_own = has_own
        self.daemon = "10.20.0.1" if has_own else LOOPBACK
        self.asked = [self.daemon, LOOPBACK] if has_own else [self.daemon]
        self.paused = "10.20.0.2" if has_own else "127.0.0.2"
        self.good = "10.20.1.1" if has_own else LOOPBACK
        self.attacker = "10.20.2.1" if has_own else LOOPBACK
        front = "10.20.3." if has_own else "127.0.3."
        self.attackers = [f"{front}{i}" for i in range(1, 101)]
        self.daemon6, self.attacker6 = "2001:db8:20::1", "2001:db8:20:1::1"
        self.has_inet6 = has_own
        if has_own:
            for host in [self.daemon, self.paused, self.good, self.attacker] + self.attackers:
                subprocess.run(["ip", "address", "add", f"{host}/16", "dev", "lo"], check=True)
            for host in [self.daemon6, self.attacker6]:
                add = ["ip", "address", "add", f"{host}/64", "dev", "lo", "nodad"]
                self.has_inet6 = self.has_inet6 and subprocess.run(add, capture_output=True).returncode == 0


# ---- the daemon


class Daemon:
    """A daemon at these addresses, started with these options too."""

    def __init__(self, addresses, options=(), descriptors=None):
        self.written = tempfile.TemporaryFile()
        self.record = tempfile.NamedTemporaryFile()
        command = [PROGRAM, "serve", "--port", str(PORT), *options]
        for address in addresses:
            command += ["--bind", address]
        if RECORDS:
            command += ["--record", self.record.name, "--record-limit", str(RECORD_LIMIT)]
        if descriptors:
            command = ["sh", "-c", f'ulimit -n {descriptors}; exec "$@"', "sh", *command]
        self.process = subprocess.Popen(command, stdout=self.written, stderr=self.written)
        while self.said().count("listening") < len(addresses):
            if not self.is_there():
                raise SystemExit(f"the daemon does not listen, and wrote: {self.said()}")
            time.sleep(0.05)

    def said(self):
        self.written.seek(0)
        return self.written.read().decode()

    def own_memory(self):
        """Kilobytes of its own that are resident."""
        with open(f"/proc/{self.process.pid}/smaps_rollup") as rollup:
            for line in rollup:
                if line.startswith("Anonymous:"):
                    return int(line.split()[1])
        return 0

    def is_there(self):
        return self.process.poll() is None

    def end(self):
        self.process.kill()
        self.process.wait()

    def check_record(self, has_good=True):
        """Whether the record is what a replay gives, with the first reply that a good client got over TCP if there
        was one; what is told of that."""
        with open(self.record.name) as lines:
            words = lines.readline().split()[2:]
            pending = f"#> pending {record(success(1)).hex()}\n"
            is_there = not has_good or pending in lines
        with open(self.record.name) as lines:
            check = subprocess.run([PROGRAM, *words], stdin=lines, capture_output=True, text=True)
        told = (check.stdout + check.stderr).strip().replace("\n", "; ")
        return check.returncode == 0 and is_there, f"record: {told}"
