"""A daemon that keeps its rows, killed again and again under a load of SETs and UNSETs over TCP and UDP, and started
with the same file. After each start every change is there that was answered TRUE, no row is there that was never set, and
each whole line of the file that the kill left sets or removes a row by a replay, which leaves the rows that are listed.
Changes of many clients come at once, and so their lines are added together. After the last kill 16 more are, and the file
is cut at each byte of its last line, and within each of these: what is left of a line counts for nothing.

Every second kill comes at the moment of an answer. A call whose reply did not come may be done or not; of several that a
client sent in a row the first ones are done.
"""

import os
import random
import re
import socket
import struct
import subprocess
import tempfile
import threading
import time

from ask import number_from, opaque_from, read_all, text_from
from calls import PATIENCE, PORT, PROGRAM, connect, record, success, udp_socket, words
from common import LOOPBACK, RECORDS, Daemon, Unpassed
from kept import lines_left
from row import Encoder

KILLS = 40

# how many changes come together at the end
AT_ONCE = 16

# how long a load goes on before the kill, in seconds, once each client was answered, and how many changes a client makes in
# it at most
LOADS = (0.0, 0.3)
MOST_CHANGES = 2000

# how long a daemon may take to answer each client once, on a machine that is busy, and to answer one over TCP
FIRST_ANSWERS, LONGEST = 5.0, 30.0

# programs of client N begin at this number and N times a thousand; a client has at most this many rows
FIRST = 310000
MOST_ROWS = 40
ROWS = "1024"

# who registers: the user of this process over TCP, where the system shows it, and nobody known over UDP
OWNER = "superuser" if os.getuid() == 0 else str(os.getuid())
UNKNOWN = "unknown"

KEPT_LINE = re.compile(r"datagram [0-9]+ 127\.0\.0\.1:0 ([0-9a-f]+)\n")
LONG_NAME = "/run/" + "n" * 123
EVERY_HOST = "0.0.0.0"
TRUE = words(1)


# ---- clients


class Client:
    """Rows that this client alone sets and removes, as it knows them: key and address of those that are there, in the
    order in which they were set; and the changes that it asked for and that were not answered."""

    def __init__(self, number, is_tcp, depth):
        self.first = FIRST + 1000 * number
        self.is_tcp, self.depth = is_tcp, depth
        self.owner = OWNER if is_tcp else UNKNOWN
        self.source = random.Random(number)
        self.rows = {}
        self.asked = []
        self.answered = 0
        self.at_answer = None
        self.fault = None
        self.encoder = Encoder()

    def owns(self, row):
        return self.first <= row[0] < self.first + 1000

    # ---- what it asks for

    def new_address(self, netid):
        if netid == "local":
            return self.source.choice(["/run/short", LONG_NAME])
        host = "::1" if netid.endswith("6") else self.source.choice([EVERY_HOST, LOOPBACK])
        return f"{host}.{self.source.randrange(1, 256)}.{self.source.randrange(256)}"

    def next_change(self, taken):
        """A key that is not among those taken, with the address that should be there, or None if none should be."""
        there = [key for key in self.rows if key not in taken]
        is_full = len(self.rows) + len(taken) >= MOST_ROWS
        if there and (is_full or self.source.random() < 0.4):
            return self.source.choice(there), None
        while True:
            netid = self.source.choice(["udp", "tcp", "udp6", "tcp6", "local"])
            key = (self.first + self.source.randrange(1000), 1 + self.source.randrange(3), netid)
            # a program's version has one row, so that each UNSET of it is of this row
            if all(key[:2] != other[:2] for other in [*self.rows, *taken]):
                return key, self.new_address(netid)

    def call_of(self, key, address):
        """The bytes of a change in some version that has it."""
        program, version, netid = key
        has_version_2 = netid in ("udp", "tcp") and (address or EVERY_HOST).startswith(EVERY_HOST)
        by = self.source.choice("234" if has_version_2 else "34")
        if address is None:
            only = self.source.choice([netid, "-"])
            which = netid if by == "2" else only
            return self.bytes_of(f"{by} unset {program} {version} {which}")
        if by == "2":
            high, low = map(int, address.split(".")[4:])
            return self.bytes_of(f"2 set {program} {version} {netid} {256 * high + low}")
        return self.bytes_of(f"{by} set {program} {version} {netid} {address}")

    def bytes_of(self, call):
        return self.encoder.bytes_of(call.split())

    # ---- the load

    def load(self, stop):
        """Makes changes until the daemon is gone, or as many as it may."""
        try:
            with self.connection() as stream:
                for _ in range(MOST_CHANGES // self.depth):
                    if stop.is_set():
                        return
                    self.change(stream)
        except (OSError, struct.error):
            pass  # the kill
        except Unpassed as fault:
            self.fault = str(fault)

    def connection(self):
        if self.is_tcp:
            # It ends with the daemon, and not before: whose calls it brings is not known once it is closed.
            stream = connect(LOOPBACK, LOOPBACK, wait=LONGEST)
            if stream is None:
                raise ConnectionError
            return stream
        client = udp_socket(LOOPBACK)
        client.settimeout(PATIENCE / 4)
        client.connect((LOOPBACK, PORT))
        return client

    def change(self, stream):
        """Asks for changes in a row, and waits for the reply to each."""
        taken = {}
        for _ in range(self.depth):
            key, address = self.next_change(taken)
            taken[key] = address
        self.asked = list(taken.items())
        messages = [self.call_of(key, address) for key, address in self.asked]
        calls = dict(zip((message[:4] for message in messages), self.asked))
        if self.is_tcp:
            stream.sendall(b"".join(map(record, messages)))
        else:
            for message in messages:
                stream.send(message)
        for _ in messages:
            self.take(self.reply_on(stream), calls)

    def take(self, reply, calls):
        """Counts a reply, which has to be TRUE."""
        if reply[:4] not in calls:
            raise Unpassed(f"a reply to none of the calls: {reply.hex()}")
        key, address = calls.pop(reply[:4])
        if reply[4:] != success(0)[4:] + TRUE:
            raise Unpassed(f"{'UNSET' if address is None else 'SET'} of {key}: {reply.hex()}")
        if self.at_answer:
            self.at_answer()
        self.asked.remove((key, address))
        self.answered += 1
        do_change(self.rows, key, address)

    def reply_on(self, stream):
        if not self.is_tcp:
            return stream.recv(100)
        return read_all(stream, number_from(read_all(stream, 4))[0] & 0x7FFFFFFF)

    # ---- what became of it

    def settle(self, told):
        """Compares its rows with those that are told of it after a start, and takes these; how many of the changes that
        were not answered were done."""
        there = {row[:3]: row[3] for row in told}
        done = [there.get(key) == address for key, address in self.asked]
        if False in done and True in done[done.index(False) :]:
            raise Unpassed(f"of {self.asked} the changes {done} were done")
        wanted = dict(self.rows)
        for (key, address), is_done in zip(self.asked, done):
            if is_done:
                do_change(wanted, key, address)
        wanted_rows = [(*key, address, self.owner) for key, address in wanted.items()]
        if wanted_rows != told:
            missing = [row for row in wanted_rows if row not in told]
            others = [row for row in told if row not in wanted_rows]
            raise Unpassed(f"missing: {missing}; not wanted: {others}; the order is another where both are empty")
        counts = sum(done), len(done) - sum(done)
        self.rows, self.asked = wanted, []
        return counts


def do_change(rows, key, address):
    if address is None:
        del rows[key]
    else:
        rows[key] = address


# ---- rows, as lists and the file have them


def row_from(data):
    """The next row of RFC 1833 section 2.1."""
    program, data = number_from(data)
    version, data = number_from(data)
    netid, data = text_from(data)
    address, data = text_from(data)
    owner, data = text_from(data)
    return (program, version, netid, address, owner), data


def listed_rows():
    """The rows of a DUMP of version 4, but for those of the daemon itself."""
    stream = connect(LOOPBACK, LOOPBACK)
    stream.sendall(record(Encoder().bytes_of(["4", "dump"])))
    reply, is_last = b"", 0
    while not is_last:
        head = number_from(read_all(stream, 4))[0]
        is_last = head >> 31
        reply += read_all(stream, head & 0x7FFFFFFF)
    stream.close()
    rows = []
    more, data = number_from(reply[24:])
    while more:
        row, data = row_from(data)
        more, data = number_from(data)
        if row[0] != 100000:
            rows.append(row)
    return rows


def kept_row(line):
    """The row that a line of the file sets, with the owner that its credential names."""
    found = KEPT_LINE.fullmatch(line)
    if not found:
        raise Unpassed(f"the file has the line {line!r}")
    call = bytes.fromhex(found[1])
    if call[:24] != words(0, 0, 2, 100000, 4, 1):
        raise Unpassed(f"the file has the call {found[1]}")
    flavor, data = number_from(call[24:])
    credential, data = opaque_from(data)
    owner = UNKNOWN
    if flavor == 1:
        uid = number_from(opaque_from(credential[4:])[1])[0]
        owner = "superuser" if uid == 0 else str(uid)
    row, rest = row_from(data[8:])
    if rest or row[4] != "-" or data[:8] != bytes(8):
        raise Unpassed(f"the file has the call {found[1]}")
    return (*row[:4], owner)


def whole_text(path):
    """The lines of the file that are whole; there is none before the first change."""
    if not os.path.exists(path):
        return ""
    with open(path, newline="") as file:
        text = file.read()
    return text[: text.rfind("\n") + 1]


def kept_rows(path):
    """The rows that the whole lines of the file leave. Each is a change that a replay answers TRUE."""
    text = whole_text(path)
    replay = subprocess.run([PROGRAM, "replay", "--rows", ROWS], input=text, capture_output=True, text=True)
    wanted = f"reply {(success(0) + TRUE).hex()}\n" * text.count("\n")
    if replay.returncode != 0 or replay.stdout != wanted:
        raise Unpassed(f"a replay of the file: status {replay.returncode}, {replay.stderr!r}, or a line that is not TRUE")
    return [kept_row(line) for line in lines_left(text)]


def add_together(count):
    """Has a change come on a connection, for which the file is made anew, and then so many at once, and waits for their replies:
    their lines are the last of the file."""
    encoder = Encoder()
    calls = [encoder.bytes_of(f"4 set {FIRST - 1 - i} 1 udp {LOOPBACK}.8.1".split()) for i in range(1 + count)]
    with connect(LOOPBACK, LOOPBACK, wait=LONGEST) as stream:
        for part in (calls[:1], calls[1:]):
            stream.sendall(b"".join(map(record, part)))
            for call in part:
                if read_all(stream, 4 + 28)[4:] != call[:4] + success(0)[4:] + TRUE:
                    raise Unpassed("one of the last changes was not answered TRUE")


def torn_ends(path, options, count):
    """Starts daemons with the file cut within each of its last lines, and at each byte of the last one: they have the rows
    of the lines before the cut."""
    text = whole_text(path)
    begins = [0, *(found.end() for found in re.finditer("\n", text))][-count - 1 :]
    for end in [*(begin + 60 for begin in begins[:-2]), *range(begins[-2], begins[-1])]:
        with open(path, "w", newline="") as file:
            file.write(text[:end])
        wanted = [kept_row(line) for line in lines_left(text[:end])]
        daemon = Daemon([LOOPBACK], options)
        try:
            if listed_rows() != wanted:
                raise Unpassed(f"cut at byte {end} it has other rows")
        finally:
            daemon.end()


# ---- the kills


class Counts:
    """What was answered, and what of the rest was done."""

    def __init__(self):
        self.answered, self.done, self.undone, self.most_rows = 0, 0, 0, 0

    def __str__(self):
        return (
            f"{self.answered} changes answered TRUE, {self.done + self.undone} not answered, {self.done} of these done; "
            f"up to {self.most_rows} rows"
        )


def load_and_kill(clients, daemon, seconds, killer):
    """Kills the daemon after these seconds of load, or, if a client is named, as soon as that gets an answer then."""
    stop = threading.Event()
    threads = [threading.Thread(target=client.load, args=(stop,)) for client in clients]
    before = [client.answered for client in clients]
    for thread in threads:
        thread.start()
    end = time.monotonic() + FIRST_ANSWERS
    while any(client.answered == count for client, count in zip(clients, before)) and time.monotonic() < end:
        time.sleep(0.001)
    time.sleep(seconds)
    is_there = daemon.is_there()
    if killer:
        killer.at_answer = daemon.process.kill
        end = time.monotonic() + PATIENCE
        while daemon.is_there() and time.monotonic() < end:
            time.sleep(0.001)
        killer.at_answer = None
    daemon.end()
    stop.set()
    for thread in threads:
        thread.join()
    if not is_there:
        raise Unpassed("the daemon ended by itself")
    for client in clients:
        if client.fault:
            raise Unpassed(client.fault)


def compare(clients, path, counts):
    """Compares what is kept and what is listed with what the clients know."""
    kept, listed = kept_rows(path), listed_rows()
    if kept != listed:
        raise Unpassed(f"the file has {len(kept)} rows, and the list {len(listed)} or others, or in another order")
    told = [[row for row in listed if client.owns(row)] for client in clients]
    if sum(map(len, told)) != len(listed):
        raise Unpassed("a row is there that was never set")
    for client, rows in zip(clients, told):
        done, undone = client.settle(rows)
        counts.done += done
        counts.undone += undone
    counts.most_rows = max(counts.most_rows, len(listed))


def kills_40(clients, path, counts):
    """Kills the daemon under the load of these clients, again and again, and compares after each start."""
    source = random.Random(1)
    options = ["--rows", ROWS, "--keep", path]
    daemon = Daemon([LOOPBACK], options)
    try:
        for number in range(1, KILLS + 1):
            try:
                killer = source.choice(clients) if number % 2 else None
                load_and_kill(clients, daemon, source.uniform(*LOADS), killer)
                if RECORDS and not daemon.check_record(has_good=False)[0]:
                    raise Unpassed("the record does not agree")
                kept_rows(path)
                daemon = Daemon([LOOPBACK], options)
                compare(clients, path, counts)
            except Unpassed as fault:
                raise Unpassed(f"kill {number}: {fault}") from fault
        add_together(AT_ONCE)
        daemon.end()
        torn_ends(path, options, AT_ONCE)
    finally:
        daemon.end()
        counts.answered = sum(client.answered for client in clients)
    others = [name for name in os.listdir(os.path.dirname(path)) if name not in ("rows", "rows.new", "rows.lock")]
    if others:
        raise Unpassed(f"left behind: {others}")


def run_kills(names):
    """Runs the kills if they are named, or if there is no name, and prints their line; whether they passed."""
    name = kills_40.__name__
    if names and name not in names:
        return []
    kinds = [(True, 1)] * 6 + [(True, 16)] * 2 + [(False, 1)] * 6 + [(False, 4), (False, 16)]
    clients = [Client(i, *kind) for i, kind in enumerate(kinds)]
    counts, fault = Counts(), ""
    with tempfile.TemporaryDirectory() as folder:
        try:
            kills_40(clients, os.path.join(folder, "rows"), counts)
            if counts.answered == 0:
                raise Unpassed("no change was answered")
        except (Unpassed, OSError, AttributeError, struct.error, socket.timeout) as error:
            fault = f", {type(error).__name__}: {error}"
    print(f"{'failed' if fault else 'passed'}: {name}: {counts}{fault}", flush=True)
    return [not fault]
