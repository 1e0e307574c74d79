#!/usr/bin/env python3
"""Asks a portmapper what no rpcinfo asks so, and prints what it tells; for tests/scenarios.py and
tests/serving.sh. It is that at port 111, or at PORT of the environment.

Each line of standard input is a question, NETID HOST WORDS, and the answer that is expected: it goes to this host over tcp,
udp, tcp6 or udp6, and its words are a call as tests/row.py has it. SOURCE>HOST in place of HOST says from which address it
goes; with local a path stands there. It is printed again, with the answer that came:

    udp 192.0.2.2>192.0.2.1 4 getaddr 200001 1: 192.0.2.1.8.1
    tcp6 2001:db8:1::1 uid=1000 4 set 200001 1 tcp6 ::.8.1: 0

An answer is a number; an address; the netids and addresses of a list, each with a space after it, in their order; the rows
of `dump`, with their owners and `; ` between them; an address and the results of a call that was forwarded, in hexadecimal;
`refused`; or `silent`, if none comes: within 5 seconds where that is expected, and else within 60.

With AT_ONCE=PID in the environment this process stands still until all questions were sent, so that they come at once.
"""
import os
import signal
import socket
import struct
import sys

from row import Encoder

PORT = int(os.environ.get("PORT", "111"))
AT_ONCE = int(os.environ.get("AT_ONCE", "0"))
PATIENCE = 60.0
SILENCE = 5.0


def number_from(data):
    return struct.unpack_from(">I", data)[0], data[4:]


def opaque_from(data):
    length, data = number_from(data)
    return data[:length], data[length + -length % 4:]


def text_from(data):
    content, data = opaque_from(data)
    return bytes(content).decode() or "-", data


def rows_from(data):
    """The rows of a DUMP of versions 3 and 4 (RFC 1833 section 2.1)."""
    rows = []
    more, data = number_from(data)
    while more:
        program, data = number_from(data)
        version, data = number_from(data)
        netid, data = text_from(data)
        address, data = text_from(data)
        owner, data = text_from(data)
        rows.append(f"{program} {version} {netid} {address} {owner}")
        more, data = number_from(data)
    return "; ".join(rows)


def list_from(data):
    """The entries of GETADDRLIST (RFC 1833 section 2.1), netid and address of each."""
    told = ""
    more, data = number_from(data)
    while more:
        address, data = text_from(data)
        netid, data = text_from(data)
        data = data[4:]
        _, data = text_from(data)
        _, data = text_from(data)
        more, data = number_from(data)
        told += f"{netid} {address} "
    return told.rstrip()


def told_by(procedure, reply):
    if not reply:
        return "silent"
    if struct.unpack_from(">6I", reply)[1:] != (1, 0, 0, 0, 0):
        return "refused"
    results = memoryview(reply)[24:]
    if procedure == "dump":
        return rows_from(results)
    if procedure in ("getaddr", "getversaddr"):
        return text_from(results)[0]
    if procedure == "getaddrlist":
        return list_from(results)
    if procedure == "indirect":
        address, results = text_from(results)
        return f"{address} {opaque_from(results)[0].hex() or '-'}"
    return str(number_from(results)[0])


def read_all(connection, length):
    data = b""
    while len(data) < length:
        piece = connection.recv(length - len(data))
        if not piece:
            raise ConnectionError
        data += piece
    return data


def fragments_from(connection):
    """The fragments of a record (RFC 5531 section 11)."""
    is_last = 0
    while not is_last:
        head = number_from(read_all(connection, 4))[0]
        is_last = head >> 31
        yield read_all(connection, head & 0x7FFFFFFF)


def as_record(call):
    return struct.pack(">I", 1 << 31 | len(call)) + call


def ask_over(netid, source, host, call, patience=PATIENCE):
    """Sends a call, and gives the socket over which its reply comes, or None."""
    family = {"6": socket.AF_INET6, "l": socket.AF_UNIX}.get(netid[-1], socket.AF_INET)
    is_stream = not netid.startswith("udp")
    asker = socket.socket(family, socket.SOCK_STREAM if is_stream else socket.SOCK_DGRAM)
    asker.settimeout(patience)
    try:
        if source:
            asker.bind((source, 0))
        asker.connect(host if netid == "local" else (host, PORT))
        asker.sendall(as_record(call) if is_stream else call)
        return asker
    except OSError:
        asker.close()
        return None


def reply_on(asker):
    """The reply that comes over a socket, or no bytes. Over UDP one from another address than the one that is asked is not
    seen."""
    if asker is None:
        return b""
    with asker:
        try:
            if asker.type == socket.SOCK_DGRAM:
                return asker.recv(65536)
            return b"".join(fragments_from(asker))
        except OSError:
            return b""


def reply_over(*words):
    return reply_on(ask_over(*words))


class Question:
    """A line of standard input."""

    def __init__(self, encoder, line):
        self.text, _, wanted = line.rstrip("\n").partition(": ")
        self.netid, place, *words = self.text.split()
        self.source, _, self.host = place.rpartition(">")
        self.procedure = [word for word in words if "=" not in word][1]
        self.call = encoder.bytes_of(words)
        self.wants_silence = wanted == "silent"

    def ask(self, patience):
        return ask_over(self.netid, self.source, self.host, self.call, SILENCE if self.wants_silence else patience)

    def tell(self, reply):
        print(f"{self.text}: {told_by(self.procedure, reply)}", flush=True)


def ask_at_once(questions, process):
    os.kill(process, signal.SIGSTOP)
    askers = [question.ask(PATIENCE) for question in questions]
    os.kill(process, signal.SIGCONT)
    for question, asker in zip(questions, askers):
        question.tell(reply_on(asker))


def main():
    encoder = Encoder()
    questions = (Question(encoder, line) for line in sys.stdin)
    if AT_ONCE:
        ask_at_once(list(questions), AT_ONCE)
        return
    patience = PATIENCE
    for question in questions:
        reply = reply_on(question.ask(patience))
        if not reply and not question.wants_silence:
            patience = SILENCE  # which is shown once is not waited for again
        question.tell(reply)


if __name__ == "__main__":
    main()
