#!/usr/bin/env python3
"""Programs at ports of 127.0.0.1 and ::1 that answer in some way, for the daemon that asks whether a kept row's program is
still there; for tests/kept_rows.py.

answers.py WORD:PORT .. prints 'listening' once it listens at all of them, and answers until it is ended. A word is a netid
and how it answers: `tcp-null` as procedure 0 does, `udp-garbage` by bytes that are no reply, `tcp6-silent` not at all.
What is no call of procedure 0, or over TCP has no record's mark or over UDP has one, is not answered.
"""
import socket
import socketserver
import struct
import sys
import threading

NULL, GARBAGE, SILENT = "null", "garbage", "silent"
LENGTH = 40
MARK = struct.pack(">I", 1 << 31 | LENGTH)


def is_null_call(call):
    """Whether these are the bytes of a call of procedure 0 without credentials (RFC 5531 section 9)."""
    return len(call) == LENGTH and call[4:12] == struct.pack(">2I", 0, 2) and call[20:] == bytes(20)


def answer_to(kind, call):
    """What is answered to a call, with no mark of a record."""
    if kind == NULL:
        return call[:4] + struct.pack(">5I", 1, 0, 0, 0, 0)
    return b"no reply of RPC\n"


class Stream(socketserver.BaseRequestHandler):
    def handle(self):
        data = self.request.recv(len(MARK) + LENGTH, socket.MSG_WAITALL)
        mark, call = data[: len(MARK)], data[len(MARK) :]
        kind = self.server.kind
        if kind == SILENT or mark != MARK or not is_null_call(call):
            self.request.recv(4096)  # until the other side closes
            return
        answer = answer_to(kind, call)
        mark = struct.pack(">I", 1 << 31 | len(answer)) if kind == NULL else b""
        self.request.sendall(mark + answer)


class Datagram(socketserver.BaseRequestHandler):
    def handle(self):
        call, answers = self.request
        if self.server.kind != SILENT and is_null_call(call):
            answers.sendto(answer_to(self.server.kind, call), self.client_address)


class Streams(socketserver.ThreadingTCPServer):
    allow_reuse_address = True
    daemon_threads = True


class Streams6(Streams):
    address_family = socket.AF_INET6


class Datagrams(socketserver.UDPServer):
    pass


class Datagrams6(Datagrams):
    address_family = socket.AF_INET6


SERVERS = {"tcp": (Streams, Stream), "tcp6": (Streams6, Stream), "udp": (Datagrams, Datagram), "udp6": (Datagrams6, Datagram)}


def serve(word):
    """Listens, and answers in a thread of its own."""
    way, port = word.split(":")
    netid, kind = way.split("-")
    server_of, handler = SERVERS[netid]
    server = server_of(("::1" if netid.endswith("6") else "127.0.0.1", int(port)), handler)
    server.kind = kind
    threading.Thread(target=server.serve_forever, daemon=True).start()


for word in sys.argv[1:]:
    serve(word)
print("listening", flush=True)
threading.Event().wait()
