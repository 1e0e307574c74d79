#!/usr/bin/env python3
"""A portmapper and its programs at one address of TCP, for rows of rpcinfo that no daemon of ours can give.

programs.py HOST PORT prints 'listening' once it listens, and answers calls until it is ended. HOST may be of IPv6, and one
of a link stands with its interface after PORT. programs.py --old HOST PORT has a portmapper of version 2 alone, which
lists version 1 of program 200001. Over UDP programs.py --null HOST PORT answers each call as procedure 0 is, --silent
HOST PORT answers none, and --callit HOST PORT answers each CALLIT by a datagram that is no reply and by two that tell
the port 2049.

Program 200001 has versions 1 to 3, and GETPORT tells a port of version 2 at which nobody listens.
Program 200002 answers every version.
Program 200003 has versions 1 to 3, and a call of version 2 is not answered.
Program 200004 has versions 1 and 3, and the portmapper has none between.
Program 200005 has version 1, for the user 1000 of a credential alone.
GETADDR tells 0.0.0.0, or ::, as the host of each, but for version 2: 127.0.0.1 in IPv6's form.
"""
import socket
import socketserver
import struct
import sys

KIND = sys.argv.pop(1) if sys.argv[1].startswith("--") else "--programs"
FAMILY = socket.AF_INET6 if ":" in sys.argv[1] else socket.AF_INET
ANY_HOST = b"::" if FAMILY == socket.AF_INET6 else b"0.0.0.0"
LOOPBACK = b"::ffff:7f00:1"
DEAD = 20199
SUCCESS, PROG_UNAVAIL, PROG_MISMATCH, PROC_UNAVAIL = 0, 1, 2, 3
AUTH_ERROR, AUTH_TOOWEAK = 1, 5


def marked(reply):
    return struct.pack(">I", 1 << 31 | len(reply)) + reply


def accepted(xid, status, results=b""):
    return marked(struct.pack(">6I", xid, 1, 0, 0, 0, status) + results)


def too_weak(xid):
    return marked(struct.pack(">5I", xid, 1, 1, AUTH_ERROR, AUTH_TOOWEAK))


def is_user_1000(credential):
    """Of AUTH_SYS: a stamp, a name of no bytes, and the user (RFC 5531 appendix A)."""
    return len(credential) >= 12 and struct.unpack_from(">2I", credential, 4) == (0, 1000)


def text(value):
    return struct.pack(">I", len(value)) + value + bytes(-len(value) % 4)


def old_portmapper(vers, proc, port):
    """Of version 2 alone: GETPORT tells its own port, and DUMP has one row."""
    if vers != 2:
        return PROG_MISMATCH, struct.pack(">2I", 2, 2)
    if proc == 3:
        return SUCCESS, struct.pack(">I", port)
    if proc == 4:
        return SUCCESS, struct.pack(">6I", 1, 200001, 1, 6, port, 0)
    return PROC_UNAVAIL, b""


def portmapper(vers, proc, arguments, port):
    if KIND == "--old":
        return old_portmapper(vers, proc, port)
    prog, of = struct.unpack_from(">2I", arguments)
    if (prog, of) == (200004, 2):
        return SUCCESS, struct.pack(">I", 0)  # no port, or a text of no bytes
    if vers == 2 and proc == 3:
        return SUCCESS, struct.pack(">I", DEAD if (prog, of) == (200001, 2) else port)
    if vers == 3 and proc == 3:
        host = LOOPBACK if of == 2 else ANY_HOST
        return SUCCESS, text(host + b".%d.%d" % divmod(port, 256))
    return PROC_UNAVAIL, b""


def program(prog, vers):
    if prog in (200002, 200005):
        return SUCCESS, b""
    if prog not in (200001, 200003, 200004):
        return PROG_UNAVAIL, b""
    if vers not in (1, 2, 3) or (prog, vers) == (200004, 2):
        return PROG_MISMATCH, struct.pack(">2I", 1, 3)
    return None if (prog, vers) == (200003, 2) else (SUCCESS, b"")


class Calls(socketserver.BaseRequestHandler):
    def handle(self):
        call = self.request.recv(4096)
        xid, _, _, prog, vers, proc, _, length = struct.unpack_from(">8I", call, 4)
        if prog == 100000:
            answer = portmapper(vers, proc, call[44 + length:], self.server.server_address[1])
        elif prog == 200005 and not is_user_1000(call[36:36 + length]):
            self.request.sendall(too_weak(xid))
            return
        else:
            answer = program(prog, vers)
        if answer:
            self.request.sendall(accepted(xid, *answer))


class Null(socketserver.BaseRequestHandler):
    def handle(self):
        call, answers = self.request
        answers.sendto(accepted(*struct.unpack_from(">I", call), SUCCESS)[4:], self.client_address)


class Silent(socketserver.BaseRequestHandler):
    def handle(self):
        pass


class Callit(socketserver.BaseRequestHandler):
    def handle(self):
        call, answers = self.request
        reply = accepted(*struct.unpack_from(">I", call), SUCCESS, struct.pack(">2I", 2049, 0))[4:]
        for answer in (b"no reply", reply, reply):
            answers.sendto(answer, self.client_address)


class Streams(socketserver.ThreadingTCPServer):
    address_family = FAMILY
    allow_reuse_address = True
    daemon_threads = True


class Datagrams(socketserver.UDPServer):
    address_family = FAMILY


def address_of(host, port, interface=None):
    """The socket address of a host, on a link if an interface of it is given."""
    of = socket.getaddrinfo(f"{host}%{interface}" if interface else host, int(port), type=socket.SOCK_STREAM)
    return of[0][4]


SERVERS = {
    "--programs": (Streams, Calls),
    "--old": (Streams, Calls),
    "--null": (Datagrams, Null),
    "--silent": (Datagrams, Silent),
    "--callit": (Datagrams, Callit),
}
server_of, handler = SERVERS[KIND]
with server_of(address_of(*sys.argv[1:]), handler) as server:
    print("listening", flush=True)
    server.serve_forever()
