"""Calls of ONC RPC to the built daemon, as words of four bytes, and the sockets that carry them."""

import os
import socket
import struct

PROGRAM = os.environ["PROGRAM"]
PORT = 20131
PATIENCE = 1.0

PROG = 100000
LAST_FRAGMENT = 0x80000000

# ---- calls


def words(*numbers):
    return struct.pack(f">{len(numbers)}I", *numbers)


def call(xid, version, procedure, *arguments):
    return words(xid, 0, 2, PROG, version, procedure, 0, 0, 0, 0, *arguments)


def record(data):
    return words(LAST_FRAGMENT | len(data)) + data


def null(xid):
    return call(xid, 2, 0)


def set_mapping(xid, program, protocol, port):
    return call(xid, 2, 1, program, 1, protocol, port)


# INDIRECT of version 4, of procedure 0 of a program, without arguments
def indirect(xid, program):
    return call(xid, 4, 10, program, 1, 0, 0)


def success(xid):
    return words(xid, 1, 0, 0, 0, 0)


# ---- sockets


def udp_socket(host, port=0):
    client = socket.socket(socket.AF_INET6 if ":" in host else socket.AF_INET, socket.SOCK_DGRAM)
    client.bind((host, port))
    return client


def connect(source, daemon, wait=PATIENCE, port=PORT):
    client = socket.socket(socket.AF_INET, socket.SOCK_STREAM)
    client.setsockopt(socket.SOL_SOCKET, socket.SO_REUSEADDR, 1)
    # the port is chosen at the connect, so that ports are not used up by addresses
    client.setsockopt(socket.IPPROTO_IP, 24, 1)  # IP_BIND_ADDRESS_NO_PORT
    client.bind((source, 0))
    client.settimeout(wait)
    try:
        client.connect((daemon, port))
    except OSError:
        client.close()
        return None
    return client


def reset(client):
    """Closes a connection by a reset, so that its port is free at once."""
    client.setsockopt(socket.SOL_SOCKET, socket.SO_LINGER, struct.pack("ii", 1, 0))
    client.close()


def send_some(client, data):
    """How many bytes the socket took without a wait, or None if the connection is over."""
    client.setblocking(False)
    try:
        return client.send(data)
    except BlockingIOError:
        return 0
    except OSError:
        return None
