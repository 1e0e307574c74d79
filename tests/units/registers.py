"""A program that registers, and then waits: program N (its word), version 1, on tcp at port 2049. It stands for a service of
another user: it goes over the local socket if it may write to it, and else over TCP [::1], and takes away before what is
registered."""
import os
import signal
import socket
import struct
import sys

SET, UNSET = 1, 2


def opaque(text):
    return struct.pack(">I", len(text)) + text + bytes(-len(text) % 4)


def call_of(procedure, program):
    arguments = struct.pack(">2I", program, 1) + opaque(b"tcp") + opaque(b"127.0.0.1.8.1") + opaque(b"")
    call = struct.pack(">10I", 5, 0, 2, 100000, 4, procedure, 0, 0, 0, 0) + arguments
    return struct.pack(">I", 0x80000000 | len(call)) + call


def connect():
    if os.access("/run/rpcbind.sock", os.W_OK):
        client = socket.socket(socket.AF_UNIX)
        client.connect("/run/rpcbind.sock")
    else:
        client = socket.create_connection(("::1", 111))
    return client


with connect() as client:
    for procedure in (UNSET, SET):
        client.sendall(call_of(procedure, int(sys.argv[1])))
        answer = client.recv(32, socket.MSG_WAITALL)
    if not answer.endswith(b"\0\0\0\1"):
        sys.exit(f"not registered: {answer.hex()}")
signal.pause()
