#!/usr/bin/env python3
"""Holds connections to a daemon, each by a name, and says what becomes of them: crowd.py HOST PORT < LINES.

`open NAME SOURCE` connects from this address and calls; `call NAME` calls on a connection that is there. A call is of
procedure 0 (RFC 5531 section 9), and a line says whether it is `answered`, `closed` if the daemon has ended the
connection, or `silent`.
"""
import socket
import sys

from row import Encoder

PATIENCE = 60.0


def outcome_of(connection, call):
    try:
        connection.sendall(call)
        reply = connection.recv(64)
    except TimeoutError:
        return "silent"
    except OSError:
        return "closed"
    return "answered" if len(reply) == 28 else "closed"


def main():
    place = (sys.argv[1], int(sys.argv[2]))
    encoder = Encoder()
    connections = {}
    for line in sys.stdin:
        what, name, *source = line.split()
        if what == "open":
            connections[name] = socket.create_connection(place, PATIENCE, (source[0], 0))
        print(name, outcome_of(connections[name], encoder.bytes_of(["record", "2", "null"])), flush=True)


if __name__ == "__main__":
    main()
