"""A crowd of clients: so many connections a second to 127.0.0.1 port 111, each with one call of procedure 0, and what became
of them. Its words are the connections a second and the file that ends it by being there; it prints JSON: connections, those
refused, those closed without an answer, and the longest time in milliseconds in which no answer came."""
import errno
import json
import os
import resource
import selectors
import socket
import struct
import sys
import time

RATE, STOP = int(sys.argv[1]), sys.argv[2]
CALL = struct.pack(">11I", 0x80000028, 7, 0, 2, 100000, 2, 0, 0, 0, 0, 0)
LONGEST = 20  # seconds until a connection counts as lost, and the crowd as ended


def begin(selector, counts):
    client = socket.socket()
    client.setblocking(False)
    fault = client.connect_ex(("127.0.0.1", 111))
    counts["connections"] += 1
    if fault in (0, errno.EINPROGRESS):
        selector.register(client, selectors.EVENT_WRITE, None)
    else:
        counts["refused"] += 1
        client.close()


def go_on(selector, client, counts):
    """Whether its answer came. What was refused shows as a fault of the socket."""
    fault = client.getsockopt(socket.SOL_SOCKET, socket.SO_ERROR)
    answered = False
    if fault == 0 and selector.get_key(client).events == selectors.EVENT_WRITE:
        client.send(CALL)
        selector.modify(client, selectors.EVENT_READ)
        return False
    if fault == 0:
        try:
            answered = len(client.recv(100)) == 28
        except ConnectionError:
            pass
    counts["refused"] += fault == errno.ECONNREFUSED
    counts["closed"] += not answered and fault != errno.ECONNREFUSED
    selector.unregister(client)
    client.close()
    return answered


def main():
    most = resource.getrlimit(resource.RLIMIT_NOFILE)[1]
    resource.setrlimit(resource.RLIMIT_NOFILE, (most, most))
    selector = selectors.DefaultSelector()
    counts = {"connections": 0, "refused": 0, "closed": 0}
    start = last = time.monotonic()
    silence = 0.0
    end = start + 300
    ending = False
    while True:
        now = time.monotonic()
        if not ending and (os.path.exists(STOP) or now > end):
            ending, end = True, now + LONGEST
        while not ending and counts["connections"] < (now - start) * RATE:
            begin(selector, counts)
        if ending and (not selector.get_map() or now > end):
            break
        for key, _ in selector.select(0.001):
            if go_on(selector, key.fileobj, counts):
                now = time.monotonic()
                silence, last = max(silence, now - last), now
    counts["lost"] = len(selector.get_map())
    counts["silence"] = round(1000 * silence)
    print(json.dumps(counts), flush=True)


main()
