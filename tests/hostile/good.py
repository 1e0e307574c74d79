"""A good client beside an attack: what it asks for, and what of that it got."""

import os
import select
import struct
import time

from calls import PATIENCE, PORT, connect, null, record, reset, success, udp_socket, words
from common import RECORDS

# how long it pauses between two calls, and what it may have to bear: more of a daemon that writes down what it gives
PAUSE = 0.010
LONGEST_WAIT = 0.200 if RECORDS else 0.050

# On a busy machine that is more: so many times its longest wait in these seconds before the attack.
RATIO = 16
CALM = 2.0


class Good:
    """A good client in a process of its own, that calls until it is told to stop."""

    def __init__(self, ask, pause=PAUSE):
        self.pause = pause
        self.stop_read, self.stop_write = os.pipe()
        self.result_read, self.result_write = os.pipe()
        self.pid = os.fork()
        if self.pid == 0:
            self.run(ask)
            os._exit(0)
        os.close(self.stop_read)
        os.close(self.result_write)

    def run(self, ask):
        asked, served, longest = 0, 0, 0.0
        while not select.select([self.stop_read], [], [], self.pause)[0]:
            asked += 1
            begin = time.monotonic()
            served += ask(asked)
            longest = max(longest, time.monotonic() - begin)
        os.write(self.result_write, struct.pack("iid", asked, served, longest))

    def end(self):
        os.write(self.stop_write, b"!")
        os.close(self.stop_write)
        result = struct.unpack("iid", os.read(self.result_read, 16))
        os.close(self.result_read)
        os.waitpid(self.pid, 0)
        return result


def waits_in_calm(asks, hosts, pause=PAUSE):
    """The longest wait of each of these clients while there is no attack."""
    clients = {name: Good(ask(hosts), pause) for name, ask in asks.items()}
    time.sleep(CALM)
    return {name: client.end()[2] for name, client in clients.items()}


def most_wait(limit, in_calm):
    return max(limit, RATIO * in_calm)


def ask_over_udp(hosts):
    """A call goes out again after 20 milliseconds, since the system drops datagrams of a full queue."""
    client = udp_socket(hosts.good)
    client.settimeout(0.020)

    def ask(xid):
        for _ in range(int(PATIENCE / 0.020)):
            client.sendto(null(xid), (hosts.daemon, PORT))
            try:
                while True:
                    reply = client.recv(100)
                    if reply[:4] == words(xid):
                        return reply == success(xid)
            except OSError:
                pass
        return False

    return ask


def ask_over_tcp(hosts):
    def ask(xid):
        client = connect(hosts.good, hosts.daemon)
        if client is None:
            return False
        try:
            client.sendall(record(null(xid)))
            got = b""
            while len(got) < 28:
                piece = client.recv(28 - len(got))
                if not piece:
                    return False
                got += piece
            return got == record(success(xid))
        except OSError:
            return False
        finally:
            reset(client)

    return ask
