#!/usr/bin/env python3
"""Makes a row from words: `tests/row.py < WORDS > tests/rows/NAME.events`.

A line is an event line (man/rpcbind-replay.8) in which bytes may stand as words in parentheses; all else is passed on as it
is, comments and the `#> ` line below each event among it. No output is decided here: what is expected of a row is
written by hand from the standards.

    datagram 0 127.0.0.1:900 (2 set 200001 1 tcp 2049)
    datagram 0 127.0.0.1:900 (uid=1000 4 set 200001 1 tcp 192.0.2.1.8.1)
    bytes 0 1 (record 3 dump)
    forward 0 127.0.0.1:2049 (reply xid=1000 00000001)

Above an event whose bytes were made so stands a comment with their words, and the number of the call among them: the
first of these lines has `# (xid=1 2 set 200001 1 tcp 2049)`. If the comment would have more than 120 characters, it is
left out. With --bare there are no such comments. With --compare FILE.. nothing is made: each event of these files below a
comment of words has to have the bytes that they make; what has others is printed, and the status is 1.

Words in parentheses, in this order:

    record          marked as one record of one fragment; `record=8` has fragments of 8 bytes, `record=0,8` a first
                    one of no bytes and then such of 8 (RFC 5531 section 11)
    xid=N           the number of the call; without it 1, 2, 3 and so on
    uid=N           AUTH_SYS of this uid, with stamp 0, no name, gid 0 and no gids; without it AUTH_NONE
    rpcvers=N prog=N    other numbers than 2 and 100000
    cut=N           the first N bytes of the message alone
    V PROCEDURE ..  a call of version V; PROCEDURE is a name or a number, and after it are its arguments
    reply HEX       an accepted reply with these results

Arguments: of version 2 `PROG VERS tcp|udp|N [PORT]`; of versions 3 and 4 `PROG VERS [NETID [ADDRESS [OWNER]]]`, in
which `-` is the empty text; of callit, bcast and indirect `PROG VERS PROC HEX`; of uaddr2taddr a text, of taddr2uaddr
bytes in hexadecimal; of a procedure by its number bytes in hexadecimal.
"""
import argparse
import re
import struct
import sys
from itertools import takewhile

OF_VERSION_2 = ["null", "set", "unset", "getport", "dump", "callit"]
OF_VERSION_3 = ["null", "set", "unset", "getaddr", "dump", "callit", "gettime", "uaddr2taddr", "taddr2uaddr"]
OF_VERSION_4 = OF_VERSION_3[:5] + ["bcast"] + OF_VERSION_3[6:] + ["getversaddr", "indirect", "getaddrlist", "getstat"]
PROCEDURES = {2: OF_VERSION_2, 3: OF_VERSION_3, 4: OF_VERSION_4}
WITHOUT_ARGUMENTS = {"null", "dump", "gettime", "getstat"}
PROTOCOLS = {"tcp": 6, "udp": 17}
LONGEST_COMMENT = 120


def number(word):
    return struct.pack(">I", int(word))


def opaque(content):
    """Opaque data or a text of variable length (RFC 4506 section 4.10)."""
    return number(len(content)) + content + bytes(-len(content) % 4)


def netbuf(content):
    """The length that it may have, and what it has (RFC 1833 section 2.1)."""
    return number(len(content)) + opaque(content)


def text(word):
    return opaque(b"" if word == "-" else word.encode())


def raw(word):
    return b"" if word == "-" else bytes.fromhex(word)


def mapping(program, version, protocol, port="0"):
    return b"".join(map(number, (program, version, PROTOCOLS.get(protocol, protocol), port)))


def rpcb(program, version, netid="-", address="-", owner="-"):
    return number(program) + number(version) + text(netid) + text(address) + text(owner)


def remote_call(program, version, procedure, arguments="-"):
    return number(program) + number(version) + number(procedure) + opaque(raw(arguments))


def arguments_of(version, procedure, words):
    if procedure in WITHOUT_ARGUMENTS:
        return b"".join(map(raw, words))
    if procedure in ("callit", "bcast", "indirect"):
        return remote_call(*words)
    if procedure == "uaddr2taddr":
        return text(*words)
    if procedure == "taddr2uaddr":
        return netbuf(raw(*words))
    return mapping(*words) if version == 2 else rpcb(*words)


def credential(uid):
    if uid is None:
        return number(0) + opaque(b"")
    return number(1) + opaque(number(0) + opaque(b"") + number(uid) + number(0) + number(0))


def call(options, xid, version, procedure, *words):
    """A call message (RFC 5531 section 9)."""
    names = PROCEDURES.get(int(version), [])
    if procedure in names:
        arguments = arguments_of(int(version), procedure, words)
        procedure = names.index(procedure)
    else:
        arguments = b"".join(map(raw, words))
    head = (xid, 0, options.get("rpcvers", 2), options.get("prog", 100000), version, procedure)
    return b"".join(map(number, head)) + credential(options.get("uid")) + number(0) + opaque(b"") + arguments


def reply(xid, results="-"):
    """An accepted reply of success, with an empty verifier of AUTH_NONE."""
    return b"".join(map(number, (xid, 1, 0, 0, 0, 0))) + raw(results)


def marked(message, lengths):
    """One record, in fragments of these lengths; the last length goes on to the end."""
    fragments = []
    while len(message) > lengths[0] or len(lengths) > 1:
        fragments.append(number(lengths[0]) + message[:lengths[0]])
        message = message[lengths[0]:]
        lengths = lengths[1:] or lengths
    return b"".join(fragments) + number(len(message) | 1 << 31) + message


class Encoder:
    """Makes the bytes of words; calls without a number of their own are numbered from 1 upwards."""

    def __init__(self):
        self.calls = 0

    def numbered(self, words):
        """The words with the number of the call among them: the next one if they have none."""
        front = sum(word == "reply" or word.split("=")[0] == "record" for word in words[:2])
        options = list(takewhile(lambda word: "=" in word, words[front:]))
        if any(word.startswith("xid=") for word in options):
            return list(words)
        self.calls += 1
        return [*words[:front], f"xid={self.calls}", *words[front:]]

    def bytes_of(self, words):
        words = self.numbered(words)
        lengths = None
        if words[0].split("=")[0] == "record":
            mark = words.pop(0).partition("=")[2]
            lengths = list(map(int, mark.split(","))) if mark else [1 << 31]
        is_reply = words[0] == "reply"
        if is_reply:
            words.pop(0)
        options = {}
        while words and "=" in words[0]:
            name, _, value = words.pop(0).partition("=")
            options[name] = value
        xid = options["xid"]
        message = reply(xid, *words) if is_reply else call(options, xid, *words)
        message = message[:int(options.get("cut", len(message)))]
        return marked(message, lengths) if lengths else message

    def lines_of(self, line):
        """The lines that one line of words becomes: its event, below its words."""
        found = None if line.startswith("#") else re.search(r"\(([^()]*)\)", line)
        if not found:
            return [line]
        words = self.numbered(found[1].split())
        comment = f"# ({' '.join(words)})"
        event = line[:found.start()] + (self.bytes_of(words).hex() or "-") + line[found.end():]
        return [comment, event] if len(comment) <= LONGEST_COMMENT else [event]


def print_row(is_bare):
    encoder = Encoder()
    for number_of_line, line in enumerate(sys.stdin, 1):
        try:
            lines = encoder.lines_of(line.rstrip("\n"))
        except (ValueError, TypeError, IndexError, struct.error) as fault:
            sys.exit(f"line {number_of_line}: {fault}")
        print("\n".join(lines[-1:] if is_bare else lines))


def compare(files):
    """Whether all words of these files make the bytes of the events below them. Prints where they do not."""
    agree = True
    for name in files:
        with open(name) as file:
            lines = file.read().splitlines()
        for number_of_line, (words, event) in enumerate(zip(lines, lines[1:] + [""]), 1):
            if re.fullmatch(r"# \(.*\)", words) and not makes(words[3:-1].split(), event):
                print(f"{name}:{number_of_line}: the words do not make the bytes below them")
                agree = False
    return agree


def makes(words, event):
    try:
        return event.split(" ")[-1].lower() == (Encoder().bytes_of(words).hex() or "-")
    except (ValueError, TypeError, IndexError, struct.error):
        return False


def main():
    parser = argparse.ArgumentParser()
    parser.add_argument("--bare", action="store_true")
    parser.add_argument("--compare", nargs="+")
    options = parser.parse_args()
    if options.compare:
        return 0 if compare(options.compare) else 1
    print_row(options.bare)
    return 0


if __name__ == "__main__":
    sys.exit(main())
