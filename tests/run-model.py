#!/usr/bin/env -S python3 -B
"""Runs the definitions that are believed over event lines, and compares what they give with the outputs that stand there.

    tests/run-model.py [FILE..]     rows (without FILE all of tests/rows), or records of `rpcbind serve --record`

`step` and `opening` of rb_model, with all that they stand on, are read from specs/ by tests/antt.py: no code of the programs
runs, and no proof. Event lines and output lines are read and written here anew, by man/rpcbind-replay.8. A file whose input is
bad, or has over 100,000 bytes, is left out. The clauses that no row reaches stand in tests/unreached, which is compared; with
--write it is written. The last line is 'N passed, N failed', by files; the status is 1 if one failed.
"""

import ipaddress
import re
import shlex
import sys
import threading
from pathlib import Path

from antt import ROOT, Stuck, World
from antt_std import NONE, Value, maybe, record, some

LONGEST_FILE = 100_000
ROWS = ROOT / "tests" / "rows"
UNREACHED = ROOT / "tests" / "unreached"
DEFAULTS = {"--conns": 4, "--rows": 300, "--forwards": 4, "--port": 111, "--xid": 1000, "--now": 0}

MODEL = World()
STEP = MODEL.get("rb_model.specs.Step.step")
OPENING = MODEL.get("rb_model.specs.State.opening")
ARE_GOOD = MODEL.get("rb_model.specs.State.are_good")


def enum(path):
    """A maker of the variants of a type of the code, or of a `data` of specs/."""

    def make(variant, *args):
        place = tuple(path.split("."))
        tag = MODEL.declared((*place, "TheVariants", variant))[1] if "declared" in place else (path, variant)
        return Value(tag, args)

    return make


EVENT = enum("rb_model.Step.Event")
HOST = enum("rb_address.declared.host.Host")
SOURCE = enum("rb_address.declared.who.Source")
TRUST = enum("rb_address.declared.who.Trust")
OWNER = enum("rb_address.declared.who.Owner")
FORWARDING = enum("rb_answers.declared.listener.Forwarding")


# ---- words


def host_of(text):
    address = ipaddress.ip_address(text)
    plain = getattr(address, "ipv4_mapped", None) or address
    return HOST(f"V{plain.version}", tuple(plain.packed))


def peer_of(text):
    host, _, port = text.rpartition(":")
    return record(host=host_of(host.strip("[]")), port=int(port))


def who_of(text):
    text, _, word = text.partition("/")
    source, _, asked = text.partition(">")
    trust = {"": TRUST("Claims"), "stranger": TRUST("Stranger"), "unknown": TRUST("Local", OWNER("Unknown"))}
    return record(
        source=SOURCE("Local") if source == "local" else SOURCE("Inet", peer_of(source)),
        asked=host_of(asked or "0.0.0.0"),
        trust=trust[word] if word in trust else TRUST("Local", OWNER("Uid", int(word))),
    )


def bytes_of(text):
    return () if text == "-" else tuple(bytes.fromhex(text))


READERS = {
    "open": ("Open", int, who_of), "bytes": ("Bytes", int, int, bytes_of), "pending": ("Pending", int),
    "gave": ("Gave", int, int, int), "closed": ("Closed", int), "lost": ("NextLost",), "datagram": ("Datagram", int, who_of, bytes_of),
    "unsent": ("Unsent",), "sent": ("Sent", int), "forward": ("Forward", int, peer_of, bytes_of), "expire": ("Expire", int),
    "zero": ("ZeroStats",),
}  # fmt: skip


def event_of(line):
    word, *words = line.split(" ")
    name, *readers = READERS[word]
    return EVENT(name, *(read(it) for read, it in zip(readers, words, strict=True)))


# ---- outputs


def hex_of(octets):
    return bytes(octets).hex() or "-"


def text_of_host(host):
    """IPv6 as RFC 5952 prints it, but in groups alone."""
    address = ipaddress.ip_address(bytes(host.args[0]))
    return str(address)


def text_of_peer(peer):
    host = text_of_host(peer.f_host)
    return f"[{host}]:{peer.f_port}" if ":" in host else f"{host}:{peer.f_port}"


def text_of_source(who):
    return "local" if who.f_source.tag[1] == "Local" else text_of_peer(who.f_source.args[0])


def text_of_unsent(found):
    if found == NONE:
        return "unsent -"
    call = found.args[0]
    return f"unsent {call.f_number} {text_of_peer(call.f_target)} {hex_of(call.f_call)}"


WRITERS = {
    "Opened": lambda id: f"open {id}", "Refused": lambda fault: fault.tag[1].lower(), "TooMuch": lambda: "toomuch",
    "Took": lambda n: f"took {n}", "TookAndLost": lambda n: f"took {n} closed", "IsPending": lambda octets: f"pending {hex_of(octets)}",
    "Done": lambda: "ok", "LostIs": lambda id: f"lost {id.args[0] if id.args else '-'}", "Replied": lambda octets: f"reply {hex_of(octets)}",
    "Forwarded": lambda: "forwarded", "Silent": lambda: "silent", "UnsentIs": text_of_unsent, "Ignored": lambda: "ignored",
    "Nothing": lambda: "nothing", "ConnectionLost": lambda id: f"closed {id}", "Ready": lambda id: f"ready {id}",
    "RepliedTo": lambda who, octets: f"datagram {text_of_source(who)} {hex_of(octets)}",
}  # fmt: skip


def text_of(output):
    return WRITERS[output.tag[1]](*output.args)


# ---- options


def options_of(words):
    """The limits, the listener, the first xid and the first moment."""
    given, hosts, reserved = dict(DEFAULTS), [], []
    words = list(words)
    while words:
        word = words.pop(0)
        if not word.startswith("--") or word in ("--check", "--steps"):
            continue
        name, _, value = word.partition("=")
        value = value or words.pop(0)
        if name == "--announce":
            hosts.append(ipaddress.ip_address(value))
        elif name == "--reserve":
            programs, _, uid = value.partition("=")
            first, _, last = programs.partition("-")
            reserved.append(record(first=int(first), last=int(last or first), uid=int(uid)))
        else:
            given[name] = int(value) if name in DEFAULTS else value
    return given, hosts or [ipaddress.ip_address("192.0.2.1")], tuple(reserved)


def opening_of(words):
    given, hosts, reserved = options_of(words)
    by_version = {it.version: tuple(it.packed) for it in hosts}
    forwarding = {"any": "Anywhere", "all": "ForAll", "local": "ForLocal"}[given.get("--forward-for", "any")]
    listener = record(
        announced=record(inet=maybe(by_version.get(4)), inet6=maybe(by_version.get(6))),
        port=given["--port"],
        local=some(tuple(given["--local"].encode())) if "--local" in given else NONE,
        terms=record(long_replies=given.get("--udp-lists", "all") == "all", forwarding=FORWARDING(forwarding)),
        reserved=reserved,
    )
    limits = record(conns=given["--conns"], rows=given["--rows"], forwards=given["--forwards"])
    return OPENING(limits, listener, given["--xid"], given["--now"]) if ARE_GOOD(limits, listener) else None


# ---- files


def words_for(file, lines):
    """The words of a record stand in its first line, those of a row beside it."""
    if found := re.match(r"# rpcbind (replay .*)", lines[0] if lines else ""):
        return shlex.split(found[1])
    args = file.with_suffix(".args")
    return args.read_text().split("\n")[:-1] if args.is_file() else []


def run(file):
    """What is wrong with the outputs of a file, '' if nothing is, or None if it is left out."""
    if file.with_suffix(".status").is_file() or file.stat().st_size > LONGEST_FILE:
        return None
    lines = file.read_text().split("\n")[:-1]  # a last line that is cut counts for nothing
    state = opening_of(words_for(file, lines))
    if state is None:
        return None
    events = [it for it in lines if it and not it.startswith("#")]
    wanted = [it[len("#> ") :] for it in lines if it.startswith("#> ") and not it.startswith("#> steps ")]
    for at, line in enumerate(events):
        output, state = STEP(state, event_of(line))
        told = text_of(output)
        if at == len(wanted) and file.read_text()[-1] != "\n":
            return ""
        if at >= len(wanted) or told != wanted[at]:
            return f"'{line[:100]}': wanted {wanted[at][:200] if at < len(wanted) else 'no output'}, the model says {told[:200]}"
    return "" if len(events) == len(wanted) else "outputs are left"


def unreached():
    """The clauses that no event reached, a line each."""
    texts = [(".".join(module.path), " ".join(text.split())) for at, (module, _, text) in MODEL.clauses.items() if not MODEL.hits[at]]
    return "".join(f"{module}: {text}\n" for module, text in sorted(texts))


def judge(file):
    try:
        return run(file)
    except (Stuck, ArithmeticError, AttributeError, LookupError, TypeError, ValueError, RecursionError) as error:
        return f"{type(error).__name__}: {error}"


def main():
    words = [it for it in sys.argv[1:] if it != "--write"]
    files = [Path(it) for it in words] or sorted(ROWS.glob("*.events"))
    told = {it: judge(it) for it in files}
    wrong = {it: why for it, why in told.items() if why}
    for it, why in wrong.items():
        print(f"failed: {it.name}: {why}")
    passed, failed = sum(it == "" for it in told.values()), len(wrong)
    if not words:
        if "--write" in sys.argv:
            UNREACHED.write_text(unreached())
        is_same = UNREACHED.read_text() == unreached()
        passed, failed = passed + is_same, failed + (not is_same)
        if not is_same:
            print("failed: tests/unreached is not what no row reaches: tests/run-model.py --write makes it anew")
    reached = sum(MODEL.hits[it] for it in MODEL.clauses)
    left = sum(it is None for it in told.values())
    print(f"{reached} of {len(MODEL.clauses)} clauses of {len(MODEL.made)} definitions were reached; {left} files are left out")
    print(f"{passed} passed, {failed} failed")
    return failed > 0


if __name__ == "__main__":
    sys.setrecursionlimit(1_000_000)
    threading.stack_size(1 << 29)
    status = []
    thread = threading.Thread(target=lambda: status.append(main()))
    thread.start()
    thread.join()
    sys.exit(status[0] if status else 1)
