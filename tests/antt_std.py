"""Values of the definitions that tests/antt.py runs, and what the toolchain's library computes, by its names there."""

import functools
import ipaddress
from collections import namedtuple


# ---- values


TAGS = {}


def tag_of(tag):
    """The one tuple for a constructor, so that values of it are told by `is`."""
    return TAGS.setdefault(tag, tag)


class Value:
    """What a constructor makes, by its name and its type's."""

    __slots__ = ("tag", "args")

    def __init__(self, tag, args=()):
        self.tag, self.args = tag_of(tag), args

    def __eq__(self, other):
        return type(other) is Value and self.tag is other.tag and self.args == other.args

    def __hash__(self):
        return hash((self.tag, self.args))

    def __repr__(self):
        return f"({self.tag[1]} {' '.join(map(repr, self.args))})" if self.args else self.tag[1]


BUILT_IN = {"Some": 1, "None": 0, "Ok": 1, "Err": 1, "tt": 0}
NONE = Value(("", "None"))


def some(x):
    return Value(("", "Some"), (x,))


def is_a(x, name):
    return type(x) is Value and x.tag[1] == name


def maybe(x):
    return NONE if x is None else some(x)


@functools.lru_cache(maxsize=None)
def record_type(fields):
    return namedtuple("R", [f"f_{it}" for it in fields])


def record(**fields):
    """A record of these fields, in any order."""
    names = tuple(sorted(fields))
    return record_type(names)(*(fields[it] for it in names))


def apply(function, *args):
    for it in args:
        function = function(it)
    return function


def curry(function, count):
    if count == 0:
        return function()
    if count == 1:
        return function
    return lambda x: curry(functools.partial(function, x), count - 1)


# ---- the library's own definitions


def split_at(test, xs):
    parts, part = [], []
    for x in xs:
        if test(x):
            parts.append(tuple(part))
            part = []
        else:
            part.append(x)
    return tuple([*parts, tuple(part)])


def join(byte, parts):
    return tuple(it for at, part in enumerate(parts) for it in ((byte,) if at else ()) + part)


def digits_value(base, text):
    return functools.reduce(lambda n, b: n * base + int(chr(b), base), text, 0)


def decimal(n):
    return tuple(str(n).encode())


def octets_of(segments):
    return tuple(it for segment in segments for it in divmod(segment, 256))


def segments_of(octets):
    return tuple(octets[at] * 256 + octets[at + 1] for at in range(0, len(octets), 2))


def ipv6_text(segments):
    """As RFC 5952 has it, in groups alone."""
    words = [f"{it:x}" for it in segments]
    best = max(((length, -at) for at in range(8) for length in range(2, 9 - at) if not any(segments[at : at + length])), default=None)
    if best is None:
        return tuple(":".join(words).encode())
    at, length = -best[1], best[0]
    return tuple(f"{':'.join(words[:at])}::{':'.join(words[at + length :])}".encode())


def read_ipv6(text):
    """The address that all of a text is, as segments, and no text after it. No caller asks for the front of one."""
    try:
        return some((segments_of(ipaddress.IPv6Address(bytes(text).decode("ascii").replace("%", "-")).packed), ()))
    except (ValueError, UnicodeDecodeError):
        return NONE


def find(test, xs):
    return next((some(x) for x in xs if test(x)), NONE)


def position(test, xs):
    return next((some(at) for at, x in enumerate(xs) if test(x)), NONE)


def fold(function, start, xs):
    return functools.reduce(lambda so_far, x: apply(function, so_far, x), xs, start)


def filter_map(function, xs):
    return tuple(it.args[0] for it in map(function, xs) if is_a(it, "Some"))


def option_map(function, x):
    return some(function(x.args[0])) if is_a(x, "Some") else NONE


def set_at(xs, at, x):
    return xs[:at] + (x,) + xs[at + 1 :] if at < len(xs) else xs


# By name, with how many arguments each takes.
STD = {
    "suc": (1, lambda n: n + 1), "pred": (1, lambda n: max(n - 1, 0)), "min": (2, min), "max": (2, max),
    "nat_lt": (2, lambda a, b: a < b), "nat_le": (2, lambda a, b: a <= b), "nat_eq": (2, lambda a, b: a == b),
    "not": (1, lambda b: not b), "zero": (0, lambda: 0), "true": (0, lambda: True), "false": (0, lambda: False),
    "length": (1, len), "take": (2, lambda n, xs: xs[:n]), "drop": (2, lambda n, xs: xs[n:]),
    "map": (2, lambda f, xs: tuple(map(f, xs))), "replicate": (2, lambda n, x: (x,) * n), "reverse": (1, lambda xs: xs[::-1]),
    "filter": (2, lambda f, xs: tuple(filter(f, xs))), "find": (2, find), "position": (2, position), "fold": (3, fold),
    "filter_map": (2, filter_map), "flat_map": (2, lambda f, xs: tuple(y for x in xs for y in f(x))),
    "list_any": (2, lambda f, xs: any(map(f, xs))), "list_all": (2, lambda f, xs: all(map(f, xs))),
    "count_by": (2, lambda f, xs: sum(map(bool, map(f, xs)))), "sum_by": (2, lambda f, xs: sum(map(f, xs))),
    "slice_index": (2, lambda xs, at: xs[at]), "slice_range": (3, lambda xs, a, b: xs[a:b]), "slice_split": (2, split_at),
    "slice_index_or": (3, lambda xs, at, x: xs[at] if at < len(xs) else x), "slice_set": (3, set_at),
    "slice_get": (2, lambda xs, at: some(xs[at]) if at < len(xs) else NONE),
    "join_with_byte": (2, join), "bytes_eq": (2, lambda a, b: a == b), "codes": (1, lambda text: tuple(text.encode())),
    "decimal": (1, decimal), "digits_value": (2, digits_value), "digit_char": (2, lambda base, n: ord("0123456789abcdef"[n])),
    "octets_of": (1, octets_of), "segments_of": (1, segments_of), "hex_groups_text": (1, ipv6_text),
    "is_some": (1, lambda x: is_a(x, "Some")), "is_none": (1, lambda x: is_a(x, "None")), "option_map": (2, option_map),
    "option_map_or": (3, lambda f, x, other: f(x.args[0]) if is_a(x, "Some") else other),
    "option_or": (2, lambda a, b: a if is_a(a, "Some") else b), "option_and_then": (2, lambda f, x: f(x.args[0]) if is_a(x, "Some") else NONE),
    "w32": (0, lambda: 4), "to_be_bytes": (2, lambda width, n: tuple(n.to_bytes(width, "big"))),
    "from_be_bytes": (2, lambda width, bytes: int.from_bytes(bytes[:width], "big")), "read_ipv6": (1, read_ipv6),
    "whole_value": (1, lambda read: some(read.args[0][0]) if is_a(read, "Some") and not read.args[0][1] else NONE),
    "unwrap_or": (2, lambda x, other: x.args[0] if is_a(x, "Some") else other), "option_copied": (1, lambda x: x),
}  # fmt: skip
