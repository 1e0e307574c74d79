"""The rows that a file of kept rows leaves: the line of each, in their order.

A line with a SET of version 4 adds its row, one with an UNSET takes the row of its program, version, netid and owner out,
and what stands behind the last line feed is left out.
"""
SET, UNSET = "00000001", "00000002"


def opaque_end(call, begin):
    """Where opaque data ends that begins there (RFC 4506 section 4.10), in digits."""
    length = int(call[begin : begin + 8], 16)
    return begin + 8 + 2 * (length + -length % 4)


def key_of(call):
    """Credential, program, version and netid of a call in hexadecimal digits."""
    head_end = opaque_end(call, 56)
    argument = opaque_end(call, head_end + 8)
    return call[48:head_end], call[argument : opaque_end(call, argument + 16)]


def lines_left(text):
    """The lines that are left of these, each with its line feed."""
    left = {}
    for line in text[: text.rfind("\n") + 1].splitlines(keepends=True):
        if line.startswith("#") or line == "\n":
            continue
        call = line.split()[3]
        key = key_of(call)
        if call[40:48] == SET:
            left[key] = line
        elif call[40:48] == UNSET:
            del left[key]
        else:
            raise ValueError(line)
    return list(left.values())
