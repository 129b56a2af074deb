"""Replies as bytes, read and written here by the protocol's specification.

In a case a reply may be its parts in order, as `array:2 simple:OK integer:-5`: an array's length stands before its elements.
"""

from blocks import Malformed, bytes_of

KINDS = {"simple": b"+%s\r\n", "error": b"-%s\r\n", "integer": b":%s\r\n", "array": b"*%s\r\n"}


def replies_in(data):
    """The replies that these bytes are, in order."""
    found, at = [], 0
    while at < len(data):
        end = end_of(data, at)
        found.append(data[at:end])
        at = end
    return found


def end_of(data, at):
    """Where the reply ends that begins there."""
    kind, end = data[at:at + 1], data.index(b"\r\n", at) + 2
    count = data[at + 1:end - 2]
    if kind == b"$" and count != b"-1":
        return end + int(count) + 2
    for _ in range(int(count) if kind == b"*" else 0):
        end = end_of(data, end)
    return end


def list_of(reply):
    """The value that a reply is: a list, or the text or number of another one."""
    kind, (line, _, rest) = reply[:1], reply[1:].partition(b"\r\n")
    if kind == b"*":
        return [list_of(it) for it in replies_in(rest)]
    return rest[:-2] if kind == b"$" else line


def spelled_reply(notation):
    """The bytes of a reply that is its parts in order."""
    return b"".join(map(part_of, notation.split(" ")))


def part_of(part):
    kind, _, value = part.partition(":")
    data = bytes_of(value) if value else b""
    if kind == "null":
        return b"$-1\r\n"
    if kind == "bulk":
        return b"$%d\r\n%s\r\n" % (len(data), data)
    if kind not in KINDS:
        raise Malformed(f"no such part: {part}")
    return KINDS[kind] % data
