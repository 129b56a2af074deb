"""Replies from bytes that come in any pieces, as a client reads them.

`bytewise BYTES` has a client read them byte by byte. It gives the reply that the last of them ends, `nothing more` where it waits for
more, or the byte by which it is told that they are no reply, whatever comes behind. `cuts BYTES` cuts the bytes at each place, and gives
what the client knows before the cut and behind it, where it isn't what it was at the cut before. `run COUNT KIND` gives a reply that has
COUNT times `x` in it and comes in pieces, and `again BYTES` the reply behind an error that has the client ask again.
"""

from answering import BAD, told_of
from blocks import Malformed, bytes_of, shown, verb_of
from wire import OK

TRYAGAIN = b"-TRYAGAIN Key is being moved\r\n"
PIECE = 1024


def play(commands):
    return [line for command in commands for line in lines_of(*verb_of(command))]


def lines_of(verb, rest):
    if verb == "cuts":
        return cuts(bytes_of(rest))
    if verb == "bytewise":
        return [bytewise(bytes_of(rest))]
    if verb == "run":
        return [run(*verb_of(rest))]
    if verb == "again":
        return [known(told_of(TRYAGAIN, bytes_of(rest)))]
    raise Malformed(f"no such command: {verb}")


def known(told):
    """What the client knows."""
    return "nothing yet" if told is None else "protocol error" if told == BAD else shown(told)


def cuts(data):
    lines, last = [], None
    for cut in range(len(data)):
        answers = f"{known(told_of(data[:cut]))} | {known(told_of(data[:cut], data[cut:]))}"
        if answers != last:
            lines.append(f"from {cut} on: {answers}")
        last = answers
    return lines


def bytewise(data):
    for count in range(1, len(data) + 1):
        told = told_of(data[:count])
        if told == BAD:
            stays = told_of(data[:count] + OK) == told_of(*bytes_in(data), OK) == BAD
            return f"protocol error at byte {count} of {len(data)}, {'for good' if stays else 'once'}"
        if told is not None and count < len(data):
            return f"{shown(told)} at byte {count} of {len(data)}"
    slowly = told_of(*bytes_in(data))
    if slowly != told:
        return f"{known(told)}, and byte by byte {known(slowly)}"
    return "nothing more" if told is None else shown(told)


def bytes_in(data):
    return [bytes([it]) for it in data]


def run(count, kind):
    """A text or bytes, of COUNT times `x`."""
    begins = {"simple": b"+", "error": b"-", "bulk": b"$%s\r\n" % count.encode("ascii")}[kind]
    left = int(count)
    pieces = [b"x" * min(PIECE, left - at) for at in range(0, left, PIECE)]
    return known(told_of(begins, *pieces, b"\r", b"\n"))
