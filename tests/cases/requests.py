"""Requests from bytes that come in any pieces, and requests as bytes.

These go on with one connection: `feed BYTES`; `feed-run COUNT`, which feeds COUNT times `x` in pieces; `feed-words COUNT`, which feeds
COUNT times the word `x` in as many pieces; `feed-long-words COUNT`, which does so with words of a mebibyte; `next`, which gives the
next reply. `nothing yet` says that a client that ends there gets no more, and `the end` that the node has ended the connection.

`bytewise BYTES` sends byte by byte. It gives each reply, and the byte that brings the node to end the connection: it takes no request
behind that, and tells so of none before. `by-fives COUNT WORD` sends a request of COUNT times the word by five bytes. `cuts BYTES` cuts
the bytes at each place and gives what is answered before and behind the cut, where it isn't what it was at the cut before.

`write WORD..` gives the bytes that the program sends as a client.
"""

import socket
import time

from answering import asked_for
from blocks import Malformed, bytes_of, shown, verb_of, words_of
from clusters import masters, ports_of
from program import Server
from spelling import replies_in
from wire import PAUSE, PING, connect, rest_of, spelled

# The line that a node sends where it ends a connection for the sake of a bad byte.
FAULT = b"-ERR Protocol error\r\n"
# Long words come in pieces of so many bytes.
PIECE = 1024
MEBIBYTE = 1 << 20
# Of so many pieces at most each is waited for.
MOST_PAUSES = 64


def play(commands):
    if all(it.startswith("write ") for it in commands):
        return [shown(asked_for(*words_of(it[len("write "):]))) for it in commands]
    cluster = masters(1)
    with Server(cluster):
        reader = Reader(*ports_of(cluster))
        return [line for command in commands for line in reader.play(command)]


class Reader:
    """What a node answers to bytes that come in pieces."""

    def __init__(self, port):
        self.port = port
        self.pieces = []
        self.taken = 0

    def play(self, command):
        """The lines that the command gives."""
        verb, rest = verb_of(command)
        if verb == "next":
            return [self.next()]
        if verb in ("bytewise", "by-fives", "cuts"):
            return {"bytewise": self.bytewise, "by-fives": self.by_fives, "cuts": self.cuts}[verb](rest)
        self.pieces += fed(verb, rest)
        return []

    def next(self):
        replies = replies_in(heard(self.port, self.pieces))
        if self.taken == len(replies):
            return "the end" if FAULT in replies else "nothing yet"
        self.taken += 1
        return shown(replies[self.taken - 1])

    def bytewise(self, word):
        data = bytes_of(word)
        items, before = [], b""
        for count in range(1, len(data) + 1):
            answer = heard(self.port, [data[:count]])
            if answer.endswith(FAULT):
                stays = heard(self.port, [data[:count] + PING]) == heard(self.port, [data[:count], PING]) == answer
                items.append(f"{shown(answer[len(before):-len(FAULT)])}protocol error at byte {count} of {len(data)}, {'for good' if stays else 'once'}")
                break
            if answer != before:
                items.append(shown(answer[len(before):]))
            before = answer
        else:
            items.append("nothing more")
        slowly = heard(self.port, bytes_in(data), pause=0.0002)
        if slowly != answer:
            items.append(f"byte by byte {shown(slowly)}")
        return [", ".join(items)]

    def by_fives(self, rest):
        count, word = verb_of(rest)
        data = spelled(*[bytes_of(word)] * int(count))
        answer = heard(self.port, [data[at:at + 5] for at in range(0, len(data), 5)])
        early = heard(self.port, [data[:-1]])
        return [", ".join(map(shown, [*[early] * (early != b""), *replies_in(answer)])) + ", nothing more"]

    def cuts(self, word):
        data, lines, last = bytes_of(word), [], None
        for cut in range(len(data)):
            front = heard(self.port, [data[:cut]])
            whole = heard(self.port, [data[:cut], data[cut:]])
            answers = f"{listed(front)} | {listed(whole[len(front):])}"
            if answers != last or not whole.startswith(front):
                lines.append(f"from {cut} on: {answers}")
            last = answers
        return lines


def listed(answer):
    return ", ".join(map(shown, replies_in(answer))) or "nothing yet"


def fed(verb, rest):
    """The pieces that a command feeds."""
    if verb == "feed":
        return [bytes_of(rest)]
    if verb == "feed-run":
        return run_of(int(rest))
    if verb == "feed-words":
        return [b"$1\r\nx\r\n"] * int(rest)
    if verb == "feed-long-words":
        return [b"$%d\r\n" % MEBIBYTE, *run_of(MEBIBYTE), b"\r\n"] * int(rest)
    raise Malformed(f"no such command: {verb}")


def run_of(count):
    return [b"x" * PIECE] * (count // PIECE) + [b"x" * (count % PIECE)] * (count % PIECE > 0)


def bytes_in(data):
    return [bytes([it]) for it in data]


def heard(port, pieces, pause=None):
    """All that is answered to these pieces, sent one by one, up to the end of the connection. Between a few of them a client waits, so
    that they are read one by one."""
    if pause is None:
        pause = PAUSE if len(pieces) <= MOST_PAUSES else 0
    with connect(port) as client:
        try:
            for piece in pieces:
                client.sendall(piece)
                if pause and piece is not pieces[-1]:
                    time.sleep(pause)
            client.shutdown(socket.SHUT_WR)
        except OSError:
            # The node has ended the connection.
            pass
        return rest_of(client)
