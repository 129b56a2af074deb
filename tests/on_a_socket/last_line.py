"""A line that ends a conversation reaches its client, which sends all of its request before it reads: a request that finds no memory, and
one with a bad byte. What such a client goes on to send is read for a moment, and others are served meanwhile; but not for long, not
however much it is, and not behind the server's end.
"""

import contextlib
import threading
import time

import clusters
from clusters import ports_of
from memory import REFUSED, limited
from program import PATIENCE, Server
from wire import OK, PING, PONG, ask, connect, line_of, playing, rest_of, spelled

# How many bytes of addresses the program may take beyond those that it has when the clients come: fewer than the request.
ROOM = 8 << 20
# So many clients at a time, and so many requests of each.
CLIENTS, REQUESTS = 4, 25
# Of so many requests one line may be lost.
FEW = 100
# A request of 15 MiB, and as many bytes behind a bad one.
VALUE = b"." * ((1 << 20) - 1)
LARGE = spelled(b"MSET", *[word for number in range(15) for word in (b"{large}%d" % number, VALUE)])
BAD = b"*1\r\n$x\r\n"
SPOILT = BAD + VALUE * 15
UNREADABLE = b"-ERR Protocol error\r\n"
# More than is read behind a last line.
ENDLESS = 16 * len(VALUE)
# How many seconds a client is read at most behind a last line.
LONGEST = 5
# After so many ticks of 100 ms a server ends, long before that.
TICKS = 10


def play(judge):
    with Server(clusters.masters(1)) as server:
        port, = ports_of(server.cluster)
        with connect(port) as client:
            judge.equal("last line: it is served", ask(client, PING, PONG), PONG)
            held = server.holdings()
            with limited(server, ROOM):
                play_many(judge, port, "a request without memory", LARGE, REFUSED)
            play_many(judge, port, "a bad byte", SPOILT, UNREADABLE)
            play_endless(judge, port)
            play_silent(judge, server, port, held)
            judge.equal("last line: another client is served on", ask(client, PING, PONG), PONG)
    play_end(judge)


def play_many(judge, port, what, request, line):
    """Clients that send such a request each, one after another: nearly all of them read the line."""
    told = Told(port, request, line)
    with playing([told.play] * CLIENTS):
        pass
    judge.least(f"{what}: requests that were answered by a line, or by nothing", told.requests, FEW)
    judge.equal(f"{what}: other answers", told.strange, [])
    judge.most(f"{what}: lines that didn't come", told.requests - told.lines, told.requests // FEW)


class Told:
    """Clients that are to be told by a line that their request isn't answered."""

    def __init__(self, port, request, line):
        self.port, self.request, self.line = port, request, line
        self.requests, self.lines, self.strange = 0, 0, []
        self.lock = threading.Lock()

    def play(self):
        last = time.monotonic() + PATIENCE
        played = 0
        while played < REQUESTS and time.monotonic() < last:
            # Where memory is short a newcomer may find none for its thread.
            with contextlib.suppress(ConnectionError), connect(self.port) as client:
                if ask(client, PING, PONG) == PONG:
                    played += self.note(answer_to(client, self.request))

    def note(self, answer):
        """Whether the request was to be answered by the line. The first ones may find memory that the program has already."""
        if answer == OK:
            return False
        with self.lock:
            self.requests += 1
            self.lines += answer == self.line
            if answer not in (self.line, b""):
                self.strange.append(answer)
        return True


def answer_to(client, request):
    """What a client reads that sends all of a request first. One that can't send it takes the connection for broken, and reads nothing."""
    try:
        client.sendall(request)
        return line_of(client)
    except ConnectionError:
        return b""


def play_endless(judge, port):
    """A client that goes on sending is cut off."""
    with connect(port) as client:
        with contextlib.suppress(ConnectionError):
            client.sendall(BAD)
            for _ in range(16):
                client.sendall(VALUE * 16)
            judge.true("endless bytes behind a bad one: the client is cut off", False, "all were sent")
    with connect(port) as client:
        judge.equal("endless bytes behind a bad one: a newcomer is served", ask(client, PING, PONG), PONG)


def play_silent(judge, server, port, held):
    """Clients that neither send nor close anything behind the line are let go after a moment, and others are served meanwhile."""
    with contextlib.ExitStack() as stack:
        clients = [stack.enter_context(connect(port)) for _ in range(CLIENTS)]
        for client in clients:
            client.sendall(BAD)
            judge.equal("a client that is told, and stays: what it reads", rest_of(client), UNREADABLE)
        with connect(port) as client:
            judge.equal("clients that are told, and stay: a newcomer is served", ask(client, PING, PONG), PONG)
        judge.equal("clients that are told, and stay: what the program holds at last", server.holdings_in_time(held, LONGEST + PATIENCE), held)


def play_end(judge):
    """A client that stays behind its line keeps no server from its end."""
    with Server(clusters.masters(1), "--ticks", str(TICKS)) as server:
        port, = ports_of(server.cluster)
        with connect(port) as client:
            client.sendall(BAD)
            judge.equal("a client that is told, and stays until the end: what it reads", rest_of(client), UNREADABLE)
            told = time.monotonic()
            status, _, _ = server.outcome(PATIENCE)
            judge.equal("a client that is told, and stays until the end: the status", status, 0)
            judge.most("a client that is told, and stays until the end: the seconds up to the end", time.monotonic() - told, LONGEST - 1)
