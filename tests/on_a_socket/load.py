"""Many clients at once, and among them some that behave badly.

200 clients with keys of their own, in slots of their own at the three masters, send pipelines of 16 requests: each has to read
exactly the replies to these. Beside them clients die in the middle of a request, send a byte a second, never read, say nothing, or
come and go: the others, and a newcomer at each node, have to be served all the while. Once all have gone, the server has to hold as
many threads and open files as before the first one came.
"""

import contextlib
import socket
import struct
import threading
import time

import clusters
from clusters import lines_of, ports_of
from deaf import NEVER_FULL, DeafClient
from program import Server
from wire import OK, PING, PONG, array, ask, bulk, connect, number, playing, slot_of, spelled, talk

CLIENTS = 200
# How many clients die in the middle of a request at least, however slow the machine is.
LEAST_DEATHS = 20

# How many seconds the load lasts at least.
SECONDS = 5
# How many clients come and go.
COMING = 1000
# How many seconds a newcomer may wait for its reply, while 200 others are served.
PATIENCE = 10
# How many seconds a server of which nobody wants anything may take until its last thread has ended, before the load and after it.
SETTLED, LAST = 0.5, 10


def play(judge):
    cluster = clusters.six_nodes()
    with Server(cluster) as server:
        judge.equal("under load: the lines of the nodes", server.lines, lines_of(cluster))
        for node, port in enumerate(ports_of(cluster)):
            judge.equal(f"before the load: node {node} answers", talk(port, PING), PONG)
        time.sleep(SETTLED)
        held = server.holdings()
        play_load(judge, ports_of(cluster))
        judge.equal("after the load: threads and open files", server.holdings_in_time(held, LAST), held)


def play_load(judge, ports):
    end = threading.Event()
    calls = [lambda client=client: serve_oneself(judge, client, ports, end) for client in range(CLIENTS)]
    others = (slow_client, dying_clients, coming_clients, newcomers)
    with silent_clients(ports), deaf_clients(judge, ports), playing([*calls, *(lambda it=it: it(judge, ports, end) for it in others)]):
        time.sleep(SECONDS)
        end.set()


def serve_oneself(judge, client, ports, end):
    """A client that reads what it has to, round by round, until the end."""
    node = client % 3
    tag = tag_at(node, client)
    rounds = 0
    with judge.part(f"client {client}"), connect(ports[node]) as connection:
        while not end.is_set() or not rounds:
            requests, replies = pipeline(tag, rounds)
            got = ask(connection, requests, replies)
            if got != replies:
                judge.equal(f"client {client}: the replies of round {rounds}", got, replies)
                return
            rounds += 1
    judge.least(f"client {client}: rounds that were answered rightly", rounds, 1)


def tag_at(node, client):
    """A hash tag of the client's own, in a slot of the master with that number."""
    first, last = ((0, 5460), (5461, 10922), (10923, 16383))[node]
    tags = (b"%d-%d" % (client, turn) for turn in range(1000))
    return next(tag for tag in tags if first <= slot_of(tag) <= last)


def pipeline(tag, turn):
    """16 requests of the client with that tag, and their replies."""
    text, count, fields = b"{%s}text" % tag, b"{%s}count" % tag, b"{%s}fields" % tag
    value = b"%s in round %d" % (tag, turn)
    rows = [
        ((b"SET", text, value), OK),
        ((b"GET", text), bulk(value)),
        ((b"APPEND", text, b"!"), number(len(value) + 1)),
        ((b"GET", text), bulk(value + b"!")),
        ((b"INCR", count), number(4 * turn + 1)),
        ((b"INCR", count), number(4 * turn + 2)),
        ((b"INCR", count), number(4 * turn + 3)),
        ((b"INCR", count), number(4 * turn + 4)),
        ((b"MGET", text, count), array(bulk(value + b"!"), bulk(b"%d" % (4 * turn + 4)))),
        ((b"HSET", fields, b"round", b"%d" % turn), number(1)),
        ((b"HGET", fields, b"round"), bulk(b"%d" % turn)),
        ((b"DEL", fields), number(1)),
        ((b"HGET", fields, b"round"), b"$-1\r\n"),
        ((b"EXISTS", text, fields, count), number(2)),
        ((b"STRLEN", text), number(len(value) + 1)),
        ((b"PING",), PONG),
    ]
    return b"".join(spelled(*words) for words, _ in rows), b"".join(reply for _, reply in rows)


def slow_client(judge, ports, end):
    """It sends a byte a second, and the rest of its request at the end."""
    with connect(ports[0]) as client:
        sent = 0
        while sent < len(PING) - 1 and not end.wait(1):
            client.sendall(PING[sent:sent + 1])
            sent += 1
        judge.least("the slow client: bytes that it sent one by one", sent, 1)
        judge.equal("the slow client: its reply", ask(client, PING[sent:], PONG), PONG)


def dying_clients(judge, ports, end):
    """They go in the middle of a request, some with a word of farewell and some without."""
    request = spelled(b"SET", b"b", b"v" * 100)
    died = 0
    while not end.wait(0.02) or died < LEAST_DEATHS:
        with connect(ports[died % 6]) as client:
            client.sendall(PING + request[:1 + died % (len(request) - 1)])
            if died % 2:
                cut(client)
        died += 1
    judge.least("clients that died in the middle of a request", died, LEAST_DEATHS)


def cut(client):
    """Lets the connection be reset once it is closed."""
    client.setsockopt(socket.SOL_SOCKET, socket.SO_LINGER, struct.pack("ii", 1, 0))


def coming_clients(judge, ports, _end):
    """They connect and close, one after another."""
    came = 0
    for turn in range(COMING):
        with connect(ports[turn % 6]):
            came += 1
    judge.equal("clients that came and went", came, COMING)


def newcomers(judge, ports, end):
    """Who comes to a node meanwhile is served there."""
    waited = [0] * len(ports)
    while not end.wait(0.1):
        for node, port in enumerate(ports):
            begun = time.monotonic()
            with connect(port) as client:
                got = ask(client, PING, PONG)
            if got != PONG:
                judge.equal(f"a newcomer at node {node}", got, PONG)
            waited[node] = max(waited[node], time.monotonic() - begun)
    for node, seconds in enumerate(waited):
        judge.least(f"a newcomer at node {node}: it was served", seconds, 1e-6)
        judge.most(f"a newcomer at node {node}: the longest time in seconds", seconds, PATIENCE)


@contextlib.contextmanager
def silent_clients(ports):
    """One at each node says nothing."""
    with contextlib.ExitStack() as stack:
        for port in ports:
            stack.enter_context(connect(port))
        yield


@contextlib.contextmanager
def deaf_clients(judge, ports):
    """One at each master sends until its socket is full, and reads what came at the end."""
    with contextlib.ExitStack() as stack:
        clients = [stack.enter_context(contextlib.closing(DeafClient(ports, node))) for node in range(3)]
        yield
        for node, client in enumerate(clients):
            judge.most(f"a deaf client at node {node}: bytes that are taken while it doesn't read", client.sent, NEVER_FULL - 1)
            judge.equal(f"a deaf client at node {node}: the replies, once it reads", client.rest(), client.replies())
