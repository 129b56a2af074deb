"""Clients that send far more requests than a turn of theirs has, or than a read gives.

Each reply has to come, in order, and the end of the connection behind the last: where a client sends no more behind its requests, where
it sends more while earlier ones aren't answered yet, and where replies fill its socket while it sends nothing.
"""

import socket

import clusters
from clusters import ports_of
from program import Server
from wire import OK, PING, PONG, ask, bulk, connect, number, playing, rest_of, spelled

COUNTS = (1, 10, 63, 64, 65, 3_000, 50_000)
# How many requests a client sends at once, and how often again while it reads nothing.
BATCH, BATCHES = 1_000, 20
# So many values of that size are more than a socket holds.
VALUES, SIZE = 30, 1_000_000


def play(judge):
    with Server(clusters.six_nodes()) as server:
        port = ports_of(server.cluster)[0]
        for count in COUNTS:
            pings(judge, port, count)
        playing_at_once = [lambda client=client: counting(judge, port, client) for client in range(8)]
        with playing(playing_at_once):
            pass
        values(judge, port)


def pings(judge, port, count):
    """A client that sends nothing behind these, and says so."""
    with connect(port) as client, playing([lambda: send_all(client, PING * count)]):
        got = rest_of(client)
    judge.equal(f"{count} requests, and then nothing more", (len(got), got == PONG * count), (len(PONG) * count, True))


def send_all(client, requests):
    client.sendall(requests)
    client.shutdown(socket.SHUT_WR)


def counting(judge, port, client):
    """Counts with a key of its own, and reads once all requests are sent."""
    key = b"{b}count:%d" % client
    with connect(port) as connection:
        for _ in range(BATCHES):
            connection.sendall(spelled(b"INCR", key) * BATCH)
        connection.shutdown(socket.SHUT_WR)
        got = rest_of(connection)
    wanted = b"".join(map(number, range(1, BATCH * BATCHES + 1)))
    judge.equal(f"client {client} counts to {BATCH * BATCHES}", (len(got), got == wanted), (len(wanted), True))


def values(judge, port):
    """Asks for more than a socket holds, and for one thing behind that."""
    value = b"x" * SIZE
    with connect(port) as client:
        judge.equal("a long value is set", ask(client, spelled(b"SET", b"{b}long", value), OK), OK)
        client.sendall(spelled(b"GET", b"{b}long") * VALUES + PING)
        client.shutdown(socket.SHUT_WR)
        got = rest_of(client)
    wanted = bulk(value) * VALUES + PONG
    judge.equal("long values in one pipeline", (len(got), got == wanted), (len(wanted), True))
