"""Clients that have a thread each, and whose threads come to wait for each other at their node: a line on standard error says so, once, and what
`--loops` does. With `--loops` the same load tells nothing.
"""

import functools
import threading
import time

import clusters
import program
from clusters import ports_of
from program import CROWD, Server
from wire import OK, connect, playing, spelled, take

# The threads have to wait for each other in ten ticks in a row, so short ticks see a crowd sooner.
TICK_MS = 10
# So many clients, each with so many requests in a pipeline. How long the line may take to come, and how long none is to come.
CLIENTS, PIPELINE = 64, 200
PATIENCE, SILENCE = 60, 5
REQUESTS, REPLIES = spelled(b"SET", b"a", b"1") * PIPELINE, OK * PIPELINE


def play(judge):
    cluster = clusters.masters(1, tick_ms=TICK_MS)
    (port,) = ports_of(cluster)
    is_over = threading.Event()
    with Server(cluster) as server:
        with playing([functools.partial(write, port, is_over) for _ in range(CLIENTS)]):
            told = told_in_time(server, SILENCE if program.LOOPS else PATIENCE)
            is_over.set()
        judge.equal("lines that say that clients wait for each other", len(CROWD.findall(told)), 0 if program.LOOPS else 1)
        judge.equal("what standard error says beside them", CROWD.sub(b"", told), b"")


def write(port, is_over):
    with connect(port) as client:
        while not is_over.is_set():
            client.sendall(REQUESTS)
            if take(client, len(REPLIES)) != REPLIES:
                return


def told_in_time(server, seconds):
    """The standard error, once it has a line or so many seconds have passed."""
    last = time.monotonic() + seconds
    while not (told := read(server)) and time.monotonic() < last:
        time.sleep(0.1)
    return told


def read(server):
    server.errors.seek(0)
    return server.errors.read()
