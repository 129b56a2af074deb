"""Servers that are audited, one after another, while three clients count at keys of a slot that `reshard` moves, and twenty others send
pipelines of requests.

Each time the run is audited, with a step at least for each tick of node 0 and for each request that was answered.
"""

import contextlib
import functools
from concurrent.futures import ThreadPoolExecutor

from ending import ROWS_AT_ONCE, counting_clients, play_ticks
from wire import OK, ask, connect, playing, spelled

# How many servers are audited.
TIMES = 20
# How many clients send pipelines, and how many requests are in one.
PIPELINING, PIPELINE = 20, 16
# A key for each of the three masters.
KEYS = (b"b", b"c", b"x")


def play(judge):
    with ThreadPoolExecutor(ROWS_AT_ONCE) as pool:
        for done in [pool.submit(play_ticks, judge, busy_clients, [], f", time {it + 1}") for it in range(TIMES)]:
            done.result()


def busy_clients(judge, what, ports):
    """Clients count at keys that move, and others send pipelines at all masters."""
    counts = []

    def send(node):
        request, reply, count = spelled(b"SET", KEYS[node], b"v") * PIPELINE, OK * PIPELINE, 0
        with contextlib.suppress(OSError), connect(ports[node]) as client:
            while ask(client, request, reply) == reply:
                count += PIPELINE
        counts.append(count)

    with contextlib.contextmanager(counting_clients)(judge, what, ports) as counted:
        with playing([functools.partial(send, it % len(KEYS)) for it in range(PIPELINING)]):
            yield counts
        judge.equal(f"{what}: each of the clients with pipelines is ended", len(counts), PIPELINING)
    counts += counted
