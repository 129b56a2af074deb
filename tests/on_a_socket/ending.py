"""How a server ends: after its ticks, or by a signal.

Each row plays what clients do until the end, and compares the status, what was printed on standard error, that it didn't end before
its ticks, that each connection has ended, and that what the nodes did was audited: a run with a step for each tick of node 0 and for
each request that was answered.
"""

import contextlib
import functools
import itertools
import os
import re
import signal
import subprocess
import sys
import threading
import time
from concurrent.futures import ThreadPoolExecutor

import clusters
from clusters import lines_of, node_id, ports_of
from deaf import NEVER_FULL, DeafClient
from moving import SOURCE, TARGET, count_at
from program import BEGINNING, Server
from resharding import reshard_patiently
from wire import OK, PING, PONG, ask, connect, number, playing, rest_of, spelled

TICKS = 20
TICK_MS = 75
# How many clients come one after another, half of them by the end.
MOST_COMING = 300
# How many clients are there as many more come all at once.
BEFORE_THE_STORM = 1200
# How many seconds more than its ticks a server may take to end, and how many rows are played side by side.
MORE, ROWS_AT_ONCE = 30, 4
# How many clients count at keys of a slot that moves.
COUNTERS = 3

# Each play yields how many requests its clients had answered, which it fills in by its end, or None where it doesn't count them.


def no_clients(_judge, _what, _ports):
    """Nobody connects."""
    yield


def silent_clients(judge, what, ports):
    """A client at each node says nothing."""
    with contextlib.ExitStack() as stack:
        clients = [stack.enter_context(connect(port)) for port in ports]
        yield
        for node, client in enumerate(clients):
            judge.equal(f"{what}: the connection at node {node} is ended", rest_of(client), b"")


def half_requests(judge, what, ports):
    """A client at each node has sent a request and half of another."""
    with contextlib.ExitStack() as stack:
        clients = [stack.enter_context(connect(port)) for port in ports]
        for client in clients:
            client.sendall(PING + PING[:7])
        yield
        for node, client in enumerate(clients):
            judge.equal(f"{what}: the connection at node {node} is ended after its reply", rest_of(client), PONG)


def waiting_clients(judge, what, ports):
    """A client at the first node waits for a copy that nobody acknowledges."""
    orders = spelled(b"CLUSTER", b"SETSLOT", b"3300", b"MIGRATING", node_id(1).encode())
    migrate = spelled(b"MIGRATE", b"127.0.0.1", b"%d" % ports[1], b"b", b"0", b"1000000")
    with connect(ports[0]) as client:
        judge.equal(f"{what}: a key is set, and its slot migrates", ask(client, spelled(b"SET", b"b", b"v") + orders, OK + OK), OK + OK)
        client.sendall(migrate + PING)
        yield
        judge.equal(f"{what}: the connection is ended without a reply", rest_of(client), b"")


def writing_clients(judge, what, ports):
    """Four clients write at the first node as fast as they can."""
    request = spelled(b"SET", b"b", b"v" * 100) * 16
    reply = OK * 16
    counts = []

    def write():
        count = 0
        with contextlib.suppress(OSError), connect(ports[0]) as client:
            while ask(client, request, reply) == reply:
                count += 16
        counts.append(count)

    with playing([write] * 4):
        yield counts
    judge.equal(f"{what}: each of the clients is ended", len(counts), 4)
    judge.least(f"{what}: requests that each had answered", min(counts, default=0), 16)


def counting_clients(judge, what, ports):
    """Clients count at keys of a slot that `reshard` moves to and fro, wherever it is."""
    ended = threading.Event()
    replies = [[] for _ in range(COUNTERS)]
    counts, moves = [], []

    def count(key):
        with contextlib.suppress(OSError):
            count_at(ports, key, replies[key], ended)

    def move():
        for source, target in itertools.cycle(((SOURCE, TARGET), (TARGET, SOURCE))):
            status, output = reshard_patiently(ports[0], source=source, target=target)
            if status:
                return
            moves.append(output)

    with playing([move, *(functools.partial(count, key) for key in range(COUNTERS))]):
        yield counts
        ended.set()
    for key, told in enumerate(replies):
        # Behind the end there is no reply.
        told = [it for it in told if it]
        judge.equal(f"{what}: what client {key} was told", told, [number(it + 1) for it in range(len(told))])
        counts.append(len(told))
    judge.least(f"{what}: how often each client counted", min(counts), 1)
    judge.least(f"{what}: how often the slot was moved", len(moves), 1)


def deaf_client(judge, what, ports):
    """A client sends and never reads, until no more can be sent."""
    with contextlib.closing(DeafClient(ports, 0)) as client:
        judge.most(f"{what}: bytes that are taken while it doesn't read", client.sent, NEVER_FULL - 1)
        yield
        rest = client.rest()
        judge.equal(f"{what}: the connection is ended after a beginning of the replies", rest, client.replies()[:len(rest)])


def coming_clients(judge, what, ports):
    """Clients come to all nodes one after another, and stay."""
    stack = contextlib.ExitStack()
    clients = []

    def come():
        with contextlib.suppress(OSError):
            for port in itertools.islice(itertools.cycle(ports), MOST_COMING):
                clients.append(stack.enter_context(connect(port)))
                time.sleep(2 * TICKS * TICK_MS / 1000 / MOST_COMING)

    with stack:
        with playing([come]):
            yield
        judge.least(f"{what}: clients that came", len(clients), 20)
        told = [rest_of(it) for it in clients[:-1]]
        # The last one may have connected as the socket was closed that listens, and then the system tells it nothing of the end.
        with contextlib.suppress(TimeoutError):
            told.append(rest_of(clients[-1]))
        judge.equal(f"{what}: what clients read that isn't empty", [it for it in told if it], [])


def storming_clients(judge, what, ports):
    """Many clients are there, and as the end comes many more connect to all nodes as fast as they can, and stay.

    Of these the last are never accepted, and the system doesn't tell them of the end.
    """
    end = time.monotonic() + TICKS * TICK_MS / 1000
    with contextlib.ExitStack() as stack:
        storms = [stack.enter_context(storm(end - 0.05, ports[first:] + ports[:first])) for first in (0, 2, 4)]
        clients = []
        # On a slow machine the end may come before the last of them.
        with contextlib.suppress(ConnectionError):
            for port in itertools.islice(itertools.cycle(ports), BEFORE_THE_STORM):
                clients.append(stack.enter_context(connect(port)))
        yield
        for client in storms:
            client.stdin.close()
        judge.least(f"{what}: clients that came at the end", sum(int(it.stdout.readline() or 0) for it in storms), 1)
        judge.least(f"{what}: clients that were there", len(clients), 20)
        judge.equal(f"{what}: clients that were there and read something", [it for it in clients if rest_of(it)], [])


@contextlib.contextmanager
def storm(begin, ports):
    """The process of storm.py, which connects to these ports from that time on."""
    words = [sys.executable, os.path.join(os.path.dirname(os.path.abspath(__file__)), "storm.py"), str(begin), *map(str, ports)]
    with BEGINNING:
        begun = subprocess.Popen(words, stdin=subprocess.PIPE, stdout=subprocess.PIPE)
    with begun as process:
        try:
            yield process
        finally:
            process.kill()


PLAYS = (
    no_clients, silent_clients, half_requests, waiting_clients, writing_clients, counting_clients, deaf_client, coming_clients, storming_clients,
)


def play(judge):
    # With `--ticks` a journal is kept in any case, so `--journal` changes nothing.
    rows = [(it, []) for it in PLAYS] + [(writing_clients, ["--journal"])]
    with ThreadPoolExecutor(ROWS_AT_ONCE) as pool:
        for done in [pool.submit(play_ticks, judge, *row) for row in rows]:
            done.result()
    for sign in (signal.SIGTERM, signal.SIGINT):
        play_signal(judge, sign)


def play_ticks(judge, clients, options, turn=""):
    what = " ".join([clients.__name__.replace("_", " "), *options]) + turn
    cluster = clusters.six_nodes(tick_ms=TICK_MS)
    with judge.part(what), Server(cluster, "--ticks", str(TICKS), *options) as server:
        judge.equal(f"{what}: the lines of the nodes", server.lines, lines_of(cluster))
        with contextlib.contextmanager(clients)(judge, what, ports_of(cluster)) as answered:
            status, output, error = server.outcome(TICKS * TICK_MS / 1000 + MORE)
            took = time.monotonic() - server.begun
            judge.equal(f"{what}: status, and nothing on standard error", (status, error), (0, b""))
            judge.least(f"{what}: seconds until the end", took, (TICKS - 1) * TICK_MS / 1000)
            server.process.kill()
        audited = re.fullmatch(rb"audit ok (\d+)\n", output)
        judge.true(f"{what}: the run is audited", audited, repr(output))
        judge.least(f"{what}: its steps", int(audited[1]) if audited else 0, TICKS + sum(answered or ()))


def play_signal(judge, sign):
    """A signal ends the process within a second, also while clients are connected, and it says nothing."""
    cluster = clusters.six_nodes()
    with Server(cluster) as server, contextlib.ExitStack() as stack:
        for port in ports_of(cluster):
            client = stack.enter_context(connect(port))
            judge.equal(f"before {sign.name}: a client is served", ask(client, PING, PONG), PONG)
        server.process.send_signal(sign)
        judge.equal(f"{sign.name}: status, and nothing printed", server.outcome(1), (-sign, b"", b""))
        server.process.kill()
        judge.equal(f"{sign.name}: a connection is ended", rest_of(client), b"")
