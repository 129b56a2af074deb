"""Nodes that are stopped by `--stop` while the others are served on.

Each row compares what clients of all nodes are told as some are stopped, that these were stopped no earlier than after their ticks, that
their ports refuse clients then, that the others answer their old clients and new ones, and that the run lasts for its ticks and is audited:
a run with a step for each tick and for each request that was answered. Then clients write at all masters meanwhile, and at a master whose
replica is stopped.
"""

import contextlib
import functools
import re
import time
from concurrent.futures import ThreadPoolExecutor

import clusters
from clusters import lines_of, ports_of, replica_of
from ending import MORE
from program import Server
from wire import OK, PING, PONG, ask, connect, playing, refuses_in_time, rest_of, spelled, talk

TICKS, TICK_MS = 60, 100
# The ticks of each node that is stopped, and the options that say so. Of several for one node the earliest counts.
STOPS = (
    ({1: 20}, ["--stop", "1@20"]),
    ({0: 20}, ["--stop", "0@20"]),
    ({0: 24, 2: 20, 4: 16}, ["--stop", "4@16", "--stop", "0@24", "--stop", "2@20", "--stop", "0@40"]),
    ({node: 20 for node in range(6)}, [f"--stop={node}@20" for node in range(6)]),
)
# A key for each of the three masters.
KEYS = (b"b", b"c", b"x")
STOPPED = 1
# How many clients write, and how many requests are in a pipeline.
WRITING, PIPELINE = 12, 16
# How many pipelines are written at a master whose replica is stopped, and how many seconds they may take: each of them would take 10 ms
# once the messages for the replica were too many.
PIPELINES, MOST_SECONDS = 4000, 15


def play(judge):
    with ThreadPoolExecutor(len(STOPS)) as pool:
        for done in [pool.submit(play_stops, judge, *row) for row in STOPS]:
            done.result()
    play_writing(judge)
    play_replica(judge)


def play_stops(judge, stops, options):
    what = " ".join(options)
    cluster = clusters.six_nodes(tick_ms=TICK_MS)
    ports = ports_of(cluster)
    others = [it for it in range(len(ports)) if it not in stops]
    with judge.part(what), Server(cluster, "--ticks", str(TICKS), *options) as server, contextlib.ExitStack() as stack:
        judge.equal(f"{what}: the lines of the nodes", server.lines, lines_of(cluster))
        clients = [stack.enter_context(connect(port)) for port in ports]
        judge.equal(f"{what}: all nodes answer", [ask(it, PING + PING[:7], PONG) for it in clients], [PONG] * len(ports))
        for node in sorted(stops, key=stops.get):
            judge.equal(f"{what}: the connection at node {node} is ended", rest_of(clients[node]), b"")
            judge.least(f"{what}: seconds until node {node} is stopped", time.monotonic() - server.begun, (stops[node] - 1) * TICK_MS / 1000)
            judge.true(f"{what}: node {node} refuses clients", refuses_in_time(ports[node]), "it doesn't")
        judge.equal(f"{what}: the others go on", [ask(clients[it], PING[7:], PONG) for it in others], [PONG] * len(others))
        judge.equal(f"{what}: the others have new clients", [talk(ports[it], PING) for it in others], [PONG] * len(others))
        steps = judge_end(judge, what, server)
        judge.least(f"{what}: its steps", steps, sum(stops.values()) + (0 if 0 in stops else TICKS) + len(ports) + 2 * len(others))
        judge.equal(f"{what}: what the clients of the others read at the end", [rest_of(clients[it]) for it in others], [b""] * len(others))


def judge_end(judge, what, server):
    """The run lasts for its ticks, and is audited. Returns the number of its steps."""
    status, output, error = server.outcome(TICKS * TICK_MS / 1000 + MORE)
    judge.equal(f"{what}: status, and nothing on standard error", (status, error), (0, b""))
    judge.least(f"{what}: seconds until the end", time.monotonic() - server.begun, (TICKS - 1) * TICK_MS / 1000)
    audited = re.fullmatch(rb"audit ok (\d+)\n", output)
    judge.true(f"{what}: the run is audited", audited, repr(output))
    return int(audited[1]) if audited else 0


def play_writing(judge):
    """Clients write at all masters as fast as they can while one is stopped. Those of the others are served until the end."""
    what = "clients write as a node is stopped"
    cluster = clusters.six_nodes(tick_ms=TICK_MS)
    ports = ports_of(cluster)
    ends = {master: [] for master in range(len(KEYS))}
    counts = []

    def write(master):
        request, reply, count = spelled(b"SET", KEYS[master], b"v" * 100) * PIPELINE, OK * PIPELINE, 0
        with contextlib.suppress(OSError), connect(ports[master]) as client:
            while (told := ask(client, request, reply)) == reply:
                count += PIPELINE
            judge.equal(f"{what}: the last that a client reads", told, reply[:len(told)])
        counts.append(count)
        ends[master].append(time.monotonic())

    with Server(cluster, "--ticks", str(TICKS), "--stop", f"{STOPPED}@20") as server:
        with playing([functools.partial(write, it % len(KEYS)) for it in range(WRITING)]):
            steps = judge_end(judge, what, server)
            server.process.kill()
        judge.least(f"{what}: its steps", steps, TICKS + sum(counts))
        judge.least(f"{what}: requests that each had answered", min(counts), PIPELINE)
        stopped, others = ends.pop(STOPPED), sum(ends.values(), [])
        judge.least(f"{what}: seconds until its clients are ended", min(stopped) - server.begun, 19 * TICK_MS / 1000)
        judge.least(f"{what}: seconds for which the others are served on", min(others) - max(stopped), 20 * TICK_MS / 1000)


def play_replica(judge):
    """A master goes on to write its stream for a replica that is stopped, and its clients don't wait for that."""
    what = "a replica is stopped"
    cluster = clusters.six_nodes(tick_ms=TICK_MS)
    ports = ports_of(cluster)
    with Server(cluster, "--stop", f"{replica_of(0)}@1"), connect(ports[0]) as client:
        judge.true(f"{what}: it refuses clients", refuses_in_time(ports[replica_of(0)]), "it doesn't")
        begun = time.monotonic()
        told = {ask(client, spelled(b"SET", KEYS[0], b"v") * PIPELINE, OK * PIPELINE) for _ in range(PIPELINES)}
        judge.most(f"{what}: seconds that writes at its master take", time.monotonic() - begun, MOST_SECONDS)
        judge.equal(f"{what}: what is answered to them", told, {OK * PIPELINE})
