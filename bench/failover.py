#!/usr/bin/env python3
"""Measures how long a failover takes, beside a Redis Cluster of six nodes with the same timeout, and what nodes cost that nobody asks.

usage: bench/failover.py [PROGRAM] [--out FILE]    by default the program that ./check built

A failover lasts from the end of a master to the first write that the promoted node serves. The master is stopped by `--stop` here, and killed
there. A client asks the replica each millisecond. It needs Debian's redis-server and redis-tools. The report goes to the output, and to FILE.
"""

import signal
import socket
import statistics
import subprocess
import sys
import time

import servers
from redis_cluster import nodes_at, redis_cluster
from run import measure

# Of how many ticks `node_timeout` is, how long a tick is, in milliseconds, and how often a failover is measured.
NODE_TIMEOUT, TICK_MS, ROUNDS = 20, (10, 100), 9
# Which master ends, its replica, and after how many ticks it is stopped.
MASTER, REPLICA, STOP = 2, 5, 20
# A key of that master, in both clusters.
SET = b"*3\r\n$3\r\nSET\r\n$1\r\nx\r\n$1\r\nv\r\n"
# How many seconds a failover may take, or a cluster of Redis until it is whole.
PATIENCE = 60
# How long nodes are looked at that nobody asks, in seconds, and how long they are left alone before.
IDLE, SETTLED = 20, 3


def main(words):
    measure(words, "failovers", failovers, idle_nodes)


# ---- a failover


def failovers(report):
    report.say("\n## From the end of a master to the first write at its replica")
    report.say(f"\nThree masters with a replica each; a node is suspected after {NODE_TIMEOUT} ticks. {ROUNDS} rounds, in which both clusters lose a master in turn.")
    report.table("Tick", "Timeout", "rcluster, ticks", "rcluster, ms: median", "least", "most", "Redis, ms: median", "least", "most")
    for tick_ms in TICK_MS:
        ours, theirs = zip(*((ours_after(tick_ms), theirs_after(NODE_TIMEOUT * tick_ms)) for _ in range(ROUNDS)))
        report.row(f"{tick_ms} ms", f"{NODE_TIMEOUT * tick_ms} ms", f"{statistics.median(ours) / tick_ms:.1f}", *spread(ours), *spread(theirs))


def spread(times):
    return [f"{it:,.0f}" for it in (statistics.median(times), min(times), max(times))]


def ours_after(tick_ms):
    """How many milliseconds a failover takes."""
    # The clients connect before the master is stopped.
    stop = f"{MASTER}@{max(STOP, 1000 // tick_ms)}"
    cluster = servers.with_replicas(3, "--stop", stop, tick_ms=tick_ms, node_timeout=NODE_TIMEOUT)
    with cluster as server, connect(server.ports[MASTER]) as client, connect(server.ports[REPLICA]) as replica:
        client.sendall(SET)
        while client.recv(100):
            pass
        return 1000 * seconds_until_served(replica)


def connect(port):
    client = socket.create_connection(("127.0.0.1", port), PATIENCE)
    client.setsockopt(socket.IPPROTO_TCP, socket.TCP_NODELAY, 1)
    return client


def seconds_until_served(replica):
    """How long it takes from now on until a write is served there."""
    begun = time.monotonic()
    while time.monotonic() < begun + PATIENCE:
        replica.sendall(SET)
        if replica.recv(100) == b"+OK\r\n":
            return time.monotonic() - begun
        time.sleep(0.001)
    raise SystemExit("no replica is promoted")


def theirs_after(timeout):
    """The same of a Redis Cluster, in which a node is suspected after so many milliseconds."""
    with redis_cluster(timeout) as processes:
        nodes = nodes_at(next(iter(processes)))
        owner = next(it for it in nodes if it["first"] is not None and it["first"] <= 16287 <= it["last"])
        successor = next(it for it in nodes if it["master"] == owner["id"])
        with connect(successor["port"]) as replica:
            processes[owner["port"]].send_signal(signal.SIGKILL)
            return 1000 * seconds_until_served(replica)


# ---- nodes that nobody asks


def idle_nodes(report):
    report.say("\n## Nodes that nobody asks")
    report.say(f"\nThe share of a processor that all nodes take together, over {IDLE} seconds, with a tick of 100 ms.")
    report.table("Nodes", "Messages a tick", "Percent of a processor")
    for what, options, messages in (
        ("16 masters", ("--masters", "16"), 16 * 15 * 2),
        ("8 masters with a replica each", ("--masters", "8", "--replicas", "1"), 16 * 15 * 2 + 8),
        ("3 masters with a replica each", ("--masters", "3", "--replicas", "1"), 6 * 5 * 2 + 3),
        ("1 master", ("--masters", "1"), 0),
    ):
        report.row(what, messages, f"{100 * idle_share(options):.1f}")


def idle_share(options):
    """The share of a processor that these nodes take."""
    port = servers.free_ports(16)
    with servers.Server("rcluster", [servers.PROGRAM, "serve", *options, "--port", str(port)], port) as server:
        time.sleep(SETTLED)
        before, begun = server.processor_seconds(), time.monotonic()
        time.sleep(IDLE)
        return (server.processor_seconds() - before) / (time.monotonic() - begun)


if __name__ == "__main__":
    main(sys.argv[1:])
