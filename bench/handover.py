#!/usr/bin/env python3
"""Measures how long a planned handover takes while clients write, beside `CLUSTER FAILOVER` of a Redis Cluster of six nodes, and how long requests to
other masters take meanwhile.

usage: bench/handover.py [PROGRAM] [--out FILE]    by default the program that ./check built

A handover lasts from the `CLUSTER FAILOVER` at a replica to the first write of a client that it serves as a master. Writers follow MOVED, and send
again a millisecond later what is to be tried again. It needs Debian's redis-server and redis-tools. The report goes to the output, and to FILE.
"""

import contextlib
import multiprocessing
import socket
import statistics
import sys
import threading
import time

import load
import servers
from redis_cluster import nodes_at, redis_cluster, wait_until_whole
from run import measure
from watching import OK, PATIENCE, connect, percentile, playing, watch

# How long a tick is, in milliseconds, and how often a handover is measured.
TICK_MS, ROUNDS = (10, 100), 9
# How many ticks a node may be silent, and how many milliseconds a Redis: nobody is to be held failed under this load.
NODE_TIMEOUT, REDIS_TIMEOUT = 1000, 5000
# The master that hands over, its replica, and the other masters, with a key of each of the three.
MASTER, REPLICA, OTHERS = 2, 5, (0, 1)
KEYS = ("b", "c", "x")
# How many clients write, how many requests are in a pipeline, and by how many processes they are played.
WRITERS, PIPELINE, PROCESSES = 20, 16, 4
# For how many seconds all write before the handover and behind it.
BEFORE, BEHIND = 1.5, 0.5
FAILOVER = load.encode(b"CLUSTER", b"FAILOVER")


def main(words):
    measure(words, "planned handovers", handovers)


def handovers(report):
    """All rounds, in each of which every cluster hands over once."""
    ways = [(f"rcluster, {name}", tick_ms, options) for tick_ms in TICK_MS for name, options in servers.WAYS.items()]
    with redis_cluster(REDIS_TIMEOUT) as processes:
        rounds = [([ours(tick_ms, options) for _, tick_ms, options in ways], theirs(list(processes))) for _ in range(ROUNDS)]
    rows = [(name, tick_ms, [mine[at] for mine, _ in rounds]) for at, (name, tick_ms, _) in enumerate(ways)]
    rows.append(("Redis", None, [its for _, its in rounds]))
    report.say("\n## From CLUSTER FAILOVER to the first write at the new master")
    report.say(f"\nThree masters with a replica each. {WRITERS} clients write at one of them in pipelines of {PIPELINE} as fast as they can. {ROUNDS} rounds, in which all clusters hand over in turn. The wait is the longest one of a writer between two of its replies that aren't to be tried again.")
    report.table("Served by", "Tick", "Ticks", "ms: median", "least", "most", "Wait, ms: median", "most", "Writes a second before")
    for name, tick_ms, seen in rows:
        report.row(name, *of_ticks(tick_ms, seen), *spread(it.took for it in seen), *spread(it.wait for it in seen)[::2], f"{statistics.median(it.rate for it in seen):,.0f}")
    report.say("\n## Requests to the other masters meanwhile")
    report.say(f"\nA client at each of the other two masters sets a key, one request after another. Those that were sent while the handover lasted, of all rounds, beside those of the {BEFORE} seconds before.")
    report.table("Served by", "Tick", "Requests before", "Requests meanwhile", "p99 before, ms", "p99 meanwhile, ms", "Quotient")
    for name, tick_ms, seen in rows:
        before, meanwhile = (sorted(took for it in seen for took in which(it)) for which in (lambda it: it.before, lambda it: it.meanwhile))
        p99s = [percentile(it, 99) for it in (before, meanwhile)]
        report.row(name, tick_text(tick_ms), f"{len(before):,}", f"{len(meanwhile):,}", *[f"{1000 * it:.2f}" for it in p99s], f"{p99s[1] / p99s[0]:.2f}")


def of_ticks(tick_ms, seen):
    """The tick, and how many of them a handover took."""
    return tick_text(tick_ms), f"{statistics.median(it.took for it in seen) * 1000 / tick_ms:.1f}" if tick_ms else ""


def tick_text(tick_ms):
    return f"{tick_ms} ms" if tick_ms else ""


def spread(times):
    """The median, the least and the most, in milliseconds."""
    times = [1000 * it for it in times]
    return [f"{it:,.0f}" for it in (statistics.median(times), min(times), max(times))]


# ---- a round


def ours(tick_ms, options):
    with servers.with_replicas(3, *options, tick_ms=tick_ms, node_timeout=NODE_TIMEOUT, backlog=16 << 20) as server:
        return Handover(server.ports[MASTER], server.ports[REPLICA], [server.ports[it] for it in OTHERS])


def theirs(ports):
    """Of a Redis Cluster, in which master and replica change places each time."""
    nodes = nodes_at(ports[0])
    owners = sorted((it for it in nodes if it["first"] is not None), key=lambda it: it["first"])
    successor = next(it for it in nodes if it["master"] == owners[MASTER]["id"])
    seen = Handover(owners[MASTER]["port"], successor["port"], [owners[it]["port"] for it in OTHERS])
    wait_until_whole(ports, 3)
    return seen


class Handover:
    """What was seen of a handover from the master at one port to the replica at the other one, in seconds."""

    def __init__(self, master, replica, others):
        ended, told = multiprocessing.Event(), multiprocessing.Queue()
        shares = [range(it, WRITERS, PROCESSES) for it in range(PROCESSES)]
        players = [multiprocessing.Process(target=write_all, args=(master, share, ended, told)) for share in shares]
        players += [multiprocessing.Process(target=watch, args=(port, KEYS[it], ended, told)) for it, port in zip(OTHERS, others)]
        with playing(players, ended):
            time.sleep(BEFORE)
            begun = time.monotonic()
            ask(replica)
            wait_until_served(replica, begun)
            time.sleep(BEHIND)
            ended.set()
            results = [told.get(timeout=PATIENCE) for _ in players]
        writers = [it for kind, some in results if kind == "written" for it in some]
        requests = [it for kind, some in results if kind == "watched" for it in some]
        if refused := {it.refused for it in writers if it.refused is not None}:
            raise SystemExit(f"writers were told {refused}")
        self.took = min(it.first_at[replica] for it in writers if replica in it.first_at) - begun
        self.wait = max(it.longest_since(begun) for it in writers)
        self.rate = sum(it.count_before(begun) for it in writers) / BEFORE
        self.before = [took for sent, took in requests if begun - BEFORE <= sent < begun]
        self.meanwhile = [took for sent, took in requests if begun <= sent < begun + self.took]


def ask(replica):
    with connect(replica) as client:
        client.sendall(FAILOVER)
        if (reply := client.recv(100)) != OK:
            raise SystemExit(f"the replica answers {reply}")


def wait_until_served(replica, begun):
    """Until the replica serves a write of this client, or for so long as a handover may take."""
    request = load.encode(b"SET", b"{%s}" % KEYS[MASTER].encode(), b"v")
    with connect(replica) as client:
        while time.monotonic() < begun + PATIENCE:
            client.sendall(request)
            if client.recv(100) == OK:
                return
            time.sleep(0.001)
    raise SystemExit("the replica doesn't take over")


# ---- processes beside this one


class Writer:
    """A client that writes at a key, and notes when it was served."""

    def __init__(self, port, name):
        self.port, self.request = port, load.encode(b"SET", b"{%s}%d" % (KEYS[MASTER].encode(), name), b"x" * 16) * PIPELINE
        # When each node served it first, and when each of its pipelines was served, wholly or in part, with the number of its writes.
        self.first_at, self.served = {}, []
        # What it was told that no client of a handover has to expect. It writes nothing then.
        self.refused = None

    def write_until(self, ended):
        with contextlib.ExitStack() as stack:
            clients = {}
            while self.refused is None and not ended.is_set():
                if self.port not in clients:
                    client = stack.enter_context(connect(self.port))
                    clients[self.port] = client, stack.enter_context(client.makefile("rb"))
                self.write(*clients[self.port])

    def write(self, client, lines):
        client.sendall(self.request)
        replies = [lines.readline() for _ in range(PIPELINE)]
        now, count = time.monotonic(), replies.count(OK)
        if count:
            self.first_at.setdefault(self.port, now)
            self.served.append((now, count))
        refused = next((it for it in replies if it != OK), None)
        if refused is None:
            return
        if refused.startswith(b"-MOVED "):
            self.port = int(refused.rpartition(b":")[2])
        elif refused.startswith(b"-TRYAGAIN "):
            time.sleep(0.001)
        else:
            self.refused = refused

    def longest_since(self, begun):
        """The longest time between two pipelines that were served, of which the second one was so since then."""
        times = [when for when, _ in self.served]
        return max(after - before for before, after in zip(times, times[1:]) if after >= begun)

    def count_before(self, begun):
        return sum(count for when, count in self.served if begun - BEFORE <= when < begun)


def write_all(port, names, ended, told):
    """Writers of these names, each in a thread."""
    writers = [Writer(port, it) for it in names]
    threads = [threading.Thread(target=it.write_until, args=(ended,)) for it in writers]
    for it in threads:
        it.start()
    for it in threads:
        it.join()
    told.put(("written", writers))


if __name__ == "__main__":
    sys.exit(main(sys.argv[1:]))
