#!/usr/bin/env python3
"""Measures masters with a replica each whose clients write in pipelines, more in a tick than a node keeps of its stream, beside as many Redis with a
replica each, under the same load.

usage: bench/behind.py [PROGRAM] [--out FILE]    by default the program that ./check built

Each load is sent to all in turn; clients of rcluster have a thread each, or two threads of each node serve them in turn, or one of each node where
there are three masters. All nodes of rcluster are in one process, and those of Redis are a process each. It needs Debian's redis-server and
redis-tools. The report goes to the output, and to FILE.
"""

import contextlib
import statistics
import sys

import load
import servers
from replicas import redis_with_replica
from run import measure

ROUNDS, KEYS = 3, 100_000
# To each master: by how many connections and threads, requests in a pipeline, and how many SETs.
CONNECTIONS, THREADS, PIPELINE, COUNT = 50, 2, 16, 1_500_000
SIZES = (64, 1000)
# A tag of each third of the slots.
TAGS = ("b", "c", "a")
MIB = 1 << 20
# How many masters there are, and what is said of their nodes.
CLUSTERS = (
    ("One master", 1, {"backlog": 16 * MIB}),
    ("One master, ticks of 10 ms", 1, {"backlog": 16 * MIB, "tick_ms": 10}),
    ("One master, a backlog of 1 MiB", 1, {"backlog": MIB}),
    ("Three masters at once", 3, {"backlog": 16 * MIB}),
)


def main(words):
    measure(words, "masters whose replicas are behind", *[lambda report, each=each: compare(report, *each) for each in CLUSTERS])


def compare(report, name, count, changes):
    report.say(f"\n## {name}")
    report.say(f"\n{COUNT:,} SETs to each master over {KEYS:,} keys, from {CONNECTIONS} connections with pipelines of {PIPELINE}. Rates are sums over the masters, and times are those of the master at which they are greatest; both are medians of {ROUNDS} rounds, and so are the quotients. Memory is the most that the process of all nodes had.")
    report.table("Bytes of a value", "Served by", "SETs a second", "of Redis", "p50, ms", "p99, ms", "of Redis'", "slowest, ms", "of Redis'", "MiB")
    ways = servers.WAYS if count == 1 else servers.WAYS_OF_THREE
    for size in SIZES:
        with contextlib.ExitStack() as stack:
            ours = {name: stack.enter_context(servers.with_replicas(count, *options, **changes)) for name, options in ways.items()}
            ports = {name: server.ports[:count] for name, server in ours.items()}
            ports["Redis"] = [stack.enter_context(redis_with_replica()).port for _ in range(count)]
            seen = [{name: written(each, size) for name, each in ports.items()} for _ in range(ROUNDS)]
            for name in ports:
                memory = f"{ours[name].most_bytes() / MIB:.0f}" if name in ours else ""
                row(report, size, name, seen, memory)


def row(report, size, name, seen, memory):
    rate, p50, p99, slowest = (statistics.median(it[name][what] for it in seen) for what in ("rate", "p50", "p99", "max"))
    of_rate, of_p99, of_slowest = (f"{statistics.median(it[name][what] / it['Redis'][what] for it in seen):.2f}" for what in ("rate", "p99", "max"))
    report.row(size, name, f"{rate:,.0f}", of_rate, f"{p50:.1f}", f"{p99:.1f}", of_p99, f"{slowest:.1f}", of_slowest, memory)


def written(ports, size):
    """What SETs at each of the ports come to, all at once: the sum of their rates, and the greatest of their times."""
    begun = [load.start(port, ["SET", "{%s}__rand_int__" % tag if len(ports) > 1 else "__rand_int__", "x" * size], COUNT, KEYS, PIPELINE, size, CONNECTIONS, THREADS) for port, tag in zip(ports, TAGS)]
    told = [load.latencies_of(it) for it in begun]
    return {"rate": sum(it["rate"] for it in told), **{what: max(it[what] for it in told) for what in ("p50", "p99", "max")}}


if __name__ == "__main__":
    sys.exit(main(sys.argv[1:]))
