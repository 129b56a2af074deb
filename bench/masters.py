#!/usr/bin/env python3
"""Measures one node and three masters at once where each has all of its keys in one slot, and one node whose keys are spread, beside one Redis and
a Redis Cluster of three processes.

usage: bench/masters.py [PROGRAM] [--out FILE]    by default the program that ./check built

Each load is sent to all servers in turn, by a redis-benchmark for each node. Clients have a thread each, or two threads of each node serve them in
turn, or one of each of the three masters. It needs Debian's redis-server and redis-tools. The report goes to the output, and to FILE.
"""

import contextlib
import statistics
import sys

import load
import servers
from redis_cluster import nodes_at, redis_cluster
from run import measure

KEYS, SIZE = 100_000, 16
# A tag of each third of the slots.
TAGS = ("b", "c", "a")
# What is sent to each node: by how many connections and threads, requests in a pipeline, and how many requests. And in how many rounds.
MANY, ROUNDS = [(50, 2, 1, 150_000), (50, 2, 16, 600_000)], 3
ONE, ROUNDS_OF_ONE = [(1, 1, 16, 400_000)], 5


def main(words):
    measure(words, "three masters, and one slot", one_node, three_masters)


def one_node(report):
    with contextlib.ExitStack() as stack:
        ports = {name: [it.port] for name, it in our_servers(stack, servers.rcluster, servers.WAYS).items()}
        ports["Redis"] = [stack.enter_context(servers.redis()).port]
        for name, prefix in (("spread keys", ""), ("one slot", "{b}")):
            fill(ports, [prefix])
            compare(report, name, ports, [prefix], ("Redis",), MANY, ROUNDS)
            compare(report, f"{name}, one connection", ports, [prefix], ("Redis",), ONE, ROUNDS_OF_ONE)


def three_masters(report):
    prefixes = ["{%s}" % tag for tag in TAGS]
    with contextlib.ExitStack() as stack:
        ports = {name: it.ports for name, it in our_servers(stack, servers.three_masters, servers.WAYS_OF_THREE).items()}
        ports["Redis"] = [stack.enter_context(servers.redis()).port] * len(TAGS)
        masters = nodes_at(next(iter(stack.enter_context(redis_cluster(5000, replicas=0)))))
        ports["Redis Cluster"] = [it["port"] for it in sorted(masters, key=lambda it: it["first"])]
        fill(ports, prefixes)
        compare(report, "a slot at each of three masters", ports, prefixes, ("Redis", "Redis Cluster"), MANY, ROUNDS)


def our_servers(stack, make, ways):
    """One of these clusters for each of these ways in which clients are served, until the stack ends."""
    return {name: stack.enter_context(make(*options)) for name, options in ways.items()}


def fill(ports, prefixes):
    for each in ports.values():
        send(each, [request("SET", prefix) for prefix in prefixes], 50, 2, 64, 3 * KEYS)


def compare(report, name, ports, prefixes, rivals, loads, rounds):
    """Sends the loads to all servers in turn, each with keys of these prefixes to the ports of a server, and tells what came of them."""
    report.say(f"\n## {name[0].upper()}{name[1:]}")
    report.say(f"\n{KEYS:,} keys for each node, values of {SIZE} bytes. Rates are sums over the nodes, and times are those of the node at which they are greatest; both are medians of {rounds} rounds, and so are the quotients.")
    report.table("Pipeline", "Command", "Served by", "Requests a second", *[f"of {rival}" for rival in rivals], "p50, ms", "p99, ms", "slowest, ms")
    for connections, threads, pipeline, count in loads:
        for command in ("SET", "GET"):
            requests = [request(command, prefix) for prefix in prefixes]
            seen = [{server: send(each, requests, connections, threads, pipeline, count) for server, each in ports.items()} for _ in range(rounds)]
            for server in ports:
                quotients = [f"{statistics.median(it[server]['rate'] / it[rival]['rate'] for it in seen):.2f}" for rival in rivals]
                rate, p50, p99, slowest = (statistics.median(it[server][what] for it in seen) for what in ("rate", "p50", "p99", "max"))
                report.row(pipeline, command, server, f"{rate:,.0f}", *quotients, f"{p50:.2f}", f"{p99:.2f}", f"{slowest:.1f}")


def request(command, prefix):
    return [command, f"{prefix}__rand_int__", *["x" * SIZE][: command == "SET"]]


def send(ports, requests, connections, threads, pipeline, count):
    """What a load at each of the ports comes to, all at once: the sum of their rates, and the greatest of their times."""
    begun = [load.start(port, words, count, KEYS, pipeline, SIZE, connections, threads) for port, words in zip(ports, requests)]
    told = [load.latencies_of(it) for it in begun]
    return {"rate": sum(it["rate"] for it in told), **{what: max(it[what] for it in told) for what in ("p50", "p99", "max")}}


if __name__ == "__main__":
    sys.exit(main(sys.argv[1:]))
