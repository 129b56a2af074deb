#!/usr/bin/env python3
"""Measures many connections with a thread for each of them and with threads that serve them in turn, beside Redis.

usage: bench/tails.py [PROGRAM] [--out FILE]    by default the program that ./check built

Each load is sent to all three in turn, by redis-benchmark with several threads. It needs Debian's redis-server and redis-tools, and 21,000
descriptors. The report goes to the output, and to FILE.
"""

import contextlib
import functools
import resource
import socket
import statistics
import sys
import time

import load
import servers
from run import measure

KEYS, SIZE, ROUNDS = 100_000, 16, 3
# Connections and pipelines, how many requests of each are sent, and by how many threads.
LOADS = [(50, 1, 500_000, 2), (50, 16, 1_000_000, 3), (200, 1, 500_000, 2), (200, 16, 1_000_000, 3), (1000, 1, 500_000, 2)]
BURST, IDLE = 500, 10_000
PING, PONG = b"*1\r\n$4\r\nPING\r\n", b"+PONG\r\n"


def main(words):
    most = resource.getrlimit(resource.RLIMIT_NOFILE)[1]
    resource.setrlimit(resource.RLIMIT_NOFILE, (most, most))
    measure(words, "many connections", tails, crowds)


def all_servers():
    """Returns what makes each server, by its name."""
    ours = {name: functools.partial(servers.rcluster, *options) for name, options in servers.WAYS.items()}
    return {**ours, "Redis": servers.redis}


# ---- rates and latencies


def tails(report):
    report.say("\n## Rates and latencies")
    report.say(f"\nOne node with all slots, {KEYS:,} keys, values of {SIZE} bytes. Rates and milliseconds are medians of {ROUNDS} rounds, and so are the quotients by Redis in the same round.")
    heads = ("Connections", "Pipeline", "Command", "Served by", "Requests a second", "of Redis", "p50, ms", "p99, ms", "of Redis", "slowest, ms", "of Redis")
    report.table(*heads)
    with contextlib.ExitStack() as stack:
        running = {name: stack.enter_context(make()) for name, make in all_servers().items()}
        for server in running.values():
            load.benchmark(server.port, "set", KEYS * 3, KEYS, 16, SIZE, 50)
        for connections, pipeline, count, threads in LOADS:
            for command in ("SET", "GET"):
                rounds = [
                    {name: load.latencies(it.port, command.lower(), count, KEYS, pipeline, SIZE, connections, threads) for name, it in running.items()}
                    for _ in range(ROUNDS)
                ]
                for name in running:
                    report.row(connections, pipeline, command, name, *cells(rounds, name))


def cells(rounds, name):
    middle = lambda of: statistics.median(of(each) for each in rounds)
    value = lambda what: middle(lambda each: each[name][what])
    quotient = lambda what: f"{middle(lambda each: each[name][what] / each['Redis'][what]):.2f}"
    return (
        f"{value('rate'):,.0f}", quotient("rate"), f"{value('p50'):.2f}",
        f"{value('p99'):.2f}", quotient("p99"), f"{value('max'):.1f}", quotient("max"),
    )


# ---- many clients at once


def crowds(report):
    report.say("\n## Many clients")
    report.table("Served by", f"{BURST} clients that connect at once, ms until the last has its first reply", f"KiB for each of {IDLE:,} idle ones", "ms for a PING beside them")
    for name, make in all_servers().items():
        with make() as server:
            burst = milliseconds(lambda: close_all(crowd(server.port, BURST)))
            before = server.resident_bytes()
            clients = crowd(server.port, IDLE)
            grown = server.resident_bytes() - before
            ping = milliseconds(lambda: close_all(crowd(server.port, 1)))
            close_all(clients)
        report.row(name, f"{burst:.0f}", f"{grown / IDLE / 1024:.1f}", f"{ping:.2f}")


def crowd(port, count):
    """Connects so many clients at once, and returns them once each has had a reply."""
    clients = []
    for _ in range(count):
        client = socket.socket()
        client.setblocking(False)
        client.connect_ex(("127.0.0.1", port))
        clients.append(client)
    for client in clients:
        # What is sent waits until the client is connected, and no longer than this.
        client.settimeout(servers.PATIENCE)
        client.sendall(PING)
    for client in clients:
        assert client.recv(len(PONG), socket.MSG_WAITALL) == PONG
    return clients


def close_all(clients):
    for client in clients:
        client.close()


def milliseconds(work):
    begun = time.monotonic()
    work()
    return (time.monotonic() - begun) * 1000


if __name__ == "__main__":
    sys.exit(main(sys.argv[1:]))
