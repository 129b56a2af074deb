#!/usr/bin/env python3
"""Measures a master with one replica, beside a Redis with one, under the same load: SET and GET, the replica's lag at the end of a load, what a
request costs, and memory.

usage: bench/replicas.py [PROGRAM] [--out FILE]    by default the program that ./check built

Each load is sent to all in turn; clients of rcluster have a thread each, or two threads of each node serve them in turn. Both nodes of rcluster
are in one process, and the two of Redis are two processes. It needs Debian's redis-server, redis-tools and valgrind. The report goes to the
output, and to FILE.
"""

import contextlib
import re
import statistics
import subprocess
import sys
import time

import load
import servers
from run import measure

ROUNDS, KEYS, SIZE = 3, 100_000, 64
# Connections and pipelines, how many requests are sent, and by how many threads.
LOADS = ((1, 1, 40_000, 1), (1, 16, 400_000, 1), (50, 1, 200_000, 2), (50, 16, 1_000_000, 3))
# Of a run that ends under load: how many ticks of how many milliseconds, and how often it is made.
TICKS, TICK_MS, ENDS = 20, 50, 3
AT_THE_END = re.compile(r"rcluster: node 1 had (\d+) of the (\d+) bytes of the stream of node 0\n")
# Of what a request costs: how many are sent, over how many keys, with values of how many bytes.
COUNTED, COUNTED_KEYS, COUNTED_SIZE = 40_000, 20_000, 16
CALLGRIND = ("valgrind", "--tool=callgrind", "--callgrind-out-file=/dev/null")
# Of the run that shows memory: how many SETs over how many keys, and how often it is looked at.
MANY, FEW_KEYS, LOOKS = 10_000_000, 1_000, 10


def main(words):
    measure(words, "a master with a replica", rates, lags, costs, memory)


def rates(report):
    report.say("\n## Requests a second")
    report.say(f"\n{KEYS:,} keys, values of {SIZE} bytes. Rates and milliseconds are medians of {ROUNDS} rounds, and so are the quotients by Redis in the same round.")
    report.table("Connections", "Pipeline", "Command", "Served by", "Requests a second", "of Redis", "p50, ms", "p99, ms", "slowest, ms")
    with contextlib.ExitStack() as stack:
        ports = {name: stack.enter_context(servers.with_replicas(1, *options)).port for name, options in servers.WAYS.items()}
        ports["Redis"] = stack.enter_context(redis_with_replica()).port
        for port in ports.values():
            load.benchmark(port, "set", 3 * KEYS, KEYS, 16, SIZE, 20)
        for connections, pipeline, count, threads in LOADS:
            for command in ("SET", "GET"):
                rounds = [{name: load.latencies(port, command.lower(), count, KEYS, pipeline, SIZE, connections, threads) for name, port in ports.items()} for _ in range(ROUNDS)]
                for name in ports:
                    rate, p50, p99, slowest = (statistics.median(each[name][what] for each in rounds) for what in ("rate", "p50", "p99", "max"))
                    of_redis = statistics.median(each[name]["rate"] / each["Redis"]["rate"] for each in rounds)
                    report.row(connections, pipeline, command, name, f"{rate:,.0f}", f"{of_redis:.2f}", f"{p50:.2f}", f"{p99:.2f}", f"{slowest:.1f}")


@contextlib.contextmanager
def redis_with_replica():
    """A Redis with a replica that follows it."""
    with servers.redis() as master, servers.redis() as replica:
        subprocess.run(["redis-cli", "-p", str(replica.port), "REPLICAOF", "127.0.0.1", str(master.port)], check=True, stdout=subprocess.DEVNULL)
        while "master_link_status:up" not in subprocess.run(["redis-cli", "-p", str(replica.port), "INFO", "replication"], check=True, capture_output=True, text=True).stdout:
            time.sleep(0.1)
        yield master


# ---- what the replica lacks


def lags(report):
    report.say("\n## What the replica lacks")
    report.say(f"\nThe bytes of its master's stream that the replica lacks when the cluster ends, after {TICKS} ticks of {TICK_MS} ms under SETs of 20 connections with pipelines of 16; {ENDS} runs.")
    report.table("Served by", "Load until so many ticks before the end", "Bytes it lacks, median", "most", "Bytes written, median")
    for name, options in servers.WAYS.items():
        for quiet in (0, 2):
            missing, written = zip(*(lag_at_the_end(options, quiet) for _ in range(ENDS)))
            report.row(name, quiet, f"{statistics.median(missing):,.0f}", f"{max(missing):,}", f"{statistics.median(written):,.0f}")


def lag_at_the_end(options, quiet):
    with servers.with_replicas(1, "--ticks", str(TICKS), "--log", *options, tick_ms=TICK_MS) as server:
        begun = time.monotonic()
        sending = load.start(server.port, "set", 100_000_000, KEYS, 16, SIZE, 20)
        if quiet:
            time.sleep(max(0.0, begun + (TICKS - quiet) * TICK_MS / 1000 - time.monotonic()))
            sending.kill()
        said = server.process.communicate(timeout=300)[1]
        sending.kill()
        sending.communicate()
        server.process.communicate = lambda timeout=None: (None, said)
    had, written = map(int, AT_THE_END.search(said).groups())
    return written - had, written


# ---- what a request costs


def costs(report):
    report.say("\n## Instructions of a SET")
    report.say(f"\nOne connection, pipelines of 16, {COUNTED_KEYS:,} random keys that are there, values of {COUNTED_SIZE} bytes, counted by valgrind. What a replica in the same process does counts, too.")
    report.table("Nodes", "Instructions")
    for name, make in (("a master alone", servers.rcluster), ("a master and its replica", lambda under: servers.with_replicas(1, under=under))):
        report.row(name, f"{(counted(make, 2) - counted(make, 1)) / COUNTED:,.0f}")


def counted(make, times):
    with make(under=CALLGRIND) as server:
        load.benchmark(server.port, "set", 3 * COUNTED_KEYS, COUNTED_KEYS, 16, COUNTED_SIZE)
        load.benchmark(server.port, "set", times * COUNTED, COUNTED_KEYS, 16, COUNTED_SIZE)
        time.sleep(1)
    return int(re.search(r"Collected : (\d+)", server.said)[1])


# ---- memory


def memory(report):
    report.say("\n## Memory of both nodes")
    report.say(f"\nResident memory in MiB, at the start and after each tenth of {MANY:,} SETs over {FEW_KEYS:,} keys.")
    report.table("Served by", "At the start", *[f"{MANY // LOOKS * it:,}" for it in range(1, LOOKS + 1)])
    for name, options in servers.WAYS.items():
        with servers.with_replicas(1, *options) as server:
            sizes = [server.resident_bytes()]
            for _ in range(LOOKS):
                load.benchmark(server.port, "set", MANY // LOOKS, FEW_KEYS, 16, SIZE, 20)
                sizes.append(server.resident_bytes())
        report.row(name, *[f"{it / 2**20:.1f}" for it in sizes])


if __name__ == "__main__":
    sys.exit(main(sys.argv[1:]))
