#!/usr/bin/env python3
"""Measures one node under many clients with pipelines, and other work on the same machine, alone and both at once, beside one Redis.

usage: bench/beside.py [PROGRAM] [--out FILE]    by default the program that ./check built

The other work is a process for each processor, which counts as fast as it can. Clients have a thread each, or two threads of the node serve
them in turn. It needs Debian's redis-server and redis-tools. The report goes to the output, and to FILE.
"""

import contextlib
import mmap
import os
import statistics
import struct
import subprocess
import sys
import tempfile
import time

import load
import servers
from run import measure

ROUNDS, KEYS, SIZE = 3, 100_000, 64
CONNECTIONS, PIPELINE, COUNT, THREADS = 20, 16, 1_500_000, 2
PROCESSORS = os.cpu_count()
# Counts, and tells after each so many.
WORKER = """
import mmap, struct, sys
with open(sys.argv[1], "r+b") as file:
    told = mmap.mmap(file.fileno(), 0)
count, at = 0, 8 * int(sys.argv[2])
while True:
    for _ in range(20_000):
        count += 1
    struct.pack_into("=q", told, at, count)
"""


def main(words):
    measure(words, "other work on the same machine", compare)


def compare(report):
    report.say("\n## Clients and other work, alone and at once")
    report.say(f"\n{COUNT:,} SETs over {KEYS:,} keys, values of {SIZE} bytes, from {CONNECTIONS} connections with pipelines of {PIPELINE}, and {PROCESSORS} processes that count. Medians of {ROUNDS} rounds.")
    report.table("Served by", "SETs a second, alone", "beside the other work", "of alone", "The other work, of what it does alone", "Processors that the server takes, alone", "beside")
    with contextlib.ExitStack() as stack:
        ours = {name: stack.enter_context(servers.rcluster(*options)) for name, options in servers.WAYS.items()}
        served = {**ours, "Redis": stack.enter_context(servers.redis())}
        for server in served.values():
            load.benchmark(server.port, "set", 3 * KEYS, KEYS, 16, SIZE, 20)
        with other_work() as count:
            whole = statistics.median(pace(count, lambda: time.sleep(2))[0] for _ in range(ROUNDS))
        seen = {name: [(loaded(server), beside(server)) for _ in range(ROUNDS)] for name, server in served.items()}
    for name, rounds in seen.items():
        alone, both = (statistics.median(each[it]["rate"] for each in rounds) for it in (0, 1))
        took_alone, took_both = (statistics.median(each[it]["processors"] for each in rounds) for it in (0, 1))
        work = statistics.median(each[1]["work"] for each in rounds) / whole
        report.row(name, f"{alone:,.0f}", f"{both:,.0f}", f"{both / alone:.2f}", f"{work:.2f}", f"{took_alone:.1f}", f"{took_both:.1f}")


def loaded(server):
    """What the clients get, and how many processors the server takes meanwhile."""
    begun, taken = time.monotonic(), server.processor_seconds()
    rate = load.latencies(server.port, "set", COUNT, KEYS, PIPELINE, SIZE, CONNECTIONS, THREADS)["rate"]
    return {"rate": rate, "processors": (server.processor_seconds() - taken) / (time.monotonic() - begun)}


def beside(server):
    with other_work() as count:
        work, told = pace(count, lambda: loaded(server))
    return {**told, "work": work}


def pace(count, act):
    """How much the other work counts a second during the act, and what the act gives."""
    begun, before = time.monotonic(), count()
    given = act()
    return (count() - before) / (time.monotonic() - begun), given


@contextlib.contextmanager
def other_work():
    """Runs the other work, and gives a function that tells how far it has counted."""
    with tempfile.NamedTemporaryFile(prefix="bench-") as file:
        file.truncate(8 * PROCESSORS)
        told = mmap.mmap(file.fileno(), 0)
        workers = [subprocess.Popen([sys.executable, "-c", WORKER, file.name, str(number)]) for number in range(PROCESSORS)]
        try:
            time.sleep(0.5)
            yield lambda: sum(struct.unpack(f"={PROCESSORS}q", told[:]))
        finally:
            for worker in workers:
                worker.kill()
                worker.wait()


if __name__ == "__main__":
    sys.exit(main(sys.argv[1:]))
