#!/usr/bin/env python3
"""What a request costs here and in Redis, under the same load in the same run.

usage: bench/run.py [instructions] [fields] [times] [throughput] [commands] [connections] [processors] [memory] [shapes]
                    [--quick] [--out FILE]

Without a word all of them are measured. The report goes to the output, and to FILE. The program is the built one
(./serve builds it) or that of the variable RCLUSTER, and `fields` and `times` measure that of RCLUSTER_BEFORE beside it. It needs
redis-server and redis-tools, and for `instructions` and `fields` valgrind. --quick takes a tenth of the requests: good
to see that all works, and too few to tell.
"""

import os
import platform
import re
import statistics
import sys
import time

import load
import servers
import shapes

MIB = 1 << 20
# The tests of redis-benchmark, by the names of their commands.
TESTS = {"PING": "ping_mbulk", "SET": "set", "GET": "get"}
VALUE = "x" * 16
TEN_KEYS = [f"{{ten}}{number}" for number in range(10)]
# Requests that redis-benchmark has no test for, or one with keys in several slots.
REQUESTS = {
    "INCR": ["INCR", "counter:__rand_int__"],
    "APPEND of a byte": ["APPEND", "log:__rand_int__", "x"],
    "MSET of 10 keys": ["MSET", *(word for key in TEN_KEYS for word in (key, VALUE))],
    "MGET of 10 keys": ["MGET", *TEN_KEYS],
}
# Hashes by what they are called in the report: each key, and how many fields it has.
HASHES = {"10 fields": ("short", 10), "30,000 fields": ("long", 30000)}


class Report:
    def __init__(self):
        self.lines = []

    def say(self, line=""):
        print(line, flush=True)
        self.lines.append(line)

    def table(self, *heads):
        self.say()
        self.row(*heads)
        self.row(*["---"] * len(heads))

    def row(self, *cells):
        self.say("| " + " | ".join(str(cell) for cell in cells) + " |")

    def write(self, out):
        """Writes all of it to that file, if there is one."""
        if out:
            with open(out, "w", encoding="utf-8") as file:
                file.write("\n".join(self.lines) + "\n")


# ---- instructions a request, by callgrind: the difference of two loads, so that starting and filling don't count

def instructions(report, scale):
    count = int(40000 * scale)
    report.say("\n## Instructions a request")
    report.say(f"\nOne connection, pipelines of 16, 20,000 random keys that are there, {count} requests.")
    report.table("Command", "rcluster", "Redis", "of Redis")
    for command, test in TESTS.items():
        ours = instructions_of(servers.rcluster, test, count)
        theirs = instructions_of(servers.redis, test, count)
        report.row(command, f"{ours:.0f}", f"{theirs:.0f}", f"{ours / theirs:.2f}")


def instructions_of(server, test, count):
    return (counted(server, test, 2 * count) - counted(server, test, count)) / count


def counted(server, test, count):
    under = ["valgrind", "--tool=callgrind", "--callgrind-out-file=/dev/null"]
    with server(under=under) as it:
        load.benchmark(it.port, "set", 60000, 20000, 16)
        load.benchmark(it.port, test, count, 20000, 16)
    return int(re.search(r"Collected : (\d+)", it.said)[1])


# ---- requests a second, in alternation, of each round the ratio

def throughput(report, scale):
    report.say("\n## Requests a second")
    report.say("\nOne connection; the middle of seven rounds, in each of which both servers get the same load in turn.")
    report.table("Command", "Value", "Keys", "Pipeline", "rcluster", "Redis", "of Redis")
    for keys in (1000, 1000000):
        with servers.rcluster() as ours, servers.redis() as theirs:
            for size in (16, 1024):
                for it in (ours, theirs):
                    fill(it.port, keys, size)
                for pipeline in (1, 16):
                    for command in ("SET", "GET"):
                        compare(report, ours, theirs, command, size, keys, pipeline, scale)
    for mebibytes in (1, 8):
        with servers.rcluster() as ours, servers.redis() as theirs:
            for it in (ours, theirs):
                fill(it.port, 10, mebibytes * MIB)
            for command in ("SET", "GET"):
                compare(report, ours, theirs, command, mebibytes * MIB, 10, 1, scale / 50 / mebibytes)


def compare(report, ours, theirs, command, size, keys, pipeline, scale):
    rates = rates_of(ours, theirs, TESTS[command], size, keys, pipeline, scale)
    report.row(command, f"{size:,}", f"{keys:,}", pipeline, *rates)


# The middle rate of each server, and of the ratios of the rounds the middle one.
def rates_of(ours, theirs, test, size, keys, pipeline, scale):
    return rates_in_turn(
        lambda it, count: load.benchmark(it.port, test, count, keys, pipeline, size), ours, theirs, pipeline, scale)


def rates_in_turn(rate, ours, theirs, pipeline, scale):
    count = int((50000 if pipeline == 1 else 400000) * scale)
    rounds = []
    for _ in range(7):
        rounds.append([rate(it, count) for it in (ours, theirs)])
    mine, other = (statistics.median(pair[at] for pair in rounds) for at in (0, 1))
    ratio = statistics.median(pair[0] / pair[1] for pair in rounds)
    return f"{mine:,.0f}", f"{other:,.0f}", f"{ratio:.2f}"


def commands(report, scale):
    report.say("\n## Requests a second of other commands")
    report.say("\nThe same over 1,000 keys, or ten keys of one slot, with values of 16 bytes.")
    report.table("Command", "Pipeline", "rcluster", "Redis", "of Redis")
    with servers.rcluster() as ours, servers.redis() as theirs:
        for it in (ours, theirs):
            load.benchmark(it.port, REQUESTS["MSET of 10 keys"], 1, 1)
        for name, words in REQUESTS.items():
            for pipeline in (1, 16):
                report.row(name, pipeline, *rates_of(ours, theirs, words, 16, 1000, pipeline, scale))
        for size, (key, fields) in HASHES.items():
            for it in (ours, theirs):
                fill_hash(it.port, key, fields)
            for name, words in (
                ("HSET", ["HSET", key, "field:__rand_int__", VALUE]),
                ("HGET", ["HGET", key, "field:__rand_int__"]),
            ):
                for pipeline in (1, 16):
                    rates = rates_of(ours, theirs, words, 16, fields, pipeline, scale)
                    report.row(f"{name}, a hash of {size}", pipeline, *rates)
        key, fields = HASHES["30,000 fields"]
        count = int(1000 * scale)
        mine, other = (rate_at_front(it.port, key, count) for it in (ours, theirs))
        report.row(f"HDEL of the first of {fields:,} fields", count, f"{mine:,.0f}", f"{other:,.0f}", f"{mine / other:.2f}")


# The fields that redis-benchmark picks from.
def fill_hash(port, key, fields):
    load.send_all(port, (hash_request(b"HSET", key, at, VALUE.encode()) for at in range(fields)), b":1\r\n")


# How many fields are deleted in a second, each the first one then.
def rate_at_front(port, key, count):
    begun = time.monotonic()
    load.send_all(port, (hash_request(b"HDEL", key, at) for at in range(count)), b":1\r\n")
    return count / (time.monotonic() - begun)


def hash_request(name, key, at, *value):
    return load.encode(name, key.encode(), b"field:%012d" % at, *value)


# The keys that redis-benchmark picks from.
def fill(port, keys, size):
    value = b"x" * size
    load.send_all(port, (load.encode(b"SET", b"key:%012d" % key, value) for key in range(keys)), b"+OK\r\n")


# ---- many connections, and several nodes

def connections(report, scale):
    report.say("\n## Many connections")
    report.say("\nRequests a second over 100,000 keys with values of 16 bytes; three masters are loaded at once by a client each,")
    report.say("and so is the one Redis beside them.")
    report.table("Load", "Command", "Pipeline", "rcluster", "Redis", "of Redis")
    with servers.rcluster() as ours, servers.redis() as theirs:
        for pipeline in (1, 16):
            for command in ("SET", "GET"):
                rates = rates_in_turn(
                    lambda it, count: load.benchmark(it.port, TESTS[command], count, 100000, pipeline, 16, 50),
                    ours, theirs, pipeline, scale)
                report.row("50 connections", command, pipeline, *rates)
    with servers.three_masters() as ours, servers.redis() as theirs:
        for pipeline in (1, 16):
            for command in ("SET", "GET"):
                rates = rates_in_turn(
                    lambda it, count: load.benchmark_all(
                        getattr(it, "ports", [it.port] * 3), at_each_master(command), count // 3, 100000, pipeline, 50),
                    ours, theirs, pipeline, scale)
                report.row("three masters, 50 connections each", command, pipeline, *rates)
    count = int(1000 * scale)
    report.table("What", "rcluster", "Redis")
    report.row(f"bytes of resident memory for each of {count:,} idle connections",
               *[f"{bytes_a_connection(server, count):,.0f}" for server in (servers.rcluster, servers.redis)])


# ---- what a request costs on both sides

def processors(report, scale):
    report.say("\n## Processor time of a request")
    report.say("\nMicroseconds of a processor for each request of 50 connections over 100,000 keys, the middle of seven rounds: what it takes")
    report.say("the load, redis-benchmark, which has one thread, with its start, and what it takes the server.")
    report.table("Command", "Pipeline", "load at rcluster", "load at Redis", "rcluster", "Redis")
    with servers.rcluster() as ours, servers.redis() as theirs:
        for pipeline in (1, 16):
            for command in ("SET", "GET"):
                count = int((50000 if pipeline == 1 else 400000) * scale)
                rounds = [[load.costs(it, TESTS[command], count, 100000, pipeline, 50) for it in (ours, theirs)] for _ in range(7)]
                middle = lambda server, side: statistics.median(each[server][side] for each in rounds)
                times = [middle(server, side) for side in (0, 1) for server in (0, 1)]
                report.row(command, pipeline, *[f"{it * 1e6:.2f}" for it in times])


# A request for each of three masters: its keys have a tag of a slot that the master has.
def at_each_master(command):
    value = [VALUE] if command == "SET" else []
    return [[command, "{%s}__rand_int__" % tag, *value] for tag in ("b", "c", "a")]


def bytes_a_connection(server, count):
    with server() as it:
        before = it.resident_bytes()
        clients = load.idle(it.port, count)
        grown = it.resident_bytes() - before
        for client in clients:
            client.close()
        return grown / count


# ---- resident memory

def memory(report, scale):
    count = int(1000000 * scale)
    report.say("\n## Memory")
    report.say(f"\nBytes of resident memory, keys and values of 16 bytes, {count:,} keys or requests.")
    report.table("What", "rcluster", "Redis")
    sizes = [bytes_a_key(server, count) for server in (servers.rcluster, servers.redis)]
    report.row("a key with its value", *[f"{size[0]:.0f}" for size in sizes])
    report.row("the same, once each value was overwritten ten times", *[f"{size[1]:.0f}" for size in sizes])
    request = {name: bytes_a_request(name, count) for name in ("SET", "GET")}
    for name, (plain, journal) in request.items():
        report.row(f"what a {name} over 1,000 keys leaves", f"{plain:.1f}", "")
        report.row(f"the same with `--journal`", f"{journal:.0f}", "")
    for sets, size in zip((count, 10 * count), resident_after(count)):
        report.row(f"resident in all after {sets:,} SETs over 1,000 keys", f"{size:,}", "")


def bytes_a_key(server, count):
    requests = lambda value: (load.encode(b"SET", b"key:%012d" % key, value) for key in range(count))
    with server() as it:
        empty = it.resident_bytes()
        load.send_all(it.port, requests(b"x" * 16), b"+OK\r\n")
        full = it.resident_bytes()
        for turn in range(10):
            load.send_all(it.port, requests(b"%016d" % turn), b"+OK\r\n")
        return (full - empty) / count, (it.resident_bytes() - empty) / count


def bytes_a_request(name, count):
    return [growth(name, count, options) for options in ((), ("--journal",))]


# The resident bytes after so many SETs over 1,000 keys, and after ten times as many.
def resident_after(count):
    with servers.rcluster() as it:
        load.benchmark(it.port, "set", count, 1000, 16)
        first = it.resident_bytes()
        load.benchmark(it.port, "set", 9 * count, 1000, 16)
        return first, it.resident_bytes()


def growth(name, count, options):
    value = b"x" * 16
    keys = [b"key:%012d" % key for key in range(1000)]
    sets = [load.encode(b"SET", key, value) for key in keys]
    requests, reply = (sets, b"+OK\r\n") if name == "SET" else (
        [load.encode(b"GET", key) for key in keys], b"$16\r\n" + value + b"\r\n")
    with servers.rcluster(*options) as it:
        load.send_all(it.port, sets, b"+OK\r\n")
        load.send_all(it.port, requests * 10, reply)
        before = it.resident_bytes()
        load.send_all(it.port, (request for _ in range(count // 1000) for request in requests), reply)
        return (it.resident_bytes() - before) / count


def machine():
    with open("/proc/cpuinfo", encoding="utf-8") as file:
        model = re.search(r"model name\s*: (.*)", file.read())[1]
    return f"{os.cpu_count()} cores of {model}, {platform.system()} {platform.release()}"


PARTS = {
    "instructions": instructions,
    "fields": shapes.instructions,
    "times": shapes.times,
    "throughput": throughput,
    "commands": commands,
    "connections": connections,
    "processors": processors,
    "memory": memory,
    "shapes": shapes.memory,
}


def measure(words, title, *parts):
    """Has each part say its figures in a report, which goes to the output, and to the file behind `--out`. A word beside that is the program."""
    words, out = without_out(words)
    if words:
        servers.PROGRAM = os.path.abspath(words[0])
    report = begin(title)
    for part in parts:
        part(report)
    report.say(f"\nLoad at the end {os.getloadavg()[0]:.1f}.")
    report.write(out)


def begin(*titles):
    """A report whose first lines say of which day it is, what it is about, and what it is measured on."""
    report = Report()
    report.say("# " + ", ".join([time.strftime("%-d %B %Y"), *titles]))
    report.say(f"\n{machine()}; Redis {servers.redis_version()} beside it; load at the start {os.getloadavg()[0]:.1f}.")
    return report


def without_out(words):
    """Returns the words without `--out FILE`, and that file, or None."""
    if "--out" not in words:
        return words, None
    at = words.index("--out")
    return words[:at] + words[at + 2:], words[at + 1]


def main(words):
    words, out = without_out(words)
    scale = 0.1 if "--quick" in words else 1
    wanted = [word for word in words if word != "--quick"] or list(PARTS)
    if any(word not in PARTS for word in wanted):
        print(__doc__, file=sys.stderr)
        return 2
    report = begin()
    for word in wanted:
        PARTS[word](report, scale)
    report.write(out)
    return 0


if __name__ == "__main__":
    sys.exit(main(sys.argv[1:]))
