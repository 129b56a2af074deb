"""What keys of several shapes take: short keys, and hashes of few and of many fields."""

import os
import re
import statistics

import load
import servers

VALUE = "x" * 16
# How many fields the hashes have whose commands are counted.
FIELDS = (1, 5, 16, 64, 1000)
KEYS = 20000


def requests():
    """Returns each command with its words, the number of its fields or keys, and how many requests are counted."""
    yield "SET", ["SET", "key:__rand_int__", VALUE], KEYS, 40000
    yield "GET", ["GET", "key:__rand_int__"], KEYS, 40000
    for number in FIELDS:
        yield "HSET", ["HSET", f"hash:{number}", "f:__rand_int__", VALUE], number, 40000
        yield "HGET", ["HGET", f"hash:{number}", "f:__rand_int__"], number, 40000
        yield "HGETALL", ["HGETALL", f"hash:{number}"], number, 400000 // (10 + number)


def instructions(report, scale):
    """Counts instructions by callgrind: the difference of two loads, so that starting and filling don't count."""
    before = os.environ.get("RCLUSTER_BEFORE")
    report.say("\n## Instructions a request, by the number of fields")
    report.say("\nOne connection, pipelines of 16; SET and GET over 20,000 keys, the others over one hash of so many fields.")
    report.table("Command", "Of", "rcluster", *(["before", "ratio"] if before else []), "Redis")
    for command, words, number, count in requests():
        count = max(int(count * scale), 16)
        ours = counted_for_one(servers.rcluster, words, number, count)
        cells = [f"{ours:.0f}"]
        if before:
            theirs = counted_for_one(lambda under: servers.rcluster(under=under, program=before), words, number, count)
            cells += [f"{theirs:.0f}", f"{ours / theirs:.3f}"]
        cells.append(f"{counted_for_one(servers.redis, words, number, count):.0f}")
        report.row(command, f"{number:,}", *cells)


def counted_for_one(server, words, number, count):
    return (counted(server, words, number, 2 * count) - counted(server, words, number, count)) / count


def counted(server, words, number, count):
    with server(under=["valgrind", "--tool=callgrind", "--callgrind-out-file=/dev/null"]) as it:
        fill(it.port, words, number)
        load.benchmark(it.port, words, count, number, 16)
    return int(re.search(r"Collected : (\d+)", it.said)[1])


# All that the requests may pick at random is there before.
def fill(port, words, number):
    if words[0] in ("SET", "GET"):
        load.send_all(port, (load.encode(b"SET", b"key:%012d" % at, VALUE.encode()) for at in range(number)), b"+OK\r\n")
    else:
        key = words[1].encode()
        load.send_all(port, (load.encode(b"HSET", key, b"f:%012d" % at, VALUE.encode()) for at in range(number)), b":1\r\n")


# How many rounds there are of a time. In each both programs get the same load in turn.
ROUNDS = 10
# A processor's time is told in hundredths of a second, so a round has so many times the requests that are counted.
TIMES = 5


def times(report, scale):
    """Measures the processor time of the same requests, of this program and of that of RCLUSTER_BEFORE in alternation."""
    before = os.environ.get("RCLUSTER_BEFORE")
    if not before:
        return
    report.say("\n## Processor time of a request, by the number of fields")
    report.say(f"\nMicroseconds of the server's processor, one connection, pipelines of 16; the middle of {ROUNDS} rounds in alternation.")
    report.table("Command", "Of", "rcluster", "before", "ratio")
    for command, words, number, count in requests():
        count = max(int(count * TIMES * scale), 16)
        with servers.rcluster() as ours, servers.rcluster(program=before) as theirs:
            for it in (ours, theirs):
                fill(it.port, words, number)
            rounds = [[load.costs(it, words, count, number, 16, 1)[1] for it in (ours, theirs)] for _ in range(ROUNDS)]
        mine, other = (statistics.median(pair[at] for pair in rounds) * 1e6 for at in (0, 1))
        report.row(command, f"{number:,}", f"{mine:.2f}", f"{other:.2f}", f"{mine / other:.2f}")


# How many keys there are of each shape, by what they are called in the report, and the request that makes one.
SHAPES = {
    "a string, key of 16 bytes, 1,000,000 keys": (1000000, lambda at: (b"SET", b"key:%012d" % at, b"x" * 16)),
    "a string, key of 16 bytes, 20,000 keys": (20000, lambda at: (b"SET", b"key:%012d" % at, b"x" * 16)),
    "a string, key of 11 bytes, 100,000 keys": (100000, lambda at: (b"SET", b"key:%07d" % at, b"x" * 16)),
    "a string of 30 bytes, key of 11 bytes, 100,000 keys": (100000, lambda at: (b"SET", b"key:%07d" % at, b"x" * 30)),
    "a string of 100 bytes, key of 11 bytes, 100,000 keys": (100000, lambda at: (b"SET", b"key:%07d" % at, b"x" * 100)),
    "a hash of 1 field, 100,000 keys": (100000, lambda at: hash_of(at, 1)),
    "a hash of 5 fields, 100,000 keys": (100000, lambda at: hash_of(at, 5)),
    "a hash of 16 fields, 20,000 keys": (20000, lambda at: hash_of(at, 16)),
    "a hash of 64 fields, 5,000 keys": (5000, lambda at: hash_of(at, 64)),
    "a hash of 1,000 fields, 500 keys": (500, lambda at: hash_of(at, 1000)),
}


def memory(report, scale):
    """Measures resident bytes a key, of keys that are made by one request each."""
    report.say("\n## Bytes of resident memory a key, by its shape")
    report.say("\nFields have 6 bytes, values 16 where nothing else is said.")
    report.table("Shape", "rcluster", "Redis")
    for name, (count, words_of) in SHAPES.items():
        count = max(int(count * scale), 1)
        sizes = [bytes_a_key(server, count, words_of) for server in (servers.rcluster, servers.redis)]
        report.row(name, *[f"{size:,.0f}" for size in sizes])


def hash_of(at, number):
    pairs = [word for field in range(number) for word in (b"f:%04d" % field, b"x" * 16)]
    return (b"HSET", b"key:%07d" % at, *pairs)


def bytes_a_key(server, count, words_of):
    first = words_of(0)
    reply = b"+OK\r\n" if first[0] == b"SET" else b":%d\r\n" % (len(first) // 2 - 1)
    with server() as it:
        empty = it.resident_bytes()
        load.send_all(it.port, (load.encode(*words_of(at)) for at in range(count)), reply)
        return (it.resident_bytes() - empty) / count
