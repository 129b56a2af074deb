"""Replicas that follow their masters, while clients write at all of them and a slot moves to and fro.

A replica answers MOVED for keys, so its keys are compared as `CLUSTER GETKEYSINSLOT` lists them. At the end of its ticks the run is audited,
and the log says how many bytes of its master's stream each replica has.
"""

import functools
import random
import re
import threading
import time

import clusters
from clusters import ports_of, replica_of
from moving import SLOT, SOURCE, TARGET, count_at
from program import Server
from resharding import reshard_patiently
from wire import PATIENCE, connect, playing, reply_of, slot_of, spelled

TICKS, TICK_MS = 120, 50
# For how many seconds clients write, and at most, until each client has counted: a busy host may stand still for a second.
WRITING, MOST_WRITING = 1.5, 4
MASTERS = 3
# A tag for each master, and how many keys have it.
TAGS, KEYS = (b"b", b"c", b"x"), 40
# How many clients count at keys of the slot that moves.
COUNTERS = 2
AT_THE_END = re.compile(rb"rcluster: node (\d+) had (\d+) of the (\d+) bytes of the stream of node (\d+)\n")


def play(judge):
    cluster = clusters.six_nodes(tick_ms=TICK_MS)
    ports = ports_of(cluster)
    with Server(cluster, "--ticks", str(TICKS), "--log") as server:
        write_and_move(judge, ports)
        for master in range(MASTERS):
            for slot in (SLOT, *map(slot_of, TAGS)):
                judge_slot(judge, ports, master, slot)
        judge_end(judge, server)


def write_and_move(judge, ports):
    ended = threading.Event()
    counts = [[] for _ in range(COUNTERS)]
    writers = [functools.partial(write, ports[master], TAGS[master], ended) for master in range(MASTERS)]
    counters = [functools.partial(count_at, ports, key, counts[key], ended) for key in range(COUNTERS)]
    begun = time.monotonic()
    with playing([*writers, *counters]):
        try:
            nodes = (SOURCE, TARGET)
            while (passed := time.monotonic() - begun) < WRITING or passed < MOST_WRITING and not all(counts):
                judge.equal("a move of the slot", reshard_patiently(ports[0], source=nodes[0], target=nodes[1])[0], 0)
                nodes = nodes[::-1]
        finally:
            ended.set()
    judge.least("how often each client counted", min(map(len, counts)), 1)


def write(port, tag, ended):
    """Sets and deletes keys with this tag until the end."""
    dice = random.Random(tag)
    with connect(port) as client:
        while not ended.is_set():
            key = b"{%s}%d" % (tag, dice.randrange(KEYS))
            words = dice.choice([(b"SET", key, b"v" * dice.randrange(200)), (b"DEL", key), (b"APPEND", key, b"w"), (b"DEL", key)])
            client.sendall(spelled(*words))
            reply_of(client)


def judge_slot(judge, ports, master, slot):
    """A replica has the keys of the slot that its master has, once it has taken what was on its way."""
    last = time.monotonic() + PATIENCE
    while (keys := keys_at(ports[master], slot)) != keys_at(ports[replica_of(master)], slot) and time.monotonic() < last:
        time.sleep(0.01)
    judge.equal(f"keys of slot {slot} at the replica of node {master}", keys_at(ports[replica_of(master)], slot), keys)


def keys_at(port, slot):
    with connect(port) as client:
        client.sendall(spelled(b"CLUSTER", b"GETKEYSINSLOT", b"%d" % slot, b"100000"))
        return reply_of(client)


def judge_end(judge, server):
    status, output, error = server.outcome(TICKS * TICK_MS / 1000 + PATIENCE)
    judge.equal("the status at the end", status, 0)
    judge.true("the run is audited", re.fullmatch(rb"audit ok \d+\n", output), repr(output))
    told = [tuple(map(int, it.groups())) for it in map(AT_THE_END.fullmatch, error.splitlines(keepends=True)) if it]
    judge.equal("the replicas that are told of, and their masters", [(it[0], it[3]) for it in told], [(replica_of(it), it) for it in range(MASTERS)])
    judge.equal("replicas that lack bytes at the end, or had none", [it for it in told if it[1] != it[2] or not it[1]], [])
