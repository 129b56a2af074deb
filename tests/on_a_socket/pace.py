"""A master whose clients write in pipelines while a replica copies it. Its clients may be slowed down for that, but the program never has
more than both copies of the keys and some room for what is on its way, and in the end the replica has what its master has.
"""

import functools
import time

import clusters
from clusters import ports_of
from following import keys_at
from program import Server
from wire import OK, PATIENCE, ask, connect, playing, slot_of, spelled

# So many clients write so many batches each, over so many keys with values of so many bytes.
CLIENTS, BATCHES, BATCH, KEYS, LENGTH = 8, 1_000, 16, 40_000, 1000
# How much the program may have beside both copies of the keys.
ROOM = 64 << 20
# A slot whose keys are compared.
COMPARED = slot_of(b"0")


def play(judge):
    copy = memory_of(judge, clusters.masters(1))
    cluster = clusters.with_replicas(1, 1)
    master, replica = ports_of(cluster)
    with Server(cluster) as server:
        begun = most_memory(server)
        write_all(judge, "a master with a replica", master)
        judge.most("bytes that a master and its replica took at most, both copies of the keys and the room apart", most_memory(server) - begun - 2 * copy - ROOM, 0)
        last = time.monotonic() + PATIENCE
        while keys_at(master, COMPARED) != keys_at(replica, COMPARED) and time.monotonic() < last:
            time.sleep(0.1)
        judge.equal("the keys of a slot at the replica", keys_at(replica, COMPARED), keys_at(master, COMPARED))


def memory_of(judge, cluster):
    """How many bytes the keys take at a master without a replica."""
    (port,) = ports_of(cluster)
    with Server(cluster) as server:
        begun = most_memory(server)
        write_all(judge, "a master alone", port)
        taken = most_memory(server) - begun
    judge.least("bytes that the keys take at one node", taken, KEYS * LENGTH)
    return taken


def write_all(judge, what, port):
    """All clients write their batches at once, and each batch has to be answered."""
    answered = []
    with playing([functools.partial(write, port, number, answered) for number in range(CLIENTS)]):
        pass
    judge.equal(f"{what}: batches that were answered by OK", answered.count(True), CLIENTS * BATCHES)


def write(port, number, answered):
    """Writes the batches of the client of that number, and notes of each whether it was answered by OK. Each key is written by one client."""
    share, replies = KEYS // CLIENTS, OK * BATCH
    with connect(port) as client:
        for batch in range(BATCHES):
            keys = [number * share + (batch * BATCH + place) % share for place in range(BATCH)]
            requests = b"".join(spelled(b"SET", b"%d" % key, b"%d" % batch + b"v" * LENGTH) for key in keys)
            answered.append(ask(client, requests, replies) == replies)


def most_memory(server):
    """The most memory that the program had so far, in bytes."""
    with open(f"/proc/{server.process.pid}/status", encoding="ascii") as file:
        peak = next(line for line in file if line.startswith("VmHWM:"))
    return int(peak.split()[1]) << 10
