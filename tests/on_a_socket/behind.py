"""A replica that is behind its master by more than the master keeps of its stream. The master copies all of its keys for it, which takes longer
than a tick, and goes on serving clients; in the end the replica has what its master has.
"""

import functools
import threading
import time

import clusters
from clusters import ports_of
from following import keys_at
from program import Server
from wire import OK, PATIENCE, ask, connect, playing, slot_of, spelled

KEYS = 100_000
# How many clients write for how many seconds, each so many requests at once.
CLIENTS, WRITING, BATCH = 4, 2, 16
# A slot whose keys are compared.
COMPARED = slot_of(b"0")


def play(judge):
    cluster = clusters.with_replicas(1, 1, backlog=64, node_timeout=1000000)
    master, replica = ports_of(cluster)
    with Server(cluster):
        judge.equal("whether all keys were set", write(master, range(KEYS)), True)
        ended = threading.Event()
        answered = [[] for _ in range(CLIENTS)]
        with playing([functools.partial(write_until, master, ended, each) for each in answered]):
            time.sleep(WRITING)
            ended.set()
        judge.least("how many batches of each client were answered", min(map(len, answered)), 1)
        judge.equal("whether all batches were answered", all(map(all, answered)), True)
        last = time.monotonic() + PATIENCE
        while keys_at(master, COMPARED) != keys_at(replica, COMPARED) and time.monotonic() < last:
            time.sleep(0.1)
        judge.equal("the keys of a slot at the replica", keys_at(replica, COMPARED), keys_at(master, COMPARED))


def write_until(port, ended, answered):
    """Writes batches, and notes of each whether it was answered."""
    while not ended.is_set():
        answered.append(False)
        answered[-1] = write(port, range(BATCH))


def write(port, keys):
    """Sets all these keys at once, and returns whether each request was answered by OK."""
    requests, replies = b"".join(spelled(b"SET", b"%d" % key, b"v" * 100) for key in keys), OK * len(keys)
    with connect(port) as client:
        return ask(client, requests, replies) == replies
