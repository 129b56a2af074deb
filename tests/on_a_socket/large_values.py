"""Slots of large values, which eight clients move to another master and back at the same time, each with all its keys in one MIGRATE.

The target takes the values that the source has, and copies none. So beside the keys the program never has more than a few copies' bytes, and
in the end each value is what it was.
"""

import functools
import random
import time

import clusters
from clusters import node_id, ports_of
from pace import most_memory
from program import Server
from wire import OK, PATIENCE, bulk, connect, playing, reply_of, slot_of, spelled

# Each client moves a slot with as many keys as one copy takes. What a copy leaves in the stream of its target has more than 32 MiB: so large a
# piece of memory the C library gives back to the system at once, while each thread keeps smaller ones for later.
CLIENTS, KEYS, LENGTH = 8, 16, 2_100_000
# How much the program may have beside the keys. Some 25 MiB are there before the moves, and the target writes one copy at a time; the values of
# all copies that are on their way would be 256 MiB.
ROOM = 128 << 20
HOME, OTHER = 0, 1
# Each value is a part of these bytes, which begins at another place.
BYTES = random.Random(8).randbytes(LENGTH + CLIENTS * KEYS)


def play(judge):
    cluster = clusters.masters(3)
    with Server(cluster) as server:
        movers = [Mover(ports_of(cluster), number, tag) for number, tag in enumerate(tags_at_home())]
        for act in (Mover.fill, Mover.move_there, Mover.move_back):
            with playing([functools.partial(act, mover) for mover in movers]):
                pass
        judge.most("bytes that the program had at most, the keys apart", most_memory(server) - CLIENTS * KEYS * LENGTH, ROOM)
        with playing([mover.read for mover in movers]):
            pass
    for mover in movers:
        judge.equal(f"client {mover.number}: what it did, as far as it was answered as it had to be", mover.done, ["filled", "moved there", "moved back", "read"])
        judge.equal(f"client {mover.number}: keys whose values aren't what they were", mover.wrong, [])


def tags_at_home():
    """A tag for each client. Their slots differ, and are all at the same master."""
    tags = {}
    for tag in (b"%d" % number for number in range(1000)):
        if slot_of(tag) * 3 // 16384 == HOME:
            tags.setdefault(slot_of(tag), tag)
    return list(tags.values())[:CLIENTS]


class Mover:
    """A client that has a slot of its own, and notes what it did up to the first answer that wasn't as it had to be."""

    def __init__(self, ports, number, tag):
        self.ports, self.number, self.slot = ports, number, b"%d" % slot_of(tag)
        self.keys = [b"{%s}%d" % (tag, place) for place in range(KEYS)]
        self.done, self.wrong = [], []

    def fill(self):
        with connect(self.ports[HOME]) as client:
            if all(answer(client, b"SET", key, self.value(place)) == OK for place, key in enumerate(self.keys)):
                self.done.append("filled")

    def move_there(self):
        if self.move(HOME, OTHER, b"1"):
            self.done.append("moved there")

    def move_back(self):
        if self.move(OTHER, HOME, b"2"):
            self.done.append("moved back")

    def move(self, source, target, number):
        """Moves the slot by the move of that number, and returns whether it is moved."""
        with connect(self.ports[source]) as at_source, connect(self.ports[target]) as at_target:
            address = b"127.0.0.1", b"%d" % self.ports[target]
            return (
                self.is_done(at_target, b"IMPORTING", source, number)
                and self.is_done(at_source, b"MIGRATING", target, number)
                and answer(at_source, b"MIGRATE", *address, b"", b"0", b"150", b"KEYS", *self.keys) == OK
                and self.is_done(at_target, b"NODE", target, number)
                and self.is_done(at_source, b"NODE", target, number)
            )

    def is_done(self, client, kind, node, number):
        """Whether the order is followed, at the latest once the patience has ended: a node may learn a moment later what it needs for that."""
        last = time.monotonic() + PATIENCE
        while answer(client, b"CLUSTER", b"SETSLOT", self.slot, kind, node_id(node).encode(), number) != OK:
            if time.monotonic() > last:
                return False
            time.sleep(0.001)
        return True

    def read(self):
        with connect(self.ports[HOME]) as client:
            self.wrong = [key for place, key in enumerate(self.keys) if answer(client, b"GET", key) != bulk(self.value(place))]
        self.done.append("read")

    def value(self, place):
        begin = self.number * KEYS + place
        return BYTES[begin:begin + LENGTH]


def answer(client, *words):
    client.sendall(spelled(*words))
    return reply_of(client)
