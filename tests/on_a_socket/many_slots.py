"""2,000 slots go from one master to another and back, by runs of `reshard`, while clients count at a key of each of these slots.

A client has to be told 1, 2, 3 and so on at each of its keys, wherever the key is. At the end each key has its value.
"""

import contextlib
import re
import threading
import time

import clusters
from clusters import ports_of
from moving import SOURCE, TARGET, port_in
from program import Server
from resharding import reshard_patiently
from wire import OK, ask, bulk, connect, number, playing, reply_of, slot_of, spelled

# The slots, of the third master, and how many clients count at each of them.
SLOTS, CLIENTS = range(12000, 14000), 3
# How many strings are in each slot beside the counters, so that several keys go in one copy.
STRINGS = 3


def play(judge):
    tags = tags_of(SLOTS)
    cluster = clusters.masters(3, tick_ms=50)
    ports = ports_of(cluster)
    ended = threading.Event()
    clients = [Counter(ports, tags, name) for name in range(CLIENTS)]
    with Server(cluster):
        fill(judge, ports[SOURCE], tags)
        with playing([lambda client=client: client.count(ended) for client in clients]):
            try:
                move(judge, ports, SOURCE, TARGET)
                move(judge, ports, TARGET, SOURCE)
            finally:
                ended.set()
        for name, client in enumerate(clients):
            judge.equal(f"what client {name} was told that isn't the next number", client.wrong, [])
            judge.least(f"how often client {name} counted", sum(client.counts.values()), len(SLOTS))
        compare(judge, ports[SOURCE], tags, clients)


def tags_of(slots):
    """For each of these slots a word of that slot."""
    tags, left, name = {}, set(slots), 0
    while left:
        word = b"%d" % name
        if slot_of(word) in left:
            tags[slot_of(word)] = word
            left.remove(slot_of(word))
        name += 1
    return tags


def strings(tags):
    return [(b"{%s}%d" % (tag, at), b"%s %d" % (tag, at)) for tag in tags.values() for at in range(STRINGS)]


def fill(judge, port, tags):
    requests = [spelled(b"SET", *pair) for pair in strings(tags)]
    with connect(port) as client:
        judge.equal("strings are set", ask(client, b"".join(requests), OK * len(requests)), OK * len(requests))


def move(judge, ports, source, target):
    """Moves all slots. A slot has its strings, and a counter of each client that has been there."""
    status, output = reshard_patiently(ports[0], f"{SLOTS[0]}-{SLOTS[-1]}", source=source, target=target)
    lines = [tuple(map(int, it)) for it in re.findall(rb"slot (\d+) move \d+ keys (\d+)\n", output)]
    judge.equal(f"from {source} to {target}: status, and a line for each slot", (status, [slot for slot, _ in lines]), (0, list(SLOTS)))
    counts = {keys for _, keys in lines}
    judge.true(f"from {source} to {target}: keys of each slot", counts <= set(range(STRINGS, STRINGS + CLIENTS + 1)), str(counts))


def compare(judge, port, tags, clients):
    """All strings and counters, at the master that has the slots."""
    counters = [(b"{%s}c%d" % (tags[slot], client.name), b"%d" % count) for client in clients for slot, count in client.counts.items() if count]
    pairs = strings(tags) + counters
    with connect(port) as client:
        wanted = b"".join(bulk(value) for _, value in pairs)
        told = ask(client, b"".join(spelled(b"GET", key) for key, _ in pairs), wanted)
        judge.true("all strings and counters at the end", told == wanted, f"{len(told)} bytes, and not those that were wanted")


class Counter:
    """A client that follows the nodes, and remembers where each slot is."""

    def __init__(self, ports, tags, name):
        self.ports, self.tags, self.name = ports, tags, name
        self.homes = dict.fromkeys(tags, ports[SOURCE])
        self.counts = dict.fromkeys(tags, 0)
        self.wrong = []

    def count(self, ended):
        with contextlib.ExitStack() as stack:
            clients = {port: stack.enter_context(connect(port)) for port in self.ports}
            for client in clients.values():
                ask(client, spelled(b"CLUSTER", b"NUMBERED"), OK)
            while not ended.is_set():
                for slot in self.tags:
                    self.count_in(slot, clients)

    def count_in(self, slot, clients):
        """Counts once at the key of the slot. Its ASKING names the move, as `ASK` told it."""
        request = spelled(b"INCR", b"{%s}c%d" % (self.tags[slot], self.name))
        other, number_of_move = None, None
        while True:
            client = clients[other or self.homes[slot]]
            client.sendall(spelled(b"ASKING", number_of_move) + request if other else request)
            if other:
                reply_of(client)
            answer, other = reply_of(client), None
            if answer.startswith(b"-MOVED"):
                self.homes[slot] = port_in(answer)
            elif answer.startswith(b"-ASK"):
                other, number_of_move = port_in(answer), answer.split()[3]
            elif answer.startswith(b"-TRYAGAIN"):
                time.sleep(0.001)
            else:
                break
        self.counts[slot] += 1
        if answer != number(self.counts[slot]):
            self.wrong.append((slot, self.counts[slot], answer))
