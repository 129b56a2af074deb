"""The smallest and the largest cluster: all nodes listen, and each answers with its id and the owner of a key."""

from clusters import lines_of, masters, node_id, ports_of
from program import Server
from wire import NIL, PING, PONG, bulk, moved, slot_of, spelled, talk

KEY = b"foo"


def play(judge):
    for count in (1, 16):
        cluster = masters(count)
        ports = ports_of(cluster)
        with Server(cluster) as server:
            judge.equal(f"of {count}: the lines of all nodes", server.lines, lines_of(cluster))
            owner = owner_of(cluster, slot_of(KEY))
            for node, port in enumerate(ports):
                request = PING + spelled(b"CLUSTER", b"MYID") + spelled(b"GET", KEY)
                there = NIL if node == owner else moved(slot_of(KEY), ports[owner])
                judge.equal(f"of {count}: node {node} answers", talk(port, request), PONG + bulk(node_id(node).encode()) + there)


def owner_of(cluster, slot):
    for number, node in enumerate(cluster["nodes"]):
        if any(first <= slot <= last for first, last in node["slots"]):
            return number
    raise ValueError(f"slot {slot} has no owner")
