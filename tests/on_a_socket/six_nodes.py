"""Three masters and a replica of each, asked at every node: all bytes that are answered, up to the end of the connection."""

import clusters
from clusters import lines_of, node_id, ports_of
from program import Server
from wire import CROSSED, NIL, NOT_AN_INTEGER, OK, OVERFLOW, PING, PONG, array, bulk, moved, number, spelled, talk

# Keys with the slots that Redis gives them.
SLOTS = {
    b"": 0, b"a": 15495, b"b": 3300, b"c": 7365, b"x": 16287, b"foo": 12182, b"bar": 5061, b"h": 11694,
    b"123456789": 12739, b"{a}x": 15495, b"{bar": 4015, b"foo{}{bar}": 8363, b"foo{{bar}}zap": 4015, b"foo{bar}{zap}": 5061,
}
# The slots of the masters, which are the first three nodes.
BOUNDS = [(0, 5460), (5461, 10922), (10923, 16383)]


def at_single_nodes(ports):
    yield 0, "a key of the third master", [spelled(b"SET", b"foo", b"v")], moved(12182, ports[2])
    yield 0, "keys of the second master", [spelled(b"MGET", b"c", b"{c}1")], moved(7365, ports[1])
    yield 0, "the empty key, in which nothing is", [spelled(b"GET", b"")], NIL
    yield 0, "a key of this master", [spelled(b"SET", b"b", b"1") + spelled(b"MGET", b"b", b"{b}1")], OK + array(bulk(b"1"), NIL)
    yield 0, "another subcommand", [spelled(b"CLUSTER", b"NODES")], b"-ERR unknown subcommand\r\n"
    yield 0, "no subcommand", [spelled(b"CLUSTER")], b"-ERR wrong number of arguments for 'cluster' command\r\n"
    yield 1, "the greatest integer is set", [spelled(b"SET", b"c", b"9223372036854775807")], OK
    yield 1, "it can't be increased", [spelled(b"INCR", b"c")], OVERFLOW
    yield 1, "it is as it was", [spelled(b"GET", b"c")], bulk(b"9223372036854775807")
    yield 1, "a leading zero is set", [spelled(b"SET", b"c", b"01")], OK
    yield 1, "that is no integer", [spelled(b"INCR", b"c")], NOT_AN_INTEGER
    yield 1, "a key of the first master", [spelled(b"GET", b"b")], moved(3300, ports[0])
    yield 2, "keys of two slots", [spelled(b"MGET", b"a", b"b")], CROSSED
    yield 2, "keys of one slot", [spelled(b"MGET", b"{a}1", b"{a}2")], array(NIL, NIL)
    yield 5, "a key of its master, asked at a replica", [spelled(b"GET", b"x")], moved(16287, ports[2])


def at_each_node(ports, node):
    slots = array(*(slots_of(owner, ports[owner]) for owner in range(3)))
    yield "its id", [spelled(b"CLUSTER", b"MYID")], bulk(node_id(node).encode())
    yield "which slots the masters have", [spelled(b"cluster", b"SLOTS")], slots
    for key, slot in SLOTS.items():
        yield f"the slot of {key!r}", [spelled(b"CLUSTER", b"KEYSLOT", key)], number(slot)
    for cut in range(1, len(PING)):
        yield f"a request cut after {cut} bytes", [PING[:cut], PING[cut:]], PONG


def slots_of(owner, port):
    first, last = BOUNDS[owner]
    address = array(bulk(b"127.0.0.1"), number(port), bulk(node_id(owner).encode()))
    return array(number(first), number(last), address)


def play(judge):
    cluster = clusters.six_nodes()
    ports = ports_of(cluster)
    with Server(cluster) as server:
        judge.equal("the lines of the six nodes", server.lines, lines_of(cluster))
        for node, what, pieces, wanted in at_single_nodes(ports):
            judge.equal(f"at node {node}: {what}", talk(ports[node], *pieces), wanted)
        for node, port in enumerate(ports):
            for what, pieces, wanted in at_each_node(ports, node):
                judge.equal(f"at node {node}: {what}", talk(port, *pieces), wanted)
