"""Commands of words, and the error lines that answer words that are none.

`ask WORD..` gives the reply of a node that has no slot: a command on keys is answered with the slot of its keys, which node 1 has, or is
refused where they are in several slots; nothing is executed but what has no key.
"""

from blocks import Malformed, shown, verb_of, words_of
from clusters import free_ports, node_id
from served import Cluster

# An id of the command reference.
OTHER = "07c37dfeb235213a872192d90877d0cd55635b91"


def play(commands):
    nodes = [{"id": name, "host": "127.0.0.1", "port": port, "slots": slots}
             for name, port, slots in zip((node_id(0), OTHER), free_ports(2), ([], [[0, 16383]]))]
    with Cluster({"tick_ms": 100, "node_timeout": 20, "nodes": nodes, "voters": [OTHER]}) as cluster:
        return [line_of(cluster, *verb_of(it)) for it in commands]


def line_of(cluster, verb, rest):
    if verb != "ask":
        raise Malformed(f"no such command: {verb}")
    return shown(cluster.ask(0, words_of(rest)))
