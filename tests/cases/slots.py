"""Who has which slots, and what nodes do with requests on their keys, and with orders to move them.

A case begins with `owners RUNS`, as `0-5460:0 5461-16383:1`: the slots and the node that has them, with its host where that isn't
127.0.0.1, as in `0-5460:0:localhost`. There are six nodes; those without slots are masters as well. `NODE WORD..` gives the node's reply to
a request, on one connection, and `runs` the runs of slots with one owner, as every node lists them.
"""

from blocks import Malformed, shown, verb_of, words_of
from clusters import free_ports, node_id
from served import FIRST_PORT, Cluster
from spelling import list_of

NODES = 6
# Short, so that what waits for ticks doesn't wait for long.
TICK_MS = 20


def play(commands):
    verb, runs = verb_of(commands[0])
    if verb != "owners":
        raise Malformed("no owners")
    with Cluster(cluster_of(runs)) as cluster:
        return [line for it in commands[1:] for line in lines_of(cluster, it)]


def cluster_of(runs):
    nodes = [{"id": node_id(it), "host": "127.0.0.1", "port": port, "slots": []} for it, port in enumerate(free_ports(NODES))]
    for run in runs.split(" "):
        slots, number, *host = run.split(":")
        node = nodes[int(number)]
        node["slots"].append([int(it) for it in slots.split("-")])
        node.update(host=host[0] if host else node["host"])
    return {"tick_ms": TICK_MS, "node_timeout": 1000000, "nodes": nodes, "voters": [node_id(0)]}


def lines_of(cluster, command):
    if command == "runs":
        [listed] = {cluster.ask(it, [b"CLUSTER", b"SLOTS"]) for it in range(NODES)}
        return [run_of(*it) for it in list_of(listed)]
    node, words = verb_of(command)
    return [shown(cluster.ask(int(node), words_of(words)))]


def run_of(first, last, owner):
    host, port, name = owner
    number = int(port) - FIRST_PORT
    known = name == node_id(number).encode("ascii")
    return f"{int(first)}-{int(last)}: node {number}" if known else f"{shown(host)}:{int(port)} {shown(name)}"
