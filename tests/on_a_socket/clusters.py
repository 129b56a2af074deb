"""The configurations that are served, all at free ports."""

import fcntl
import json
import os
import random
import socket
import tempfile

import program

EXAMPLES = os.path.join(os.path.dirname(os.path.abspath(__file__)), "..", "..", "examples")
# The ports that were given out, which nobody gets again.
_given = set(range(7000, 7006))
# Runs of tests beside this one keep to other ports: each has locked the bytes of its own in this file until it ends.
_booked = open(os.path.join(tempfile.gettempdir(), f"rcluster-test-ports-{os.getuid()}"), "ab")


def free_ports(count):
    """Ports at which nobody listens, and which the system gives to no client by itself. None of them is the number of a slot, if that can be."""
    with open("/proc/sys/net/ipv4/ip_local_port_range", encoding="ascii") as file:
        first_of_clients = int(file.read().split()[0])
    candidates = list(range(min(16384, first_of_clients // 2), first_of_clients))
    random.shuffle(candidates)
    found = []
    for port in candidates:
        if len(found) == count:
            return found
        if claim(port):
            found.append(port)
    raise OSError("no free ports")


def free_row(count):
    """The first of so many free ports that follow one another."""
    for port in range(20000, 30000, count):
        if all(claim(it) for it in range(port, port + count)):
            return port
    raise OSError("no free ports")


def claim(port):
    """Whether this port is free and was given to nobody, so that it is given out now. Rows that begin at once may come to the same one, and so may
    runs.
    """
    with program.BEGINNING, socket.socket() as probe:
        if port in _given:
            return False
        try:
            fcntl.lockf(_booked, fcntl.LOCK_EX | fcntl.LOCK_NB, 1, port)
            probe.bind(("127.0.0.1", port))
        except OSError:
            return False
        _given.add(port)
    return True


def node_id(number):
    return "%040x" % number


def six_nodes(**changes):
    """Three masters with a third of the slots each, and a replica of each. Nobody takes the place of a node that is kept from the processor for
    long, but where the changes have another `node_timeout`.
    """
    with open(os.path.join(EXAMPLES, "six_nodes.json"), encoding="utf-8") as file:
        cluster = json.load(file)
    for node, port in zip(cluster["nodes"], free_ports(6)):
        node["port"] = port
    return {**cluster, "node_timeout": 1000000, **changes}


def replica_of(master):
    """The replica of a master of the six nodes."""
    return master + 3


def masters(count, **changes):
    """So many masters, which have all slots among them."""
    return with_replicas(count, 0, **changes)


def with_replicas(count, replicas, **changes):
    """So many masters, which have all slots among them, and then so many replicas of the first master, of the second one, and so on."""
    bounds = [16384 * number // count for number in range(count + 1)]
    roles = [{"slots": [[bounds[number], bounds[number + 1] - 1]]} for number in range(count)]
    roles += [{"replica_of": node_id(master)} for master in range(count) for _ in range(replicas)]
    nodes = [
        {"id": node_id(number), "host": "127.0.0.1", "port": port, **role}
        for number, (port, role) in enumerate(zip(free_ports(len(roles)), roles))
    ]
    return {"tick_ms": 100, "node_timeout": 20, "nodes": nodes, "voters": [node_id(0)], **changes}


def ports_of(cluster):
    return [node["port"] for node in cluster["nodes"]]


def lines_of(cluster):
    """What is printed once all nodes listen."""
    return b"".join(b"node %d 127.0.0.1:%d\n" % row for row in enumerate(ports_of(cluster)))
