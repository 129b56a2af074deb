"""A Redis Cluster of three masters, in processes of their own."""

import contextlib
import re
import socket
import subprocess
import tempfile
import time

import servers

# How long the nodes may take to know each other, in seconds.
PATIENCE = 60


@contextlib.contextmanager
def redis_cluster(timeout, replicas=1):
    """Three masters with so many replicas each, which follow them. A node is suspected after so many milliseconds. Gives the processes of all nodes,
    by their ports."""
    with tempfile.TemporaryDirectory(prefix="bench-") as folder, contextlib.ExitStack() as stack:
        nodes = [stack.enter_context(redis_node(folder, timeout)) for _ in range(3 + 3 * replicas)]
        addresses = [f"127.0.0.1:{it.port}" for it in nodes]
        words = ["redis-cli", "--cluster", "create", *addresses, "--cluster-replicas", str(replicas), "--cluster-yes"]
        subprocess.run(words, check=True, stdout=subprocess.DEVNULL)
        wait_until_whole([it.port for it in nodes], 3 * replicas)
        yield {it.port: it.process for it in nodes}


def redis_node(folder, timeout):
    port = redis_port()
    words = ["redis-server", "--port", str(port), "--bind", "127.0.0.1", "--save", "", "--appendonly", "no", "--dir", folder]
    words += ["--cluster-enabled", "yes", "--cluster-config-file", f"{port}.conf", "--cluster-node-timeout", str(timeout)]
    return servers.Server("redis", words, port)


def redis_port():
    """A port that is free, as is the one of the bus, which is greater by 10,000."""
    while True:
        port = servers.free_port()
        with socket.socket() as bus, contextlib.suppress(OSError):
            bus.bind(("127.0.0.1", port + 10000))
            return port


def wait_until_whole(ports, replicas):
    """All nodes know all others, and each replica has what its master has."""
    last = time.monotonic() + PATIENCE
    while time.monotonic() < last:
        states = [ask(port, "CLUSTER", "INFO") for port in ports]
        links = [it for it in (ask(port, "INFO", "replication") for port in ports) if "role:slave" in it]
        knows_all = f"cluster_known_nodes:{len(ports)}"
        if all("cluster_state:ok" in it and knows_all in it for it in states) and len(links) == replicas and all("master_link_status:up" in it for it in links):
            # What a node holds of the others is told with its heartbeats.
            time.sleep(1)
            return
        time.sleep(0.1)
    raise SystemExit("the Redis Cluster isn't whole")


def ask(port, *words):
    return subprocess.run(["redis-cli", "-p", str(port), *words], check=True, capture_output=True, text=True).stdout


def nodes_at(port):
    """Of each node the id, the port, the id of its master, and its first and last slot."""
    nodes = []
    for line in ask(port, "CLUSTER", "NODES").splitlines():
        number, address, _flags, master, *rest = line.split()
        slots = re.fullmatch(r"(\d+)-(\d+)", rest[-1])
        first, last = map(int, slots.groups()) if slots else (None, None)
        nodes.append({"id": number, "port": int(re.match(r"[\d.]+:(\d+)", address)[1]), "master": master, "first": first, "last": last})
    return nodes
