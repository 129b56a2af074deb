"""A server that may have few descriptors, as `ulimit -n` limits them. Whoever can't be served sees its connection closed at once, at each
node, also where many come at the same time; those that are connected go on, and once some leave others are served.

How many are served isn't the same each time: where clients come at once, or one comes before the thread that accepted another has come
back, some of the descriptors that are kept back serve clients.
"""

import contextlib
import resource
import time

import clusters
import program
from clusters import ports_of
from program import PATIENCE, Server
from wire import PING, PONG, ask, connect, playing, refuses_in_time, rest_of

# How many descriptors the server may have, how many clients come one after another, how many of them leave, and how many come then.
# These are less, by a descriptor for each node: so many of those that are kept back may serve clients.
LIMIT, COMING, LEAVING, NEWCOMERS = 64, 70, 11, 5
# How many more a thread takes that serves clients in turn: one to wait by, and one to be woken by.
OF_A_LOOP = 2
# How many clients are served at least: six nodes take some 20 descriptors for themselves.
LEAST = 30
# How many come at once, and how many times each of them comes.
STORMS, STORMING = 12, 50
# Within how many seconds a client is told.
AT_ONCE = 1
TICKS, TICK_MS = 20, 75


def play(judge):
    cluster = clusters.six_nodes()
    ports = ports_of(cluster)
    with Server(cluster) as server, contextlib.ExitStack() as stack:
        limit(server)
        served = come(judge, stack, ports)
        stay(judge, "no descriptors are left", served, ports)
        storm(judge, ports)
        stay(judge, "many came at once", served, ports)
        for client in served[:LEAVING]:
            client.close()
        newcomers = [served_in_time(stack, port) for port in ports[:NEWCOMERS]]
        judge.equal("some left: others that aren't served", newcomers.count(None), 0)
        stay(judge, "others came", served[LEAVING:] + newcomers, ports)
        stack.close()
        for port in ports:
            judge.true("all left: a client is served at each node", served_in_time(stack, port), str(port))
    play_the_end(judge)
    play_a_stop(judge)


def play_the_end(judge):
    """A server that has no descriptors left ends after its ticks."""
    cluster = clusters.six_nodes(tick_ms=TICK_MS)
    with Server(cluster, "--ticks", str(TICKS)) as server, contextlib.ExitStack() as stack:
        limit(server)
        served = come(judge, stack, ports_of(cluster))
        status, output, error = server.outcome(PATIENCE)
        judge.equal("no descriptors at the end: status, what is printed, standard error", (status, output[:9], error), (0, b"audit ok ", b""))
        judge.equal("no descriptors at the end: what clients read", [it for it in served if rest_of(it)], [])


def play_a_stop(judge):
    """A node of a server that has no descriptors left is stopped, and the others go on."""
    cluster = clusters.six_nodes(tick_ms=TICK_MS)
    stopped, *others = ports_of(cluster)
    with Server(cluster, "--stop", f"0@{TICKS}") as server, contextlib.ExitStack() as stack:
        limit(server)
        served = come(judge, stack, others)
        judge.true("no descriptors as a node is stopped: it refuses clients", refuses_in_time(stopped), "it doesn't")
        stay(judge, "no descriptors as a node is stopped", served, others)


def limit(server):
    most = LIMIT + OF_A_LOOP * program.LOOPS * len(server.cluster["nodes"])
    resource.prlimit(server.process.pid, resource.RLIMIT_NOFILE, (most, most))


def come(judge, stack, ports):
    """Clients come one after another. Returns those that are served."""
    served, told = [], []
    for it in range(COMING):
        client = stack.enter_context(connect(ports[it % len(ports)]))
        told.append(outcome(client))
        if told[-1] == "served":
            served.append(client)
    judge.equal("clients come: what the others are told", {it for it in told if it != "served"}, {"closed"})
    judge.least("clients come: how many are served", len(served), LEAST)
    return served


def stay(judge, what, served, ports):
    """Those that are served go on, and another one is told at each node."""
    judge.equal(f"{what}: what clients are told that were served before", {outcome(it) for it in served}, {"served"})
    judge.equal(f"{what}: nodes at which another one is left hanging", [it for it in ports if told_at(it) == "left hanging"], [])


def storm(judge, ports):
    """Clients come all at once."""
    told = []

    def come_often(first):
        for it in range(STORMING):
            told.append(told_at(ports[(first + it) % len(ports)]))

    with playing([lambda first=it: come_often(first) for it in range(STORMS)]):
        pass
    judge.equal("many come at once: how many are left hanging", told.count("left hanging"), 0)
    judge.least("many come at once: how many are told that they aren't served", told.count("closed"), STORMS)


def told_at(port):
    with connect(port) as client:
        return outcome(client)


def outcome(client):
    """What becomes of a client that asks something."""
    client.settimeout(AT_ONCE)
    try:
        return "served" if ask(client, PING, PONG) == PONG else "closed"
    except ConnectionError:
        return "closed"
    except TimeoutError:
        return "left hanging"


def served_in_time(stack, port):
    """A client that is served, or None. A connection that ended may have its descriptor for some more moments."""
    last = time.monotonic() + PATIENCE
    while time.monotonic() < last:
        client = stack.enter_context(connect(port))
        if outcome(client) == "served":
            return client
        client.close()
        time.sleep(0.01)
    return None
