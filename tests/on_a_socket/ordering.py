"""Orders that a cluster takes while it is served, what it tells of its nodes, and where it listens.

A node is stopped by an order: its clients lose their connections and new ones are refused, its replica takes its place, and the run is audited.
Lines that are no orders are told, and change nothing, and so does the end of the input. The status of each node has the slots, keys, clients and
bytes that the test gave it. Nodes without a file get ports that are free, and all nodes listen at another host than the one that clients are told.
"""

import contextlib
import re
import socket
import subprocess
import time

import clusters
import program
from clusters import ports_of
from failover import NODE_TIMEOUT
from program import PATIENCE, Server, run
from wire import OK, PING, PONG, ask, connect, moved, refuses_in_time, rest_of, slot_of, spelled, talk

TICK_MS = 50
# Three masters and the replica of each, without a file and at free ports.
SOURCE = ("--masters", "3", "--replicas", "1", "--port", "0")
NODES = {"nodes": [None] * 6}
STOPPED, REPLICA = 2, 5
# Keys of the slots of node 2, and how many clients it has.
KEYS, CLIENTS = 10, 3
WRONG = (b"stop", b"stop 6", b"stop -1", b"stop one", b"stop 1 2", b"Status", b"help", b"\xff", b"\\")
STATUS = re.compile(
    rb"rcluster: (\d+\.\d{3}) node (\d+) \(([^()]+)\): (is stopped, )?(master|replica of node \d+), slots: (\d+), keys: (\d+), "
    rb"bytes of the stream: (\d+)(?:, bytes that a replica lacks: (\d+))?, clients: (\d+), steps: (\d+)\n"
)


def play(judge):
    for part in (play_stop, play_status, play_status_in_time, play_free_ports, play_host, play_full_disk):
        with judge.part(part.__name__):
            part(judge)


def play_stop(judge):
    cluster = clusters.six_nodes(tick_ms=TICK_MS, node_timeout=NODE_TIMEOUT)
    ports = ports_of(cluster)
    with ordered(cluster, "--ticks", "200") as server, contextlib.ExitStack() as stack:
        clients = [stack.enter_context(connect(port)) for port in ports]
        judge.equal("before an order all nodes answer", [ask(it, PING, PONG) for it in clients], [PONG] * len(ports))
        order(server, *WRONG, b"", b"  ", b"  stop   %d  " % STOPPED)
        judge.equal("an order: the connection at the node is ended", rest_of(clients[STOPPED]), b"")
        judge.true("an order: the node refuses clients", refuses_in_time(ports[STOPPED]), "it doesn't")
        judge.equal("an order: its end is told", told(server, rb"rcluster: \d+\.\d{3} node (\d+): is stopped\n"), [b"%d" % STOPPED])
        told_wrong = told(server, rb'rcluster: "([^\n]*)" is no order: there are `status`, and `stop N` with the number of a node from 0 to 5\n')
        judge.equal("lines that are no orders are told", told_wrong, [*WRONG[:7], rb"\xff", b"\\\\"])
        end_input(server)
        redirected = moved(slot_of(b"foo"), ports[REPLICA])
        judge.true("an order: the replica takes the place", in_time(lambda: talk(ports[0], spelled(b"GET", b"foo")) == redirected), "it doesn't")
        others = [it for it in range(6) if it != STOPPED]
        judge.equal("behind the input's end all others answer", [ask(clients[it], PING, PONG) for it in others], [PONG] * 5)
        status, output, _ = server.outcome(PATIENCE)
        judge.equal("an order: the status at the end of the ticks", status, 0)
        judge.within("an order: the verdict", b"audit ok ", output)


def play_status(judge):
    with ordered(NODES, source=SOURCE) as server, contextlib.ExitStack() as stack:
        ports = listed(server)
        clients = [stack.enter_context(connect(ports[2])) for _ in range(CLIENTS)]
        for number in range(KEYS):
            judge.equal("a key is set", ask(clients[0], spelled(b"SET", b"{foo}%d" % number, b"x"), OK), OK)
        for client in clients[1:]:
            ask(client, PING, PONG)
        judge.true("a status: the replica has all bytes", in_time(lambda: lacks_nothing(status_of(server))), "it hasn't")
        first, last = status_of(server)[0], status_of(server)[-6:]
        bytes_of_stream = sum(len(spelled(b"SET", b"{foo}%d" % number, b"x")) for number in range(KEYS))
        judge.equal("a status: what node 0 is", (first.node, first.role, first.slots, first.keys), (0, b"master", 5461, 0))
        judge.equal("a status: the nodes", [it.node for it in last], list(range(6)))
        judge.equal("a status: the addresses", [it.address for it in last], [b"127.0.0.1:%d" % it for it in ports])
        judge.equal("a status: the roles", [it.role for it in last], [b"master"] * 3 + [b"replica of node %d" % it for it in range(3)])
        judge.equal("a status: the slots", [it.slots for it in last], [5461, 5462, 5461, 0, 0, 0])
        judge.equal("a status: the keys", [it.keys for it in last], [0, 0, KEYS, 0, 0, KEYS])
        judge.equal("a status: the bytes", [it.bytes for it in last], [0, 0, bytes_of_stream, 0, 0, bytes_of_stream])
        judge.equal("a status: the clients", [it.clients for it in last], [0, 0, CLIENTS, 0, 0, 0])
        judge_steps(judge, server, clients[0])
        order(server, b"stop 5")
        judge.true("a status: a replica that is stopped isn't counted", in_time(lambda: is_gone(status_of(server))), "it is")


def judge_steps(judge, server, client):
    """Each request, tick and message of another node is a step. So a replica makes one for each write of its master, and another node none."""
    requests = 1000
    before = status_of(server)[-6:]
    ask(client, spelled(b"SET", b"{foo}0", b"x") * requests, OK * requests)
    judge.true("a status: the replica has all bytes once more", in_time(lambda: lacks_nothing(status_of(server))), "it hasn't")
    made = [after.steps - it.steps for it, after in zip(before, status_of(server)[-6:])]
    judge.least("a status: the steps of the master", made[2], requests)
    judge.least("a status: the steps of its replica", made[5], requests)
    judge.least("a status: the steps of a node that nobody asks", made[0], 1)
    judge.true("a status: a node that nobody asks makes fewer steps than there are requests", made[0] < requests, made)


def play_status_in_time(judge):
    with Server(NODES, "--ticks", "5", "--log", source=SOURCE) as server:
        _status, _output, errors = server.outcome(PATIENCE)
        judge.equal("a log begins with the status of each node", [int(it[1]) for it in STATUS.findall(errors)], list(range(6)))
    with Server(NODES, "--ticks", "21", "--status", "5", source=SOURCE) as server:
        _status, _output, errors = server.outcome(PATIENCE)
        times = [float(it) for it, node in re.findall(rb"rcluster: (\d+\.\d{3}) node (\d) \([^()]+\): master, slots: \d+, ", errors) if node == b"0"]
        judge.within("a status each five ticks: how often in 21 ticks", len(times), (3, 4))
        judge.least("a status each five ticks: seconds before the first", times[0] if times else 0, 0.4)
    for options in (["--status", "0"], ["--status", "1000001"], ["--status"]):
        judge.equal(f"{options} is refused", run("serve", "--masters", "1", *options)[0], 2)


def play_free_ports(judge):
    with Server(NODES, source=SOURCE) as one, Server(NODES, source=SOURCE) as other:
        ports = listed(one) + listed(other)
        judge.equal("free ports: no port is given twice", len(set(ports)), 12)
        judge.equal("free ports: all nodes answer", [talk(port, PING) for port in ports], [PONG] * 12)
        judge.equal("free ports: clients are told them", talk(ports[0], spelled(b"GET", b"foo")), moved(slot_of(b"foo"), ports[2]))
    judge.equal("free ports: a check opens none", run("serve", *SOURCE, "--check"), (0, b"", b""))
    status, _, errors = run("serve", "--masters", "9", "--replicas", "1", "--port", "0")
    judge.equal("free ports: wrong numbers are told first", (status, b"make more than 16 nodes" in errors), (2, True))


def play_host(judge):
    cluster = clusters.six_nodes()
    ports = ports_of(cluster)
    with Server(cluster, "--listen", "127.0.0.2") as server:
        judge.equal("another host: what is printed are the addresses of the file", listed(server), ports)
        judge.true("another host: nobody listens at the addresses of the file", all(refuses(port) for port in ports), "somebody does")
        with socket.create_connection(("127.0.0.2", ports[0]), timeout=PATIENCE) as client:
            redirected = moved(slot_of(b"foo"), ports[2])
            judge.equal("another host: clients are told those of the file", ask(client, spelled(b"GET", b"foo"), redirected), redirected)
    status, output, errors = run("serve", "--masters", "1", "--port", str(clusters.free_ports(1)[0]), "--listen", "no.such.host.invalid")
    judge.equal("a host that isn't there", (status, output), (1, b"fault F2\n"))
    judge.within("a host that isn't there: the sentence", b"node 0: no.such.host.invalid:", errors)


def play_full_disk(judge):
    for words in (["--help"], ["serve", "--help"], ["--version"]):
        with open("/dev/full", "wb") as full:
            done = subprocess.run([program.PATH, *words], stdout=full, stderr=subprocess.PIPE, timeout=PATIENCE, check=False)
        judge.equal(f"{words} where nothing can be written", (done.returncode, done.stderr), (1, b"rcluster: the output can't be written (F4)\n"))


def ordered(cluster, *options, source=None):
    """A server that reads orders from a pipe."""
    return Server(cluster, "--orders", *options, source=source, stdin=subprocess.PIPE)


def order(server, *lines):
    server.process.stdin.write(b"".join(line + b"\n" for line in lines))
    server.process.stdin.flush()


def end_input(server):
    server.process.stdin.close()
    server.process.stdin = None


def listed(server):
    """The ports that the server printed."""
    return [int(it) for it in re.findall(rb"node \d+ 127\.0\.0\.1:(\d+)\n", server.lines)]


def told(server, pattern):
    """What the standard error tells of this, once it does."""
    found = []

    def comes():
        found[:] = re.findall(pattern, errors_of(server))
        return found

    in_time(comes)
    return found


def errors_of(server):
    with open(f"/proc/self/fd/{server.errors.fileno()}", "rb") as file:
        return file.read()


class Status:
    def __init__(self, time_told, node, address, stopped, role, slots, keys, count, lacking, clients, steps):
        self.node, self.address, self.is_stopped, self.role, self.slots = int(node), address, bool(stopped), role, int(slots)
        self.keys, self.bytes, self.lacking, self.clients, self.steps = int(keys), int(count), lacking, int(clients), int(steps)


def status_of(server):
    """All that was told of the nodes, once an answer to a further question has come."""
    before = len(STATUS.findall(errors_of(server)))
    order(server, b"status")
    in_time(lambda: len(STATUS.findall(errors_of(server))) >= before + 6)
    return [Status(*it) for it in STATUS.findall(errors_of(server))]


def lacks_nothing(told_so_far):
    master, replica = told_so_far[-4], told_so_far[-1]
    return master.bytes == replica.bytes and master.lacking == b"0"


def is_gone(told_so_far):
    master, replica = told_so_far[-4], told_so_far[-1]
    return replica.is_stopped and master.lacking == b""


def refuses(port):
    try:
        socket.create_connection(("127.0.0.1", port), timeout=PATIENCE).close()
    except ConnectionRefusedError:
        return True
    return False


def in_time(holds):
    last = time.monotonic() + PATIENCE
    while not holds():
        if time.monotonic() > last:
            return False
        time.sleep(0.05)
    return True
