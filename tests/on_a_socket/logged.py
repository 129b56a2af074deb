"""`serve --log`: standard error has a line for each client that isn't served, with the node and the reason, and for each slot that arrives
at a node or leaves it, with the other node and the keys, and how many seconds after the beginning it was. So it is for a master that hands over, its
replica that notes it, and that is promoted. Nobody waits for who reads it, and where too many lines wait it says how many are missing. Without the
option nothing is told.
"""

import contextlib
import os
import re
import resource
import subprocess
import threading
import time

import clusters
import program
from clusters import ports_of, replica_of
from descriptors import COMING, limit, outcome, served_in_time, told_at
from memory import limited
from moving import SLOT, SOURCE, TARGET, in_time
from ordering import STATUS
from program import PATIENCE, Server
from resharding import reshard_patiently
from wire import NIL, OK, PING, PONG, array, ask, bulk, connect, spelled, talk

LINE = re.compile(rb"rcluster: (\d+\.\d{3}) node (\d+): a client isn't served, because (.*)\n")
OF_A_SLOT = re.compile(rb"rcluster: (\d+\.\d{3}) (node \d+: slot \d+ (?:arrived from node \d+, keys|left for node \d+, keys deleted): \d+)\n")
OF_A_HANDOVER = re.compile(rb"rcluster: (\d+\.\d{3}) (node \d+: (?:hands over to|noted that|promoted in place of) node \d+[^\n]*)\n")
MISSING = re.compile(rb"rcluster: \d+\.\d{3} lines that are missing before this one: (\d+)\n")
NOT_STARTED = re.compile(
    rb"rcluster: \d+\.\d{3} node \d+: a thread isn't started, because the system starts no thread\n"
    rb"rcluster: a node's thread can't be started \(F3\)\n"
)
NO_DESCRIPTOR, NO_THREAD = b"no descriptor is left", b"the system starts no thread"
# How many clients aren't served while nobody reads: more than wait in a pipe, which has 65,536 bytes, and of 1024 lines in the program.
UNREAD = 3000
# How many descriptors it has then.
FEW = 12
# How many keys a slot has that moves.
KEYS = 17
# How many bytes of addresses more than it has a server takes where memory is short: those of a few stacks of clients, which have 256 KiB each.
ROOM = 4 << 20
# How many KiB of addresses are too few for the stacks of the threads of 16 nodes, of which each has 8 MiB.
SMALL = 250000


def play(judge):
    play_descriptors(judge)
    play_threads(judge)
    play_no_reader(judge)
    play_slots(judge)
    play_handover(judge)


def play_descriptors(judge):
    for options in (["--log"], []):
        cluster = clusters.six_nodes()
        ports = ports_of(cluster)
        with Server(cluster, *options) as server, contextlib.ExitStack() as stack:
            limit(server)
            nodes = [it % len(ports) for it in range(COMING)]
            refused = [it for it in nodes if outcome(stack.enter_context(connect(ports[it]))) == "closed"]
            judge.least("no descriptors are left: clients that aren't served", len(refused), 1)
            judge_lines(judge, f"no descriptors are left, options {options}", server, refused if options else [], NO_DESCRIPTOR)


def play_threads(judge):
    """Where memory is short no thread gets a stack, be it of a client or of a node. Clients that are served in turn need none."""
    cluster = clusters.masters(2)
    ports = ports_of(cluster)
    with Server(cluster, "--log") as server, contextlib.ExitStack() as stack:
        for port in ports:
            judge.true("memory isn't short yet: a client is served", served_in_time(stack, port), str(port))
        with limited(server, ROOM):
            nodes = [it % len(ports) for it in range(COMING)]
            refused = [it for it in nodes if outcome(stack.enter_context(connect(ports[it]))) == "closed"]
        if program.LOOPS:
            judge.equal("memory is short: clients that aren't served", refused, [])
        else:
            judge.least("memory is short: clients that aren't served", len(refused), 1)
        judge_lines(judge, "memory is short", server, refused, NO_THREAD)
    words = [program.PATH, "serve", "--masters", "16", "--port", str(clusters.free_row(16)), "--log"]
    done = subprocess.run(["sh", "-c", f'ulimit -v {SMALL}; exec "$@"', "sh", *words], capture_output=True, timeout=PATIENCE, check=False)
    judge.equal("too little memory for all nodes: status and code", (done.returncode, done.stdout.splitlines()[16:]), (1, [b"fault F3"]))
    judge.true("too little memory for all nodes: what is told", NOT_STARTED.fullmatch(done.stderr), repr(done.stderr))


def judge_lines(judge, what, server, refused, reason):
    """A line for each client that was refused at one of these nodes, and no other."""
    lines = lines_in_time(server, len(refused))
    took = time.monotonic() - server.begun
    found = [it for it in map(LINE.fullmatch, lines) if it]
    judge.equal(f"{what}: other lines", [it for it in lines if not LINE.fullmatch(it)], [])
    judge.equal(f"{what}: nodes and reasons", sorted((int(it[2]), it[3]) for it in found), [(node, reason) for node in sorted(refused)])
    times = [float(it[1]) for it in found]
    judge.true(f"{what}: the times don't fall, and are of the run", times == sorted(times) and all(it <= took for it in times), repr((times, took)))


def lines_in_time(server, count):
    """What is on standard error beside how the nodes are, once there are so many lines, or else what it is when the patience has ended."""
    last = time.monotonic() + PATIENCE
    while True:
        lines = [it for it in os.pread(server.errors.fileno(), 1 << 20, 0).splitlines(True) if not STATUS.fullmatch(it)]
        if len(lines) >= count or time.monotonic() > last:
            return lines
        time.sleep(0.01)


def play_no_reader(judge):
    [port] = clusters.free_ports(1)
    words = [program.PATH, "serve", "--masters", "1", "--port", str(port), "--log"]
    with subprocess.Popen(words, stdin=subprocess.DEVNULL, stdout=subprocess.PIPE, stderr=subprocess.PIPE) as process, contextlib.ExitStack() as stack:
        patience = threading.Timer(PATIENCE, process.kill)
        patience.start()
        judge.equal("nobody reads: the line of the node", process.stdout.readline(), b"node 0 127.0.0.1:%d\n" % port)
        # The log begins with that. If it came later, it might be one of those that are missing.
        judge.true("nobody reads: how the node is", STATUS.fullmatch(first := process.stderr.readline()), repr(first))
        client = stack.enter_context(connect(port))
        judge.equal("nobody reads: a client is served", ask(client, PING, PONG), PONG)
        _, most = resource.prlimit(process.pid, resource.RLIMIT_NOFILE)
        resource.prlimit(process.pid, resource.RLIMIT_NOFILE, (FEW, most))
        came = [outcome(stack.enter_context(connect(port))) for _ in range(FEW)]
        judge.equal("nobody reads: clients that come until one isn't served", set(came), {"served", "closed"})
        judge.equal("nobody reads: clients that aren't told at once", [it for it in range(UNREAD) if told_at(port) != "closed"], [])
        judge.equal("nobody reads: the client is served on", ask(client, PING, PONG), PONG)
        told, missing = 0, 0
        refused = UNREAD + came.count("closed")
        while told + missing < refused and (line := process.stderr.readline()):
            count = MISSING.fullmatch(line)
            missing += int(count[1]) if count else 0
            told += bool(LINE.fullmatch(line))
        judge.equal("nobody reads: clients that are told of or missing", told + missing, refused)
        judge.least("nobody reads: how many are missing", missing, 1)
        resource.prlimit(process.pid, resource.RLIMIT_NOFILE, (most, most))
        judge.true("somebody reads: another client is served", served_in_time(stack, port), "it wasn't")
        patience.cancel()
        process.kill()


def play_slots(judge):
    """A slot with keys and the next one, which has none, go to another master, and the first of them comes back."""
    wanted = [
        *told_of(SLOT, SOURCE, TARGET, KEYS),
        *told_of(SLOT + 1, SOURCE, TARGET, 0),
        *told_of(SLOT, TARGET, SOURCE, KEYS),
    ]
    for options in (["--log"], []):
        cluster = clusters.six_nodes(tick_ms=20)
        ports = ports_of(cluster)
        with Server(cluster, *options) as server:
            for count in range(KEYS):
                judge.equal("a key of a slot that moves is set", talk(ports[SOURCE], spelled(b"SET", b"{foo}%d" % count, b"v")), OK)
            moves = [reshard_patiently(ports[0], f"{SLOT}-{SLOT + 1}"), reshard_patiently(ports[0], source=TARGET, target=SOURCE)]
            judge.equal("slots are moved", [status for status, _ in moves], [0, 0])
            judge_told(judge, f"slots move, options {options}", server, OF_A_SLOT, wanted if options else [])


def told_of(slot, source, target, keys):
    """What is told of the move of a slot: it arrives, and then it leaves."""
    return [b"node %d: slot %d arrived from node %d, keys: %d" % (target, slot, source, keys), b"node %d: slot %d left for node %d, keys deleted: 0" % (source, slot, target)]


def play_handover(judge):
    """A master with keys, all of which its replica has, hands over to that."""
    replica = replica_of(SOURCE)
    keys = [b"{foo}%d" % it for it in range(10, 10 + KEYS)]
    count = sum(len(spelled(b"SET", it, b"v")) for it in keys)
    wanted = [
        b"node %d: hands over to node %d, bytes of its stream: %d" % (SOURCE, replica, count),
        b"node %d: noted that node %d hands over, bytes of its stream: %d, received: %d" % (replica, SOURCE, count, count),
        b"node %d: promoted in place of node %d as planned, epoch: 2, bytes of its stream: %d" % (replica, SOURCE, count),
    ]
    for options in (["--log"], []):
        what = f"a master hands over, options {options}"
        cluster = clusters.six_nodes(tick_ms=20)
        ports = ports_of(cluster)
        with Server(cluster, *options) as server:
            for key in keys:
                judge.equal(f"{what}: a key is set", talk(ports[SOURCE], spelled(b"SET", key, b"v")), OK)
            listing = spelled(b"CLUSTER", b"GETKEYSINSLOT", b"%d" % SLOT, b"100")
            listed = array(*map(bulk, keys))
            judge.equal(f"{what}: the replica has all keys", in_time(ports[replica], listing, listed), listed)
            judge.equal(f"{what}: it is asked to take over", talk(ports[replica], spelled(b"CLUSTER", b"FAILOVER")), OK)
            judge.equal(f"{what}: it does", in_time(ports[replica], spelled(b"GET", b"foo"), NIL), NIL)
            judge_told(judge, what, server, OF_A_HANDOVER, wanted if options else [])


def judge_told(judge, what, server, form, wanted):
    """These lines of that form, in this order, and no other."""
    lines = lines_in_time(server, len(wanted))
    took = time.monotonic() - server.begun
    found = [it for it in map(form.fullmatch, lines) if it]
    judge.equal(f"{what}: other lines", [it for it in lines if not form.fullmatch(it)], [])
    judge.equal(f"{what}: what is told", [it[2] for it in found], wanted)
    times = [float(it[1]) for it in found]
    judge.true(f"{what}: the times don't fall, and are of the run", times == sorted(times) and all(it <= took for it in times), repr((times, took)))
