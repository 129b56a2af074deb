"""Masters that hand their slots over to replicas, while clients count at their keys.

A client counts at a key of its own, one by one or so many times in a pipeline, follows redirections, and asks again what is to be tried again. It
has to be told 1, 2, 3 and so on, wherever the key is, and at the end the key has just this value: so nothing is lost, and nothing is executed
twice. All nodes have to name the new owner in time.

There is a chain of handovers through ten replicas of one master; three masters that hand over at once, and three that do so one after another, in
a run that is audited; a replica that is far behind; two replicas that are asked at once; a slot that is on the move; and what `rcluster failover`
says.
"""

import contextlib
import functools
import re
import threading
import time
from concurrent.futures import ThreadPoolExecutor

import clusters
import program
from behind import write
from clusters import node_id, ports_of, replica_of
from ending import ROWS_AT_ONCE
from failover import KEYS, MASTERS, SLOTS, judge_audit, setting, slots_of
from following import keys_at
from moving import SLOT, SOURCE, TARGET, in_time, order, port_in
from program import Server
from resharding import reshard_patiently
from wire import OK, PATIENCE, array, bulk, connect, moved, number, playing, slot_of, spelled, talk

FAILOVER = spelled(b"CLUSTER", b"FAILOVER")
NOT_A_REPLICA = b"-ERR node is not a replica\r\n"
HANDING_OVER = b"-TRYAGAIN Node is handing over\r\n"
TICK_MS = 20
# After how many ticks a silent node is suspected, and after twice as many an election that isn't won is begun again. Where three replicas are asked
# at once they may want votes in one epoch, so that two of them have to wait for that.
NODE_TIMEOUT, NODE_TIMEOUT_OF_THREE = 100, 30
# How often each client of a tag counts in a pipeline.
PIPELINES = (1, 1, 16)

# ---- how often what is played

# How many replicas one master has, and how often all of them take over in turn.
REPLICAS, CHAINS = 10, 10
# How many replicas each of three masters has, each of which takes over once, and how often that is played.
REPLICAS_OF_THREE, RUNS = 2, 10
# How long the run is that is audited.
AUDITED_TICKS = 300
# How many keys a replica lacks that is far behind, and a slot whose keys are compared.
MANY, COMPARED = 100_000, slot_of(b"0")
# How often two replicas are asked at once.
RACES = 10
# For how many seconds nothing is handed over while a move is under way.
MOVING = 0.5

# ---- what `rcluster failover` says

HANDED_OVER = re.compile(r"handed over (\d+) slots from node (\w+) to node (\w+) in \d+\.\d+ s\n")
WAITS = re.compile(rb"(?:rcluster: waiting for [^\n]*\n)*")


def play(judge):
    with ThreadPoolExecutor(ROWS_AT_ONCE) as pool:
        rows = [pool.submit(play_chain, judge, turn) for turn in range(CHAINS)]
        rows += [pool.submit(play_three, judge, turn) for turn in range(RUNS)]
        rows += [pool.submit(play_race, judge, turn) for turn in range(RACES)]
        for done in rows:
            done.result()
    play_drill(judge)
    play_behind(judge)
    play_move(judge)
    play_tool(judge)


class Counter:
    """A client that counts at a key of its own, so many times in a pipeline, at whoever serves it."""

    def __init__(self, ports, key, pipeline):
        self.ports, self.key, self.pipeline = ports, key, pipeline
        # Where it asks, how often it was told that it counted, and what it was told that isn't the next number.
        self.home, self.count, self.wrong = ports[0], 0, []
        # The nodes that served it, one after the other, how often it was to try again, and whether its connection ended.
        self.served, self.refused, self.is_ended = [], 0, False

    def count_until(self, ended):
        """Counts until then, or until the connection ends."""
        with contextlib.suppress(OSError), contextlib.ExitStack() as stack:
            clients = {port: stack.enter_context(connect(port)) for port in self.ports}
            lines = {port: stack.enter_context(client.makefile("rb")) for port, client in clients.items()}
            while not ended.is_set():
                clients[self.home].sendall(spelled(b"INCR", self.key) * self.pipeline)
                self.take(lines[self.home])
            return
        self.is_ended = True

    def take(self, lines):
        """Takes the replies of a pipeline."""
        home, refused = self.home, self.refused
        for _ in range(self.pipeline):
            line = lines.readline()
            if line == number(self.count + 1):
                self.count += 1
                self.note_served()
            elif line.startswith(b"-MOVED"):
                home = port_in(line)
            elif line == HANDING_OVER:
                self.refused += 1
            elif not line:
                raise ConnectionResetError
            else:
                self.wrong.append(line)
        self.home = home
        if self.refused > refused:
            time.sleep(0.001)

    def note_served(self):
        node = self.ports.index(self.home)
        if self.served[-1:] != [node]:
            self.served.append(node)

    def judge(self, judge, what):
        what = f"{what}: the client of {self.key.decode()}"
        judge.equal(f"{what}: what it was told that isn't the next number", self.wrong[:5], [])
        judge.least(f"{what}: how often it counted", self.count, 1)


@contextlib.contextmanager
def counting(judge, what, counters, may_end=False):
    """These clients count while the block runs, and each once at least before it and behind it. Then they are judged; their connections may have ended
    only where that is said.
    """
    ended = threading.Event()
    with playing([functools.partial(it.count_until, ended) for it in counters]), setting(ended):
        wait_for_counts(counters)
        yield
        wait_for_counts(counters)
    for it in counters:
        it.judge(judge, what)
    judge.equal(f"{what}: clients whose connections ended", [it.key for it in counters if it.is_ended and not may_end], [])


def wait_for_counts(counters):
    """Waits until each client has counted once more, or its connection has ended, or the patience has."""
    counts = [(it, it.count) for it in counters]
    last = time.monotonic() + PATIENCE
    while any(it.count == before and not it.is_ended for it, before in counts) and time.monotonic() < last:
        time.sleep(0.005)


def counters_of(ports, tags):
    """Clients for each of these tags."""
    return [Counter(ports, b"{%s}%d" % (tag, place), pipeline) for tag in tags for place, pipeline in enumerate(PIPELINES)]


def judge_counts(judge, what, port, counters):
    """The keys at the one that has them have all that was counted, and nothing more."""
    told = talk(port, b"".join(spelled(b"GET", it.key) for it in counters))
    judge.equal(f"{what}: what was counted, as it stands there at the end", told, b"".join(bulk(b"%d" % it.count) for it in counters))


def asks(judge, what, cluster, replica):
    """Asks the replica to take over."""
    judge.equal(f"{what}: node {replica} is asked", talk(ports_of(cluster)[replica], FAILOVER), OK)


def judge_slots(judge, what, cluster, taken):
    """All nodes name in time who has which slots once these places are taken, one after the other."""
    wanted = slots_of(cluster, taken)
    for node, port in enumerate(ports_of(cluster)):
        judge.equal(f"{what}: who has which slots, as node {node} says", in_time(port, SLOTS, wanted), wanted)


# ---- a chain


def play_chain(judge, turn):
    """Each replica of a master takes the place of the one before it. Who handed over is a master without slots."""
    what = f"chain {turn}"
    cluster = clusters.with_replicas(1, REPLICAS, tick_ms=TICK_MS, node_timeout=NODE_TIMEOUT, voters=voters(range(3)))
    ports = ports_of(cluster)
    counters = counters_of(ports, [b"b"])
    with judge.part(what), Server(cluster):
        with counting(judge, what, counters):
            for replica in range(1, REPLICAS + 1):
                asks(judge, what, cluster, replica)
                judge_slots(judge, f"{what}, handover {replica}", cluster, [(it, it + 1) for it in range(replica)])
        judge_counts(judge, what, ports[REPLICAS], counters)
        judge.equal(f"{what}: clients that were served in another order", [it.served for it in counters if it.served != sorted(it.served)], [])
        judge.equal(f"{what}: what the nodes say that they are", {talk(it, FAILOVER) for it in ports}, {NOT_A_REPLICA})
        request, redirection = spelled(b"GET", b"b"), moved(slot_of(b"b"), ports[REPLICAS])
        judge.equal(f"{what}: where the nodes that handed over send clients", {talk(it, request) for it in ports[:REPLICAS]}, {redirection})


def voters(nodes):
    return [node_id(it) for it in nodes]


# ---- three masters


def play_three(judge, turn):
    """Three masters hand over at once, and then those that took over do."""
    what = f"three masters at once, run {turn}"
    cluster = three_masters()
    ports = ports_of(cluster)
    counters = {master: counters_of(ports, [KEYS[master]]) for master in MASTERS}
    taken = []
    with judge.part(what), Server(cluster):
        with counting(judge, what, sum(counters.values(), [])):
            for place in range(REPLICAS_OF_THREE):
                rows = [(replica_at(master, place - 1) if place else master, replica_at(master, place)) for master in MASTERS]
                with ThreadPoolExecutor(len(rows)) as pool:
                    told = list(pool.map(lambda row: talk(ports[row[1]], FAILOVER), rows))
                judge.equal(f"{what}: three replicas are asked", told, [OK] * len(rows))
                taken += rows
                judge_slots(judge, f"{what}, handover {place}", cluster, taken)
        for master in MASTERS:
            judge_counts(judge, what, ports[replica_at(master, REPLICAS_OF_THREE - 1)], counters[master])


def three_masters():
    return clusters.with_replicas(len(MASTERS), REPLICAS_OF_THREE, tick_ms=TICK_MS, node_timeout=NODE_TIMEOUT_OF_THREE, voters=voters(MASTERS))


def replica_at(master, place):
    """The replica of a master of the three in that place."""
    return len(MASTERS) + master * REPLICAS_OF_THREE + place


def play_drill(judge):
    """Three masters hand over one after another, as for an upgrade. The run is audited, and its clients count until its end."""
    what = "three masters one after another"
    cluster = three_masters()
    ports = ports_of(cluster)
    counters = counters_of(ports, KEYS)
    taken = []
    with judge.part(what), Server(cluster, "--ticks", str(AUDITED_TICKS)) as server:
        with counting(judge, what, counters, may_end=True):
            for master in MASTERS:
                asks(judge, what, cluster, replica_at(master, 0))
                taken.append((master, replica_at(master, 0)))
                judge_slots(judge, f"{what}: node {master}", cluster, taken)
            steps = judge_audit(judge, what, server, AUDITED_TICKS, TICK_MS)
        judge.least(f"{what}: the steps of the run", steps, AUDITED_TICKS + sum(it.count for it in counters))
        last = {tag: replica_at(master, 0) for master, tag in enumerate(KEYS)}
        judge.equal(f"{what}: who served the clients last", [it.served[-1:] for it in counters], [[last[KEYS[at // len(PIPELINES)]]] for at in range(len(counters))])


# ---- a replica that is far behind


def play_behind(judge):
    """A replica that lacks more than its master keeps of the stream gets all keys first. Its master serves nothing meanwhile, and loses nothing."""
    what = "a replica that is far behind"
    cluster = clusters.with_replicas(1, 1, tick_ms=TICK_MS, node_timeout=NODE_TIMEOUT, backlog=64)
    ports = ports_of(cluster)
    counters = counters_of(ports, [b"b"])
    with judge.part(what), Server(cluster):
        with counting(judge, what, counters):
            write(ports[0], range(MANY))
            keys = keys_at(ports[0], COMPARED)
            asks(judge, what, cluster, 1)
            judge_slots(judge, what, cluster, [(0, 1)])
        judge_counts(judge, what, ports[1], counters)
        judge.equal(f"{what}: the keys of a slot at the new master", keys_at(ports[1], COMPARED), keys)
        judge.equal(f"{what}: the keys of that slot at the former one", keys_at(ports[0], COMPARED), array())
        values = talk(ports[1], b"".join(spelled(b"STRLEN", b"%d" % key) for key in range(0, MANY, 1000)))
        judge.equal(f"{what}: the lengths of some values", values, number(100) * (MANY // 1000))


# ---- two replicas


def play_race(judge, turn):
    """Two replicas are asked at once. The master hands over to one of them. The other one follows that, goes on asking, and takes over from it."""
    what = f"two replicas are asked at once, run {turn}"
    cluster = clusters.with_replicas(1, 2, tick_ms=TICK_MS, node_timeout=NODE_TIMEOUT)
    ports = ports_of(cluster)
    counters = counters_of(ports, [b"b"])
    with judge.part(what), Server(cluster):
        with counting(judge, what, counters):
            with ThreadPoolExecutor(2) as pool:
                judge.equal(f"{what}: both are asked", list(pool.map(lambda it: talk(it, FAILOVER), ports[1:])), [OK, OK])
            judge.equal(f"{what}: what all say that they are", [in_time(it, FAILOVER, NOT_A_REPLICA) for it in ports], [NOT_A_REPLICA] * 3)
            ends = {1: slots_of(cluster, [(0, 2), (2, 1)]), 2: slots_of(cluster, [(0, 1), (1, 2)])}
            last = last_owner(ports, ends)
            judge.true(f"{what}: all name one of them as the last owner", last, "they don't")
        judge_counts(judge, what, ports[last], counters)
        orders = [it.served for it in counters if it.served not in ([0, last], [0, 3 - last, last])]
        judge.equal(f"{what}: clients that were served in another order", orders, [])


def last_owner(ports, ends):
    """The node that all name as the owner, once they do. The one before it may not have heard yet that it has a successor."""
    last = time.monotonic() + PATIENCE
    while time.monotonic() < last:
        for node, slots in ends.items():
            if all(talk(port, SLOTS) == slots for port in ports):
                return node
        time.sleep(0.005)
    return None


# ---- a slot on the move


def play_move(judge):
    """While a slot is on the move its master hands over to nobody, and serves. Once the move is over it does."""
    what = "a slot on the move"
    cluster = clusters.six_nodes(tick_ms=TICK_MS, node_timeout=NODE_TIMEOUT)
    ports = ports_of(cluster)
    replica = replica_of(SOURCE)
    counters = counters_of(ports, [KEYS[SOURCE]])
    with judge.part(what), Server(cluster):
        with counting(judge, what, counters):
            for node, kind, other in ((TARGET, b"IMPORTING", SOURCE), (SOURCE, b"MIGRATING", TARGET)):
                judge.equal(f"{what}: an order to node {node}", talk(ports[node], order(kind, other)), OK)
            asks(judge, what, cluster, replica)
            time.sleep(MOVING)
            judge.equal(f"{what}: who has which slots meanwhile", talk(ports[replica], SLOTS), slots_of(cluster, []))
            judge.equal(f"{what}: a write meanwhile", talk(ports[SOURCE], spelled(b"SET", KEYS[SOURCE], b"v")), OK)
            judge.equal(f"{what}: the move goes on to its end", reshard_patiently(ports[0])[0], 0)
            wanted = slots_behind(ports, replica)
            for node, port in enumerate(ports):
                judge.equal(f"{what}: who has which slots behind it, as node {node} says", in_time(port, SLOTS, wanted), wanted)
        judge_counts(judge, what, ports[replica], counters)


def slots_behind(ports, replica):
    """What `CLUSTER SLOTS` says once the slot has moved, and the replica of its source has the place of that."""
    rows = [(0, 5460, 0), (5461, 10922, 1), (10923, SLOT - 1, replica), (SLOT, SLOT, TARGET), (SLOT + 1, 16383, replica)]
    return array(*(array(number(first), number(last), array(bulk(b"127.0.0.1"), number(ports[it]), bulk(node_id(it).encode()))) for first, last, it in rows))


# ---- the tool


def play_tool(judge):
    """`rcluster failover` has a replica take over, and says what that has then. Where it can't be it says so, and asks nobody."""
    what = "rcluster failover"
    cluster = clusters.six_nodes(tick_ms=TICK_MS, node_timeout=NODE_TIMEOUT)
    ports = ports_of(cluster)
    counters = counters_of(ports, [KEYS[2]])
    with judge.part(what), Server(cluster):
        with counting(judge, what, counters):
            judge_handed(judge, f"{what}, a number", ports[5], "5", (5461, node_id(2), node_id(5)))
            judge_handed(judge, f"{what}, an id", ports[4], node_id(4), (5462, node_id(1), node_id(4)))
        judge_slots(judge, what, cluster, [(2, 5), (1, 4)])
        judge_counts(judge, what, ports[5], counters)
        for which, at, node, code in (
            ("that isn't there", 0, "f" * 40, b"H1"),
            ("that is a master", 0, "0", b"H2"),
            ("that is a master, asked at another one", 4, "0", b"H2"),
            ("that handed over", 2, "2", b"H2"),
        ):
            judge_refused(judge, f"{what}, a node {which}", ports[at], node, code)
        migrating = spelled(b"CLUSTER", b"SETSLOT", b"0", b"MIGRATING", node_id(4).encode())
        judge.equal(f"{what}: a slot of the first master is on the move", talk(ports[0], migrating), OK)
        judge_refused(judge, f"{what}, a node whose master has a slot on the move", ports[3], "3", b"H3")
        judge_slots(judge, f"{what}, refused", cluster, [(2, 5), (1, 4)])
    port = clusters.free_row(6)
    with judge.part(what), Server({"nodes": range(6)}, source=("--masters", "3", "--replicas", "1", "--port", str(port))):
        judge_handed(judge, f"{what}, a number, asked at another node", port, "4", (5462, node_id(1), node_id(4)))


def hand_over(port, node):
    return program.run("failover", "--addr", f"127.0.0.1:{port}", "--node", node)


def judge_handed(judge, what, port, node, wanted):
    """It ends well, and its last line says how many slots went from which node to which one."""
    status, output, error = hand_over(port, node)
    found = HANDED_OVER.fullmatch(output.decode().splitlines(keepends=True)[-1]) if output else None
    judge.equal(f"{what}: status, and what was handed over", (status, found and (int(found[1]), found[2], found[3])), (0, wanted))
    judge.true(f"{what}: nothing but waits is told on standard error", WAITS.fullmatch(error), repr(error))


def judge_refused(judge, what, port, node, code):
    """It ends with a fault, and with a sentence that says which."""
    status, output, error = hand_over(port, node)
    judge.equal(f"{what}: status and code", (status, output), (1, b"fault %s\n" % code))
    judge.true(f"{what}: a sentence on standard error", re.fullmatch(rb"rcluster: [^\n]+ \(%s\)\n" % code, error), repr(error))
