"""Masters that are stopped, and replicas that take their places.

First a master is stopped, and what its clients and those of the other nodes are told is compared: in time its replica has to answer for its
slots, with all keys that it had, and clients of the other masters notice nothing. Then for each row of a table nodes are stopped, and the
others are asked until the end who has which slots: nobody may take a place but who has to. Then a master is stopped at a random moment in
each of many runs, while clients write and count at all masters. All runs are audited.
"""

import contextlib
import functools
import itertools
import random
import re
import shutil
import subprocess
import threading
import time
from concurrent.futures import ThreadPoolExecutor

import clusters
from calling import cli
from clusters import node_id, ports_of, replica_of
from ending import MORE, ROWS_AT_ONCE
from following import keys_at
from moving import NOT_ACKNOWLEDGED, port_in
from program import Server
from wire import OK, PATIENCE, array, ask, bulk, connect, moved, number, playing, reply_of, rest_of, slot_of, spelled, talk

NODE_TIMEOUT = 20
MASTERS = (0, 1, 2)
# A key for each of the three masters.
KEYS = (b"b", b"c", b"x")
SLOTS = spelled(b"CLUSTER", b"SLOTS")
# What is asked last of a node, and the answer.
END, ENDED = spelled(b"ECHO", b"end"), bulk(b"end")
# How many seconds a node may take to learn what another one tells it.
SOON = 1.5

# ---- one master

# Which node is stopped after how many of its ticks, and by how many ticks more or fewer than `node_timeout` its replica may take its place.
STOPPED, STOP, MORE_TICKS = 2, 20, 5
TICKS, TICK_MS = 120, 100
# How many keys it has, and a key of the first master in another slot than that of `KEYS`.
COUNT, OTHER_KEY = 100, b"bar"

# ---- the table

TABLE_TICKS, TABLE_TICK_MS = 140, 50
# How often a row is played at most, until its first replica is elected.
TRIES = 3
# How long a client waits until it asks the same again, in seconds.
PAUSE = 0.05
# What is tried; how many masters there are, and how many replicas each of them has; after how many of their ticks which nodes are stopped; who
# votes; and who takes whose place, one after the other.
ROWS = (
    ("no node is stopped", 3, 1, {}, MASTERS, []),
    ("a replica is stopped", 3, 1, {5: 20}, MASTERS, []),
    ("two of three voters are stopped", 3, 1, {1: 20, 2: 20}, MASTERS, []),
    ("a voter is stopped, and then another one", 3, 1, {2: 20, 1: 60}, MASTERS, [(2, 5)]),
    ("the replica is stopped before its master", 3, 1, {5: 20, 2: 24}, MASTERS, []),
    ("another master is the only voter", 3, 1, {2: 20}, [0], [(2, 5)]),
    ("the master that is stopped is the only voter", 3, 1, {2: 20}, [2], []),
    ("the replica is the only voter", 3, 1, {2: 20}, [5], [(2, 5)]),
    ("replicas vote, and two masters are stopped", 3, 1, {1: 20, 2: 20}, [3, 4, 5], [(1, 4), (2, 5)]),
    ("all vote, and masters are stopped one after another", 3, 1, {2: 20, 1: 55, 0: 90}, range(6), [(2, 5), (1, 4)]),
    ("both replicas are there", 2, 2, {0: 20}, [1, 4, 5], [(0, 2)]),
    ("the first replica is stopped before its master", 2, 2, {2: 20, 0: 24}, [1, 4, 5], [(0, 3)]),
    ("the first replica is stopped once it took the place", 2, 2, {0: 20, 2: 80}, [1, 4, 5], [(0, 2), (2, 3)]),
    ("both replicas are stopped before their master", 2, 2, {2: 20, 3: 20, 0: 24}, [1, 4, 5], []),
)

# ---- many runs

RUNS, RUN_TICKS, RUN_TICK_MS = 50, 100, 20
# After how many of its ticks a master is stopped.
FIRST, LAST = 10, 35
# How often each of the two clients of a master writes and counts in a pipeline.
PAIRS = (1, 8)


def play(judge):
    play_one(judge)
    with ThreadPoolExecutor(len(ROWS)) as pool:
        for done in [pool.submit(play_row, judge, *row) for row in ROWS]:
            done.result()
    with ThreadPoolExecutor(ROWS_AT_ONCE) as pool:
        for done in [pool.submit(play_run, judge, turn) for turn in range(RUNS)]:
            done.result()


def slots_of(cluster, taken):
    """What `CLUSTER SLOTS` says once these places are taken, one after the other."""
    lines = []
    for master, node in enumerate(cluster["nodes"]):
        owner = owner_after(master, taken)
        address = array(bulk(b"127.0.0.1"), number(ports_of(cluster)[owner]), bulk(node_id(owner).encode()))
        lines += [array(number(first), number(last), address) for first, last in node.get("slots", [])]
    return array(*lines)


def owner_after(master, taken):
    """Who has the slots of the master once these places are taken."""
    for former, successor in taken:
        master = successor if master == former else master
    return master


def owners_until(master, taken):
    """Who has had the slots of the master by then."""
    return {owner_after(master, taken[:count]) for count in range(len(taken) + 1)}


def in_time(asked, wanted):
    """What is answered, once it is what is wanted, or else what it is in the end."""
    last = time.monotonic() + SOON
    while (answer := asked()) != wanted and time.monotonic() < last:
        time.sleep(0.01)
    return answer


def judge_audit(judge, what, server, ticks, tick_ms):
    """The run is audited. Returns the number of its steps."""
    status, output, error = server.outcome(ticks * tick_ms / 1000 + MORE)
    judge.equal(f"{what}: status, and nothing on standard error", (status, error), (0, b""))
    audited = re.fullmatch(rb"audit ok (\d+)\n", output)
    judge.true(f"{what}: the run is audited", audited, repr(output))
    return int(audited[1]) if audited else 0


# ---- one master


def play_one(judge):
    cluster = clusters.six_nodes(tick_ms=TICK_MS, node_timeout=NODE_TIMEOUT)
    ports = ports_of(cluster)
    ended, told = threading.Event(), []
    writers = [functools.partial(write, ports[it], KEYS[it], told, ended) for it in MASTERS if it != STOPPED]
    with Server(cluster, "--ticks", str(TICKS), "--stop", f"{STOPPED}@{STOP}") as server, connect(ports[STOPPED]) as client:
        values = set_keys(judge, ports, client)
        with playing(writers), setting(ended):
            judge.equal("the connection at the master that is stopped is ended", rest_of(client), b"")
            judge_promotion(judge, ports, server)
            judge_found(judge, cluster, values)
        judge.equal("what clients of the other masters are told meanwhile", set(told), {OK})
        judge.least("the steps of the run", judge_audit(judge, "a master is stopped", server, TICKS, TICK_MS), TICKS + len(told))


@contextlib.contextmanager
def setting(ended):
    """Tells threads of the end of the block, however it ends."""
    try:
        yield
    finally:
        ended.set()


def set_keys(judge, ports, client):
    """Sets keys at the master that is stopped, and waits until its replica has them. Returns them with their values."""
    values = {b"{%s}%d" % (KEYS[STOPPED], it): b"%d" % (it * it) for it in range(COUNT)}
    judge.equal("keys are set", {ask(client, spelled(b"SET", *it), OK) for it in values.items()}, {OK})
    wanted = array(*map(bulk, sorted(values)))
    judge.equal("the replica has them", in_time(lambda: keys_at(ports[replica_of(STOPPED)], slot_of(KEYS[STOPPED])), wanted), wanted)
    return values


def write(port, key, told, ended):
    """Sets the key again and again, until the end."""
    with connect(port) as client:
        while not ended.is_set():
            told.append(ask(client, spelled(b"SET", key, b"v"), OK))
            time.sleep(0.001)


def judge_promotion(judge, ports, server):
    """The replica sends clients to its master until it takes its place, which is within so many ticks."""
    request, redirection = spelled(b"GET", b"{%s}2" % KEYS[STOPPED]), moved(slot_of(KEYS[STOPPED]), ports[STOPPED])
    told, ended = [], threading.Event()
    with playing([functools.partial(watch, ports[replica_of(STOPPED)], request, told, ended)]), setting(ended):
        wait_ticks(judge, ports, NODE_TIMEOUT + MORE_TICKS)
        over = time.monotonic()
        in_time(lambda: told[-1][1] == redirection, False)
    judge.equal("what the replica answers, one after the other", [it for it, _ in itertools.groupby(answer for _, answer in told)], [redirection, bulk(b"4")])
    taken = min((when for when, answer in told if answer != redirection), default=float("inf"))
    judge.most("seconds until it takes the place", taken - server.begun, over - server.begun)
    judge.least("seconds until it takes the place", taken - server.begun, (STOP + NODE_TIMEOUT - MORE_TICKS) * TICK_MS / 1000)


def watch(port, request, told, ended):
    """Asks the same until the end, and notes what is answered, and when."""
    with connect(port) as client:
        while not ended.is_set():
            client.sendall(request)
            told.append((time.monotonic(), reply_of(client)))
            time.sleep(0.002)


def wait_ticks(judge, ports, ticks):
    """Waits for so many ticks of the first node, which sends a copy that nobody takes."""
    migrating = spelled(b"CLUSTER", b"SETSLOT", b"%d" % slot_of(OTHER_KEY), b"MIGRATING", node_id(1).encode())
    migrate = spelled(b"MIGRATE", b"127.0.0.1", b"%d" % ports[1], OTHER_KEY, b"0", b"%d" % ticks)
    told = talk(ports[0], spelled(b"SET", OTHER_KEY, b"v") + migrating + migrate)
    judge.equal(f"{ticks} ticks of the first node pass", told, OK + OK + NOT_ACKNOWLEDGED)


def judge_found(judge, cluster, values):
    """All keys are there, and clients that begin at any other node find them."""
    ports, successor = ports_of(cluster), replica_of(STOPPED)
    with connect(ports[successor]) as client:
        told = {key: ask(client, spelled(b"GET", key), bulk(values[key])) for key in values}
        judge.equal("what the successor has", told, {key: bulk(values[key]) for key in values})
        judge.equal("it takes a key", ask(client, spelled(b"SET", KEYS[STOPPED], b"v"), OK), OK)
    slots = slots_of(cluster, [(STOPPED, successor)])
    for node in (it for it in range(len(ports)) if it != STOPPED):
        judge.equal(f"node {node}: who has which slots", in_time(lambda node=node: talk(ports[node], SLOTS), slots), slots)
        judge.equal(f"node {node}: rcluster cli finds a key", cli(ports[node], "GET", KEYS[STOPPED].decode()), (0, b"$1\\r\\nv\\r\\n\n"))
        judge_redis_cli(judge, ports, node)


def judge_redis_cli(judge, ports, node):
    if shutil.which("redis-cli"):
        words = ["redis-cli", "-c", "-p", str(ports[node]), "GET", KEYS[STOPPED]]
        judge.equal(f"node {node}: redis-cli finds a key", subprocess.run(words, capture_output=True, timeout=PATIENCE, check=False).stdout, b"v\n")
    elif node == 0:
        print("redis-cli isn't there, so what it finds behind a failover isn't tried", flush=True)


# ---- the table


def play_row(judge, what, masters, replicas, stops, voters, taken):
    """Plays a row until it comes as wanted. The first of two replicas may ask a voter too early, and then the second one is elected."""
    for _ in range(TRIES):
        if play_once(judge, what, masters, replicas, stops, voters, taken) == taken:
            return
    judge.true(f"{what}: the first replica is elected", False, f"in none of {TRIES} runs")


def play_once(judge, what, masters, replicas, stops, voters, taken):
    """Plays a row, judges what came by the order in which places were taken, and returns that order."""
    cluster = clusters.with_replicas(masters, replicas, voters=[node_id(it) for it in voters], tick_ms=TABLE_TICK_MS, node_timeout=NODE_TIMEOUT)
    ports = ports_of(cluster)
    told = [[] for _ in ports]
    options = [f"--stop={node}@{ticks}" for node, ticks in stops.items()]
    with judge.part(what), Server(cluster, "--ticks", str(TABLE_TICKS), *options) as server:
        with playing([functools.partial(ask_until_the_end, cluster, node, told[node]) for node in range(len(ports))]):
            judge_audit(judge, what, server, TABLE_TICKS, TABLE_TICK_MS)
        others = [[(0, 3)]] if taken in ([(0, 2)], [(0, 2), (2, 3)]) else []
        taken = next((it for it in others if answers_end(cluster, told, stops, it)), taken)
        # Places that are taken at once are taken in any order.
        known = [some for count in range(len(taken) + 1) for some in itertools.combinations(taken, count)]
        for node, answers in enumerate(told):
            wanted = [answer_at(cluster, node, some) for some in known]
            judge.equal(f"{what}: answers of node {node} that are wrong", [it for _, it in answers if it not in wanted], [])
            if node not in stops:
                judge.equal(f"{what}: what node {node} says at the end", answers[-1][1], wanted[-1])
                judge.least(f"{what}: seconds until node {node} was asked last", answers[-1][0] - server.begun, (TABLE_TICKS - 20) * TABLE_TICK_MS / 1000)
    return taken


def answers_end(cluster, told, stops, taken):
    """Whether the nodes that aren't stopped answer at the end what they do once these places are taken."""
    return all(told[node] and told[node][-1][1] == answer_at(cluster, node, taken) for node in range(len(told)) if node not in stops)


def ask_until_the_end(cluster, node, answers):
    """Asks a node who has which slots. For each master it is to set a key of its own, and to count such keys of all nodes."""
    tags = [key_of(cluster, it) for it in masters_of(cluster)]
    counting = b"".join(spelled(b"SET", b"{%s}%d" % (tag, node), b"v") + spelled(b"EXISTS", *(b"{%s}%d" % (tag, it) for it in range(6))) for tag in tags)
    with contextlib.suppress(OSError):
        while (answer := talk(ports_of(cluster)[node], SLOTS + counting + END)).endswith(ENDED):
            answers.append((time.monotonic(), answer))
            time.sleep(PAUSE)


def answer_at(cluster, node, taken):
    """What the node answers to that once these places are taken: who had slots has set a key of its own there."""
    answer = slots_of(cluster, taken)
    for master in masters_of(cluster):
        owner = owner_after(master, taken)
        redirection = moved(slot_of(key_of(cluster, master)), ports_of(cluster)[owner])
        answer += OK + number(len(owners_until(master, taken))) if node == owner else redirection * 2
    return answer + ENDED


def masters_of(cluster):
    return [it for it, node in enumerate(cluster["nodes"]) if "slots" in node]


def key_of(cluster, master):
    """A key in a slot of the master."""
    return next(key for key in KEYS if any(first <= slot_of(key) <= last for first, last in cluster["nodes"][master]["slots"]))


# ---- many runs


def play_run(judge, turn):
    """A master is stopped at a random moment, while two clients of each master write and count."""
    dice = random.Random(turn)
    master, stop = dice.choice(MASTERS), dice.randint(FIRST, LAST)
    what = f"run {turn}, node {master} is stopped after {stop} ticks"
    cluster = clusters.six_nodes(tick_ms=RUN_TICK_MS, node_timeout=NODE_TIMEOUT)
    ports = ports_of(cluster)
    ended = threading.Event()
    counts = [Counting(ports, node, pairs) for node in MASTERS for pairs in PAIRS]
    with judge.part(what), Server(cluster, "--ticks", str(RUN_TICKS), "--stop", f"{master}@{stop}") as server:
        with playing([functools.partial(it.count, ended) for it in counts]), setting(ended):
            steps = judge_audit(judge, what, server, RUN_TICKS, RUN_TICK_MS)
        judge.least(f"{what}: its steps", steps, sum(len(replies) for it in counts for _, replies in it.told))
        for it in counts:
            it.judge(judge, what)
        judge.equal(f"{what}: who serves its clients at the end", [it.told[-1][0] for it in counts if it.node == master], [ports[replica_of(master)]] * len(PAIRS))


class Counting:
    """A client that writes and counts at keys of a master, or of who takes its place, and so many times in a pipeline."""

    def __init__(self, ports, node, pairs):
        self.ports, self.node, self.pairs = ports, node, pairs
        # For each connection the port, and what was answered.
        self.told = []

    def count(self, ended):
        """Counts until the end. Where a connection ends or is refused, another node is asked who has the keys."""
        port, others = self.ports[self.node], itertools.cycle(self.ports)
        while not ended.is_set():
            replies = []
            redirected = self.count_at(port, replies)
            if replies:
                self.told.append((port, replies))
            if not redirected:
                time.sleep(0.005)
            port = redirected or next(others)

    def count_at(self, port, replies):
        """Counts until the connection ends or a request is redirected. Returns the port that it is redirected to, if it is."""
        key = b"{%s}%d" % (KEYS[self.node], self.pairs)
        requests = (spelled(b"SET", key + b"w", b"v") + spelled(b"INCR", key)) * self.pairs
        with contextlib.suppress(OSError), connect(port) as client, client.makefile("rb") as lines:
            while True:
                client.sendall(requests)
                for _ in range(2 * self.pairs):
                    line = lines.readline()
                    if line.startswith(b"-MOVED"):
                        return port_in(line)
                    # The connection has ended.
                    if not line.endswith(b"\r\n"):
                        return None
                    replies.append(line)
        return None

    def judge(self, judge, what):
        """No error was answered but redirections. At one node each count is one more than that before. Behind a change of the node what was
        counted last may be missing, and what was counted without an answer may be there.
        """
        what = f"{what}: a client of node {self.node}, {self.pairs} counts at once"
        replies = [it for _, some in self.told for it in some]
        judge.equal(f"{what}: errors", [it for it in replies if it[:1] not in b"+:"], [])
        counts = [[int(it[1:]) for it in some if it[:1] == b":"] for _, some in self.told]
        counts = [it for it in counts if it]
        judge.equal(f"{what}: counts at one node that don't follow each other", [it for it in counts if it != list(range(it[0], it[0] + len(it)))], [])
        ends = [(before[-1], after[0]) for before, after in zip(counts, counts[1:])]
        judge.equal(f"{what}: counts behind a change of the node that are too great", [it for it in ends if it[1] > it[0] + self.pairs + 1], [])
