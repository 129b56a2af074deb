"""A bad network between the nodes: messages are lost, come several times or come late.

First what `--network` refuses. Then a slot moves to and fro while clients count, masters are stopped and replicas take their places, over
networks that are made up from numbers, and over one that a file tells: no client may be told a wrong number, and each run is audited. At last an
acknowledgement is late: the connection that waits for it is closed, and the next one, which has its key, is told nothing of it.
"""

import contextlib
import re
from concurrent.futures import ThreadPoolExecutor

import clusters
from clusters import node_id, ports_of
from ending import ROWS_AT_ONCE, counting_clients, play_ticks
from failover import NODE_TIMEOUT, judge_audit
from moving import in_time
from ordering import STATUS
from program import PATIENCE, Server, run
from wire import OK, PING, PONG, ask, connect, number, spelled, talk

# What is told of a text that says no network.
NO_CHANCES = b"says no network: --network takes a file"
# A file, and what is said of it: which line is wrong, and why.
WRONG = (
    (b"0 1 pass\n0 3 lose\n", b"line 2 is wrong: it doesn't begin with the numbers of two nodes"),
    (b"one two lose\n", b"line 1 is wrong: it doesn't begin with the numbers of two nodes"),
    (b"\n# Nothing.\n1 0 pass repeat\n", b"line 3 is wrong: an act is pass, lose, repeat=N or hold=N"),
    (b"1 0 hold=0\n", b"line 1 is wrong: an act is"),
    (b"1 0 pass*1000001\n", b"line 1 is wrong: an act is"),
    (b"1 0 pass*1000000 lose\n", b"line 1 is wrong: a link has at most 1000000 acts"),
    (b"0 1 \xff\n", b"the text isn't UTF-8"),
)
CHANCES = ("seed=", "seed=1,lose=5", "seed=1,lose=60%,hold=41%", "seed=1,delay=5%", "seed=1,acts=1000001", "acts=100,lose", "loose=5%")
# Numbers without a seed, and the verdict of a run, which stands behind the addresses of the nodes.
SEEDLESS = ("lose=5%,hold=5%", "lose=5%,acts=100", "acts=100")
AUDITED = re.compile(rb"\naudit ok [0-9]+\n\Z")

# Networks, each as its acts are told.
NETWORKS = (
    "seed=1,lose=10%,repeat=10%,hold=10%",
    "seed=2,lose=30%",
    "seed=3,repeat=50%",
    "seed=4,hold=50%",
    "seed=5,lose=15%,repeat=15%,hold=15%,acts=200",
)
# Every link loses, repeats and holds its first messages.
ACTS = "lose*3 repeat=2*4 hold=3*5 pass*2 hold=1 lose repeat=1 pass*5 lose*2 hold=8"

# A master is stopped after so many of its ticks.
TICKS, TICK_MS, STOPPED, STOP = 160, 50, 2, 20


def play(judge):
    play_words(judge)
    with ThreadPoolExecutor(ROWS_AT_ONCE) as pool:
        rows = [pool.submit(play_ticks, judge, counting_clients, ["--network", it]) for it in NETWORKS]
        rows += [pool.submit(play_failover, judge, it) for it in NETWORKS]
        for done in rows:
            done.result()
    play_file(judge)
    play_logged(judge)
    play_late(judge)


def play_words(judge):
    words = ("serve", "--masters", "3", "--port", "7000", "--check", "--network")
    for text in CHANCES:
        status, output, error = run(*words, text)
        judge.true(f"{text}: refused", status == 2 and not output and NO_CHANCES in error, repr((status, output, error)))
    for text, why in WRONG:
        status, output, error = run(*words, "acts", files={"acts": text})
        judge.true(f"{text[:40]}: refused", status == 2 and not output and why in error, repr((status, output, error)))
    for text in SEEDLESS:
        judge.equal(f"{text}: taken", run(*words, text), (0, b"", b""))
    status, output, error = run("serve", "--masters", "2", "--port", "0", "--ticks", "3", "--network", SEEDLESS[1])
    judge.true(f"{SEEDLESS[1]}: served", status == 0 and AUDITED.search(output), repr((status, output, error)))
    judge.equal("a file that isn't there", run(*words, "acts")[:2], (1, b"fault F1\n"))
    judge.equal("a file that says nothing", run(*words, "acts", files={"acts": b""}), (0, b"", b""))


def play_failover(judge, network):
    """A master is stopped, and its replica takes its place, over this network."""
    what = f"a master is stopped, {network}"
    cluster = clusters.six_nodes(tick_ms=TICK_MS, node_timeout=NODE_TIMEOUT)
    options = ["--ticks", str(TICKS), "--stop", f"{STOPPED}@{STOP}", "--network", network]
    with judge.part(what), Server(cluster, *options) as server:
        judge_audit(judge, what, server, TICKS, TICK_MS)


def play_file(judge):
    """The acts of all links of six nodes are told by a file, while clients count at keys that move."""
    what = "acts that a file tells"
    acts = "".join(f"{source} {target} {ACTS}\n" for source in range(6) for target in range(6))
    cluster = clusters.six_nodes(tick_ms=TICK_MS)
    files = {"acts": b"# Every link.\n\n" + acts.encode()}
    with judge.part(what), Server(cluster, "--ticks", "60", "--network", "acts", files=files) as server:
        with contextlib.contextmanager(counting_clients)(judge, what, ports_of(cluster)):
            judge_audit(judge, what, server, 60, TICK_MS)
            server.process.kill()


def play_logged(judge):
    """The log has a line for each act but those that pass, in their order."""
    cluster = clusters.masters(2, tick_ms=20)
    files = {"acts": b"0 1 pass lose repeat=2 hold=3 pass hold=1 lose*2\n"}
    what = b"rcluster: T node 1: a message of node 0 "
    lost, held = what + b"is lost\n", what + b"is held until so many others have come: %d\n"
    wanted = lost + what + b"comes, and once more so many times: 2\n" + held % 3 + held % 1 + lost * 2
    with Server(cluster, "--ticks", "20", "--log", "--network", "acts", files=files) as server:
        status, output, error = server.outcome(PATIENCE)
        told = re.sub(rb"rcluster: [0-9]+\.[0-9]{3} ", b"rcluster: T ", STATUS.sub(b"", error))
        judge.equal("a bad network that is logged: status and log", (status, told), (0, wanted))
        judge.true("it is audited", re.fullmatch(rb"audit ok [0-9]+\n", output), repr(output))


def play_late(judge):
    """The acknowledgement of a copy is held until many other messages have come; its connection is closed meanwhile."""
    cluster = clusters.masters(2, tick_ms=100)
    ports = ports_of(cluster)
    with Server(cluster, "--network", "acts", files={"acts": b"1 0 hold=12*40\n"}) as server:
        judge.true("a network that holds what comes from node 1: it serves", server.lines.startswith(b"node 0"), repr(server.lines))
        orders = spelled(b"SET", b"b", b"v") + spelled(b"CLUSTER", b"SETSLOT", b"3300", b"MIGRATING", node_id(1).encode())
        imports = spelled(b"CLUSTER", b"SETSLOT", b"3300", b"IMPORTING", node_id(0).encode())
        judge.equal("the slot comes to node 1", talk(ports[1], imports), OK)
        with connect(ports[0]) as first:
            judge.equal("a key is set, and its slot leaves", ask(first, orders, OK * 2), OK * 2)
            first.sendall(spelled(b"MIGRATE", b"127.0.0.1", b"%d" % ports[1], b"b", b"0", b"1000"))
        with connect(ports[0]) as second:
            judge.equal("the next connection is answered", ask(second, PING, PONG), PONG)
            gone = in_time(ports[0], spelled(b"CLUSTER", b"COUNTKEYSINSLOT", b"3300"), number(0))
            judge.equal("the acknowledgement has come, and the key is deleted", gone, number(0))
            judge.equal("and it is told nothing else", ask(second, PING + PING, PONG * 2), PONG * 2)
