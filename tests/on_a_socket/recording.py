"""`serve --record`: a file that tells what the nodes did.

Each ticket has a line, in order, and as many as the audit counts. What clients were answered stands there with its reason. Each message that a node
took stands in the line of the step that sent it, for that node and with the same words. A slot moves meanwhile, a master hands over, another one is
stopped and its replica is promoted. The whole run can be drawn. A file that can't be written is refused before any address is printed.
"""

import os
import re
import subprocess
import sys

import clusters
from clusters import node_id, ports_of
from failover import NODE_TIMEOUT
from moving import in_time
from ordering import order, ordered
from program import PATIENCE, run
from wire import NIL, OK, ask, connect, moved, slot_of, spelled

TICK_MS, TICKS, STOPPED = 50, 240, 0
KEY = b"foo"
NAME = "run.record"
LINE = re.compile(r"(\d+) node (\d+) ([^\n]*)")


def play(judge):
    play_run(judge)
    play_refused(judge)


def play_run(judge):
    cluster = clusters.six_nodes(tick_ms=TICK_MS, node_timeout=NODE_TIMEOUT)
    ports = ports_of(cluster)
    with ordered(cluster, "--ticks", str(TICKS), "--record", NAME) as server:
        converse(judge, server, cluster, ports)
        status, output, _ = server.outcome(PATIENCE)
        judge.equal("a record: the status", status, 0)
        path = os.path.join(server.folder.name, NAME)
        with open(path, encoding="ascii") as file:
            lines = file.read().splitlines()
        judge.equal("a record: the verdict counts its lines", output, b"audit ok %d\n" % len(lines))
        judge_lines(judge, lines)
        judge_replies(judge, lines, ports)
        judge_picture(judge, path, lines)


def judge_picture(judge, path, lines):
    words = [sys.executable, "-B", os.path.join(clusters.EXAMPLES, "draw.py"), "--record", "0", str(len(lines)), path]
    picture = subprocess.run(words, stdout=subprocess.PIPE, text=True, timeout=PATIENCE, check=True).stdout
    drawn = re.findall(r'marker-end="url\(#(\w+)\)"', picture)
    for kind, wanted in (("request", r"\d+ node \d request "), ("reply", r"(?: -> |; )reply ")):
        judge.equal(f"a record: each {kind} is drawn", drawn.count(kind), sum(len(re.findall(wanted, line)) for line in lines))
    judge.least("a record: messages are drawn", drawn.count("message"), 15)
    for text in ("SET foo a b", "-MOVED 3300", "Copy slot 12182 move 1", "is promoted as planned in epoch", "is promoted in epoch"):
        judge.within("a record: the picture", text, picture)


def converse(judge, server, cluster, ports):
    with connect(ports[2]) as client:
        for request, reply in (((b"SET", KEY, b"a\r\nb"), OK), ((b"GET", b"{foo}2"), NIL), ((b"GET", b"b"), moved(slot_of(b"b"), ports[0]))):
            judge.equal(f"a record: the reply to {request}", ask(client, spelled(*request), reply), reply)
    slot = str(slot_of(KEY))
    moving = ("--from", cluster["nodes"][2]["id"], "--to", cluster["nodes"][1]["id"], "--slots", f"{slot}-{slot}")
    judge.equal("a record: a slot moves", run("reshard", "--addr", f"127.0.0.1:{ports[0]}", *moving)[0], 0)
    judge.equal("a record: a master hands over", run("failover", "--addr", f"127.0.0.1:{ports[5]}", "--node", node_id(5))[0], 0)
    order(server, b"stop %d" % STOPPED)
    redirected = moved(slot_of(b"b"), ports[3])
    judge.equal("a record: a replica takes a place", in_time(ports[1], spelled(b"GET", b"b"), redirected), redirected)


def judge_lines(judge, lines):
    parsed = [LINE.fullmatch(line) for line in lines]
    judge.true("a record: its lines have their form", all(parsed), "one hasn't")
    judge.equal("a record: the tickets rise by one", [int(it[1]) for it in parsed], list(range(len(lines))))
    judge.equal("a record: all nodes stand there", sorted({int(it[2]) for it in parsed}), list(range(6)))
    taken = [(int(it[2]), *re.match(r"message from (\d+) of (\d+): (.*?)(?: -> |$)", it[3]).groups()) for it in parsed if it[3].startswith("message")]
    judge.least("a record: messages", len(taken), 1000)
    strange = [it for it in taken if not is_sent(parsed, *it)]
    judge.equal("a record: what was taken was sent", strange[:3], [])
    kinds = {body.split(" ")[0] for _, _, _, body in taken}
    every = {"Copy", "Ack", "Drained", "Claim", "Report", "Request", "Grant", "Sync", "Piece", "Pause", "Paused"}
    judge.equal("a record: the kinds of messages", every - kinds, set())


def is_sent(parsed, node, sender, ticket, body):
    """Whether the step of that ticket sent this to the node."""
    line = parsed[int(ticket)]
    outcomes = line[3].partition(" -> ")[2].split("; ")
    return line[2] == sender and f"to {node}: {body}" in outcomes


def judge_replies(judge, lines, ports):
    wanted = (
        r'node 2 open -> connection \d+/\d+',
        r'node 2 request \d+/\d+ "SET" "foo" "a\\r\\nb" -> reply "\+OK\\r\\n" by Decided\(Serve\); to 5: Piece stream 2/\d+ from 0 bytes \d+',
        r'node 2 request \d+/\d+ "GET" "{foo}2" -> reply "\$-1\\r\\n" by Decided\(Serve\)',
        r'node 2 request \d+/\d+ "GET" "b" -> reply "-MOVED 3300 127\.0\.0\.1:%d\\r\\n" by Decided\(Moved.*\)' % ports[0],
        r'node 2 request \d+/\d+ "MIGRATE" .* -> the reply waits; to 1: Copy slot 12182 move 1 copy \d+ keys "foo"',
        r'node 2 message from 1 of \d+: Ack slot 12182 move 1 copy \d+ -> reply to \d+/\d+ "\+OK\\r\\n"; .*',
        r'node 5 message from \d of \d+: Grant epoch \d+ -> promoted as planned in epoch \d+ at \d+; .*',
        r'node 3 message from \d of \d+: Grant epoch \d+ -> promoted in epoch \d+ at \d+; .*',
        r'node \d tick -> .*to \d: Claim slots .*',
        r'node 2 close \d+/\d+',
    )
    for pattern in wanted:
        judge.true(f"a record: a line like {pattern}", any(re.fullmatch(r"\d+ " + pattern, line) for line in lines), near(lines, pattern))


def near(lines, pattern):
    """A few lines that begin as the pattern does."""
    start = pattern[:9]
    return str([line for line in lines if start in line][:4])


def play_refused(judge):
    judge.equal("a record without ticks is refused", run("serve", "--masters", "1", "--record", NAME)[0], 2)
    status, output, errors = run("serve", "--masters", "1", "--port", "0", "--ticks", "5", "--record", "/dev/full")
    judge.true("a record that finds no room: the verdict is printed", re.fullmatch(rb"node 0 127.0.0.1:\d+\naudit ok \d+\n", output), repr(output))
    judge.equal("a record that finds no room", (status, errors[-5:]), (1, b"(F4)\n"))
    status, output, errors = run("serve", "--masters", "1", "--port", "0", "--ticks", "5", "--record", "nowhere/run.record")
    judge.equal("a file that can't be written: no address is printed", (status, output), (1, b""))
    judge.equal("a file that can't be written: the sentence", errors, b"rcluster: nowhere/run.record can't be written: No such file or directory (os error 2) (F4)\n")
