"""A slot that moves from one master to another: all bytes that nodes answer about it, up to the end of the connection.

Then the slot goes to and fro while clients count at its keys, and each of their replies is compared.
"""

import contextlib
import threading
import time

import clusters
from clusters import node_id, ports_of
from program import Server
from wire import NIL, OK, array, ask, bulk, connect, moved, number, playing, reply_of, spelled, talk

# The slot of foo, which the third master has, and the nodes that it moves between.
SLOT = 12182
SOURCE, TARGET = 2, 1
# How many clients count while the slot moves, and how often it moves.
COUNTERS, MOVES = 4, 12
# How many seconds a node may take to learn what another one tells it.
PATIENCE = 20
NOT_ACKNOWLEDGED = b"-IOERR copy not acknowledged\r\n"
NOT_DRAINED = b"-ERR slot is not drained\r\n"


def asked(port, *move):
    return b"-ASK %d 127.0.0.1:%d" % (SLOT, port) + b"".join(b" %d" % it for it in move) + b"\r\n"


def order(kind, node, *move):
    return spelled(b"CLUSTER", b"SETSLOT", b"%d" % SLOT, kind, node_id(node).encode(), *(b"%d" % it for it in move))


def about_the_slot(what, *more):
    return spelled(b"CLUSTER", what, b"%d" % SLOT, *more)


def state(word, other, keys):
    return array(bulk(word), bulk(node_id(other).encode()), number(1), number(1), number(keys), number(0))


def rows(ports):
    get, get_other = spelled(b"GET", b"foo"), spelled(b"GET", b"{foo}2")
    target = b"127.0.0.1", b"%d" % ports[TARGET]
    yield SOURCE, "a key is set before the move", spelled(b"SET", b"foo", b"v"), OK
    yield TARGET, "it imports the slot", order(b"IMPORTING", SOURCE), OK
    yield TARGET, "the same order again", order(b"IMPORTING", SOURCE), OK
    yield TARGET, "another number beside it", order(b"IMPORTING", SOURCE, 7), b"-ERR slot is already being moved\r\n"
    yield SOURCE, "it migrates the slot", order(b"MIGRATING", TARGET), OK
    yield SOURCE, "what it does with the slot", about_the_slot(b"SLOTSTATE"), state(b"migrating", TARGET, 1)
    yield TARGET, "what it does with the slot", about_the_slot(b"SLOTSTATE"), state(b"importing", SOURCE, 0)
    yield SOURCE, "a key that is there", get, bulk(b"v")
    yield SOURCE, "a key that is not there", get_other, asked(ports[TARGET])
    yield SOURCE, "with the number of the move", spelled(b"CLUSTER", b"NUMBERED") + get_other, OK + asked(ports[TARGET], 1)
    yield SOURCE, "keys of which one is there", spelled(b"MGET", b"foo", b"{foo}2"), b"-TRYAGAIN Multiple keys request during rehashing of slot\r\n"
    yield TARGET, "without ASKING", get_other, moved(SLOT, ports[SOURCE])
    yield TARGET, "ASKING holds for one request", spelled(b"ASKING") + spelled(b"SET", b"{foo}2", b"w") + get_other, OK + OK + moved(SLOT, ports[SOURCE])
    yield TARGET, "ASKING with the number of the move", spelled(b"ASKING", b"1") + get_other, OK + bulk(b"w")
    yield TARGET, "ASKING with another number", spelled(b"ASKING", b"2") + get_other, OK + moved(SLOT, ports[SOURCE])
    yield TARGET, "how many keys it has there", about_the_slot(b"COUNTKEYSINSLOT"), number(1)
    yield TARGET, "which keys it has there", about_the_slot(b"GETKEYSINSLOT", b"10"), array(bulk(b"{foo}2"))
    yield TARGET, "the move ends too early", order(b"NODE", TARGET), b"-ERR slot is not drained\r\n"
    yield SOURCE, "a key that is gone is not copied", spelled(b"MIGRATE", *target, b"{foo}3", b"0", b"10"), b"+NOKEY\r\n"
    yield SOURCE, "a key for another node", spelled(b"MIGRATE", b"127.0.0.1", b"%d" % ports[0], b"foo", b"0", b"10"), b"-ERR slot is not migrating to that address\r\n"
    yield SOURCE, "a key that is copied", spelled(b"MIGRATE", *target, b"foo", b"0", b"50"), OK
    yield SOURCE, "it is gone from there", get, asked(ports[TARGET])
    yield TARGET, "it is there", spelled(b"ASKING") + get, OK + bulk(b"v")
    yield 0, "a node that has no part in the move", get, moved(SLOT, ports[SOURCE])
    yield SOURCE, "a key of another slot", spelled(b"GET", b"x"), NIL


def rows_behind(ports):
    """Once the last key is gone, each node learns what it needs within a moment."""
    get = spelled(b"GET", b"foo")
    yield TARGET, "the move ends where the slot goes to", order(b"NODE", TARGET), OK
    yield SOURCE, "and where it comes from", order(b"NODE", TARGET), OK
    yield TARGET, "the key is served there", get, bulk(b"v")
    for node in (0, SOURCE, 3, 4, 5):
        yield node, "a client is told where the slot is", get, moved(SLOT, ports[TARGET])


def play(judge):
    cluster = clusters.six_nodes()
    ports = ports_of(cluster)
    with Server(cluster):
        for node, what, request, wanted in rows(ports):
            judge.equal(f"at node {node}: {what}", talk(ports[node], request), wanted)
        for node, what, request, wanted in rows_behind(ports):
            judge.equal(f"at node {node}: {what}", in_time(ports[node], request, wanted), wanted)
    with judge.part("a copy that nobody takes"):
        play_refused(judge)
    with judge.part("a slot that goes to and fro"):
        play_counters(judge)


def in_time(port, request, wanted):
    """What is answered, once it is what is wanted or the patience has ended."""
    last = time.monotonic() + PATIENCE
    while (answer := talk(port, request)) != wanted and time.monotonic() < last:
        time.sleep(0.005)
    return answer


def play_refused(judge):
    """The other node doesn't import the slot, so nothing is acknowledged, and the client learns so after its ticks."""
    cluster = clusters.six_nodes(tick_ms=50)
    ports = ports_of(cluster)
    migrate = spelled(b"MIGRATE", b"127.0.0.1", b"%d" % ports[TARGET], b"foo", b"0", b"3")
    with Server(cluster):
        judge.equal("a key is set", talk(ports[SOURCE], spelled(b"SET", b"foo", b"v")), OK)
        judge.equal("its slot migrates", talk(ports[SOURCE], order(b"MIGRATING", TARGET)), OK)
        judge.equal("the copy, and a request behind it", talk(ports[SOURCE], migrate + spelled(b"ECHO", b"e")), NOT_ACKNOWLEDGED + bulk(b"e"))
        judge.equal("the key is still on its way", talk(ports[SOURCE], spelled(b"GET", b"foo")), b"-TRYAGAIN Key is being moved\r\n")
        judge.equal("the other node imports it now", talk(ports[TARGET], order(b"IMPORTING", SOURCE)), OK)
        judge.equal("the copy that is sent again arrives", in_time(ports[SOURCE], spelled(b"GET", b"foo"), asked(ports[TARGET])), asked(ports[TARGET]))


def play_counters(judge):
    """Each client counts at a key of its own, and has to be told 1, 2, 3 and so on, wherever the key is."""
    cluster = clusters.six_nodes(tick_ms=20)
    ports = ports_of(cluster)
    ended = threading.Event()
    counts = [[] for _ in range(COUNTERS)]
    with Server(cluster):
        with playing([lambda key=key: count_at(ports, key, counts[key], ended) for key in range(COUNTERS)]):
            try:
                for move in range(1, MOVES + 1):
                    source, target = (SOURCE, TARGET) if move % 2 else (TARGET, SOURCE)
                    judge.equal(f"move {move} of the slot", move_slot(ports, source, target, move), "moved")
            finally:
                ended.set()
        for key, replies in enumerate(counts):
            judge.least(f"how often client {key} counted", len(replies), MOVES)
            judge.equal(f"what client {key} was told", replies, [number(it + 1) for it in range(len(replies))])
            judge.equal(f"the key of client {key} at the end", talk(ports[SOURCE], spelled(b"GET", b"{foo}%d" % key)), bulk(b"%d" % len(replies)))


def count_at(ports, key, replies, ended):
    """Increases the counter until the end, as a client does that follows the nodes.

    Its ASKING names the move, as `ASK` told it. A plain one may come late, when the slot comes to the node by another move, and the key is
    counted anew there.
    """
    request = spelled(b"INCR", b"{foo}%d" % key)
    with contextlib.ExitStack() as stack:
        clients = {port: stack.enter_context(connect(port)) for port in ports[:3]}
        for client in clients.values():
            ask(client, spelled(b"CLUSTER", b"NUMBERED"), OK)
        # Where the slot is as far as the client knows, and where it asks just once, by which move.
        home, other, move = ports[0], None, None
        while not ended.is_set():
            client = clients[other or home]
            client.sendall(spelled(b"ASKING", move) + request if other else request)
            if other:
                reply_of(client)
            answer, other = reply_of(client), None
            if answer.startswith(b"-MOVED"):
                home = port_in(answer)
            elif answer.startswith(b"-ASK"):
                other, move = port_in(answer), answer.split()[3]
            elif answer.startswith(b"-TRYAGAIN"):
                time.sleep(0.001)
            else:
                replies.append(answer)


def port_in(redirection):
    return int(redirection.split()[2].rpartition(b":")[2])


def move_slot(ports, source, target, number_of_move):
    """Moves the slot, key by key, as an administrator does."""
    for node, kind, other in ((target, b"IMPORTING", source), (source, b"MIGRATING", target)):
        if (answer := in_time(ports[node], order(kind, other, number_of_move), OK)) != OK:
            return node, kind, answer
    about, address = b"%d" % SLOT, (b"127.0.0.1", b"%d" % ports[target])
    with connect(ports[source]) as client:
        while True:
            client.sendall(spelled(b"CLUSTER", b"GETKEYSINSLOT", about, b"16"))
            keys = reply_of(client).split(b"\r\n")[2::2]
            if not keys:
                break
            for key in keys:
                client.sendall(spelled(b"MIGRATE", *address, key, b"0", b"50"))
                if (answer := reply_of(client)) not in (OK, b"+NOKEY\r\n", NOT_ACKNOWLEDGED):
                    return key, answer
    for node in (target, source, 0):
        if (answer := in_time(ports[node], order(b"NODE", target), OK)) != OK:
            return node, b"NODE", answer
    return "moved"
