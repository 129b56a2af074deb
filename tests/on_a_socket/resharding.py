"""`rcluster reshard`: against a cluster, at which it is also cut off behind each of its requests and begun again, and against nodes
of the test's own, which keep what they are asked.
"""

import re
import socket
import subprocess
import threading
import time

import clusters
import program
from calling import NO_ADDRESSES, Node, cli, no_address
from clusters import node_id, ports_of
from moving import SLOT, SOURCE, TARGET, in_time
from program import Server
from wire import OK, PATIENCE, accepted, array, bulk, connect, moved, number, reply_of, shut, slot_of, spelled, talk

ID = [node_id(it).encode() for it in range(3)]
ABOUT = b"%d" % SLOT
AGAIN = b"-TRYAGAIN Key is being moved\r\n"
NOT_ACKNOWLEDGED = b"-IOERR copy not acknowledged\r\n"
NOT_DRAINED = b"-ERR slot is not drained\r\n"
REFUSED = b"-ERR no\r\n"
LAST_MOVE = 9223372036854775807
# How many milliseconds a run rests behind a slot whose keys it moved.
REST = 10
# The most bytes of a word, and of a request with all its marks.
MOST_WORD_BYTES, MOST_REQUEST_BYTES = 8388608, 16777216
# The greatest limit that the program takes, for runs that have to wait until a node's thread goes on.
MOST_REPETITIONS = 1000000


def words_of(port, slots=f"{SLOT}-{SLOT}", source=SOURCE, target=TARGET, limit=None):
    """The command line of a run that begins at the node of this port. Source and target are numbers of nodes, or texts."""
    ids = [it if isinstance(it, str) else node_id(it) for it in (source, target)]
    options = [] if limit is None else ["--limit", str(limit)]
    return ["reshard", "--addr", f"127.0.0.1:{port}", "--from", ids[0], "--to", ids[1], "--slots", slots, *options]


def reshard(port, *slots, **more):
    """The status and the output of one run."""
    status, output, _ = program.run(*words_of(port, *slots, **more))
    return status, output


def reshard_patiently(port, *slots, **more):
    """The status and the output of one run that has to wait for nodes."""
    return reshard(port, *slots, limit=MOST_REPETITIONS, **more)


def done(error):
    """What the line on standard error says that a run has done: the slots and keys that were moved, and the slots that were there before.

    On a busy machine the run may have waited for long before, and told so.
    """
    told = re.fullmatch(rb"(?:rcluster: waiting for .*\n)*rcluster: slots moved: (\d+), keys moved: (\d+), slots that were there before: (\d+), seconds: \d+\.\d{3}\n", error)
    return tuple(map(int, told.groups())) if told else error


def line(count, slot=SLOT, move=1):
    """What is printed of a slot, once so many keys of it are moved."""
    return b"slot %d move %d keys %d\n" % (slot, move, count)


def play(judge):
    play_words(judge)
    play_requests(judge)
    play_long_keys(judge)
    play_waits(judge)
    play_replies(judge)
    play_at_once(judge)
    play_a_cluster(judge)
    play_cuts(judge)


def play_words(judge):
    whole = words_of(7000)
    for what, words in [
        ("no address", whole[:1] + whole[3:]),
        ("no source", whole[:3] + whole[5:]),
        ("no target", whole[:5] + whole[7:]),
        ("no slots", whole[:7]),
        ("a word too many", whole + ["more"]),
        ("too many repetitions", words_of(7000, limit=1000001)),
        ("no number of repetitions", words_of(7000, limit="many")),
        ("a first slot that begins with -", words_of(7000, "-7")),
    ]:
        status, output, error = program.run(*words)
        judge.equal(f"{what}: status and output", (status, output), (2, b""))
        judge.true(f"{what}: a sentence on standard error", error.startswith(b"error: "), repr(error))
    for address in NO_ADDRESSES:
        judge.equal(f"the address {address!r}", program.run("reshard", "--addr", address, *whole[3:]), (2, b"", no_address(address)))
    for slots in ("", "07", "16384", "7 ", "x", "7-", "8-7", "0-16384", "07-8", "7-x", "7-8-9", "7 - 8", "+7-8"):
        said = f"error: \"{slots}\" is no slot and no range: --slots takes a slot from 0 to 16383, or A-B, two of them, A not above B\n\nFor more information, try '--help'.\n"
        judge.equal(f"slots {slots!r}", program.run(*words_of(7000, slots)), (2, b"", said.encode()))
    port = clusters.free_ports(1)[0]
    told = b"rcluster: 127.0.0.1:%d can't be reached: Connection refused (os error 111) (V2)\n" % port
    judge.equal("no node is there", program.run(*words_of(port)), (1, b"fault V2\n", told))
    for text in ("you", "16", "01", "f", "0" * 39, "A" * 40):
        told = f'rcluster: "{text}" is no id of a node: an id is 40 lowercase hexadecimal digits, as CLUSTER SLOTS lists them; a number from 0 to 15 stands for one, too (V2)\n'
        for option in ("source", "target"):
            judge.equal(f"{text!r} is no {option}", program.run(*words_of(port, **{option: text})), (1, b"fault V2\n", told.encode()))


# ---- nodes of the test's own


class Master(Node):
    """A node that also tells a list which all masters share what it was asked."""

    def __init__(self, node, asked, *answers):
        super().__init__(*answers)
        self.node, self.all_asked = node, asked

    def hear(self, words):
        self.all_asked.append((self.node, words))


class Masters:
    """Three masters, each with a third of the slots, which give these answers, and a list of all that they are asked.

    The first one lists them before its first answer.
    """

    def __init__(self, *answers):
        self.asked = []
        self.nodes = [Master(node, self.asked, *some) for node, some in enumerate(answers)]
        self.ports = [it.port for it in self.nodes]
        self.nodes[0].answers.insert(0, slots_of(self.ports))

    def close(self):
        for node in self.nodes:
            node.close()


def slots_of(ports):
    bounds = [0, 5461, 10923, 16384]
    return array(
        *(
            array(number(bounds[node]), number(bounds[node + 1] - 1), array(bulk(b"127.0.0.1"), number(port), bulk(ID[node])))
            for node, port in enumerate(ports)
        )
    )


def state(word, other, move, last, keys=0, drained=0):
    return array(bulk(word), bulk(other), *map(number, (move, last, keys, drained)))


def keys(*some):
    return array(*map(bulk, some))


OWNED, FOREIGN = state(b"owned", ID[SOURCE], 0, 0, 1), state(b"foreign", ID[SOURCE], 0, 0)
LISTS = (0, [b"CLUSTER", b"SLOTS"])
READS = [LISTS] + [(it, [b"CLUSTER", b"SLOTSTATE", ABOUT]) for it in (SOURCE, TARGET)]
LISTS_KEYS = (SOURCE, [b"CLUSTER", b"GETKEYSINSLOT", ABOUT, b"16"])


def sets(node, kind, other, *move):
    return node, [b"CLUSTER", b"SETSLOT", ABOUT, kind, ID[other], *move]


def takes(move):
    return [sets(TARGET, b"IMPORTING", SOURCE, move), sets(SOURCE, b"MIGRATING", TARGET, move)]


def ends(*move):
    return [sets(it, b"NODE", TARGET, *move) for it in (TARGET, SOURCE, 0)]


def migrates(ports, *some):
    return SOURCE, [b"MIGRATE", b"127.0.0.1", b"%d" % ports[TARGET], b"", b"0", b"100", b"KEYS", *some]


def play_requests(judge):
    """All that the nodes are asked, in order."""
    def asks(what, wanted, requests, *answers, **more):
        masters = Masters(*answers)
        judge.equal(f"{what}: status and output", reshard(masters.ports[0], **more), wanted)
        judge.equal(f"{what}: what the nodes were asked", masters.asked, requests(masters.ports))
        masters.close()

    asks("a key is moved", (0, line(1)), lambda ports: READS + takes(b"1") + [LISTS_KEYS, migrates(ports, b"foo"), LISTS_KEYS] + ends(b"1"),
         [OK], [FOREIGN, OK, OK], [OWNED, OK, keys(b"foo"), OK, keys(), OK])
    asks("masters by their numbers, and one slot", (0, line(1)), lambda ports: READS + takes(b"1") + [LISTS_KEYS, migrates(ports, b"foo"), LISTS_KEYS] + ends(b"1"),
         [OK], [FOREIGN, OK, OK], [OWNED, OK, keys(b"foo"), OK, keys(), OK], slots=f"{SLOT}", source=f"{SOURCE}", target=f"{TARGET}")
    many = [b"foo%d" % it for it in range(16)]
    asks("keys are moved at once", (0, line(16)), lambda ports: READS + takes(b"1") + [LISTS_KEYS, migrates(ports, *many), LISTS_KEYS] + ends(b"1"),
         [OK], [FOREIGN, OK, OK], [OWNED, OK, keys(*many), OK, keys(), OK])
    asks("the number behind the greater one", (0, line(0, move=8)), lambda ports: READS + takes(b"8") + [LISTS_KEYS] + ends(b"8"),
         [OK], [state(b"foreign", ID[SOURCE], 0, 7), OK, OK], [state(b"owned", ID[SOURCE], 0, 4), OK, keys(), OK])
    asks("a move under way keeps its number", (0, line(0, move=5)), lambda ports: READS + takes(b"5") + [LISTS_KEYS] + ends(b"5"),
         [OK], [state(b"importing", ID[SOURCE], 5, 5), OK, OK], [state(b"owned", ID[SOURCE], 0, 4), OK, keys(), OK])
    asks("under two numbers it keeps that of the source", (0, line(0, move=6)), lambda ports: READS + takes(b"6") + [LISTS_KEYS] + ends(b"6"),
         [OK], [state(b"importing", ID[SOURCE], 9, 9), OK, OK], [state(b"migrating", ID[TARGET], 6, 6), OK, keys(), OK])
    asks("the slot is there already", (0, line(0, move=3)), lambda ports: READS + ends(b"3")[1:],
         [OK], [state(b"owned", ID[TARGET], 0, 3)], [state(b"foreign", ID[TARGET], 0, 3), OK])
    asks("it was there before any move", (0, line(0, move=0)), lambda ports: READS + ends()[1:],
         [OK], [state(b"owned", ID[TARGET], 0, 0)], [state(b"foreign", ID[TARGET], 0, 0), OK])
    asks("what is asked again", (0, line(2)),
         lambda ports: READS + takes(b"1") + [LISTS_KEYS] + [migrates(ports, b"foo", b"")] * 3 + [LISTS_KEYS] + ends(b"1")[:1] * 3 + ends(b"1")[1:2] * 2 + ends(b"1")[2:] * 3,
         [AGAIN, AGAIN, OK], [FOREIGN, OK, NOT_DRAINED, NOT_DRAINED, OK], [OWNED, OK, keys(b"foo", b""), AGAIN, NOT_ACKNOWLEDGED, OK, keys(), AGAIN, OK], limit=2)
    asks("what is asked again often", (0, line(1)), lambda ports: READS + takes(b"1") + [LISTS_KEYS] + [migrates(ports, b"foo")] * 21 + [LISTS_KEYS] + ends(b"1"),
         [OK], [FOREIGN, OK, OK], [OWNED, OK, keys(b"foo"), *[AGAIN, NOT_ACKNOWLEDGED] * 10, OK, keys(), OK])
    asks("keys that are gone, and keys that come", (0, line(3)),
         lambda ports: READS + takes(b"1") + [LISTS_KEYS, migrates(ports, b"a", b"b"), LISTS_KEYS, migrates(ports, b"c"), LISTS_KEYS, migrates(ports, b"d"), LISTS_KEYS] + ends(b"1"),
         [OK], [FOREIGN, OK, OK], [OWNED, OK, keys(b"a", b"b"), OK, keys(b"c"), b"+NOKEY\r\n", keys(b"d"), OK, keys(), OK])


def play_long_keys(judge):
    """As many of the listed keys, from the front, as keep the order within the bytes of a request are moved at once, and the others later."""
    for what, byte_more in [("as long as a request may be", 0), ("a byte too long", 1)]:
        masters = Masters([OK], [FOREIGN, OK, OK], [OWNED, OK])
        first = b"a" * MOST_WORD_BYTES
        around = len(spelled(*migrates(masters.ports, first, b"b" * 1000000)[1])) - 1000000
        second = b"b" * (MOST_REQUEST_BYTES - around + byte_more)
        moves = [[first], [second]] if byte_more else [[first, second]]
        lists = [[first, second], *moves[1:], []]
        masters.nodes[SOURCE].answers += [answer for some in lists[:-1] for answer in (keys(*some), OK)] + [keys(), OK]
        judge.equal(f"keys of which the order is {what}: status and output", reshard(masters.ports[0]), (0, line(2)))
        asked = [(node, words) for node, words in masters.asked if words[0] == b"MIGRATE" or words[1] == b"GETKEYSINSLOT"]
        wanted = [it for some in moves for it in (LISTS_KEYS, migrates(masters.ports, *some))] + [LISTS_KEYS]
        judge.true(f"keys of which the order is {what}: what the source was asked", asked == wanted, repr([[len(it) for it in words] for _, words in asked]))
        masters.close()


def play_waits(judge):
    """Before the tenth repetition and each one behind it the run waits: 1, 2, 4, 8, 16, 32 and 64 milliseconds, and then 100 each time."""
    masters = Masters([OK], [FOREIGN, OK, *[NOT_DRAINED] * 20, OK], [OWNED, OK, keys(), OK])
    begun = time.monotonic()
    came = reshard(masters.ports[0])
    took = time.monotonic() - begun
    judge.equal("a node refuses 20 times", came, (0, line(0)))
    judge.least("a node refuses 20 times: seconds", took, 0.527)
    masters.close()


def play_replies(judge):
    """The reply by which a run can't go on, and what is said of it."""
    def stops(what, fault, *answers, said=None, **more):
        masters = Masters(*answers)
        status, output, error = program.run(*words_of(masters.ports[0], **more))
        judge.equal(what, (status, output), (1, b"fault %s\n" % fault))
        judge.equal(f"{what}: no answer is left", [it.answers for it in masters.nodes], [[], [], []])
        if said:
            wanted = said.format(*(f"127.0.0.1:{it}" for it in masters.ports), port=masters.ports[TARGET])
            judge.equal(f"{what}: what is said", error.decode(), f"rcluster: {wanted} ({fault.decode()})\n")
        masters.close()

    begun = [OWNED, OK]
    stops("MIGRATE is asked again, and may not be: said", b"V1", [], [FOREIGN, OK], [*begun, keys(b"foo"), AGAIN], limit=0,
          said='slot 12182: {2} answered "TRYAGAIN Key is being moved" to MIGRATE 127.0.0.1 {port} "" 0 100 KEYS foo more often than --limit allows')
    stops("a MIGRATE of many keys is asked again, and may not be: said", b"V1", [], [FOREIGN, OK], [*begun, keys(b"foo", b"foo2"), AGAIN], limit=0,
          said='slot 12182: {2} answered "TRYAGAIN Key is being moved" to MIGRATE 127.0.0.1 {port} "" 0 100 KEYS foo .. more often than --limit allows')
    stops("an id that isn't listed: said", b"V2", [], [], [], target="f" * 40,
          said=f"no master with slots has the id {'f' * 40}, and one without slots isn't listed; {{0}} lists {node_id(0)}, {node_id(1)}, {node_id(2)}")
    stops("a number that isn't listed: said", b"V2", [], [], [], target="15",
          said=f"no master with slots has the id {'f':0>40}, and one without slots isn't listed; {{0}} lists {node_id(0)}, {node_id(1)}, {node_id(2)}")
    stops("the connection ends: said", b"V2", [], [FOREIGN], [OWNED],
          said="slot 12182: the connection to {1} failed")
    stops("a reply that is none: said", b"V2", [], [b"?\r\n"], [OWNED],
          said="slot 12182: {1} answered bytes that are no reply to CLUSTER SLOTSTATE 12182")
    stops("IMPORTING is refused: said", b"V3", [], [FOREIGN, b"-ERR slot is not owned by the source\r\n"], [OWNED],
          said=f'slot 12182: {{1}} answered "ERR slot is not owned by the source" to CLUSTER SETSLOT 12182 IMPORTING {node_id(SOURCE)} 1')
    stops("no list of keys: said", b"V3", [], [FOREIGN, OK], [*begun, number(1)],
          said="slot 12182: {2} answered the number 1 to CLUSTER GETKEYSINSLOT 12182 16")
    stops("no next number: said", b"V3", [], [state(b"foreign", ID[SOURCE], 0, LAST_MOVE)], [OWNED],
          said="slot 12182: no next number of a move is left")
    stops("MIGRATE is asked again, and may not be", b"V1", [], [FOREIGN, OK], [*begun, keys(b"foo"), AGAIN], limit=0)
    stops("MIGRATE is asked again too often", b"V1", [], [FOREIGN, OK], [*begun, keys(b"foo"), AGAIN, NOT_ACKNOWLEDGED, AGAIN], limit=2)
    stops("the slot isn't drained", b"V1", [], [FOREIGN, OK, NOT_DRAINED], [*begun, keys()], limit=0)
    stops("the source doesn't know yet", b"V1", [], [FOREIGN, OK, OK], [*begun, keys(), AGAIN], limit=0)
    stops("another master doesn't know yet", b"V1", [AGAIN], [FOREIGN, OK, OK], [*begun, keys(), OK], limit=0)
    stops("an id that isn't listed", b"V2", [], [], [], target="f" * 40)
    stops("the connection ends", b"V2", [], [FOREIGN], [OWNED])
    stops("a reply that is none", b"V2", [], [b"?\r\n"], [OWNED])
    stops("SLOTSTATE is refused", b"V3", [], [], [REFUSED])
    stops("SLOTSTATE is answered otherwise", b"V3", [], [OK], [OWNED])
    stops("IMPORTING is refused", b"V3", [], [FOREIGN, REFUSED], [OWNED])
    stops("MIGRATING is refused", b"V3", [], [FOREIGN, OK], [OWNED, REFUSED])
    stops("MIGRATING is asked again", b"V3", [], [FOREIGN, OK], [OWNED, AGAIN])
    stops("no list of keys", b"V3", [], [FOREIGN, OK], [*begun, number(1)])
    stops("a key that is too long for a request", b"V3", [], [FOREIGN, OK], [*begun, keys(b"foo", b"a" * (MOST_WORD_BYTES + 1))])
    stops("MIGRATE is refused", b"V3", [], [FOREIGN, OK], [*begun, keys(b"foo"), b"-OOM out of memory\r\n"])
    stops("NODE is refused", b"V3", [], [FOREIGN, OK, REFUSED], [*begun, keys()])
    stops("no next number", b"V3", [], [state(b"foreign", ID[SOURCE], 0, LAST_MOVE)], [OWNED])
    for what, answer, fault in [("refused", REFUSED, b"V3"), ("no list", OK, b"V3"), ("an empty list", array(), b"V2"), ("none", None, b"V2")]:
        node = Node(*([] if answer is None else [answer]))
        judge.equal(f"CLUSTER SLOTS: {what}", reshard(node.port), (1, b"fault %s\n" % fault))
        node.close()
    masters = Masters([], [], [])
    port = clusters.free_ports(1)[0]
    masters.nodes[0].answers = [slots_of([masters.ports[0], masters.ports[1], port])]
    told = b"rcluster: slot 12182: 127.0.0.1:%d can't be reached: Connection refused (os error 111) (V2)\n" % port
    judge.equal("a listed node isn't there", program.run(*words_of(masters.ports[0])), (1, b"fault V2\n", told))
    masters.close()


def play_at_once(judge):
    """The line of a slot is there before anything is asked about the next one."""
    was_read = threading.Event()

    class Waiting(Master):
        def hear(self, words):
            super().hear(words)
            if words == [b"CLUSTER", b"SLOTSTATE", b"%d" % (SLOT + 1)]:
                was_read.wait(PATIENCE)

    masters = Masters([OK, OK], [state(b"owned", ID[TARGET], 0, 3)] * 2, [])
    masters.nodes[SOURCE].close()
    masters.nodes[SOURCE] = Waiting(SOURCE, masters.asked, state(b"foreign", ID[TARGET], 0, 3), OK, state(b"foreign", ID[TARGET], 0, 3), OK)
    masters.nodes[0].answers[0] = slots_of([it.port for it in masters.nodes])
    words = words_of(masters.ports[0], f"{SLOT}-{SLOT + 1}")
    with subprocess.Popen([program.PATH, *words], stdin=subprocess.DEVNULL, stdout=subprocess.PIPE, stderr=subprocess.DEVNULL) as process:
        patience = threading.Timer(PATIENCE / 2, process.kill)
        patience.start()
        first = process.stdout.readline()
        was_read.set()
        rest = process.stdout.read()
        patience.cancel()
    judge.equal("the line of the first slot", first, line(0, move=3))
    judge.equal("what comes behind it", (process.returncode, rest), (0, line(0, SLOT + 1, 3)))
    masters.close()


# ---- a cluster


def fill(judge, ports):
    """Strings and hashes in one slot, more of them than are listed at once."""
    values = {b"foo": b"v"}
    for count in range(20):
        values[b"{foo}%d" % count] = b"\x00\xff\r\n%d" % count
    for key, value in values.items():
        judge.equal("a string is set", talk(ports[SOURCE], spelled(b"SET", key, value)), OK)
    for count in range(3):
        words = [b"HSET", b"{foo}h%d" % count] + [b"%d" % it for it in range(2 * count + 2)]
        judge.equal("a hash is set", talk(ports[SOURCE], spelled(*words)), number(count + 1))
    return values


def compare(judge, where, port, values):
    for key, value in values.items():
        judge.equal(f"{where}: the value of {key}", talk(port, spelled(b"GET", key)), bulk(value))
    for count in range(3):
        fields = [b"%d" % it for it in range(0, 2 * count + 2, 2)]
        found = talk(port, spelled(b"HMGET", b"{foo}h%d" % count, *fields))
        judge.equal(f"{where}: hash {count}", found, keys(*(b"%d" % (int(it) + 1) for it in fields)))
        judge.equal(f"{where}: the fields of hash {count}", talk(port, spelled(b"HLEN", b"{foo}h%d" % count)), number(count + 1))


def play_a_cluster(judge):
    cluster = clusters.six_nodes(tick_ms=20)
    ports = ports_of(cluster)
    get = spelled(b"GET", b"foo")
    with Server(cluster):
        values = fill(judge, ports)
        judge.equal("a slot with keys is moved", reshard_patiently(ports[4]), (0, line(len(values) + 3)))
        compare(judge, "where they come to", ports[TARGET], values)
        judge.equal("by a client", cli(ports[5], "HGET", "{foo}h1", "2"), (0, b"$1\\r\\n3\\r\\n\n"))
        for node in (0, SOURCE, 3, 4, 5):
            judge.equal(f"node {node} knows where", in_time(ports[node], get, moved(SLOT, ports[TARGET])), moved(SLOT, ports[TARGET]))
        status, output, error = program.run(*words_of(ports[0], "12181-12182", limit=MOST_REPETITIONS))
        judge.equal("the slot is there, and the one before isn't", (status, output), (0, line(0, SLOT - 1) + line(0)))
        judge.equal("what was done then", done(error), (1, 0, 1))
        judge.equal("so it is from every other master on", reshard_patiently(ports[0], source=0), (0, line(0)))
        judge.equal("a slot that was there all the time", reshard_patiently(ports[0], "6000-6000"), (0, line(0, 6000, 0)))
        for source in (TARGET, f"{TARGET}"):
            status, output, error = program.run(*words_of(ports[0], source=source, target=TARGET, limit=MOST_REPETITIONS))
            judge.equal("it comes from its own master", (status, output), (0, line(0)))
            said, end, rest = error.partition(b"\n")
            judge.equal("that both are one is said", said + end, b"rcluster: --from and --to are the same master, so no slot was to be moved\n")
            judge.equal("and what was done", done(rest), (0, 0, 1))
        judge.equal("it is moved back", reshard_patiently(ports[0], source=TARGET, target=SOURCE), (0, line(len(values) + 3, move=2)))
        compare(judge, "where they came from", ports[SOURCE], values)
        judge.equal("a replica can't be the target", reshard_patiently(ports[0], target=4), (1, b"fault V2\n"))
        judge.equal("a source that hasn't got the slot", reshard_patiently(ports[0], "100-100"), (1, b"fault V3\n"))
        play_a_range(judge, ports)


def play_a_range(judge, ports):
    """Slots of which some have keys, the last slot of all among them."""
    first, last = 16370, 16383
    of_slot = {slot: [] for slot in range(first, last + 1)}
    for count in range(40000):
        key = b"k%d" % count
        if slot_of(key) in of_slot:
            of_slot[slot_of(key)].append(key)
    for some in of_slot.values():
        for key in some:
            judge.equal("a key is set", talk(ports[SOURCE], spelled(b"SET", key, key)), OK)
    lines = b"".join(line(len(some), slot) for slot, some in of_slot.items())
    begun = time.monotonic()
    judge.equal("a range of slots", reshard_patiently(ports[3], f"{first}-{last}", target=0), (0, lines))
    rests = sum(bool(some) for slot, some in of_slot.items() if slot < last)
    judge.least("a range of slots: milliseconds, with a rest behind each slot with keys", 1000 * (time.monotonic() - begun), rests * REST)
    for some in of_slot.values():
        for key in some:
            judge.equal("a key of the range", talk(ports[0], spelled(b"GET", key)), bulk(key))
    judge.equal("none is left at the source", [talk(ports[SOURCE], spelled(b"CLUSTER", b"COUNTKEYSINSLOT", b"%d" % it)) for it in of_slot], [number(0)] * len(of_slot))


# ---- runs that are cut off


class Relay:
    """Stands before the nodes: it hands on each request and its reply, until the request of this number, whose reply is lost.

    The node has executed that one, and the connection ends.
    """

    def __init__(self, ports, last):
        self.ports, self.last, self.count = ports, last, 0
        self.clients, self.lock = [], threading.Lock()
        self.listeners = [socket.create_server(("127.0.0.1", 0)) for _ in ports]
        self.own = [it.getsockname()[1] for it in self.listeners]
        for node in range(len(ports)):
            threading.Thread(target=self.accept, args=[node], daemon=True).start()

    def accept(self, node):
        for client in accepted(self.listeners[node]):
            threading.Thread(target=self.converse, args=[node, client], daemon=True).start()

    def converse(self, node, client):
        with client, connect(self.ports[node]) as server:
            client.settimeout(PATIENCE)
            stream = client.makefile("rb")
            while header := stream.readline():
                words = [stream.read(int(stream.readline()[1:]) + 2)[:-2] for _ in range(int(header[1:]))]
                server.sendall(spelled(*self.inward(words)))
                reply = self.outward(words, reply_of(server))
                with self.lock:
                    self.count += 1
                    if self.count == self.last:
                        return
                client.sendall(reply)

    def inward(self, words):
        """The words as the node reads them: the run names the ports that it was told."""
        if words[0] != b"MIGRATE":
            return words
        return [*words[:2], b"%d" % self.ports[self.own.index(int(words[2]))], *words[3:]]

    def outward(self, words, reply):
        if words != [b"CLUSTER", b"SLOTS"]:
            return reply
        for port, own in zip(self.ports, self.own):
            reply = reply.replace(number(port), number(own))
        return reply

    def close(self):
        for listener in self.listeners:
            shut(listener)


def tables(ports):
    """What each node says of all slots, and of this one, without the ports."""
    found = []
    for port in ports:
        slots = talk(port, spelled(b"CLUSTER", b"SLOTS"))
        for it in ports:
            slots = slots.replace(number(it), b"")
        found.append((slots, talk(port, spelled(b"CLUSTER", b"SLOTSTATE", ABOUT))))
    return found


def tables_in_time(ports, wanted):
    """The tables, once they are what is wanted, or where nothing is, once all nodes say the same of all slots; or else what they are
    when the patience has ended. Nodes may hear of a move behind the run.
    """
    last = time.monotonic() + PATIENCE
    while time.monotonic() < last:
        found = tables(ports)
        if found == wanted or wanted is None and len({slots for slots, _ in found}) == 1:
            break
        time.sleep(0.01)
    return found


def play_cuts(judge):
    """A run that is cut off behind one of its requests is begun again, for each of them, and leaves what an undisturbed one leaves."""
    values = [b"foo", b"{foo}1", b"{foo}2"]

    def run(cut):
        """The relay's count, the outcomes of a run that is cut off and of one that isn't, and the tables."""
        cluster = clusters.masters(3, tick_ms=20)
        ports = ports_of(cluster)
        with Server(cluster):
            for key in values:
                judge.equal("a key is set", talk(ports[SOURCE], spelled(b"SET", key, key)), OK)
            relay = Relay(ports, cut)
            first = reshard_patiently(relay.own[0])
            relay.close()
            second = reshard_patiently(ports[0])
            found = tables_in_time(ports, wanted)
            for key in values:
                judge.equal(f"cut off behind request {cut}: {key}", talk(ports[TARGET], spelled(b"GET", key)), bulk(key))
        return relay.count, first, second, found

    wanted = None
    count, first, second, wanted = run(None)
    judge.equal("an undisturbed run", (first, second), ((0, line(3)), (0, line(0))))
    judge.least("how many requests it takes", count, 11)
    for cut in range(1, count + 1):
        made, first, second, found = run(cut)
        # A node may have heard sooner that its slot is drained, so that a run repeats less, and ends before the cut.
        is_cut = made >= cut
        judge.equal(f"cut off behind request {cut}", first, (1, b"fault V2\n") if is_cut else (0, line(3)))
        judge.true(f"cut off behind request {cut}: no run makes fewer than 11 requests", is_cut or made >= 11, str(made))
        judge.equal(f"begun again behind request {cut}: status", second[0], 0)
        judge.true(f"begun again behind request {cut}: line", second[1] in [line(it) for it in range(4)], repr(second[1]))
        judge.equal(f"begun again behind request {cut}: tables", found, wanted)
