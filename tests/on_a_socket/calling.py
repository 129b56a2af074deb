"""`rcluster cli` against a cluster, while a slot moves, and against nodes of the test's own that answer what they like."""

import socket
import threading

import clusters
import program
from clusters import ports_of
from moving import SLOT, SOURCE, TARGET, order
from program import Server
from wire import OK, PATIENCE, accepted, shut, spelled, talk

NUMBERED = [b"CLUSTER", b"NUMBERED"]
GET = [b"GET", b"foo"]
# No port, port 0, a leading zero, a port that is too great, no host, and an address of IPv6.
NO_ADDRESSES = ("127.0.0.1", "127.0.0.1:0", "127.0.0.1:07000", "127.0.0.1:65536", ":7000", "::1:7000")


def cli(port, *words, tries=None):
    """The status and the output of one call, begun at the node of this port."""
    options = [] if tries is None else ["--try", str(tries)]
    status, output, _ = program.run("cli", "--addr", f"127.0.0.1:{port}", *options, *words)
    return status, output


def play(judge):
    play_words(judge)
    play_calls(judge)
    play_nodes(judge)


def play_words(judge):
    for what, words in [
        ("no address", ["cli", "GET", "foo"]),
        ("no words", ["cli", "--addr", "127.0.0.1:7000"]),
        ("words beside --stdin", ["cli", "--addr", "127.0.0.1:7000", "--stdin", "GET", "foo"]),
        ("too many tries", ["cli", "--addr", "127.0.0.1:7000", "--try", "1000001", "GET", "foo"]),
    ]:
        status, output, error = program.run(*words)
        judge.equal(f"{what}: status and output", (status, output), (2, b""))
        judge.true(f"{what}: a sentence on standard error", error.startswith(b"error: "), repr(error))
    for address in NO_ADDRESSES:
        judge.equal(f"the address {address!r}", program.run("cli", "--addr", address, "GET", "foo"), (2, b"", no_address(address)))
    port = clusters.free_ports(1)[0]
    told = b"rcluster: 127.0.0.1:%d can't be reached: Connection refused (os error 111), and the command was not executed (C5)\n" % port
    judge.equal("no node is there", program.run("cli", "--addr", f"127.0.0.1:{port}", "GET", "foo"), (1, b"fault C5\n", told))


def no_address(text):
    """What standard error says of an address that is none."""
    wanted = "--addr takes HOST:PORT, with a host without a colon and a port from 1 to 65535"
    return f"error: \"{text}\" is no address: {wanted}\n\nFor more information, try '--help'.\n".encode()


def play_calls(judge):
    cluster = clusters.six_nodes()
    ports = ports_of(cluster)
    with Server(cluster):
        for what, port, words, wanted in rows(ports):
            judge.equal(f"cli: {what}", cli(port, *words), wanted)
        play_a_move(judge, ports)


def rows(ports):
    yield "a key of another node is set", ports[0], ["SET", "foo", "v"], (0, b"+OK\\r\\n\n")
    yield "it is read from each node on", ports[4], ["GET", "foo"], (0, b"$1\\r\\nv\\r\\n\n")
    yield "bytes that are shown", ports[1], ["SET", "b", "\\ \n"], (0, b"+OK\\r\\n\n")
    yield "they are shown so", ports[2], ["get", "b"], (0, b"$3\\r\\n\\\\ \\n\\r\\n\n")
    yield "no key", ports[3], ["PING"], (0, b"+PONG\\r\\n\n")
    yield "words behind --", ports[3], ["--", "ECHO", "-x"], (0, b"$2\\r\\n-x\\r\\n\n")
    yield "keys of two slots", ports[0], ["MGET", "a", "b"], (0, b"-CROSSSLOT Keys in request don't hash to the same slot\\r\\n\n")
    yield "an unknown command", ports[0], ["NOPE"], (0, b"-ERR unknown command\\r\\n\n")
    yield "an array", ports[0], ["MGET", "{foo}1", "foo"], (0, b"*2\\r\\n$-1\\r\\n$1\\r\\nv\\r\\n\n")
    for word in ("CLUSTER", "migrate", "Asking"):
        yield f"{word} is no command of a client", ports[0], [word, "MYID"], (1, b"fault C7\n")


def play_a_move(judge, ports):
    """A key that isn't at the source any more is asked at the target; a key of a call that needs both is tried again."""
    for node, what in [(TARGET, order(b"IMPORTING", SOURCE)), (SOURCE, order(b"MIGRATING", TARGET))]:
        judge.equal("an order", talk(ports[node], what), OK)
    judge.equal("a new key is set where the slot goes to", cli(ports[0], "SET", "{foo}2", "w"), (0, b"+OK\\r\\n\n"))
    judge.equal("it is read there", cli(ports[TARGET], "GET", "{foo}2"), (0, b"$1\\r\\nw\\r\\n\n"))
    judge.equal("the other one is still where it was", cli(ports[0], "GET", "foo"), (0, b"$1\\r\\nv\\r\\n\n"))
    judge.equal("keys at both nodes", cli(ports[0], "MGET", "foo", "{foo}2", tries=3), (1, b"fault C3\n"))
    migrate = spelled(b"MIGRATE", b"127.0.0.1", b"%d" % ports[TARGET], b"foo", b"0", b"100")
    judge.equal("the key is copied", talk(ports[SOURCE], migrate), OK)
    judge.equal("keys that are at the target", cli(ports[0], "MGET", "foo", "{foo}2"), (0, b"*2\\r\\n$1\\r\\nv\\r\\n$1\\r\\nw\\r\\n\n"))


class Node:
    """Answers each request but CLUSTER NUMBERED with the next of these, and keeps what it was asked.

    It ends the connection where no answer is left, and behind the last one where it `ends` there.
    """

    def __init__(self, *answers, numbered=OK, ends=False):
        self.answers, self.numbered, self.ends = list(answers), numbered, ends
        self.asked = []
        self.listener = socket.create_server(("127.0.0.1", 0))
        self.port = self.listener.getsockname()[1]
        threading.Thread(target=self.serve, daemon=True).start()

    def serve(self):
        for client in accepted(self.listener):
            with client:
                client.settimeout(PATIENCE)
                self.converse(client, client.makefile("rb"))

    def converse(self, client, stream):
        while header := stream.readline():
            words = []
            for _ in range(int(header[1:])):
                words.append(stream.read(int(stream.readline()[1:]) + 2)[:-2])
            self.hear(words)
            answer = self.numbered if words == NUMBERED else self.answers.pop(0) if self.answers else None
            if answer is None:
                return
            client.sendall(answer)
            if self.ends and not self.answers:
                return

    def hear(self, words):
        self.asked.append(words)

    def close(self):
        """Connections that it has stay."""
        shut(self.listener)


def moved(node):
    return b"-MOVED %d 127.0.0.1:%d\r\n" % (SLOT, node.port)


def play_nodes(judge):
    def ends(what, wanted, asked, *nodes, tries=None):
        got = cli(nodes[0].port, "GET", "foo", tries=tries)
        judge.equal(f"{what}: status and output", got, wanted)
        judge.equal(f"{what}: what the nodes were asked", [node.asked for node in nodes], asked)
        for node in nodes:
            node.close()

    for what, node, code, said in [
        ("a connection that ends behind CLUSTER NUMBERED", Node(numbered=None), b"C5",
         b"the connection to 127.0.0.1:%d failed, and the command was not executed"),
        ("a reply that is none", Node(b"?\r\n"), b"C6",
         b"127.0.0.1:%d answered bytes that are no reply to GET foo, which no node does; whether the command was executed is unknown"),
        ("another reply to CLUSTER NUMBERED", Node(numbered=b":7\r\n"), b"C6",
         b"127.0.0.1:%d answered the number 7 to CLUSTER NUMBERED, which no node does; the command was not executed"),
        ("an ASK without the number of the move", Node(b"-ASK 12182 127.0.0.1:7000\r\n"), b"C6",
         b'127.0.0.1:%d answered "ASK 12182 127.0.0.1:7000" to GET foo, which no node does; whether the command was executed is unknown'),
    ]:
        came = program.run("cli", "--addr", f"127.0.0.1:{node.port}", "GET", "foo")
        judge.equal(f"what is said of {what}", came, (1, b"fault %s\n" % code, b"rcluster: %s (%s)\n" % (said % node.port, code)))
        node.close()

    play_refusals(judge)
    ends("the connection ends behind the command", (1, b"fault C1\n"), [[NUMBERED, GET]], Node())
    ends("it ends within the reply", (1, b"fault C1\n"), [[NUMBERED, GET]], Node(b"$5\r\nab", ends=True))
    ends("it ends behind CLUSTER NUMBERED", (1, b"fault C5\n"), [[NUMBERED]], Node(numbered=None))
    ends("a reply that is none", (1, b"fault C6\n"), [[NUMBERED, GET]], Node(b"?\r\n"))
    ends("another reply to CLUSTER NUMBERED", (1, b"fault C6\n"), [[NUMBERED]], Node(numbered=b"+NO\r\n"))
    ends("OOM for CLUSTER NUMBERED", (0, b"-OOM out of memory\\r\\n\n"), [[NUMBERED]], Node(numbered=b"-OOM out of memory\r\n"))
    ends("a redirection that no node writes", (1, b"fault C6\n"), [[NUMBERED, GET]], Node(b"-MOVED 16384 127.0.0.1:7000\r\n"))
    ends("an ASK without the number of the move", (1, b"fault C6\n"), [[NUMBERED, GET]], Node(b"-ASK 12182 127.0.0.1:7000\r\n"))
    ends("an error that begins with another word", (0, b"-MOVEDX 1\\r\\n\n"), [[NUMBERED, GET]], Node(b"-MOVEDX 1\r\n"))
    again = b"-TRYAGAIN Key is being moved\r\n"
    ends("TRYAGAIN within the limit", (0, b":1\\r\\n\n"), [[NUMBERED, GET, GET, GET]], Node(again, again, b":1\r\n"), tries=2)
    ends("TRYAGAIN beyond it", (1, b"fault C3\n"), [[NUMBERED, GET, GET, GET]], Node(again, again, again, b":1\r\n"), tries=2)
    ends("no TRYAGAIN is allowed", (1, b"fault C3\n"), [[NUMBERED, GET]], Node(again, b":1\r\n"), tries=0)

    other = Node(b":7\r\n")
    ends("MOVED", (0, b":7\\r\\n\n"), [[NUMBERED, GET], [NUMBERED, GET]], Node(moved(other)), other)
    other = Node(OK, b":7\r\n")
    asked = b"-ASK %d 127.0.0.1:%d 9\r\n" % (SLOT, other.port)
    ends("ASK", (0, b":7\\r\\n\n"), [[NUMBERED, GET], [NUMBERED, [b"ASKING", b"9"], GET]], Node(asked), other)
    other = Node()
    asked = b"-ASK %d 127.0.0.1:%d 9\r\n" % (SLOT, other.port)
    ends("the connection ends behind ASKING", (1, b"fault C5\n"), [[NUMBERED, GET], [NUMBERED, [b"ASKING", b"9"]]], Node(asked), other)
    other = Node(again)
    first = Node(moved(other))
    other.answers += [moved(first)]
    first.answers += [b":1\r\n"]
    ends("TRYAGAIN at the owner that MOVED told", (0, b":1\\r\\n\n"), [[NUMBERED, GET, GET], [NUMBERED, GET, GET]], first, other)

    for count, wanted in [(16, (0, b":1\\r\\n\n")), (17, (1, b"fault C2\n"))]:
        node = Node()
        node.answers = [moved(node)] * count + [b":1\r\n"]
        ends(f"MOVED {count} times", wanted, [[NUMBERED] + [GET] * 17], node)


def play_refusals(judge):
    """What is said of calls that only refusals answered, and of an ASKING that is answered otherwise."""
    def says(what, node, code, said, *options):
        came = program.run("cli", "--addr", f"127.0.0.1:{node.port}", *options, "GET", "foo")
        judge.equal(f"what is said of {what}", came, (1, b"fault %s\n" % code, b"rcluster: %s (%s)\n" % (said, code)))
        node.close()

    node = Node()
    node.answers = [moved(node)] * 17
    says("a command that is redirected too often", node, b"C2", b"the nodes redirected the command too often, and the command was not executed")
    says("a command that is tried again too often", Node(b"-TRYAGAIN Key is being moved\r\n"), b"C3",
         b"the nodes answered TRYAGAIN too often, and the command was not executed", "--try", "0")
    other = Node(b":7\r\n")
    says("another reply to ASKING", Node(b"-ASK %d 127.0.0.1:%d 9\r\n" % (SLOT, other.port)), b"C6",
         b"127.0.0.1:%d answered the number 7 to ASKING 9, which no node does; the command was not executed" % other.port)
    other.close()
