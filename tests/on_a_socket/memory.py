"""A server whose memory is limited, as `ulimit -v` limits it: writers fill it until writes are refused with `-OOM`. No write that was
acknowledged may be lost by that, a refused one may have changed nothing, and once there is memory again the server has to go on.
"""

import contextlib
import resource

import clusters
from clusters import ports_of
from program import Server
from wire import NIL, OK, PING, PONG, ask, bulk, connect, playing, reply_of, slot_of, spelled

# How many bytes of addresses the program may take beyond those that it has when the writers begin.
ROOM = 32 << 20
WRITERS = 3
# How many writes go out at once, how many bytes a value has, how often a writer connects again, and how many pieces it sends at most.
PIECE, LENGTH, NEWCOMERS, MOST = 16, 32000, 3, 2000
REFUSED = b"-OOM out of memory\r\n"


def play(judge):
    cluster = clusters.masters(3)
    with Server(cluster) as server:
        with contextlib.ExitStack() as stack:
            writers = [Writer(stack, ports_of(cluster), name) for name in range(WRITERS)]
            for writer in writers:
                # Each has its thread at the node before memory is short.
                judge.equal(f"{writer.name}: it is served", ask(writer.client, PING, PONG), PONG)
            with limited(server), playing([writer.fill for writer in writers]):
                pass
        judge.least("limited memory: writes that were refused", sum(len(writer.refused) for writer in writers), 1)
        for writer in writers:
            judge_writer(judge, writer)
        for node, port in enumerate(ports_of(cluster)):
            with connect(port) as client:
                judge.equal(f"limited memory: node {node} serves a newcomer", ask(client, PING, PONG), PONG)


@contextlib.contextmanager
def limited(server, room=ROOM):
    """Limits the addresses that the program may take to so many bytes more, while the block runs."""
    _, most = resource.prlimit(server.process.pid, resource.RLIMIT_AS)
    with open(f"/proc/{server.process.pid}/statm", encoding="ascii") as file:
        taken = int(file.read().split()[0]) * resource.getpagesize()
    resource.prlimit(server.process.pid, resource.RLIMIT_AS, (taken + room, most))
    yield
    resource.prlimit(server.process.pid, resource.RLIMIT_AS, (most, most))


def judge_writer(judge, writer):
    judge.least(f"{writer.name}: writes that were acknowledged", len(writer.acknowledged), 1)
    judge.equal(f"{writer.name}: answers of other kinds", writer.strange, [])
    with connect(writer.port) as client:
        judge.equal(f"{writer.name}: keys that aren't as their writes were answered", writer.wrong(client), [])
        judge.equal(f"{writer.name}: a write where there is room again", ask(client, spelled(b"SET", writer.tag, b"1"), OK), OK)


class Writer:
    """A client with keys of its own, all in one slot. It remembers which of its writes were acknowledged, and which were refused."""

    def __init__(self, stack, ports, number):
        self.name, self.tag = f"limited memory: writer {number}", b"writer %d" % number
        self.port = ports[slot_of(self.tag) * len(ports) // 16384]
        self.client = stack.enter_context(connect(self.port))
        self.piece, self.acknowledged, self.refused, self.strange = 0, [], [], []

    def fill(self):
        """Writes until the connection ends, and then on a few further ones, as far as the full server lets them in."""
        self.write_all(self.client)
        for _ in range(NEWCOMERS):
            with contextlib.suppress(OSError), connect(self.port) as client:
                self.write_all(client)

    def write_all(self, client):
        while self.piece < MOST and self.write(client):
            pass

    def write(self, client):
        """Writes a piece, and returns whether all of it was acknowledged."""
        keys = [b"{%s}%d.%d" % (self.tag, self.piece, place) for place in range(PIECE)]
        self.piece += 1
        replies = replies_to(client, [spelled(b"SET", key, value_of(key)) for key in keys])
        known = replies.count(OK)
        self.acknowledged += keys[:known]
        rest = replies[known * len(OK):]
        if rest == REFUSED:
            self.refused.append(keys[known])
        elif rest:
            self.strange.append(rest)
        return known == PIECE

    def wrong(self, client):
        """The keys that aren't as their writes were answered."""
        rows = [(key, bulk(value_of(key))) for key in self.acknowledged] + [(key, NIL) for key in self.refused]
        return [key for key, value in rows if read(client, key) != value]


def value_of(key):
    return key.ljust(LENGTH, b".")


def replies_to(client, writes):
    """What is answered to these writes, up to the end of the connection where it ends before."""
    answer = bytearray()
    with contextlib.suppress(ConnectionError):
        client.sendall(b"".join(writes))
    with contextlib.suppress(ConnectionError):
        while len(answer) < len(writes) * len(OK) and (more := client.recv(1 << 16)):
            answer += more
    return bytes(answer)


def read(client, key):
    client.sendall(spelled(b"GET", key))
    return reply_of(client)
