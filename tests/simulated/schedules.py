"""Each order in which the messages of a planned handover may arrive, also with one of them late and twice.

Node 2 is to take the place of node 1, which has the upper half of the slots; node 0 has the lower half. A schedule is a list of deliveries. In
the beginning and behind each of them nodes 1 and 2 tick, and two clients count at one key: one that knows node 1, and a new one, which asks
node 0 first. Of several messages with one body the last one is delivered first, and where a delivery comes again, it is that of the first one,
which so comes late. The schedules are all in which each delivery comes that the handover needs, in each order in which it can come, and
`AGAIN` more of them. Their beginnings are played, too: then the rest is lost.

Whatever arrives when: the clients are told 1, 2, 3 and so on, so there is one keyspace, and no count is lost; a client is served exactly where
it finds a node that serves; the one promotion is planned, from the end of the stream; and each node names the owner that it has to.
"""

import json
import os
import tempfile
from concurrent.futures import ThreadPoolExecutor

# How many deliveries come again, and who votes: another master, or the one that hands over.
AGAIN, VOTERS = 1, (0, 1)
# What is delivered, from which node to which one, beside votes. Behind SYNC comes the piece that is the answer, and so the replica has all that
# its master wrote. The last two are the claim of the promoted node, at node 0 and at the one that handed over.
SYNC, PAUSE, PAUSED, TOLD, TOLD_FORMER = ("Sync", 2, 1), ("Pause", 2, 1), ("Paused", 1, 2), ("Claim", 2, 0), ("Claim", 2, 1)
BEGINNING, BEGUN = "admin 2 CLUSTER FAILOVER", "admin 2 +OK\\r\\n"
LOWER, UPPER = [0, 8191], [8192, 16383]
ROLES = ({"slots": [LOWER]}, {"slots": [UPPER]}, {"replica_of": "%040x" % 1})
# The key of the counts, which is in the upper half, and how many bytes of a stream a count is.
KEY, COUNT = "a", len("*2..$4..INCR..$1..a..")
# The client that knows node 1 once it has counted there, and the first one of those that are new; and how often each sends and is answered: so
# often has to who is new and is served.
KNOWING, NEW, TURNS = 1, 2, 4
# What is printed that isn't compared: a step has nothing to do, and a client gave up what it tried too often, which counts nothing.
PASSED_OVER = ("none", f"fault {KNOWING} C3", BEGUN)
# How many schedules are played at once, each by a process of its own.
AT_ONCE = 4


class Schedule:
    """What is delivered one after the other, how many more deliveries may come again, and the script of all that."""

    def __init__(self, voter, cluster, done, again, script):
        self.voter, self.cluster, self.done, self.again, self.script = voter, cluster, done, again, script
        self.grant = ("Grant", voter, 2)
        self.printed = []

    def followers(self):
        """The schedules with a delivery more, of a message that was sent."""
        for delivery in (SYNC, PAUSE, PAUSED, ("Request", 2, self.voter), self.grant, TOLD, TOLD_FORMER):
            numbers = self.numbers(delivery)
            again = self.again - (not self.is_needed(delivery))
            if numbers and again >= 0:
                number = numbers[0] if delivery in self.done else numbers[-1]
                steps = [f"deliver {number}", *self.answered(delivery), *counting(len(self.done) + 1)]
                yield Schedule(self.voter, self.cluster, [*self.done, delivery], again, self.script + steps)

    def numbers(self, delivery):
        """The numbers of the messages that were sent so. The claim is that of the promotion, whose step sent it to both, or a later one."""
        body, sender, receiver = delivery
        lines = self.printed
        if body == "Claim":
            promoted = next((at for at, line in enumerate(lines) if line.startswith("promoted ")), len(lines) + 2)
            lines = lines[promoted - 2:]
        sent = [line.split(" ") for line in lines if line.startswith("sent ")]
        return [words[1] for words in sent if words[2:] == [str(sender), str(receiver), body]]

    def is_needed(self, delivery):
        """Whether the handover gets on by it. The replica lacks nothing any more where it asks behind the pause of its master."""
        if delivery == SYNC:
            return PAUSE in self.done and SYNC not in self.done[self.done.index(PAUSE):]
        return delivery not in self.done

    def answered(self, delivery):
        """Delivers the answer to a sync, which is the next message, if there is one."""
        count = sum(line.startswith("sent ") for line in self.printed)
        return [f"deliver {count + 1}"] if delivery == SYNC else []

    def is_right(self, play):
        """Plays the script, and asks all nodes at its end who has which slots."""
        steps = self.script + [f"admin {node} CLUSTER SLOTS" for node in range(3)]
        status, output, sentence = play(self.cluster, "".join(step + "\n" for step in steps))
        lines = output.split("\n")[:-1]
        self.printed = lines[:-3]
        came = [line for line in lines if not line.startswith("sent ") and line not in PASSED_OVER]
        if (status, came, sentence) == (0, self.wanted(), ""):
            return True
        arrived = ", ".join("{} from {} to {}".format(*it) for it in self.done)
        print(f"a handover, node {self.voter} votes, and these arrive: {arrived or 'none'}: status {status}, standard error says {sentence!r}")
        print(f"  {came} came, and {self.wanted()} was to come")
        return False

    def wanted(self):
        """What has to be printed beside messages."""
        lines, count = [], 0
        for turn in range(len(self.done) + 1):
            done = self.done[:turn]
            if self.grant in done and done.index(self.grant) == turn - 1:
                lines.append(f"promoted 2 2 {COUNT * count} planned")
            for client, told in ((KNOWING, TOLD_FORMER), (NEW + turn, TOLD)):
                if PAUSE not in done or told in done:
                    count += 1
                    lines.append(f"answer {client} :{count}\\r\\n")
        owners = [2 if told in self.done else 1 for told in (TOLD, TOLD_FORMER, self.grant)]
        return lines + [f"admin {node} {slots(owner)}" for node, owner in enumerate(owners)]


def counting(turn):
    """Time passes, and both clients count, or go on with what they were told to try again."""
    steps = ["tick 1", "tick 2"]
    for client in (KNOWING, NEW + turn):
        steps += [f"call {client} INCR {KEY}", *[f"carry {client}", f"return {client}"] * TURNS]
    return steps


def are_right(play):
    """Plays all schedules, which get longer by a delivery each time. Returns of each whether all came as it has to."""
    right = []
    with tempfile.TemporaryDirectory() as folder, ThreadPoolExecutor(AT_ONCE) as pool:
        schedules = [Schedule(voter, cluster_in(folder, voter), [], AGAIN, [BEGINNING, *counting(0)]) for voter in VOTERS]
        while schedules:
            right += pool.map(lambda it: it.is_right(play), schedules)
            schedules = [follower for it in schedules for follower in it.followers()]
    return right


def cluster_in(folder, voter):
    """Writes the configuration in which that node votes, and returns its path."""
    nodes = [{"id": id_of(node), "host": "127.0.0.1", "port": port_of(node), **role} for node, role in enumerate(ROLES)]
    path = os.path.join(folder, f"{voter}.json")
    with open(path, "w", encoding="ascii") as file:
        json.dump({"tick_ms": 100, "node_timeout": 20, "nodes": nodes, "voters": [id_of(voter)]}, file)
    return path


def slots(owner):
    """What CLUSTER SLOTS answers where that node has the upper half."""
    parts = []
    for node, (first, last) in ((0, LOWER), (owner, UPPER)):
        parts.append(f"*3 :{first} :{last} *3 $9 127.0.0.1 :{port_of(node)} $40 {id_of(node)} ")
    return ("*2 " + "".join(parts)).replace(" ", "\\r\\n")


def id_of(node):
    return f"{node:040x}"


def port_of(node):
    return 7000 + node
