"""Scripts of random steps, each made from a number, and whether each answer of a client is one that may be given.

Clients call and are answered, cut off and late; slots move with their keys, and the orders of that come twice and out of order; replicas
take the places of their masters; messages are lost, late and repeated, and a node may stop. The cluster is that of `examples/six_nodes.json`.

`Play` holds what `simulate` prints to docs/THEOREMS.md, "The law of calls": a reply that is no refusal is that of the one execution of its
command, and behind a refusal and each fault but C1 there is none, and behind C1 one at most. That a write was executed shows as a piece that
its master sends its replica. What it replies, and what shows nowhere, is worked out by the keyspace of `keyspace.py`, which executes what
was executed, in the order of the steps. Where a promoted node has no replica, its executions don't show: a key is not looked at any more once a
client can't know whether its command changed it. Nothing is judged behind a promotion that wasn't planned.
"""

import random
from concurrent.futures import ThreadPoolExecutor

import keyspace

# How many scripts there are, and how many are played at once, each by a process of its own.
COUNT, AT_ONCE = 1000, 4
ROUNDS, ROUND_STEPS = 8, 20
# Behind each step node 3, which never stops, is asked this, so that it shows which lines are of which step.
MARK = "admin 3 CLUSTER MARK"
MARKED = "admin 3 -ERR unknown subcommand\\r\\n"
CLIENTS = (1, 2, 3)
MASTERS, REPLICAS = (0, 1, 2), (3, 4, 5)
# Keys of each master's slots, of which some share a slot.
KEYS = ("b", "{b}2", "c", "{c}2", "a", "{a}2", "{a}3", "foo")
OWNERS = {"b": 0, "c": 1, "a": 2, "foo": 2}
VALUES = ("1", "7", "x", "-3")
FIELDS = ("f", "g")
# Replies by which a node says that it did not execute the command.
REFUSALS = ("-MOVED ", "-ASK ", "-TRYAGAIN ", "-CROSSSLOT ", "-CLUSTERDOWN ", "-OOM ", "-EXHAUSTED ")
# The faults of a client, but for the one that leaves open whether its command was executed.
LOST = "C1"
FAULTS = ("C2", "C3", "C5", "C7")
# How many pieces a step may send: a client's request is executed once. The rest is of nodes.
MOST_WRITES = {"carry": 1, "late": 1, "deliver": 9, "tick": 9, "admin": 9}
# So many scripts are judged once more with lines that no simulator may print.
ALTERED = 20


# ---- scripts

class Script:
    """A script that grows by rounds: behind each it is played, so that the next round can deliver what was sent."""

    def __init__(self, number):
        self.number, self.chance = number, random.Random(number)
        self.steps, self.lines, self.delivered = list(filling()), [], set()
        clients = CLIENTS[:self.chance.randint(1, 3)]
        self.threads = [calls(self.chance, client) for client in clients]
        self.threads += [move(self.chance, tag) for tag in self.chance.sample(sorted(OWNERS), self.chance.randint(0, 2))]
        self.threads += [handover(self.chance) for _ in range(self.chance.random() < 0.4)]

    def grow(self):
        """A round: some steps of each thread, with deliveries among them."""
        sent = [int(line.split(" ")[1]) for line in self.lines if line.startswith("sent ")]
        coming = [number for number in sent if number not in self.delivered and self.chance.random() < 0.9]
        for _ in range(ROUND_STEPS):
            if self.threads:
                thread = self.chance.choice(self.threads)
                step = next(thread, None)
                if step is None:
                    self.threads.remove(thread)
                else:
                    self.steps.append(step)
            while coming and self.chance.random() < 0.5:
                self.deliver(coming.pop(0 if self.chance.random() < 0.8 else -1))
            if sent and self.chance.random() < 0.05:
                self.deliver(self.chance.choice(sent))

    def end(self):
        """In some scripts a master stops in the end, once nothing is late any more."""
        if self.chance.random() < 0.15:
            self.steps += [f"late {client}" for client in CLIENTS for _ in range(self.steps.count(f"cut {client}"))]
            self.steps += [f"stop {self.chance.choice(MASTERS)}", *calls(self.chance, self.chance.choice(CLIENTS))]

    def deliver(self, number):
        self.delivered.add(number)
        self.steps.append(f"deliver {number}")

    def text(self):
        return "".join(f"{step}\n{MARK}\n" for step in self.steps)


def filling():
    """A client makes some keys first."""
    for words in ("MSET b 1 {b}2 x", "MSET c 7 {c}2 1", "MSET a 1 {a}2 x {a}3 2", "HSET {a}h f 1 g x", "SET foo 3"):
        yield f"call 1 {words}"
        yield from ("carry 1", "return 1") * 4


def calls(chance, client):
    """Some calls of a client, each with what its connection does meanwhile."""
    for _ in range(chance.randint(8, 20)):
        yield f"call {client} {' '.join(command(chance))}"
        for _ in range(chance.randint(1, 4)):
            yield f"carry {client}"
            if chance.random() < 0.05:
                yield f"cut {client}"
            if chance.random() < 0.05:
                yield f"late {client}"
            yield f"return {client}"


def command(chance):
    key, other, value = chance.choice(KEYS), chance.choice(KEYS), chance.choice(VALUES)
    field = chance.choice(FIELDS)
    return chance.choice((
        ("SET", key, value), ("SET", key, value, chance.choice(("NX", "XX"))), ("GET", key), ("APPEND", key, value), ("STRLEN", key),
        ("INCR", key), ("INCR", key), ("INCRBY", key, value), ("DEL", key, other), ("EXISTS", key, key), ("MGET", key, other),
        ("MSET", key, value, other, "1"), ("HSET", "{a}h", field, value), ("HGET", "{a}h", field), ("HGETALL", "{a}h"), ("HLEN", key),
        ("HDEL", "{a}h", field), ("HINCRBY", "{a}h", field, value), ("PING",), ("GET",), ("NOSUCH", key), ("ASKING",),
    ))


def move(chance, tag):
    """The orders that move the slot of a key to another master, of which some come twice, and some in another order."""
    source = OWNERS[tag]
    target = chance.choice([node for node in MASTERS if node != source])
    slot, number = keyspace.slot(tag), chance.randint(1, 3)
    keys = [key for key in (*KEYS, "{a}h") if keyspace.slot(key) == slot]
    to = f"127.0.0.1 {7000 + target}"
    begin = [f"admin {target} CLUSTER SETSLOT {slot} IMPORTING {source:040x} {number}", f"admin {source} CLUSTER SETSLOT {slot} MIGRATING {target:040x} {number}"]
    copy = [f"admin {source} MIGRATE {to} {key} 0 9" for key in keys]
    copy += [f"admin {source} MIGRATE {to}  0 9 KEYS {' '.join(chance.sample(keys, len(keys)))}"] * 2
    end = [f"admin {node} CLUSTER SETSLOT {slot} NODE {target:040x} {number}" for node in (target, source)]
    yield from begin
    for orders, most in ((copy, 12), (end, 8)):
        for _ in range(chance.randint(2, most)):
            yield chance.choice(orders)
            if chance.random() < 0.1:
                yield chance.choice((*begin, *copy, *end))
            if chance.random() < 0.2:
                yield f"tick {chance.choice((source, target))}"


def handover(chance):
    """A replica is asked to take its master's place."""
    replica = chance.choice(REPLICAS)
    yield f"admin {replica} CLUSTER FAILOVER"
    for _ in range(chance.randint(20, 40)):
        yield f"tick {chance.choice((replica, replica, replica - 3))}"


# ---- what is printed of them

class Call:
    """A call of a client: what it is, where it stands in the script, and what came of it."""

    def __init__(self, client, words, begun):
        self.client, self.words, self.begun = client, words, begun
        self.answer, self.ended, self.last_carry = None, None, None
        self.shown = []

    def is_executed_at(self, step):
        """Whether the reply that the client got in the end is the one that its node gave in this step."""
        return step == self.last_carry and self.answer is not None and self.answer.startswith(("+", "-", ":", "$", "*"))


class Play:
    """A script with the lines that were printed of each step."""

    def __init__(self, steps, lines):
        self.steps = [step.split(" ") for step in steps]
        self.printed = by_step(lines)
        self.calls = {client: [] for client in CLIENTS}
        self.cut_off = {client: [] for client in CLIENTS}
        self.events = []
        self.doubt = None

    def verdict(self):
        """What is wrong with it, or None."""
        if len(self.printed) != len(self.steps):
            return f"{len(self.printed)} of {len(self.steps)} steps are printed"
        for at in range(len(self.steps)):
            if self.writes(at) > MOST_WRITES.get(self.steps[at][0], 0):
                return f"step {at}: {self.writes(at)} pieces are sent"
            self.read(at)
            if any(line.startswith("promoted ") and not line.endswith(" planned") for line in self.printed[at]):
                break
        try:
            self.judge()
        except AssertionError as wrong:
            return str(wrong)
        return None

    # Notes which call the step is of, which shows an execution, and what its client is told.
    def read(self, at):
        name, words, lines = self.steps[at][0], self.steps[at][1:], self.printed[at]
        is_done = lines != ["none"]
        client = int(words[0]) if name in ("call", "carry", "return", "cut", "late") else None
        under = self.under_way(client)
        if name == "call" and is_done:
            self.calls[client].append(Call(client, words[1:], at))
        if name == "carry" and is_done and under:
            under.last_carry = at
            self.events.append((at, under))
        if name == "late" and is_done and self.cut_off[client]:
            self.events.append((at, self.cut_off[client].pop(0)))
        if name == "cut" and is_done and under and not self.was_carried(under, at):
            self.cut_off[client].append(under if f"fault {client} {LOST}" in lines else None)
        if any(line.endswith(" planned") and line.startswith("promoted ") for line in lines):
            self.doubt = at if self.doubt is None else self.doubt
        for line in lines:
            if line.startswith(("answer ", "fault ")):
                told, text = line.split(" ", 2)[1:]
                call = self.under_way(int(told))
                assert call, f"step {at}: client {told} is told {text}, and has asked nothing"
                call.answer, call.ended = text, at

    def under_way(self, client):
        calls = self.calls.get(client)
        return calls[-1] if calls and calls[-1].answer is None else None

    # Whether what the client sent last has reached its node.
    def was_carried(self, call, at):
        sent = max(step for step in range(call.begun, at) if step == call.begun or self.is_of("return", call.client, step))
        return any(self.is_of("carry", call.client, step) for step in range(sent + 1, at))

    def is_of(self, name, client, step):
        return self.steps[step][:2] == [name, str(client)] and self.printed[step] != ["none"]

    # Executes what was executed, and compares.
    def judge(self):
        keys, unknown = {}, set()
        for at, call in self.events:
            if call is None:
                assert not self.shows(at), f"step {at}: something was executed, and no command came"
            elif self.shows(at):
                self.execute(at, call, keys, unknown, is_shown=True)
            elif call.is_executed_at(at):
                self.compare(at, call, keys, unknown)
            elif self.may_be_hidden(at) and call.answer in (LOST, None):
                unknown |= set(keyspace.keys_of(call.words))
        for call in (call for calls in self.calls.values() for call in calls):
            self.count(call)

    def shows(self, at):
        return self.writes(at) > 0

    def writes(self, at):
        return sum(line.startswith("sent ") and line.endswith(" Piece") for line in self.printed[at])

    # Whether a node that was promoted may execute without showing it.
    def may_be_hidden(self, at):
        return self.doubt is not None and at > self.doubt

    def compare(self, at, call, keys, unknown):
        if call.answer.startswith(REFUSALS):
            crosses = call.answer == keyspace.CROSS_SLOT + "\\r\\n"
            assert crosses == (keyspace.execute({}, call.words)[0] == call.answer), f"step {at}: {call.words} is refused by {call.answer}"
            return
        self.execute(at, call, keys, unknown, is_shown=False)

    def execute(self, at, call, keys, unknown, is_shown):
        call.shown += [at] if is_shown else []
        touched = set(keyspace.keys_of(call.words))
        if touched & unknown and call.words[0] not in ("SET", "MSET"):
            unknown |= touched
            return
        reply, is_written = keyspace.execute(keys, call.words)
        if touched & unknown:
            unknown -= touched if len(call.words) != 4 or call.words[0] == "MSET" else set()
            return
        assert is_written or not is_shown, f"step {at}: {call.words} is written behind the stream, and is no write"
        assert is_shown or not is_written or self.may_be_hidden(at), f"step {at}: {call.words} is answered {call.answer}, and wasn't executed"
        if call.is_executed_at(at):
            assert reply == call.answer, f"step {at}: {call.words} is answered {call.answer}, and {reply} was to come"

    # How often a call was executed, by what its client was told.
    def count(self, call):
        if call.answer is None or call.answer.startswith(LOST):
            assert len(call.shown) <= 1, f"{call.words} of step {call.begun} was executed in the steps {call.shown}"
        elif call.answer.startswith(FAULTS) or call.answer.startswith(REFUSALS):
            assert not call.shown, f"{call.words} of step {call.begun} is answered {call.answer}, and was executed in the steps {call.shown}"
        else:
            assert call.shown in ([], [call.last_carry]), f"{call.words} of step {call.begun} was executed in the steps {call.shown}, and is answered by that of {call.last_carry}"
            assert call.last_carry is not None, f"{call.words} of step {call.begun} is answered {call.answer}, and reached no node"


def by_step(lines):
    """The lines of each step, in front of the mark behind it."""
    steps, step = [], []
    for line in lines:
        if line == MARKED:
            steps.append(step)
            step = []
        else:
            step.append(line)
    return steps


# ---- all of them

def are_right(play):
    """Whether each script is answered as it may be, and whether wrong lines are found in some of them."""
    with ThreadPoolExecutor(AT_ONCE) as pool:
        scripts = list(pool.map(lambda number: played(play, number), range(COUNT)))
    return [is_right(script) for script in scripts] + [is_found(lines, script) for script in scripts[:ALTERED] for lines in altered(script.lines)]


def played(play, number):
    script = Script(number)
    for turn in range(ROUNDS + 1):
        script.grow() if turn < ROUNDS else script.end()
        script.status, output, script.sentence = play(script.text())
        script.lines = output.split("\n")[:-1]
    return script


def is_right(script):
    wrong = f"status {script.status}: {script.sentence.strip()}" if script.status else Play(script.steps, script.lines).verdict()
    if wrong:
        print(f"random script {script.number}: {wrong}")
    return not wrong


def altered(lines):
    """The lines without the first write of a client, with that write twice, and with a number too high by one."""
    written = next(at for at, line in enumerate(lines) if line.endswith(" Piece"))
    yield lines[:written] + lines[written + 1:]
    yield lines[:written] + lines[written:written + 1] + lines[written:]
    for at, line in enumerate(lines):
        if line.startswith("answer 1 :"):
            number = int(line[len("answer 1 :"):-len("\\r\\n")])
            yield [*lines[:at], f"answer 1 :{number + 1}\\r\\n", *lines[at + 1:]]
            return


def is_found(lines, script):
    if Play(script.steps, lines).verdict():
        return True
    print(f"random script {script.number}: wrong lines aren't found")
    return False
