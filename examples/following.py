"""What a script of `rcluster simulate` does, step by step: which request, reply or message goes where, and in which step it arrives.

The program prints what comes out of the steps, but not where a step ends, and not where a client's request goes. So the script is played
with questions among its steps. Behind each step a client that the script doesn't have calls CLUSTER, and is told at once that it may not.
Before a request reaches its node all nodes are asked who has its slot, what they do with it, and which of its keys they have. None of that
changes what else is printed. Where a client goes then follows from what it is told; if it goes elsewhere, `Differs` says in which line.
"""

from __future__ import annotations

import binascii
import itertools
import json
import os
import re
import subprocess
from dataclasses import dataclass, field

# A cluster of one node, which has all slots.
ONE_NODE = os.path.join(os.path.dirname(os.path.abspath(__file__)), "one_node.json")
SLOTS = 16384
# What each tick tells others. Of these messages only those are drawn that arrive.
SIGNS_OF_LIFE = {"Claim", "Report", "Sync"}
# The commands without keys, those whose words are all keys, and those of which each second word is one. Of every other one it is the first.
KEYLESS, ALL_KEYS, IN_PAIRS = {"PING", "ECHO"}, {"DEL", "EXISTS", "MGET"}, {"MSET"}
# How a node answers words that are no command. A client looks for no key in them.
NO_COMMAND = ("-ERR unknown command", "-ERR wrong number of arguments", "-ERR syntax error")
NOTHING = ["none"]
# How many keys of a slot are asked for, and how long the program may take, in seconds.
MOST_KEYS, PATIENCE = 1_000_000, 60


class Refused(Exception):
    """The program doesn't play the script."""


class Differs(Exception):
    """A client does something else than it is known to do."""


@dataclass
class Arrow:
    """Something that goes from one lane to another. A lane is a client or a node, as `("client", 1)` or `("node", 0)`."""

    kind: str
    text: str
    begin: tuple
    end: tuple
    sent_in: int
    # None where it never arrived.
    came_in: int | None = None


@dataclass
class Note:
    """Something that happens at one lane."""

    lane: tuple
    row: int
    text: str


@dataclass
class Slot:
    """What a node knows of a slot: what it does with it, with which other node and in which move, who owns it, and its keys."""

    word: str
    other: int | None
    number: int
    owner: int | None
    keys: list


@dataclass
class Reply:
    """What a node tells a client to do: its text, the node that it names, and the number of the move. It is empty where the answer tells it."""

    text: str = ""
    to: int | None = None
    number: int | None = None


@dataclass
class Client:
    """What a client knows, and the request or the reply that is under way."""

    owners: dict = field(default_factory=dict)
    kept: set = field(default_factory=set)
    words: list | None = None
    to: int = 0
    # The number of the move for which it was sent there.
    asking: int | None = None
    request: Arrow | None = None
    reply: Arrow | None = None
    told: Reply | None = None
    late: list = field(default_factory=list)


class Simulator:
    """Plays steps in one cluster."""

    def __init__(self, program, config):
        self.program, self.config = program, config

    def play(self, script, steps=None):
        """The lines that are printed of a file. The steps are what it gets on standard input."""
        words = [self.program, "simulate", "--config", self.config, "--script", script]
        text = None if steps is None else "".join(step + "\n" for step in steps)
        done = subprocess.run(words, input=text, capture_output=True, encoding="ascii", timeout=PATIENCE, check=False)
        if done.returncode:
            raise Refused(done.stderr.strip() or done.stdout.strip())
        return done.stdout.split("\n")[:-1]

    def play_in_parts(self, parts):
        """The lines that are printed of each part, which is a list of steps."""
        used = {step.split(" ")[1] for part in parts for step in part}
        mark = next(number for number in itertools.count(1) if str(number) not in used)
        steps = [step for part in parts for step in (*part, f"call {mark} CLUSTER")]
        printed = [[]]
        for line in self.play("/dev/stdin", steps):
            if line == f"fault {mark} C7":
                printed.append([])
            else:
                printed[-1].append(line)
        return printed[:-1]


class Play:
    """A script that is followed to its end."""

    def __init__(self, simulator, script):
        # If this is refused, the program says what is wrong with the script or the cluster.
        printed = simulator.play(script)
        with open(simulator.config, encoding="utf-8") as file:
            config = json.load(file)
        self.ids = [node["id"] for node in config["nodes"]]
        self.ports = {(node["host"], str(node["port"])): number for number, node in enumerate(config["nodes"])}
        self.script = lines_of(script)
        # Of each row what is printed, and of each row with a question what each node answers.
        self.printed = simulator.play_in_parts([[line] for line in self.script])
        if printed != [line for lines in self.printed for line in lines]:
            raise Differs("the questions change what is printed")
        self.commands = commands_among(simulator.program, self.script)
        self.slots = self.ask_all(simulator)
        self.clients, self.messages, self.arrows, self.notes = {}, {}, [], []
        # The nodes that stopped, those that hand over, and the keys of each node's last copy of a slot, with the number of its move.
        self.stopped, self.handing, self.copied = set(), set(), {}
        for self.row, line in enumerate(self.script):
            name, number, *words = line.split(" ")
            if self.printed[self.row] != NOTHING:
                getattr(self, f"play_{name}")(int(number), words)
                for promoted in self.told("promoted"):
                    self.note(int(promoted.split(" ")[0]), "is promoted")
        self.rows = len(self.script)

    # ---- questions

    def ask_all(self, simulator):
        """Of each row in which a request reaches a node or keys are copied: what each node knows of their slot."""
        slots, stopped, calls = {}, set(), {}
        for row, line in enumerate(self.script):
            name, number, *words = line.split(" ")
            if self.printed[row] == NOTHING:
                continue
            if name == "stop":
                stopped.add(int(number))
            if name == "call":
                calls[int(number)] = words
            keys = self.keys_of(calls[int(number)]) if name == "carry" else migrated(words) if name == "admin" else []
            if keys:
                slots[row] = slot_of(keys[0]), [node for node in range(len(self.ids)) if node not in stopped]
        parts = []
        for row, line in enumerate(self.script):
            parts += [questions(*slots[row])] if row in slots else []
            parts.append([line])
        answers = iter(simulator.play_in_parts(parts))
        found = {}
        for row in range(len(self.script)):
            if row in slots:
                found[row] = self.read_slots(*slots[row], next(answers))
            if next(answers) != self.printed[row]:
                raise Differs(f"line {row + 1} of the script: the questions change what is printed")
        return found

    def read_slots(self, slot, nodes, answers):
        """What the nodes answered to the questions about the slot."""
        found = {}
        for at, node in enumerate(nodes):
            owners, state, keys = (elements(answer.split(" ", 2)[2]) for answer in answers[3 * at:3 * at + 3])
            ranges = [(int(owners[it][1:]), int(owners[it + 1][1:]), owners[it + 7]) for it in range(2, len(owners), 9)]
            owner = next((self.ids.index(who) for first, last, who in ranges if first <= slot <= last), None)
            # The id of the other node is a bulk string, or a nil where there is none.
            has_other = state[3] != "$-1"
            other, number = (self.ids.index(state[4]), state[5]) if has_other else (None, state[4])
            found[node] = Slot(state[2], other, int(number[1:]), owner, keys[2::2])
        return found

    def keys_of(self, words):
        """The keys of a command. Words that are none have no keys."""
        name = words[0].upper()
        if " ".join(words) not in self.commands or name in KEYLESS:
            return []
        return words[1:] if name in ALL_KEYS else words[1::2] if name in IN_PAIRS else words[1:2]

    # ---- what is printed of a step

    def told(self, *words):
        """Of each line that begins with these words the rest."""
        begin = " ".join(map(str, words)) + " "
        return [line[len(begin):] for line in self.printed[self.row] if line.startswith(begin)]

    def answer(self, name):
        """How a call of the client ends in this step: the reply or the fault, and whether it is a reply. Or None where none ends."""
        replies, faults = self.told("answer", name), self.told("fault", name)
        return (shorter(replies[0]), True) if replies else (faults[0], False) if faults else None

    def differs(self, what):
        return Differs(f"line {self.row + 1} of the script: {what}")

    # ---- nodes

    def play_admin(self, number, words):
        replies = self.told("admin", number)
        self.note(number, f"{self.shown(words)}: {shorter(replies[0]) if replies else 'waits'}")
        if any(line.endswith(" Copy") for line in self.told("sent")):
            keys, slot = migrated(words), self.slots[self.row][number]
            self.copied[number, slot_of(keys[0])] = slot.number, {*keys} & {*slot.keys}
        self.send()

    def play_tick(self, number, _words):
        self.note(number, "a tick")
        self.release(number)
        self.send(but=SIGNS_OF_LIFE)

    def play_stop(self, number, _words):
        self.note(number, "stops")
        self.stopped.add(number)
        for name, client in sorted(self.clients.items()):
            client.late = [arrow for arrow in client.late if arrow.end != ("node", number)]
            client.kept.discard(number)
            if client.words is not None and client.to == number:
                self.lose_reply(client)
                self.end_call(name, client)

    def play_deliver(self, name, _words):
        message = self.messages[name]
        number = message.end[1]
        self.arrive(message)
        self.release(number)
        self.send()

    def arrive(self, message):
        """A message arrives; where it comes again it has an arrow more."""
        if message.came_in is None:
            message.came_in = self.row
            if not any(arrow is message for arrow in self.arrows):
                self.arrows.append(message)
        else:
            self.arrows.append(Arrow("message", f"{message.text}, again", message.begin, message.end, message.sent_in, self.row))

    def release(self, number):
        """Replies to orders that waited."""
        for reply in self.told("admin", number):
            self.note(number, f"MIGRATE: {shorter(reply)}")

    def send(self, but=()):
        """The messages that the step sends, of which some are drawn only where they arrive."""
        for line in self.told("sent"):
            name, number, to, body = line.split(" ")
            arrow = Arrow("message", body, ("node", int(number)), ("node", int(to)), self.row)
            self.messages[int(name)] = arrow
            if body == "Paused":
                self.handing.add(int(number))
            if body not in but:
                self.arrows.append(arrow)

    # ---- clients

    def play_call(self, name, words):
        client = self.clients.setdefault(name, Client())
        client.words = words
        if self.answer(name):
            self.end_call(name, client)
        else:
            self.begin(client, name)

    def begin(self, client, name):
        """Goes to the owner of the slot, as far as the client knows it."""
        keys = self.keys_of(client.words)
        self.go_to(client, name, client.owners.get(slot_of(keys[0]), 0) if keys else 0, None)

    def go_to(self, client, name, node, asking):
        client.to, client.asking = node, asking
        if node in self.stopped:
            raise self.differs(f"client {name} calls node {node}, which has stopped")
        self.ask(client, name, "CLUSTER NUMBERED" if node not in client.kept else " ".join(client.words) if asking is None else "ASKING")

    def ask(self, client, name, text):
        client.request = Arrow("request", text, ("client", name), ("node", client.to), self.row)
        self.arrows.append(client.request)

    def play_carry(self, name, _words):
        client = self.clients[name]
        if client.request is None:
            raise self.differs(f"nothing of client {name} is known to be under way")
        request, client.request = client.request, None
        request.came_in = self.row
        client.told = Reply("OK") if request.text in ("CLUSTER NUMBERED", "ASKING") else self.decision(client)
        client.reply = Arrow("reply", client.told.text, ("node", client.to), ("client", name), self.row)
        self.arrows.append(client.reply)
        self.send()

    def decision(self, client):
        """What the node makes of the client's command: by its slot, the slot's move and its keys, as crates/redirect has it."""
        keys = self.keys_of(client.words)
        if not keys:
            return Reply()
        slot = self.slots[self.row][client.to]
        if len({*map(slot_of, keys)}) > 1:
            return Reply("CROSSSLOT")
        there = [key in slot.keys for key in keys]
        if slot.word == "importing" and client.asking == slot.number:
            return Reply("TRYAGAIN" if len({*keys}) > 1 and not all(there) else "")
        if slot.owner is None:
            return Reply("CLUSTERDOWN")
        if slot.word in ("importing", "foreign"):
            return Reply(f"MOVED {slot.owner}", slot.owner)
        if slot.word == "owned":
            return Reply("TRYAGAIN" if client.to in self.handing else "")
        number, copied = self.copied.get((client.to, slot_of(keys[0])), (None, ()))
        if number == slot.number and any(key in copied and key in slot.keys for key in keys):
            return Reply("TRYAGAIN")
        if all(there) or any(there):
            return Reply("" if all(there) else "TRYAGAIN")
        return Reply(f"ASK {slot.other}", slot.other, slot.number)

    def play_return(self, name, _words):
        client = self.clients[name]
        if client.reply is None:
            raise self.differs(f"no reply to client {name} is known to be under way")
        reply, client.reply, told = client.reply, None, client.told
        reply.came_in = self.row
        ended = self.answer(name)
        if ended:
            if ended[1] and (told.text == "OK" or told.to is not None):
                raise self.differs(f"client {name} is answered, and {told.text} was to come")
            reply.text = ended[0] if ended[1] else told.text
            self.end_call(name, client)
        elif told.text == "OK" and client.to not in client.kept:
            client.kept.add(client.to)
            self.go_to(client, name, client.to, client.asking)
        elif told.text == "OK":
            self.ask(client, name, " ".join(client.words))
        elif told.text == "TRYAGAIN":
            self.begin(client, name)
        elif told.to is not None:
            if told.number is None:
                client.owners[slot_of(self.keys_of(client.words)[0])] = told.to
            self.go_to(client, name, told.to, told.number)
        else:
            raise self.differs(f"the call of client {name} goes on, and nothing is known by which it does")

    def play_cut(self, name, _words):
        client = self.clients[name]
        if client.request is not None:
            client.late.append(client.request)
        self.lose_reply(client)
        client.kept.discard(client.to)
        self.end_call(name, client)

    def lose_reply(self, client):
        if client.reply is not None and not client.reply.text:
            client.reply.text = "the answer"

    def play_late(self, name, _words):
        self.clients[name].late.pop(0).came_in = self.row
        self.send()

    def end_call(self, name, client):
        """The call is over, and the client is told how."""
        client.words = client.request = client.reply = client.told = None
        ended = self.answer(name)
        if ended is None:
            raise self.differs(f"a call of client {name} isn't over, though it can't go on")
        self.notes.append(Note(("client", name), self.row, ended[0]))

    # ---- words

    def note(self, number, text):
        self.notes.append(Note(("node", number), self.row, text))

    def shown(self, words):
        """The words with the ids and ports of nodes as their numbers."""
        shown = [f"node {self.ids.index(word)}" if word in self.ids else word for word in words]
        if migrated(words) and tuple(words[1:3]) in self.ports:
            return f"MIGRATE {' '.join(migrated(words))} to node {self.ports[tuple(words[1:3])]}"
        return " ".join(shown[1:] if shown[0].upper() == "CLUSTER" else shown)


def questions(slot, nodes):
    """The steps that ask these nodes about the slot."""
    words = ("SLOTS", f"SLOTSTATE {slot}", f"GETKEYSINSLOT {slot} {MOST_KEYS}")
    return [f"admin {node} CLUSTER {it}" for node in nodes for it in words]


def commands_among(program, steps):
    """Those words of calls that are a command: one node that has all slots is asked each of them."""
    calls = sorted({step.split(" ", 2)[2] for step in steps if step.startswith("call ")})
    parts = [[f"call {client} {words}", *[f"carry {client}", f"return {client}"] * 2] for client, words in enumerate(calls, 1)]
    return {words for words, lines in zip(calls, Simulator(program, ONE_NODE).play_in_parts(parts)) if is_command(lines)}


def is_command(lines):
    replies = [line.split(" ", 2)[2] for line in lines if line.startswith("answer ")]
    return bool(replies) and not replies[0].startswith(NO_COMMAND)


def migrated(words):
    """The keys that an order names, if it is a MIGRATE."""
    if words[0].upper() != "MIGRATE":
        return []
    return words[7:] if len(words) > 7 else words[3:4]


def slot_of(key):
    """The slot of a key: Redis' CRC16 is the one that Python has under this name."""
    tag = key.partition("{")[2].partition("}")[0] if "}" in key.partition("{")[2] else ""
    return binascii.crc_hqx((tag or key).encode(), 0) % SLOTS


def elements(reply):
    """The lines of a reply that was printed on one line."""
    return re.sub(r"\\(\\|r|n)", lambda it: {"\\": "\\", "r": "\r", "n": "\n"}[it[1]], reply).split("\r\n")[:-1]


def shorter(reply):
    """A reply without its marks: of a bulk string the string alone."""
    parts = reply.split("\\r\\n")
    if reply.startswith("$-1"):
        return "(nil)"
    if reply.startswith("$"):
        return parts[1]
    return parts[0][1:] if reply.startswith(("+", "-", ":")) else "(array)" if reply.startswith("*") else parts[0]


def follow(program, config, script):
    return Play(Simulator(program, config), script)


def lines_of(path):
    with open(path, encoding="ascii") as file:
        return file.read().splitlines()
