"""What `rcluster serve --record` wrote of a run, between two tickets, as a play that can be drawn."""

from __future__ import annotations

import re
from dataclasses import dataclass

from following import SIGNS_OF_LIFE, Arrow, Note, Refused

LINE = re.compile(r"(\d+) node (\d+) (.*)")
QUOTED = r'"(?:[^"\\]|\\.)*"'
# So many characters of what goes from one lane to another are drawn.
SHOWN = 48


@dataclass
class Entry:
    """A line of the record: what happened at a node under this ticket, and what came of it."""

    ticket: int
    node: int
    event: str
    outcomes: list[str]

    def message(self):
        """Of a message that the node took: its sender, the ticket of the step that sent it, and what it says."""
        found = re.match(r"message from (\d+) of (\d+): (.*)", self.event)
        return found and (int(found[1]), int(found[2]), found[3])

    def request(self):
        """Of a request: its connection and its words."""
        found = re.match(r"request (\S+) (.*)", self.event)
        return found and (found[1], shown(" ".join(map(unquoted, re.findall(QUOTED, found[2])))))

    def sent(self):
        """The messages that the step sent, each with the node that it is for."""
        found = (re.match(r"to (\d+): (.*)", it) for it in self.outcomes)
        return [(int(it[1]), it[2]) for it in found if it]


class Recording:
    """The requests, replies and messages of the steps with these tickets. A row is a step; one in which only the signs of life of nodes come
    and go has none.
    """

    def __init__(self, path, first, last):
        self.script, self.arrows, self.notes = [], [], []
        # The arrows of the messages that were sent, by the ticket of the step, the node that they are for, and what they say.
        self.sent = {}
        for entry in entries(path):
            if entry.ticket > last:
                self.arrive_late(entry)
            elif entry.ticket >= first:
                self.enter(entry)
        self.rows = len(self.script)
        if not self.rows:
            raise Refused(f"{path}: nothing is drawn of the tickets from {first} to {last}")

    def enter(self, entry):
        message, request = entry.message(), entry.request()
        sent = [(to, body) for to, body in entry.sent() if not is_sign(body)]
        told = [it for it in entry.outcomes if it.startswith(("reply", "promoted"))]
        if not (request or sent or told or message and not is_sign(message[2])):
            return
        row = len(self.script)
        self.script.append(f"ticket {entry.ticket}")
        if message:
            self.arrive(entry.node, row, *message)
        if request:
            self.draw("request", request[1], ("client", f"{entry.node}:{request[0]}"), ("node", entry.node), row)
            self.script.append("")
        for outcome in told:
            self.tell(entry.node, outcome, request)
        for to, body in sent:
            self.sent[entry.ticket, to, body] = self.draw("message", body, ("node", entry.node), ("node", to), len(self.script) - 1, None)

    def arrive(self, node, row, sender, ticket, body):
        arrow = self.sent.get((ticket, node, body))
        if arrow is None:
            # It was sent before the first of these tickets, or is a sign of life by which something came.
            self.draw("message", body, ("node", sender), ("node", node), row)
        elif arrow.came_in is None:
            arrow.came_in = row
        else:
            self.draw("message", f"{body}, again", ("node", sender), ("node", node), row)

    def arrive_late(self, entry):
        """What comes behind the last of these tickets comes at the lower end of the picture."""
        message = entry.message()
        arrow = message and self.sent.get((message[1], entry.node, message[2]))
        if arrow and arrow.came_in is None:
            arrow.came_in = len(self.script)

    def tell(self, node, outcome, request):
        """A reply, to this request or to another connection, or a promotion."""
        row = len(self.script) - 1
        if outcome.startswith("promoted"):
            self.notes.append(Note(("node", node), row, f"is {outcome}"))
            return
        connection, reply = re.match(rf"reply (?:to (\S+) )?({QUOTED})", outcome).groups()
        client = ("client", f"{node}:{connection or request[0]}")
        self.draw("reply", shown(unquoted(reply)), ("node", node), client, row)

    def draw(self, kind, text, begin, end, row, came_in=-1):
        arrow = Arrow(kind, shown(text.replace('"', "")), begin, end, row, row if came_in == -1 else came_in)
        self.arrows.append(arrow)
        return arrow


def entries(path):
    try:
        with open(path, encoding="ascii") as file:
            for number, line in enumerate(file, 1):
                found = LINE.fullmatch(line.rstrip("\n"))
                if not found:
                    raise Refused(f"{path}: line {number} is none of a record")
                event, *outcomes = split(found[3], " -> ")
                yield Entry(int(found[1]), int(found[2]), event, split(" -> ".join(outcomes), "; ") if outcomes else [])
    except UnicodeDecodeError as error:
        raise Refused(f"{path} is no record: {error}") from None


def split(text, mark):
    """The parts between the marks, of which those in quotes are none."""
    parts, begin = [], 0
    for found in re.finditer(f"{QUOTED}|{re.escape(mark)}", text):
        if found[0] == mark:
            parts.append(text[begin:found.start()])
            begin = found.end()
    return [*parts, text[begin:]]


def is_sign(body):
    return body.split(" ")[0] in SIGNS_OF_LIFE


def unquoted(word):
    return word[1:-1].replace("\\r\\n", " ").replace('\\"', '"').replace("\\\\", "\\").strip() or '""'


def shown(text):
    return text if len(text) <= SHOWN else f"{text[:SHOWN]}.."
