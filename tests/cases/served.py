"""A cluster that is served, and connections to its nodes.

In a case node N is at port 7000 + N. The port at which it listens in truth stands in the place of that where a request is sent, and the
other way round where a reply comes.
"""

import contextlib
import re

from program import Server
from wire import connect, reply_of, spelled

FIRST_PORT = 7000
# Where a reply has the port of a node: in a redirection, and in the list of the slots.
PLACES = re.compile(rb"((?:127\.0\.0\.1|localhost)(?::|\r\n:))(\d+)")


class Cluster:
    """Serves the cluster while the block runs."""

    def __init__(self, cluster):
        self.ports = [it["port"] for it in cluster["nodes"]]
        self.server = Server(cluster)
        self.clients = {}

    def __enter__(self):
        self.stack = contextlib.ExitStack()
        self.stack.enter_context(self.server)
        return self

    def __exit__(self, *error):
        self.stack.__exit__(*error)

    def ask(self, node, words, connection=0):
        """The reply to a request on one of the connections to the node."""
        client = self.send(node, words, connection)
        return self.as_in_a_case(reply_of(client))

    def ask_together(self, node, requests):
        """The replies to requests that are sent in one piece."""
        client = self.client(node)
        client.sendall(b"".join(spelled(*self.as_in_truth(it)) for it in requests))
        return [self.as_in_a_case(reply_of(client)) for _ in requests]

    def send(self, node, words, connection=0):
        """Sends a request, and gives the connection, on which its reply is still to be read."""
        client = self.client(node, connection)
        client.sendall(spelled(*self.as_in_truth(words)))
        return client

    def client(self, node, connection=0):
        """One of the connections to the node."""
        if (node, connection) not in self.clients:
            self.clients[node, connection] = self.stack.enter_context(connect(self.ports[node]))
        return self.clients[node, connection]

    def as_in_truth(self, words):
        if words and words[0].upper() == b"MIGRATE" and words[2:]:
            port = int(words[2]) - FIRST_PORT if words[2].isdigit() else -1
            if 0 <= port < len(self.ports):
                return [*words[:2], b"%d" % self.ports[port], *words[3:]]
        return words

    def as_in_a_case(self, reply):
        def place(found):
            port = int(found[2])
            return found[1] + (b"%d" % (FIRST_PORT + self.ports.index(port)) if port in self.ports else b"unknown")
        return PLACES.sub(place, reply)
