"""A client that asks for more than its socket holds and reads nothing."""

import contextlib
import socket

from wire import OK, PING, PONG, ask, bulk, connect, rest_of, spelled

# A key in a slot of each master of the six nodes.
KEYS = (b"{b}deaf", b"{c}deaf", b"{a}deaf")
VALUE = b"v" * (1 << 16)
# So many values are more than the system holds for a client that doesn't read, and more than the program should.
COUNT = 128
# A socket that has taken so many bytes of requests takes any number of them.
NEVER_FULL = 1 << 24


class DeafClient:
    """Asks for values at a master, and then sends requests until no more are taken. `sent` is how many bytes these were."""

    def __init__(self, ports, node):
        self.connection = connect(ports[node])
        self.connection.setsockopt(socket.SOL_SOCKET, socket.SO_SNDBUF, 1 << 16)
        self.first = ask(self.connection, spelled(b"SET", KEYS[node], VALUE), OK)
        self.connection.sendall(spelled(b"GET", KEYS[node]) * COUNT)
        self.sent = self.send_until_full()

    def send_until_full(self):
        patience = self.connection.gettimeout()
        self.connection.settimeout(0.5)
        sent, requests = 0, PING * 1024
        with contextlib.suppress(socket.timeout):
            while sent < NEVER_FULL:
                sent += self.connection.send(requests[sent % len(PING):])
        self.connection.settimeout(patience)
        return sent

    def rest(self):
        """What it reads once it does so, up to the end of the connection."""
        with contextlib.suppress(OSError):
            self.connection.shutdown(socket.SHUT_WR)
        return self.first + rest_of(self.connection)

    def replies(self):
        """What it has to read, where the server goes on."""
        return OK + bulk(VALUE) * COUNT + PONG * (self.sent // len(PING))

    def close(self):
        self.connection.close()
