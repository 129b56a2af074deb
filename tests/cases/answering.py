"""A node of the test's own, to which `rcluster cli` talks as a client."""

import re
import socket
import subprocess
import time

import program
from wire import OK, PATIENCE, PAUSE

# What a call says where its reply isn't whole when the connection ends, and where the bytes are none.
ENDED, BAD = b"fault C1\n", b"fault C6\n"
# How the program shows bytes that can't be printed.
ESCAPES = re.compile(rb"\\(r|n|\\|x[0-9a-f]{2})")
NAMED = {b"r": b"\r", b"n": b"\n", b"\\": b"\\"}
# Of so many pieces at most each is waited for.
MOST_PAUSES = 64
LISTENER = socket.create_server(("127.0.0.1", 0))
LISTENER.settimeout(PATIENCE)


class Broken(Exception):
    """A call that didn't go as every call goes."""


def call(pieces, words=(b"GET", b"foo")):
    """The bytes of the client's request, and what the call says to an answer that comes in these pieces, before the connection ends.

    Its answer is the second reply on that connection: the first one is to CLUSTER NUMBERED.
    """
    address = "127.0.0.1:%d" % LISTENER.getsockname()[1]
    process = subprocess.Popen([program.PATH, "cli", "--try", "1", "--addr", address, *words], stdout=subprocess.PIPE, stderr=subprocess.DEVNULL)
    try:
        client, _ = LISTENER.accept()
        with client, client.makefile("rb") as stream:
            client.settimeout(PATIENCE)
            client.setsockopt(socket.IPPROTO_TCP, socket.TCP_NODELAY, 1)
            request_in(stream)
            client.sendall(OK)
            request = request_in(stream)
            answer(client, pieces)
            # The connection stays as it is until the call has ended.
            return request, process.communicate(timeout=PATIENCE)[0]
    finally:
        process.kill()
        process.wait()


def answer(client, pieces):
    """Sends the pieces one by one, and nothing more. Between a few of them it waits, so that they are read one by one."""
    try:
        for piece in pieces:
            client.sendall(piece)
            if len(pieces) < MOST_PAUSES and piece is not pieces[-1]:
                time.sleep(PAUSE)
        client.shutdown(socket.SHUT_WR)
    except OSError:
        # The client has ended it.
        pass


def request_in(stream):
    """The bytes of one request."""
    lines = [stream.readline()]
    for _ in range(int(lines[0][1:])):
        lines.append(stream.readline())
        lines.append(stream.read(int(lines[-1][1:]) + 2))
    return b"".join(lines)


def asked_for(*words):
    """The bytes that a client sends for a command of these words."""
    request, said = call([OK], words)
    if said != b"+OK\\r\\n\n":
        raise Broken(f"+OK was understood as {said!r}")
    return request


def told_of(*pieces):
    """The reply that a client reads in these pieces; none where it waits for more, and a fault where they are none."""
    _, said = call([it for it in pieces if it])
    if said == ENDED:
        return None
    return BAD if said == BAD else unescaped(said)


def unescaped(line):
    """The bytes that the program shows on this line."""
    return ESCAPES.sub(lambda it: NAMED.get(it[1]) or bytes([int(it[1][1:], 16)]), line[:-1])
