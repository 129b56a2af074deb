"""Clients in processes of their own, which note how long each of their requests takes."""

import contextlib
import math
import socket
import time

import load

# For how many seconds a process or a server is waited for.
PATIENCE = 60
OK = b"+OK\r\n"


def percentile(times, percent):
    """That of sorted times."""
    return times[max(math.ceil(len(times) * percent / 100), 1) - 1] if times else math.nan


@contextlib.contextmanager
def playing(players, ended):
    for it in players:
        it.start()
    try:
        yield
    finally:
        ended.set()
        for it in players:
            it.join(PATIENCE)
            it.kill()


def connect(port):
    client = socket.create_connection(("127.0.0.1", port), PATIENCE)
    client.setsockopt(socket.IPPROTO_TCP, socket.TCP_NODELAY, 1)
    return client


def watch(port, key, ended, told):
    """Sets the key again and again, and notes when each request was sent, and how long it took."""
    request, seen = load.encode(b"SET", key.encode(), b"x" * 16), []
    with connect(port) as client:
        while not ended.is_set():
            sent = time.monotonic()
            client.sendall(request)
            if (reply := client.recv(100)) != OK:
                raise SystemExit(f"a client is told {reply}")
            seen.append((sent, time.monotonic() - sent))
    told.put(("watched", seen))
