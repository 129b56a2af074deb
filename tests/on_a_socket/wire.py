"""What a client writes and reads."""

import binascii
import contextlib
import socket
import threading
import time

# How long a client waits for a reply, in seconds.
PATIENCE = 20
# How long it waits between two pieces of a request, so that they are read one by one.
PAUSE = 0.005

PONG = b"+PONG\r\n"
OK = b"+OK\r\n"
NIL = b"$-1\r\n"
CROSSED = b"-CROSSSLOT Keys in request don't hash to the same slot\r\n"
NOT_AN_INTEGER = b"-ERR value is not an integer or out of range\r\n"
OVERFLOW = b"-ERR increment or decrement would overflow\r\n"


def spelled(*words):
    """A request of these words."""
    return array(*map(bulk, words))


def bulk(word):
    return b"$%d\r\n%s\r\n" % (len(word), word)


def array(*replies):
    return b"*%d\r\n" % len(replies) + b"".join(replies)


def number(value):
    return b":%d\r\n" % value


def moved(slot, port):
    return b"-MOVED %d 127.0.0.1:%d\r\n" % (slot, port)


PING = spelled(b"PING")


def slot_of(key):
    """The slot of a key without braces: Redis' CRC16 is the one that Python has under this name."""
    return binascii.crc_hqx(key, 0) % 16384


def connect(port):
    client = socket.create_connection(("127.0.0.1", port), timeout=PATIENCE)
    client.setsockopt(socket.IPPROTO_TCP, socket.TCP_NODELAY, 1)
    return client


def accepted(listener):
    """The connections that come to a listener, until it is shut. It is closed here and by nobody else: once another thread had closed
    it, its number could be a newer listener's, and the next call would take a connection that came to that one.
    """
    with listener:
        while True:
            try:
                client, _ = listener.accept()
            except OSError:
                return
            yield client


def shut(listener):
    """Has a listener refuse connections from now on."""
    with contextlib.suppress(OSError):
        listener.shutdown(socket.SHUT_RDWR)


def refuses_in_time(port):
    """Whether nobody can connect there, at the latest once the patience has ended."""
    last = time.monotonic() + PATIENCE
    while time.monotonic() < last:
        try:
            connect(port).close()
        except ConnectionRefusedError:
            return True
        except OSError:
            pass
        time.sleep(0.01)
    return False


def talk(port, *pieces):
    """All that is answered to these pieces, sent one by one, up to the end of the connection."""
    with connect(port) as client:
        for piece in pieces[:-1]:
            client.sendall(piece)
            time.sleep(PAUSE)
        client.sendall(pieces[-1])
        client.shutdown(socket.SHUT_WR)
        return rest_of(client)


def rest_of(client):
    """All that a client reads up to the end of the connection, be it closed or cut off."""
    answer = bytearray()
    try:
        while more := client.recv(1 << 16):
            answer += more
    except ConnectionResetError:
        pass
    return bytes(answer)


def ask(client, request, reply):
    """What a client reads in place of this reply: as many bytes, or fewer where the connection ends."""
    client.sendall(request)
    return take(client, len(reply))


def take(client, count):
    """So many bytes, or fewer where the connection ends."""
    answer = bytearray()
    while len(answer) < count and (more := client.recv(count - len(answer))):
        answer += more
    return bytes(answer)


def reply_of(client):
    """The bytes of one reply, which is no array in an array."""
    line = line_of(client)
    if line[:1] == b"*":
        return line + b"".join(reply_of(client) for _ in range(int(line[1:])))
    if line[:1] == b"$" and line != NIL:
        return line + take(client, int(line[1:]) + 2)
    return line


def line_of(client):
    """The bytes up to the end of a line, or up to the end of the connection."""
    line = bytearray()
    while not line.endswith(b"\r\n") and (more := client.recv(1)):
        line += more
    return bytes(line)


@contextlib.contextmanager
def playing(calls):
    """Runs these calls in threads while the block runs, and until each returns."""
    threads = [threading.Thread(target=it) for it in calls]
    for thread in threads:
        thread.start()
    yield
    for thread in threads:
        thread.join()
