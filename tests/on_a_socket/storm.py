"""A process of its own that connects as fast as it can.

usage: storm.py TIME PORT..    from that time of the monotonic clock on it connects to the ports in turn, and stays until its input ends
"""

import socket
import sys
import time

# More than wait at 16 nodes to be accepted.
MOST = 2500


def main(begin, *ports):
    time.sleep(max(0.0, float(begin) - time.monotonic()))
    clients = []
    try:
        while len(clients) < MOST:
            clients.append(socket.create_connection(("127.0.0.1", int(ports[len(clients) % len(ports)])), timeout=20))
    except OSError:
        pass
    print(len(clients), flush=True)
    sys.stdin.read()


if __name__ == "__main__":
    main(*sys.argv[1:])
