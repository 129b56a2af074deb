"""A cluster for a test: `with Cluster(masters=3, replicas=1) as cluster:` serves one at free ports of 127.0.0.1 while the block runs."""

import contextlib
import json
import os
import random
import socket
import subprocess
import tempfile
import threading
import time

# The script at the root of this repository runs the program that was built last.
PROGRAM = os.environ.get("RCLUSTER", os.path.join(os.path.dirname(os.path.abspath(__file__)), "..", "..", "rcluster"))
# How long a reply, a condition or the end of the last tick may take, in seconds.
PATIENCE = 30


class Cluster:
    """The options are those of `rcluster serve`. With ticks the block ends once they are over, and fails if the audit does. A config is
    what a file holds (docs/CONFIG.md), without ports. `stop` stops a node while the others are served on.
    """

    def __init__(self, *options, masters=3, replicas=0, ticks=None, config=None):
        self.options = [*options, *(["--ticks", str(ticks)] if ticks else [])]
        self.masters, self.replicas, self.ticks, self.config = masters, replicas, ticks, config

    def __enter__(self):
        for _ in range(20):
            lines = self.start()
            # Somebody listens at a port of the file.
            if lines[0] != "fault F2\n":
                break
            self.end()
        # A line is `node 0 127.0.0.1:7000`.
        self.addresses = [line.split()[2] for line in lines if line.startswith("node ")]
        if len(self.addresses) != len(lines):
            self.end()
            raise RuntimeError(f"the cluster isn't served, as standard error says above: {lines[0] or 'the program ended'}")
        return self

    def start(self):
        """The lines that are printed once all nodes listen."""
        with tempfile.NamedTemporaryFile("w", suffix=".json") as file:
            if self.config:
                # Below the ports that the system gives to clients.
                port = random.randrange(10000, 32000)
                nodes = [{**node, "port": port + number} for number, node in enumerate(self.config["nodes"])]
                json.dump({**self.config, "nodes": nodes}, file)
                file.flush()
                source, count = ["--config", file.name], len(nodes)
            else:
                source = ["--masters", str(self.masters), "--replicas", str(self.replicas), "--port", "0"]
                count = self.masters * (1 + self.replicas)
            words = [PROGRAM, "serve", *source, "--orders", *self.options]
            self.process = subprocess.Popen(words, stdin=subprocess.PIPE, stdout=subprocess.PIPE, text=True)
            return [self.process.stdout.readline() for _ in range(count)]

    def __exit__(self, error, *_rest):
        verdict = "audit ok" if error or not self.ticks else self.verdict()
        self.end()
        assert verdict.startswith("audit ok"), verdict or "the program ended without a verdict"

    def verdict(self):
        """The last line, once the ticks are over: `audit ok` with the number of steps, or a fault."""
        self.process.wait(PATIENCE)
        return self.process.stdout.read().strip()

    def end(self):
        self.process.kill()
        self.process.wait()
        self.process.stdin.close()
        self.process.stdout.close()

    def stop(self, node):
        """Stops the node of that number, as if it were gone. It isn't started again."""
        self.process.stdin.write(f"stop {node}\n")
        self.process.stdin.flush()
        wait_until(lambda: refuses(self.addresses[node]))

    def run(self, verb, *words, at=0):
        """What another verb of the program prints that begins at a node, as `run("failover", "--node", "5", at=5)`."""
        words = [PROGRAM, verb, "--addr", self.addresses[at], *words]
        return subprocess.run(words, stdout=subprocess.PIPE, text=True, timeout=PATIENCE, check=True).stdout


def node_id(number):
    return f"{number:040x}"


def ask(address, *commands):
    """The replies to commands that are sent on one connection. An error begins with - and a status with +, as they come."""
    with connect(address) as client, client.makefile("rb") as replies:
        for command in commands:
            words = command.encode().split(b" ")
            client.sendall(b"*%d\r\n" % len(words) + b"".join(b"$%d\r\n%s\r\n" % (len(word), word) for word in words))
        return [reply_of(replies) for _ in commands]


def connect(address):
    host, port = address.split(":")
    return socket.create_connection((host, int(port)), timeout=PATIENCE)


def refuses(address):
    """Whether nobody listens there."""
    try:
        connect(address).close()
    except ConnectionRefusedError:
        return True
    except OSError:
        pass
    return False


def reply_of(replies):
    line = replies.readline().decode()
    if not line.endswith("\r\n"):
        raise ConnectionError("the connection ended before the reply")
    kind, rest = line[:1], line[1:-2]
    if kind == "*":
        return [reply_of(replies) for _ in range(int(rest))]
    if kind == "$":
        return None if rest == "-1" else replies.read(int(rest) + 2).decode()[:-2]
    return int(rest) if kind == ":" else kind + rest


@contextlib.contextmanager
def losing_its_answer(address):
    """An address that leads one client to that node. Its first request is passed on, and the connection ends in place of the answer."""
    with socket.create_server(("127.0.0.1", 0)) as listener:

        def relay():
            client, _ = listener.accept()
            with client, connect(address) as node:
                node.sendall(client.recv(1 << 16))
                node.recv(1 << 16)

        thread = threading.Thread(target=relay)
        thread.start()
        yield "%s:%d" % listener.getsockname()
        thread.join()


def wait_until(holds):
    last = time.monotonic() + PATIENCE
    while not holds():
        assert time.monotonic() < last, "it didn't come to hold in time"
        time.sleep(0.02)
