"""Servers on free ports of this machine: the built program, and a Redis beside it."""

import contextlib
import json
import os
import random
import re
import signal
import socket
import subprocess
import tempfile
import time

ROOT = os.path.dirname(os.path.dirname(os.path.abspath(__file__)))
PROGRAM = os.environ.get("RCLUSTER") or os.path.join(ROOT, "crates", "rcluster", "out", "rcluster")
# How long a server may take until it listens, in seconds: under valgrind that is long.
PATIENCE = 60
# The ways in which the program serves its clients, by their names in a report, each with the options of `serve`.
WAYS = {"a thread each": (), "`--loops 2`": ("--loops", "2")}
# Three masters are measured with one thread each, too: so `./serve` has them serve on four processors.
WAYS_OF_THREE = {**WAYS, "`--loops 1`": ("--loops", "1")}


def free_port():
    while True:
        port = random.randrange(10000, 30000)
        with socket.socket() as taken:
            try:
                taken.bind(("127.0.0.1", port))
                return port
            except OSError:
                continue


def free_ports(count):
    """The first of so many ports in a row that are free."""
    while True:
        first = free_port()
        with contextlib.ExitStack() as stack, contextlib.suppress(OSError):
            for port in range(first, first + count):
                stack.enter_context(socket.socket()).bind(("127.0.0.1", port))
            return first


class Server:
    """A server that runs until the `with` ends. The temporary file of its configuration, if it has one, is removed then."""

    def __init__(self, name, words, port, under=(), file=None):
        self.name = name
        self.port = port
        self.file = file
        self.process = subprocess.Popen(
            [*under, *words], stdout=subprocess.DEVNULL, stderr=subprocess.PIPE, text=True
        )
        self.said = ""

    def __enter__(self):
        for _ in range(PATIENCE * 10):
            try:
                with socket.create_connection(("127.0.0.1", self.port), 1) as client:
                    client.sendall(b"*1\r\n$4\r\nPING\r\n")
                    if client.recv(16).startswith(b"+PONG"):
                        return self
            except OSError:
                pass
            time.sleep(0.1)
        self.__exit__()
        raise SystemExit(f"{self.name} doesn't answer: {self.said[-300:]}")

    def __exit__(self, *_):
        self.process.send_signal(signal.SIGTERM)
        self.said = self.process.communicate(timeout=PATIENCE)[1]
        if self.file:
            self.file.close()

    def processor_seconds(self):
        with open(f"/proc/{self.process.pid}/stat", encoding="utf-8") as file:
            fields = file.read().rsplit(")", 1)[1].split()
        return (int(fields[11]) + int(fields[12])) / os.sysconf("SC_CLK_TCK")

    def resident_bytes(self):
        return self.bytes_of("VmRSS")

    def most_bytes(self):
        """The most resident memory that the process had so far."""
        return self.bytes_of("VmHWM")

    def bytes_of(self, name):
        with open(f"/proc/{self.process.pid}/status", encoding="utf-8") as file:
            return int(re.search(rf"{name}:\s+(\d+) kB", file.read())[1]) * 1024


def rcluster(*options, under=(), program=None):
    """Returns one node that owns all slots, of this program or of `PROGRAM`."""
    return cluster_of(masters(1), options, under, program)


def three_masters(*options):
    """Returns three nodes with a third of the slots each; their ports are `ports`."""
    return cluster_of(masters(3), options)


def with_replicas(count, *options, under=(), **settings):
    """Returns so many masters that share the slots, and behind them a replica of each; their ports are `ports`. The settings are those of the
    configuration.
    """
    replicas = [{"replica_of": id_of(number)} for number in range(count)]
    return cluster_of([*masters(count), *replicas], options, under, **{"tick_ms": 100, "node_timeout": 1000, **settings})


def masters(count):
    """What the configuration says of so many masters that share the slots evenly."""
    bounds = [round(16384 * number / count) for number in range(count + 1)]
    return [{"slots": [[first, behind - 1]]} for first, behind in zip(bounds, bounds[1:])]


def id_of(number):
    return "%040x" % number


def cluster_of(roles, options, under=(), program=None, tick_ms=10000, node_timeout=20, **settings):
    first = free_ports(len(roles))
    nodes = [{"id": id_of(number), "host": "127.0.0.1", "port": first + number, **role} for number, role in enumerate(roles)]
    voters = [node["id"] for node in nodes if "slots" in node]
    file = tempfile.NamedTemporaryFile("w", suffix=".json", prefix="bench-")
    json.dump({"tick_ms": tick_ms, "node_timeout": node_timeout, "nodes": nodes, "voters": voters, **settings}, file)
    file.flush()
    server = Server("rcluster", [program or PROGRAM, "serve", "--config", file.name, *options], first, under, file)
    server.ports = [node["port"] for node in nodes]
    return server


def redis(under=()):
    """Returns a Redis that stores nothing on a disk."""
    port = free_port()
    words = ["redis-server", "--port", str(port), "--bind", "127.0.0.1", "--save", "", "--appendonly", "no", "--maxclients", "12000", "--dir", tempfile.gettempdir()]
    return Server("redis", words, port, under)


def redis_version():
    said = subprocess.run(["redis-server", "--version"], capture_output=True, text=True, check=True).stdout
    return re.search(r"v=(\S+)", said)[1]
