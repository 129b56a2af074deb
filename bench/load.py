"""Requests to a server on this machine: those of redis-benchmark, and exact ones."""

import csv
import io
import resource
import socket
import subprocess

# How many requests of `send_all` are on their way at once.
WINDOW = 1000


def benchmark(port, test, count, keys, pipeline=1, size=16, connections=1):
    """Lets redis-benchmark send so many requests, and returns how many were answered a second.

    The test is one of its own, by name, or the words of a request. Keys are picked at random from as many, as is what
    `__rand_int__` stands for in a word, and values have that many bytes.
    """
    return rate_of(start(port, test, count, keys, pipeline, size, connections))


def benchmark_all(ports, tests, count, keys, pipeline, connections):
    """Lets a redis-benchmark at each port send so many requests of its test, all at once, and returns the sum of their rates."""
    begun = [start(port, test, count, keys, pipeline, 16, connections) for port, test in zip(ports, tests)]
    return sum(rate_of(process) for process in begun)


def costs(server, test, count, keys, pipeline, connections):
    """Returns the seconds of a processor that a request takes redis-benchmark, and those that it takes the server."""
    served, sent = server.processor_seconds(), children_seconds()
    benchmark(server.port, test, count, keys, pipeline, 16, connections)
    return (children_seconds() - sent) / count, (server.processor_seconds() - served) / count


def children_seconds():
    used = resource.getrusage(resource.RUSAGE_CHILDREN)
    return used.ru_utime + used.ru_stime


def latencies(port, test, count, keys, pipeline, size, connections, threads):
    """Lets redis-benchmark send so many requests by so many threads. Returns the rate, and milliseconds: `p50`, `p99` and `max`."""
    return latencies_of(start(port, test, count, keys, pipeline, size, connections, threads))


def latencies_of(process):
    row = row_of(process)
    return {"rate": float(row[1]), "p50": float(row[4]), "p99": float(row[6]), "max": float(row[7])}


def start(port, test, count, keys, pipeline, size, connections, threads=1):
    options = ["-p", port, "-c", connections, "-P", pipeline, "-n", count, "-r", keys, "-d", size, "--csv"]
    options += ["--threads", threads] if threads > 1 else []
    options += ["-t", test] if isinstance(test, str) else test
    return subprocess.Popen(
        ["redis-benchmark", *map(str, options)], stdout=subprocess.PIPE, stderr=subprocess.DEVNULL, text=True
    )


def rate_of(process):
    return float(row_of(process)[1])


def row_of(process):
    said = process.communicate()[0]
    if process.returncode:
        raise SystemExit(f"redis-benchmark ended with {process.returncode}")
    rows = [row for row in csv.reader(io.StringIO(said)) if len(row) > 1 and row[0] != "test"]
    return rows[-1]


def idle(port, count):
    """Opens so many connections that ask once for PONG and then say nothing. The caller closes them."""
    clients = []
    for _ in range(count):
        client = socket.create_connection(("127.0.0.1", port))
        client.sendall(encode(b"PING"))
        client.recv(16)
        clients.append(client)
    return clients


def encode(*words):
    """Returns the request as RESP spells it."""
    parts = [b"*%d\r\n" % len(words)]
    for word in words:
        parts += [b"$%d\r\n" % len(word), word, b"\r\n"]
    return b"".join(parts)


def send_all(port, requests, reply):
    """Sends the encoded requests, each of which has to get this reply."""
    with socket.create_connection(("127.0.0.1", port)) as client:
        batch = []
        for request in requests:
            batch.append(request)
            if len(batch) == WINDOW:
                send_batch(client, batch, reply)
                batch = []
        send_batch(client, batch, reply)


def send_batch(client, batch, reply):
    client.sendall(b"".join(batch))
    wanted = reply * len(batch)
    got = b""
    while len(got) < len(wanted):
        piece = client.recv(1 << 16)
        if not piece:
            raise SystemExit("the server closed the connection")
        got += piece
    if got != wanted:
        raise SystemExit(f"another reply than {reply}: {got[:100]}")
