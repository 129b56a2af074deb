"""A server that nobody asks uses nearly no processor time: what the system has counted for it over two seconds."""

import time

import clusters
from clusters import ports_of
from program import Server
from wire import PING, PONG, ask, connect

SECONDS = 2
# Ticks of the system's clock, of 10 ms each.
MOST = 5


def play(judge):
    cluster = clusters.six_nodes(tick_ms=1000)
    with Server(cluster) as server:
        clients = [connect(port) for port in ports_of(cluster)]
        for client in clients:
            ask(client, PING, PONG)
        time.sleep(0.3)
        before = server.processor_ticks()
        time.sleep(SECONDS)
        judge.most("ticks of processor time of an idle server, a client at each node", server.processor_ticks() - before, MOST)
        for node, client in enumerate(clients):
            with client:
                judge.equal(f"node {node} answers after that", ask(client, PING, PONG), PONG)
