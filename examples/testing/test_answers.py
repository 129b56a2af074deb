"""Each answer that a client of a cluster can meet, on order: docs/TESTING.md shows the same by hand. Where `ask` stands, put your client.

usage: pytest examples/testing, or without pytest: python3 examples/testing/test_answers.py
"""

from rcluster import Cluster, ask, losing_its_answer, node_id, wait_until

# Of three masters the last one, node 2, has the slot of this key.
SLOT = 12182


def test_moved(cluster):
    assert ask(cluster.addresses[0], "GET foo") == [f"-MOVED {SLOT} {cluster.addresses[2]}"]


def test_moved_once_the_slot_has_moved(cluster):
    assert ask(cluster.addresses[2], "SET foo bar") == ["+OK"]
    cluster.run("reshard", "--from", node_id(2), "--to", node_id(1), "--slots", f"{SLOT}-{SLOT}")
    assert ask(cluster.addresses[2], "GET foo") == [f"-MOVED {SLOT} {cluster.addresses[1]}"]
    assert ask(cluster.addresses[1], "GET foo") == ["bar"]


def test_ask(cluster):
    begin_to_move(cluster)
    assert ask(cluster.addresses[2], "GET foo") == [f"-ASK {SLOT} {cluster.addresses[1]}"]
    # ASKING is for the next command alone.
    replies = ask(cluster.addresses[1], "ASKING", "SET foo bar", "GET foo")
    assert replies == ["+OK", "+OK", f"-MOVED {SLOT} {cluster.addresses[2]}"]


def test_tryagain_while_keys_are_at_two_nodes(cluster):
    assert ask(cluster.addresses[2], "SET foo bar") == ["+OK"]
    begin_to_move(cluster)
    refused = "-TRYAGAIN Multiple keys request during rehashing of slot"
    assert ask(cluster.addresses[2], "MGET foo {foo}2") == [refused]
    assert ask(cluster.addresses[1], "ASKING", "MGET foo {foo}2") == ["+OK", refused]


def test_tryagain_while_a_key_is_being_moved():
    with Cluster() as cluster:
        assert ask(cluster.addresses[2], "SET foo bar") == ["+OK"]
        begin_to_move(cluster)
        # Node 1 never says that it has the key.
        cluster.stop(1)
        target = cluster.addresses[1].replace(":", " ")
        assert ask(cluster.addresses[2], f"MIGRATE {target} foo 0 10") == ["-IOERR copy not acknowledged"]
        assert ask(cluster.addresses[2], "GET foo") == ["-TRYAGAIN Key is being moved"]


def test_tryagain_while_a_master_hands_over():
    # Two of the three voters are gone, so the replica isn't elected.
    with Cluster(replicas=1) as cluster:
        for node in (0, 1):
            cluster.stop(node)
        assert ask(cluster.addresses[5], "CLUSTER FAILOVER") == ["+OK"]
        wait_until(lambda: ask(cluster.addresses[2], "GET foo") == ["-TRYAGAIN Node is handing over"])


def test_crossslot(cluster):
    assert ask(cluster.addresses[0], "MGET a b") == ["-CROSSSLOT Keys in request don't hash to the same slot"]


def test_clusterdown():
    node = {"id": node_id(0), "host": "127.0.0.1", "slots": [[0, 8191]]}
    with Cluster(config={"tick_ms": 100, "node_timeout": 20, "nodes": [node], "voters": [node_id(0)]}) as cluster:
        assert ask(cluster.addresses[0], "GET foo") == ["-CLUSTERDOWN Hash slot not served"]


def test_failover():
    with Cluster(replicas=1, ticks=100) as cluster:
        assert ask(cluster.addresses[2], "SET foo bar") == ["+OK"]
        cluster.stop(2)
        wait_until(lambda: ask(cluster.addresses[0], "GET foo") == [f"-MOVED {SLOT} {cluster.addresses[5]}"])
        assert ask(cluster.addresses[5], "GET foo") == ["bar"]


def test_planned_handover(cluster):
    assert ask(cluster.addresses[2], "SET foo bar") == ["+OK"]
    cluster.run("failover", "--node", "5", at=5)
    assert ask(cluster.addresses[2], "GET foo") == [f"-MOVED {SLOT} {cluster.addresses[5]}"]
    assert ask(cluster.addresses[5], "GET foo") == ["bar"]


def test_lost_answer():
    with Cluster(masters=1) as cluster, losing_its_answer(cluster.addresses[0]) as address:
        assert fails(address, "INCR foo")
        assert ask(cluster.addresses[0], "GET foo") == ["1"]


def test_audit():
    with Cluster(ticks=10) as cluster:
        replies = [ask(cluster.addresses[2], "INCR foo") for _ in range(100)]
        assert replies == [[count] for count in range(1, 101)]


def begin_to_move(cluster):
    assert ask(cluster.addresses[1], f"CLUSTER SETSLOT {SLOT} IMPORTING {node_id(2)}") == ["+OK"]
    assert ask(cluster.addresses[2], f"CLUSTER SETSLOT {SLOT} MIGRATING {node_id(1)}") == ["+OK"]


def fails(address, command):
    try:
        ask(address, command)
    except OSError:
        return True
    return False


if __name__ == "__main__":
    for name, test in list(globals().items()):
        if name.startswith("test_"):
            if test.__code__.co_argcount:
                with Cluster(replicas=1) as served:
                    test(served)
            else:
                test()
            print(f"{name}: passed", flush=True)
