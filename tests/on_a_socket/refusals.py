"""What the program prints where it doesn't serve: the status, the code on standard output, the sentence on standard error.

The sentence of each faulty configuration is shown by `tests/cases/data/configuration.cases`; here two are compared whole, and of the others that they begin
with the program's and the file's name and end with the code.
"""

import json
import os
import socket
from unittest import mock

import clusters
import program
from clusters import node_id, ports_of
from wire import NIL, PING, PONG, array, ask, bulk, connect, moved, number, slot_of, spelled, talk

SERVE = ("serve", "--config", program.FILE)
KEY = b"foo"
SLOT = slot_of(KEY)


def faulty_clusters():
    """A change of the six nodes for each code, with its sentence where that is compared."""
    def changed(change):
        cluster = clusters.six_nodes()
        change(cluster)
        return cluster
    yield "a time that is a text", "K1", changed(lambda it: it.update(tick_ms="100")), "tick_ms: an integer of 64 bits without a fraction or an exponent is wanted"
    yield "a strange member", "K1", changed(lambda it: it.update(colour="red")), None
    yield "ids that fall", "K2", changed(lambda it: it["nodes"].reverse()), None
    yield "a slot of two masters", "K3", changed(lambda it: it["nodes"][0].update(slots=[[0, 5461]])), "nodes[1].slots: slot 5461 is in nodes[0].slots too"
    yield "a replica of a replica", "K4", changed(lambda it: it["nodes"][5].update(replica_of=node_id(3))), None
    yield "no voters", "K5", changed(lambda it: it.update(voters=[])), None
    yield "17 nodes", "K6", clusters.masters(17), None
    yield "an address twice", "K7", changed(lambda it: it["nodes"][5].update(port=it["nodes"][1]["port"])), None
    yield "a port out of range", "K8", changed(lambda it: it["nodes"][5].update(port=65536)), None


def play(judge):
    play_faulty_files(judge)
    play_scripts(judge)
    play_masters(judge)
    play_backlogs(judge)
    play_reach(judge)
    play_pace(judge)
    play_taken_ports(judge)
    play_words(judge)


def play_faulty_files(judge):
    status, output, error = program.run("serve", "--config", "no/such/file.json")
    judge.equal("no file: status and code", (status, output), (1, b"fault F1\n"))
    judge_sentence(judge, "no file", error, b"no/such/file.json", b"(F1)")
    rows = [(what, code, json.dumps(cluster), sentence) for what, code, cluster, sentence in faulty_clusters()]
    for what, code, text, sentence in [*rows, ("no JSON", "K1", "{", None), ("an empty file", "K1", "", None)]:
        status, output, error = program.run(*SERVE, text=text)
        judge.equal(f"{what}: status and code", (status, output), (1, b"fault %s\n" % code.encode()))
        judge_sentence(judge, what, error, program.FILE.encode(), b"(%s)" % code.encode())
        if sentence:
            judge.equal(f"{what}: the sentence", error.decode(), f"rcluster: {program.FILE}: {sentence} ({code})\n")
        judge.equal(f"{what}: checked alone", program.run(*SERVE, "--check", text=text), (status, output, error))
    sound = json.dumps(clusters.six_nodes())
    judge.equal("a sound file, checked alone", program.run(*SERVE, "--check", text=sound), (0, b"", b""))
    judge.equal("nodes that are to be stopped, checked alone", program.run(*SERVE, "--stop", "5@1", "--stop", "0@1000000", "--check", text=sound), (0, b"", b""))


def play_scripts(judge):
    """Lines that are no step, and can't be told by a case of tests/simulated."""
    words = ("simulate", "--config", program.FILE, "--script", "script")
    for line, said in [
        (b"tick 0\r", "it ends with a carriage return: \"tick 0\\r\""),
        (b"# the slot moves", "a script has no comments: \"# the slot moves\""),
        (b"call 1 GET \xff", "it has a byte that isn't from 32 to 126: \"call 1 GET \\xff\""),
        (b"x" * 101, f"no step begins with \"{'x' * 100}..\": \"{'x' * 100}..\""),
    ]:
        came = program.run(*words, text=json.dumps(clusters.masters(1)), files={"script": b"tick 0\n" + line + b"\ntick 0\n"})
        sentence = f"rcluster: script: line 2 is no step, because {said} (S2)\n"
        judge.equal(f"a script with the line {line!r}", came, (1, b"fault S2\n", sentence.encode()))


def play_masters(judge):
    """Clusters without a file: so many masters, and so many replicas of each."""
    for count, replicas in ((1, None), (3, None), (16, 0), (1, 15), (3, 1), (5, 2)):
        what = f"{count} masters" if replicas is None else f"{count} masters with {replicas} replicas each"
        nodes = count * (1 + (replicas or 0))
        options = () if replicas is None else ("--replicas", str(replicas))
        port = clusters.free_row(nodes)
        with program.Server({"nodes": range(nodes)}, source=("--masters", str(count), *options, "--port", str(port))) as server:
            ports = range(port, port + nodes)
            judge.equal(f"{what}: the lines of the nodes", server.lines, b"".join(b"node %d 127.0.0.1:%d\n" % it for it in enumerate(ports)))
            bounds = [(2 * 16384 * it + count) // (2 * count) for it in range(count + 1)]
            slots = array(
                *(
                    array(number(bounds[it]), number(bounds[it + 1] - 1), array(bulk(b"127.0.0.1"), number(port + it), bulk(node_id(it).encode())))
                    for it in range(count)
                )
            )
            judge.equal(f"{what}: the slots", talk(ports[-1], spelled(b"CLUSTER", b"SLOTS")), slots)
            ids = [talk(it, spelled(b"CLUSTER", b"MYID")) for it in ports]
            judge.equal(f"{what}: the ids", ids, [bulk(node_id(it).encode()) for it in range(nodes)])
            owner = next(it for it in range(count) if SLOT < bounds[it + 1])
            got = [talk(it, spelled(b"GET", KEY)) for it in ports]
            judge.equal(f"{what}: who has a key", got, [NIL if it == owner else moved(SLOT, port + owner) for it in range(nodes)])
    for what, words in [
        ("masters", ("--masters", "16")),
        ("masters up to the last port", ("--masters", "3", "--port", "65533")),
        ("masters and replicas", ("--masters", "4", "--replicas", "3")),
        ("masters and replicas up to the last port", ("--masters", "2", "--replicas", "1", "--port", "65532")),
        ("masters with the least backlog", ("--masters", "2", "--backlog", "1")),
        ("masters and replicas with the greatest backlog", ("--masters", "2", "--replicas", "1", "--backlog", "16777216")),
    ]:
        judge.equal(f"{what}, checked alone", program.run("serve", *words, "--check"), (0, b"", b""))


def play_backlogs(judge):
    """How many bytes of its stream a node keeps: none without replicas; else by an option, as the configuration has it, or 16 MiB."""
    for backlog in ("0", "16777217", "18446744073709551615"):
        sentence = f"rcluster: backlog: {backlog} isn't from 1 to 16777216 (K8)\n"
        for more in ((), ("--check",)):
            came = program.run("serve", "--masters", "1", "--backlog", backlog, *more)
            judge.equal(f"{' '.join(('a backlog of', backlog, *more))}", came, (1, b"fault K8\n", sentence.encode()))
    least = addresses("--replicas", "1", "--backlog", "1")
    for what, options, backlog in [
        ("a replica, and nothing said", ("--replicas", "1"), 16 << 20),
        ("a replica, and a backlog", ("--replicas", "1", "--backlog", str(4 << 20)), 4 << 20),
    ]:
        # The bytes lie in eight pages, and one more is filled meanwhile.
        pages = round((addresses(*options) - least) / 2 / (backlog // 8))
        judge.equal(f"{what}: pages of an eighth of the backlog that each node has", pages, 9)
    least = addresses("--backlog", "1")
    for what, options in [("nothing said", ()), ("a backlog", ("--backlog", str(16 << 20)))]:
        judge.equal(f"no replica, and {what}: MiB that the node keeps", round((addresses(*options) - least) / (1 << 20)), 0)


def addresses(*options):
    """How many bytes of addresses a master that is served with these options takes, beside the stacks of its threads and small blocks."""
    port = clusters.free_row(2)
    # Without this the system's library has addresses for each thread, and for some of them more than for others.
    with mock.patch.dict(os.environ, MALLOC_ARENA_MAX="1"):
        server = program.Server({"nodes": range(2 if "--replicas" in options else 1)}, source=("--masters", "1", "--port", str(port), *options))
        with server, connect(port) as client:
            ask(client, PING, PONG)
            with open(f"/proc/{server.process.pid}/maps", encoding="ascii") as file:
                return sum(large_blocks(file))


def large_blocks(maps):
    """The sizes of the mappings that have no name. A stack is one, too, and stands behind a page that nobody may touch."""
    guard = None
    for line in maps:
        place, rights, *_, name = [*line.split(), ""] if len(line.split()) == 5 else line.split()
        first, behind = (int(it, 16) for it in place.split("-"))
        if rights == "rw-p" and not name and first != guard:
            yield behind - first
        guard = behind if rights == "---p" else None


def play_reach(judge):
    """Who serves at a host that others may reach is told so."""
    for host, is_told in [("127.0.0.1", False), ("127.0.0.2", False), ("0.0.0.0", True)]:
        cluster = clusters.masters(2, tick_ms=10)
        cluster["nodes"][1]["host"] = host
        status, _, error = program.run(*SERVE, "--ticks", "2", text=json.dumps(cluster))
        port = ports_of(cluster)[1]
        sentence = (
            f"rcluster: the host {host} of node 1 is no loopback address: there is no password and no TLS, "
            f"and whoever reaches port {port} reads and writes all keys\n"
        )
        judge.equal(f"a node at {host}: status and standard error", (status, error.decode()), (0, sentence if is_told else ""))


def play_pace(judge):
    """Where ticks are shorter than what the nodes do at one, that is told, and is no fault."""
    for nodes, tick_ms, cost in [(16, 1, 5), (16, 4, 5), (16, 5, None), (10, 1, 2), (10, 2, None), (6, 1, None), (1, 1, None)]:
        cluster = clusters.masters(nodes, tick_ms=tick_ms)
        sentence = (
            f"rcluster: ticks of {tick_ms} ms are too short for {nodes} nodes: what these tell each other at each tick "
            f"takes a processor for some {cost} ms, and clients wait meanwhile\n"
        )
        wanted = sentence.encode() if cost else b""
        what = f"{nodes} nodes with ticks of {tick_ms} ms"
        judge.equal(f"{what}, checked alone", program.run(*SERVE, "--check", text=json.dumps(cluster)), (0, b"", wanted))
        status, _, error = program.run(*SERVE, "--ticks", "2", text=json.dumps(cluster))
        judge.equal(f"{what}: status and standard error", (status, error), (0, wanted))


def play_taken_ports(judge):
    for node in (0, 3):
        cluster = clusters.six_nodes()
        port = ports_of(cluster)[node]
        with socket.socket() as other:
            other.bind(("127.0.0.1", port))
            other.listen()
            status, output, error = program.run(*SERVE, text=json.dumps(cluster))
        what = f"the port of node {node} is taken"
        judge.equal(f"{what}: status and code, and no node's line", (status, output), (1, b"fault F2\n"))
        judge_sentence(judge, what, error, b"127.0.0.1:%d" % port, b"(F2)")
    cluster = clusters.masters(1)
    with program.Server(cluster):
        status, output, _ = program.run(*SERVE, text=json.dumps(cluster))
        judge.equal("another server has the port: status and code", (status, output), (1, b"fault F2\n"))
        judge.equal("and that server goes on", talk(*ports_of(cluster), PING), PONG)


def judge_sentence(judge, what, error, place, code):
    """One line on standard error, with the program's name first, the place within and the code last."""
    judge.equal(f"{what}: one line on standard error", error.count(b"\n"), 1)
    judge.equal(f"{what}: it begins with the program and ends with the code", (error[:10], error[-6:]), (b"rcluster: ", b" " + code + b"\n"))
    judge.within(f"{what}: it names the place", place, error)


def faulty_words():
    """Words that are no command line, with what standard error has to say of them."""
    for ticks in ("0", "1000001", "18446744073709551616", "x", "1.5"):
        yield (*SERVE, "--ticks", ticks), f"invalid value '{ticks}' for '--ticks <N>'"
    yield (*SERVE, "--ticks", "-1"), "unexpected argument '-1'"
    yield (*SERVE, "--ticks"), "a value is required for '--ticks <N>'"
    for stop in ("", "1", "1@", "@1", "x@1", "1@x", "1@0", "1@1000001", "01@1", "1@01", "+1@1", "1@1@1", "1@1.5", "18446744073709551616@1"):
        yield (*SERVE, "--stop", "0@1", "--stop", stop), f'"{stop}" is no stop: --stop takes N@TICKS'
    for loops in ("0", "9", "x", ""):
        yield (*SERVE, "--loops", loops), f"invalid value '{loops}' for '--loops <N>'"
    yield (*SERVE, "--loops", "-1"), "unexpected argument '-1'"
    yield (*SERVE, "--loops"), "a value is required for '--loops <N>'"
    yield (*SERVE, "--loops", "2", "--loops", "2"), "cannot be used multiple times"
    yield (*SERVE, "--stop"), "a value is required for '--stop <N@TICKS>'"
    yield (*SERVE, "--stop", "-1@1"), "unexpected argument '-1'"
    yield (*SERVE, "--stop", "0@1", "--stop", "1@1"), "error: --stop names node 1, and the last node of the cluster is node 0"
    yield (*SERVE, "--check", "--stop", "16@1000000"), "error: --stop names node 16, and the last node of the cluster is node 0"
    yield ("serve", "--masters", "2", "--replicas", "1", "--stop", "4@1"), "error: --stop names node 4, and the last node of the cluster is node 3"
    yield (), "Usage: "
    yield ("serve",), "error: one of --config FILE and --masters M is required\n"
    yield ("serve", "--check"), "error: one of --config FILE and --masters M is required\n"
    yield ("serve", "--config"), "a value is required for '--config <FILE>'"
    yield ("serve", "--colour", "red"), "unexpected argument '--colour'"
    yield ("stop",), "unrecognized subcommand 'stop'"
    yield (*SERVE, "--masters", "3"), "cannot be used with"
    yield ("serve", "--port", "7000"), "were not provided:\n  --masters <M>\n\n"
    yield (*SERVE, "--port", "7000"), "cannot be used with '--port <P>'"
    for count in ("0", "17", "x"):
        yield ("serve", "--masters", count), f"invalid value '{count}' for '--masters <M>'"
    for port in ("x", "65536"):
        yield ("serve", "--masters", "1", "--port", port), f"invalid value '{port}' for '--port <P>'"
    for count, replicas, port in (("3", "0", "65534"), ("3", "1", "65531"), ("1", "15", "65521")):
        yield ("serve", "--masters", count, "--replicas", replicas, "--port", port), "the last one is above 65535"
    yield ("serve", "--replicas", "1"), "were not provided:\n  --masters <M>\n\n"
    yield (*SERVE, "--replicas", "1"), "cannot be used with '--replicas <R>'"
    for replicas in ("16", "x"):
        yield ("serve", "--masters", "1", "--replicas", replicas), f"invalid value '{replicas}' for '--replicas <R>'"
    yield ("serve", "--masters", "1", "--replicas", "-1"), "unexpected argument '-1'"
    yield ("serve", "--backlog", "1"), "were not provided:\n  --masters <M>\n\n"
    yield (*SERVE, "--backlog", "1"), "cannot be used with '--backlog <N>'"
    yield ("serve", "--masters", "1", "--backlog"), "a value is required for '--backlog <N>'"
    yield ("serve", "--masters", "1", "--backlog", "-1"), "unexpected argument '-1'"
    for backlog in ("x", "1.5", "18446744073709551616"):
        yield ("serve", "--masters", "1", "--backlog", backlog), f"invalid value '{backlog}' for '--backlog <N>'"
    for count, replicas in (("2", "8"), ("9", "1"), ("16", "1"), ("4", "4"), ("2", "15")):
        yield ("serve", "--masters", count, "--replicas", replicas), "make more than 16 nodes"


def play_words(judge):
    text = json.dumps(clusters.masters(1))
    for words, said in faulty_words():
        what = f"the words {' '.join(words)!r}"
        status, output, error = program.run(*words, text=text)
        judge.equal(f"{what}: status, and nothing on standard output", (status, output), (2, b""))
        judge.within(f"{what}: usage on standard error", said.encode(), error)
    said = b"error: a word of the command line isn't UTF-8\n\nFor more information, try '--help'.\n"
    judge.equal("a word that isn't UTF-8", program.run("cli", "--addr", "127.0.0.1:7000", "GET", b"\xff"), (2, b"", said))
    judge.equal("--version", program.run("--version"), (0, b"rcluster 0.1.0\n", b""))
    status, output, error = program.run("serve", "--help")
    judge.equal("serve --help: status, and nothing on standard error", (status, error), (0, b""))
    for option in (b"--config <FILE>", b"--masters <M>", b"--replicas <R>", b"--port <P>", b"--backlog <N>", b"--check", b"--ticks <N>", b"--stop <N@TICKS>", b"--loops <N>", b"--journal", b"--log"):
        judge.within(f"serve --help tells {option.decode()}", option, output)
    for verb, codes in [
        ("serve", ["F1", "F2", "F3", *(f"K{it}" for it in range(1, 9))]),
        ("simulate", ["F1", "K1 to K8", "S and N", "F3"]),
        ("cli", ["F3", *(f"C{it}" for it in range(1, 8))]),
        ("reshard", ["F3", "V1", "V2", "V3"]),
    ]:
        status, output, _ = program.run(verb, "--help")
        listed = output.decode().partition("Codes:\n")[2]
        judge.equal(f"{verb} --help: status", status, 0)
        judge.equal(f"{verb} --help: codes that it doesn't tell", [it for it in (*codes, "F4") if f"  {it}  " not in listed], [])
        judge.within(f"{verb} --help tells the statuses", "Exit status:\n  0  ", output.decode())
        judge.within(f"{verb} --help tells of wrong words", "\n  2  an argument is wrong or missing", output.decode())
