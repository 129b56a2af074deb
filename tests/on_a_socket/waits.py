"""`rcluster reshard` while it waits: after three seconds standard error tells for what, and again whenever the wait has become twice as long.
A target that refuses connections ends the run, and one that takes its time doesn't.

The nodes are the test's own at first. Then a target of a cluster is stopped while a key is on its way to it.
"""

import re
import socket
import threading
import time
from concurrent.futures import ThreadPoolExecutor

import clusters
import program
from clusters import ports_of
from moving import SLOT, SOURCE, TARGET
from program import Server
from progress import left_on, on_terminals
from resharding import (
    FOREIGN, ID, MOST_REPETITIONS, NOT_ACKNOWLEDGED, NOT_DRAINED, OWNED, Master, Masters, done, keys, line, slots_of, state, words_of,
)
from wire import OK, PATIENCE, connect, number, refuses_in_time, reply_of, spelled, talk

REFUSED = "Connection refused (os error 111) (V2)\n"
# How many seconds a source takes for an answer. It is told twice in that time: after three seconds, and after twice as long as that was.
SLOW = 9
# A tick of the cluster: a MIGRATE waits for a hundred of them.
TICK_MS = 20


def play(judge):
    rows = [play_target_that_goes, play_target_that_went, play_slow_target, play_slow_source, play_refusals, play_terminal, play_stop]
    with ThreadPoolExecutor(len(rows)) as pool:
        for played in [pool.submit(judged, judge, row) for row in rows]:
            played.result()


def judged(judge, row):
    with judge.part(row.__doc__):
        row(judge, row.__doc__)


class Busy(Master):
    """A node that does this before it answers a MIGRATE, of which the number is given."""

    def __init__(self, node, asked, does, *answers):
        self.does, self.migrates = does, 0
        super().__init__(node, asked, *answers)

    def hear(self, words):
        super().hear(words)
        if words[0] == b"MIGRATE":
            self.migrates += 1
            self.does(self.migrates)


def masters_with(does, *answers, before=([], [], []), kind=Busy):
    """Masters of which the source does this, and moves one key by these answers. Theirs to what comes before that slot stand in front.

    Behind these answers the run comes to its end.
    """
    masters = Masters([*before[0], OK], [*before[1], FOREIGN, OK, OK], [])
    masters.nodes[SOURCE].close()
    masters.nodes[SOURCE] = kind(SOURCE, masters.asked, does, *before[2], OWNED, OK, keys(b"foo"), *answers, OK, keys(), OK)
    masters.ports[SOURCE] = masters.nodes[SOURCE].port
    masters.nodes[0].answers[0] = slots_of(masters.ports)
    return masters


def lost(source, target):
    return f"rcluster: slot 12182: 127.0.0.1:{source} can't move a key to 127.0.0.1:{target}, which can't be reached: {REFUSED}".encode()


def told_of(error):
    """The lines that tell of waits, each as its seconds and what is waited for, and what else is on standard error."""
    waits = re.findall(rb"rcluster: waiting for (\d+) seconds so far: (.*)\n", error)
    return [(int(seconds), what.decode()) for seconds, what in waits], re.sub(rb"rcluster: waiting for .*\n", b"", error)


def about_migrate(ports):
    return f"127.0.0.1:{ports[SOURCE]} hasn't answered MIGRATE 127.0.0.1 {ports[TARGET]} \"\" 0 100 KEYS foo yet"


def judge_told(judge, what, told, ports):
    """The source is slow, and that is told twice."""
    judge.equal(f"{what}: what is told", [it for _, it in told], [about_migrate(ports)] * 2)
    first, second = [seconds for seconds, _ in told] if len(told) == 2 else (0, 0)
    judge.least(f"{what}: after how many seconds", first, 3)
    judge.least(f"{what}: after how many seconds again", second, 2 * first)


def play_target_that_goes(judge, what):
    """a target that goes as a key isn't acknowledged"""
    masters = masters_with(lambda count: count == 3 and masters.nodes[TARGET].close(), *[NOT_ACKNOWLEDGED] * 20)
    judge.equal(f"{what}: all of it", program.run(*words_of(masters.ports[0])), (1, b"fault V2\n", lost(masters.ports[SOURCE], masters.ports[TARGET])))
    judge.equal(f"{what}: how often it was asked for", masters.nodes[SOURCE].migrates, 3)
    masters.close()


def play_target_that_went(judge, what):
    """a target that goes while the source says nothing"""
    is_over = threading.Event()

    def keep_silent(_count):
        masters.nodes[TARGET].close()
        is_over.wait(PATIENCE)

    masters = masters_with(keep_silent)
    begun = time.monotonic()
    status, output, error = program.run(*words_of(masters.ports[0]))
    took = time.monotonic() - begun
    is_over.set()
    judge.equal(f"{what}: status and output", (status, output), (1, b"fault V2\n"))
    told, rest = told_of(error)
    judge.equal(f"{what}: what is told, and said", ([it for _, it in told], rest), ([about_migrate(masters.ports)], lost(masters.ports[SOURCE], masters.ports[TARGET])))
    judge.least(f"{what}: seconds", took, 3)
    masters.close()


def play_slow_target(judge, what):
    """a target that takes connections and acknowledges late"""
    masters = masters_with(lambda _count: time.sleep(0.2), *[NOT_ACKNOWLEDGED] * 20)
    status, output, error = program.run(*words_of(masters.ports[0]))
    judge.equal(f"{what}: status and output", (status, output), (0, line(1)))
    judge.equal(f"{what}: how often it was asked for", masters.nodes[SOURCE].migrates, 21)
    told, rest = told_of(error)
    judge.least(f"{what}: after how many seconds it is told", told[0][0] if told else 0, 3)
    judge.equal(f"{what}: what was done", done(rest), (1, 1, 0))
    masters.close()


def play_slow_source(judge, what):
    """a source that answers late"""
    masters = masters_with(lambda _count: time.sleep(SLOW))
    status, output, error = program.run(*words_of(masters.ports[0]))
    told, rest = told_of(error)
    judge.equal(f"{what}: status and output", (status, output), (0, line(1)))
    judge_told(judge, what, told, masters.ports)
    judge.equal(f"{what}: what was done", done(rest), (1, 1, 0))
    masters.close()


def play_refusals(judge, what):
    """a target that isn't drained for long"""
    masters = Masters([OK], [FOREIGN, OK, *[NOT_DRAINED] * 50, OK], [OWNED, OK, keys(), OK])
    status, output, error = program.run(*words_of(masters.ports[0]))
    told, rest = told_of(error)
    judge.equal(f"{what}: status and output", (status, output), (0, line(0)))
    asked = f"CLUSTER SETSLOT 12182 NODE {ID[TARGET].decode()} 1"
    said = f'127.0.0.1:{masters.ports[TARGET]} answered "ERR slot is not drained" to {asked}, and is asked again'
    judge.equal(f"{what}: the first that is told", [it for _, it in told[:1]], [said])
    judge.equal(f"{what}: what was done", done(rest), (1, 0, 0))
    masters.close()


def play_terminal(judge, what):
    """waits on a terminal"""
    class Unready(Busy):
        def hear(self, words):
            super().hear(words)
            if words[1] == b"SLOTSTATE":
                time.sleep(0.15)

    # A slot that is there already, behind which it is told how far the run has come.
    before = ([OK], [state(b"owned", ID[TARGET], 0, 3)], [state(b"foreign", ID[TARGET], 0, 3), OK])
    masters = masters_with(lambda _count: time.sleep(SLOW), before=before, kind=Unready)
    status, _, screen, _ = on_terminals(words_of(masters.ports[0], f"{SLOT - 1}-{SLOT}"))
    judge.equal(f"{what}: status", status, 0)
    judge.within(f"{what}: how far it has come", b"\rrcluster: slots done: 1 of 2, keys moved: 0\r", screen)
    told, rest = told_of(left_on(screen))
    judge_told(judge, what, told, masters.ports)
    lines = line(0, SLOT - 1, 3) + line(1)
    judge.equal(f"{what}: what is left there", (rest[:len(lines)], done(rest[len(lines):])), (lines, (1, 1, 1)))
    masters.close()


# ---- a cluster


class Hold:
    """Stands before the source of a move. It hands on each request and its reply, and does this before the first MIGRATE.

    As the address of the source it tells its own.
    """

    def __init__(self, port, does):
        self.source, self.does, self.migrates = port, does, 0
        self.listener = socket.create_server(("127.0.0.1", 0))
        self.port = self.listener.getsockname()[1]
        threading.Thread(target=self.serve, daemon=True).start()

    def serve(self):
        with self.listener:
            client, _ = self.listener.accept()
        with client, connect(self.source) as server:
            client.settimeout(program.PATIENCE)
            stream = client.makefile("rb")
            while header := stream.readline():
                words = [stream.read(int(stream.readline()[1:]) + 2)[:-2] for _ in range(int(header[1:]))]
                if words[0] == b"MIGRATE":
                    self.migrates += 1
                    if self.migrates == 1:
                        self.does()
                server.sendall(spelled(*words))
                client.sendall(reply_of(server).replace(number(self.source), number(self.port)))


def play_stop(judge, what):
    """a target is stopped while a key is on its way"""
    cluster = clusters.six_nodes(tick_ms=TICK_MS)
    ports = ports_of(cluster)
    with Server(cluster, "--stop", f"{TARGET}@{1000 // TICK_MS}"):
        judge.equal(f"{what}: a key is set", talk(ports[SOURCE], spelled(b"SET", b"foo", b"v")), OK)
        hold = Hold(ports[SOURCE], lambda: judge.true(f"{what}: it refuses clients", refuses_in_time(ports[TARGET]), "it doesn't"))
        begun = time.monotonic()
        came = program.run(*words_of(hold.port, limit=MOST_REPETITIONS))
        judge.equal(f"{what}: all of it", (came[:2], told_of(came[2])[1]), ((1, b"fault V2\n"), lost(hold.port, ports[TARGET])))
        judge.equal(f"{what}: how often it was asked for", hold.migrates, 1)
        judge.least(f"{what}: seconds until it isn't acknowledged", time.monotonic() - begun, 100 * TICK_MS / 1000)
        said = b"rcluster: slot 12182: 127.0.0.1:%d can't be reached: %s" % (ports[TARGET], REFUSED.encode())
        judge.equal(f"{what}: the same command again", program.run(*words_of(ports[SOURCE])), (1, b"fault V2\n", said))
