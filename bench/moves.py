#!/usr/bin/env python3
"""Measures how fast keys move from one node to another: a slot of 10,000 keys by one `rcluster reshard`, and eight slots of 10,000 keys each by
eight of them at once; and how long a client's requests take while 500 slots move.

usage: bench/moves.py [PROGRAM] [--out FILE]    by default the program that ./check built

Both nodes are served by one process, and nobody else asks them but these clients. A copy of up to 16 keys takes two messages between the nodes: itself
and its acknowledgement. The report goes to the output, and to FILE.
"""

import binascii
import contextlib
import itertools
import multiprocessing
import re
import statistics
import subprocess
import sys
import time

import load
import servers
from run import measure
from watching import PATIENCE, percentile, playing, watch

KEYS, ROUNDS, AT_ONCE = 10_000, 5, 8
# The last slot of the first master, of two.
LAST = 8191
# How many slots move while a client of each master is watched, with how many keys each, for how many seconds it is watched before that, and how often.
MANY, FEW, BEFORE, WATCHES = 500, 20, 3, 5
# A key of each master, in a slot that stays.
STAYING = (b"b", b"a")


def main(words):
    measure(words, "keys that move", moves)


def moves(report):
    slots = tagged_slots(AT_ONCE)
    report.say("\n## Keys that move")
    report.say(f"\nTwo masters. {ROUNDS} times the slots go to the other master and come back; medians, with the least and the most in brackets.")
    report.table("What", *servers.WAYS)
    alone, together = zip(*(measured(options, slots) for options in servers.WAYS.values()))
    report.row(f"A slot of {KEYS:,} keys, seconds", *[spread(it, "{:.3f}") for it in alone])
    report.row(f"{AT_ONCE} such slots at once, seconds", *[spread(it, "{:.3f}") for it in together])
    report.say(f"\n## Requests while {MANY} slots move")
    report.say(f"\nOne `rcluster reshard` moves {MANY} slots with {FEW} keys each to the other master, and another one moves them back. A client at each master sets a key of a slot that stays, one request after another. Milliseconds that 99 of 100 requests take at most, of those in {BEFORE} seconds before and of those meanwhile; medians of {WATCHES} servers that are started in turn, with the least and the most in brackets.")
    report.table("What", *servers.WAYS)
    rounds = [[watched(options) for options in servers.WAYS.values()] for _ in range(WATCHES)]
    for what, form, figure in [
        ("Seconds, there and back", "{:.2f}", lambda it: it.took),
        ("Before", "{:.3f}", lambda it: it.before),
        ("Meanwhile", "{:.3f}", lambda it: it.meanwhile),
        ("Quotient", "{:.2f}", lambda it: it.meanwhile / it.before),
    ]:
        report.row(what, *[spread([figure(it) for it in each], form) for each in zip(*rounds)])


def spread(figures, form):
    least, middle, most = (form.format(it) for it in (min(figures), statistics.median(figures), max(figures)))
    return f"{middle} ({least} to {most})"


def measured(options, slots):
    """How many seconds one slot took each time, and all of them at once."""
    port = servers.free_ports(2)
    with servers.Server("rcluster", [servers.PROGRAM, "serve", "--masters", "2", "--port", str(port), *options], port) as server:
        for tag in slots.values():
            load.send_all(server.port, (load.encode(b"SET", b"{%b}%d" % (tag, it), b"value") for it in range(KEYS)), b"+OK\r\n")
        first = next(iter(slots))
        alone = [ended(start(server, turn, first)) for turn in range(2 * ROUNDS)]
        return alone, [all_at_once(server, turn, slots) for turn in range(2 * ROUNDS)]


def all_at_once(server, turn, slots):
    begun = time.monotonic()
    with contextlib.ExitStack() as stack:
        for run in [stack.enter_context(start(server, turn, slot)) for slot in slots]:
            ended(run)
    return time.monotonic() - begun


class Watched:
    """How long a move took, in seconds, and what 99 of 100 requests took at most before it and meanwhile, in milliseconds."""

    def __init__(self, took, before, meanwhile):
        self.took = took
        self.before, self.meanwhile = (1000 * percentile(sorted(it), 99) for it in (before, meanwhile))


def watched(options):
    ports = servers.free_ports(2)
    slots = dict(tags_of(range(MANY)))
    with servers.Server("rcluster", [servers.PROGRAM, "serve", "--masters", "2", "--port", str(ports), *options], ports) as server:
        keys = (b"{%b}%d" % (tag, it) for tag in slots.values() for it in range(FEW))
        load.send_all(server.port, (load.encode(b"SET", key, b"value") for key in keys), b"+OK\r\n")
        ended_all, told = multiprocessing.Event(), multiprocessing.Queue()
        players = [multiprocessing.Process(target=watch, args=(ports + it, key.decode(), ended_all, told)) for it, key in enumerate(STAYING)]
        with playing(players, ended_all):
            time.sleep(BEFORE)
            begun = time.monotonic()
            for turn in range(2):
                run = start(server, turn, 0, MANY - 1)
                _, error = run.communicate()
                if run.returncode:
                    sys.exit(f"a run failed: {error!r}")
            took = time.monotonic() - begun
            ended_all.set()
            requests = [it for _ in players for it in told.get(timeout=PATIENCE)[1]]
    before = [it for sent, it in requests if begun - BEFORE <= sent < begun]
    return Watched(took, before, [it for sent, it in requests if begun <= sent < begun + took])


def tagged_slots(count):
    """So many slots of the first node, each with a tag that hashes to it."""
    return dict(itertools.islice(tags_of(range(LAST + 1)), count))


def tags_of(slots):
    """These slots with a tag for each, in the order in which tags are found."""
    found = set()
    for it in range(1_000_000):
        tag = b"%d" % it
        slot = slot_of(tag)
        if slot in slots and slot not in found:
            found.add(slot)
            yield slot, tag
        if len(found) == len(slots):
            return


def slot_of(key):
    return binascii.crc_hqx(key, 0) % 16384


def start(server, turn, first, last=None):
    """A run that moves the slot, or these slots, in turn from the first master to the second and back."""
    source, target = ("%040x" % it for it in (turn % 2, 1 - turn % 2))
    words = [servers.PROGRAM, "reshard", "--addr", f"127.0.0.1:{server.port}", "--from", source, "--to", target, "--slots", f"{first}-{first if last is None else last}"]
    return subprocess.Popen(words, stdout=subprocess.DEVNULL, stderr=subprocess.PIPE)


def ended(run):
    """The seconds that a run says it took."""
    _, error = run.communicate()
    told = re.search(rb"keys moved: (\d+), .*seconds: (\d+\.\d+)", error)
    if run.returncode or not told or int(told[1]) != KEYS:
        sys.exit(f"a run failed: {error!r}")
    return float(told[2])


if __name__ == "__main__":
    main(sys.argv[1:])
