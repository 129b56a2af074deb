"""`rcluster reshard` on a terminal: while slots move, one line on standard error tells how far the run has come. It is written over and
over in its place, ten times a second at most, and is gone at the end. Elsewhere nothing of it is printed.

The nodes are the test's own, and take their time.
"""

import os
import pty
import re
import subprocess
import threading
import time
import tty

import program
from moving import SLOT, SOURCE, TARGET
from resharding import ID, MOST_REPETITIONS, Master, Masters, OK, REFUSED, line, slots_of, state, words_of

SLOTS = 8
# How many seconds the source takes for each slot.
SLOW = 0.06
LINES = b"".join(line(0, SLOT + it, 3) for it in range(SLOTS))
TOLD = rb"rcluster: slots done: (\d+) of %d, keys moved: 0" % SLOTS
DONE = rb"rcluster: slots moved: 0, keys moved: 0, slots that were there before: %d, seconds: \d+\.\d{3}\n" % SLOTS
STOPPED = rb'rcluster: slot %d: 127\.0\.0\.1:\d+ answered "ERR no" to CLUSTER SLOTSTATE %d \(V3\)\n' % (SLOT + SLOTS - 1, SLOT + SLOTS - 1)


class Slow(Master):
    def hear(self, words):
        super().hear(words)
        if words[1] == b"SLOTSTATE":
            time.sleep(SLOW)


def play(judge):
    for is_refused in (False, True):
        what = "reshard that stops, " if is_refused else "reshard, "
        status, lines, last = (1, LINES[:LINES.rindex(b"slot")] + b"fault V3\n", STOPPED) if is_refused else (0, LINES, DONE)
        came, output, screen, took = run(is_refused, has_output=False)
        judge.equal(f"{what}standard error is a terminal: status and output", (came, output), (status, lines))
        judge.true(f"{what}standard error is a terminal: what is on it", re.fullmatch(rb"(\r%s)+\r {70}\r%s" % (TOLD, last), screen), repr(screen))
        told = [int(it) for it in re.findall(TOLD, screen)]
        judge.true(f"{what}standard error is a terminal: what is told rises", told == sorted(set(told)), repr(told))
        judge.least(f"{what}standard error is a terminal: how often it is told", len(told), 3)
        judge.most(f"{what}standard error is a terminal: how often it is told", len(told), took / 0.1)
        came, _, screen, _ = run(is_refused, has_output=True)
        judge.equal(f"{what}all is printed on a terminal: status", came, status)
        judge.true(f"{what}all is printed on a terminal: what was told", re.search(TOLD, screen), repr(screen))
        # Of a fault the sentence comes before the code.
        rest = b"".join(sorted(left_on(screen).splitlines(True), key=lambda it: it.startswith((b"rcluster", b"fault"))))
        wanted = re.escape(LINES[:LINES.rindex(b"slot")]) + last + b"fault V3\n" if is_refused else re.escape(LINES) + last
        judge.true(f"{what}all is printed on a terminal: what is left there", re.fullmatch(wanted, rest), repr(rest))
    came, error, screen, _ = run(False, has_output=True, has_errors=False)
    judge.equal("reshard, the output alone is a terminal: status, and what is on it", (came, screen), (0, LINES))
    judge.true("reshard, the output alone is a terminal: standard error", re.fullmatch(DONE, error), repr(error))


def run(is_refused, has_output, has_errors=True):
    """The status, what comes through a pipe, what comes on a terminal, and how many seconds a run took whose output or standard error, or
    both, are a terminal. It finds that each slot is moved already, and is perhaps refused at the last one.
    """
    masters = Masters([OK] * SLOTS, [state(b"owned", ID[TARGET], 0, 3)] * SLOTS, [])
    masters.nodes[SOURCE].close()
    answers = [state(b"foreign", ID[TARGET], 0, 3), OK] * SLOTS
    masters.nodes[SOURCE] = Slow(SOURCE, masters.asked, *(answers[:-2] + [REFUSED] if is_refused else answers))
    masters.nodes[0].answers[0] = slots_of([it.port for it in masters.nodes])
    outcome = on_terminals(words_of(masters.ports[0], f"{SLOT}-{SLOT + SLOTS - 1}", limit=MOST_REPETITIONS), has_output, has_errors)
    masters.close()
    return outcome


def on_terminals(words, has_output=True, has_errors=True):
    """The same of the program with these words."""
    controller, terminal = pty.openpty()
    # Nothing is changed on the way.
    tty.setraw(terminal)
    begun = time.monotonic()
    with subprocess.Popen(
        [program.PATH, *words], stdin=subprocess.DEVNULL,
        stdout=terminal if has_output else subprocess.PIPE, stderr=terminal if has_errors else subprocess.PIPE,
    ) as process:
        os.close(terminal)
        patience = threading.Timer(program.PATIENCE, process.kill)
        patience.start()
        screen = all_of(controller)
        pipe = process.stdout or process.stderr
        piped = pipe.read() if pipe else b""
    patience.cancel()
    os.close(controller)
    return process.returncode, piped, screen, time.monotonic() - begun


def all_of(controller):
    """All that comes on the terminal, until nobody has it open."""
    screen = bytearray()
    while True:
        try:
            screen += os.read(controller, 1 << 16)
        except OSError:
            return bytes(screen)


def left_on(screen):
    """What is left there to be seen: behind a carriage return a line is written over."""
    lines = []
    for text in screen.split(b"\n"):
        seen = b""
        for part in text.split(b"\r"):
            seen = part + seen[len(part):]
        lines.append(seen.rstrip(b" "))
    return b"\n".join(lines)
