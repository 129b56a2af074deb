"""What the kit's gate says, as it is shown."""

import os
import re
import time

from processor_time import EDITS, PROOF
from sources import ROOT, libraries

# The kit passes over an edit that it can't apply or compile.
BAD_EDIT = ": BAD EDIT: "
COUNTS = re.compile(r"(\d+) passed, (\d+) failed")
PROVED = re.compile(r"(\w+) (?:proved$|(is kept:))")
# A row of the table in docs/GATE.md: a crate, the seconds of its proof, its edits, and their seconds.
ROW = re.compile(r"\| (\w+) \| (\d+) \| \d* \| (\d*) \|")
# How many of the crates that are left are named.
MOST_NAMES = 4


class Report:
    """Shows what the kit's gate says of each crate, and all lines of its check only where that failed."""

    def __init__(self, warning=None):
        self.lines = []
        self.passed, self.failed, self.bad_edits = 0, 0, 0
        self.begun = time.monotonic()
        # What is said before the first failure.
        self.warning = warning

    def hear(self, line):
        counts = COUNTS.match(line)
        if counts:
            self.passed, self.failed = int(counts[1]), int(counts[2])
        elif line.startswith("== "):
            self.lines = [line]
        elif line.endswith("NOT PROVED") or "NOT PROVED:" in line:
            if self.warning:
                self.say(self.warning)
                self.warning = None
            self.say("\n".join([*self.lines, line]))
            self.lines = []
        elif line.startswith("rt: "):
            self.bad_edits += BAD_EDIT in line
            self.tell(line[len("rt: "):])
            self.lines = []
        elif self.lines:
            self.lines.append(line)
        else:
            self.say(line)

    def tell(self, text):
        """Shows a line that the kit says of its own."""
        self.say(text)

    def say(self, text):
        print(f"{time.monotonic() - self.begun:6.0f} s  {text}", flush=True)


class Progress(Report):
    """The same, where each crate's line says which are left to prove, and how many seconds of a processor are left."""

    def __init__(self, proofs, edits, warning=None, spent=lambda crate, kind: 0):
        """The seconds of each crate's proof and of its edits, lowest first, and a call that tells those spent on either so far."""
        super().__init__(warning)
        self.proofs, self.edits, self.spent = dict(proofs), dict(edits), spent

    def tell(self, text):
        crate = PROVED.match(text)
        if not crate:
            self.say(text)
            return
        self.proofs.pop(crate[1], None)
        if crate[2]:
            self.edits.pop(crate[1], None)
        self.say(f"{crate[1]} is {'kept' if crate[2] else self.proved(crate[1])}; {self.rest()}")

    def proved(self, crate):
        seconds = self.spent(crate, PROOF)
        return f"proved in {seconds:.0f} s of a processor" if seconds else "proved"

    def rest(self):
        seconds = sum(self.proofs.values()) + sum(max(0, it - self.spent(crate, EDITS)) for crate, it in self.edits.items())
        if not self.proofs:
            return f"no proof is left, but some {seconds:,.0f} s of edits" if seconds else "no crate is left"
        names = [*self.proofs]
        more = " .." if names[MOST_NAMES:] else ""
        return f"{len(names)} left, some {seconds:,.0f} s: {', '.join(names[:MOST_NAMES])}{more}"


def known_seconds(crates):
    """Returns the seconds of a processor that the proofs of these crates took as docs/GATE.md tells, and those of their edits, lowest first."""
    with open(os.path.join(ROOT, "docs", "GATE.md"), encoding="utf-8") as file:
        rows = {row[1]: row for row in map(ROW.match, file) if row}
    names = [it for it in libraries() if it in crates]
    proofs = {it: int(rows[it][2]) if it in rows else 0 for it in names}
    edits = {it: int(rows[it][3] or 0) for it in names if it in rows}
    return proofs, edits
