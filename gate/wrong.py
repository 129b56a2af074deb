"""Tries the wrong bodies that the gate doesn't try: the prover has to refuse each of them."""

import re
import subprocess
import sys
import time

import kit
from copies import copy_crates, share_kept, workplace
from processes import started, with_temporary
from refused import bodies_of, crates_with_wrong_bodies, forget, note_refused, state_of
from report import BAD_EDIT, Report
from sources import JOINT_CI, below

REFUSED = re.compile(r"must-fail \w+/(\S+): refused, as it must be")
OF_EDIT = re.compile(rf"must-fail \w+/|.*{BAD_EDIT}")


def try_wrong_bodies(names):
    """Tries the wrong bodies of these crates, or of all that have some, crate by crate. Returns the status to end with."""
    having = crates_with_wrong_bodies()
    without = [it for it in names if it not in having]
    if without:
        print(f"There is no wrong body in crates/{without[0]}/wrong.", file=sys.stderr)
        return 2
    try:
        running = kit.version()
    except kit.NoKit as error:
        print(error, file=sys.stderr)
        return 1
    print(f"the kit is {running}", flush=True)
    failed = [it for it in names or having if not are_refused(it, kit.warning(running))]
    if failed:
        print(f"Not all wrong bodies were refused of: {' '.join(failed)}")
    return 1 if failed else 0


def are_refused(crate, warning):
    """Tries the wrong bodies of the crate, and notes whether all were refused. Returns that."""
    begun, state, bodies = time.monotonic(), state_of(crate), bodies_of(crate)
    print(f"{crate}: {len(bodies)} wrong bodies are tried", flush=True)
    report = Tries(warning)
    with workplace("wrong-bodies-") as (copy, temporary):
        copy_crates(copy, below(crate), edits_of=[crate])
        if not kit.keeps_what_passed():
            share_kept(copy, crate, below(crate))
        how = {"cwd": copy, "env": with_temporary(temporary), "stderr": subprocess.STDOUT, "text": True, "errors": "replace"}
        with started([sys.executable, "-B", JOINT_CI, crate], stdout=subprocess.PIPE, **how) as gate:
            for line in gate.stdout:
                report.hear(line.rstrip("\n"))
            is_well = gate.wait() == 0
    print(f"{crate}: {len(report.refused)} of {len(bodies)} wrong bodies refused in {time.monotonic() - begun:.0f} s", flush=True)
    if state_of(crate) != state:
        print(f"{crate} has changed meanwhile, so this isn't noted.", flush=True)
        return False
    if not is_well or report.refused != set(bodies):
        forget(crate)
        return False
    note_refused(crate, state)
    return True


class Tries(Report):
    """Shows what came of each wrong body, and else only what failed."""

    def __init__(self, warning):
        super().__init__(warning)
        self.refused = set()

    def tell(self, text):
        refused = REFUSED.match(text)
        if refused:
            self.refused.add(refused[1])
        if OF_EDIT.match(text) or "FAILED" in text:
            self.say(text)
