"""Runs the kit's gate, `rt ci`, without its last act, and tries the edits of a crate together.

usage: python3 gate/joint_ci.py NAME ..    as `rt ci NAME ..`, or as `rt must-fail NAME ..` where the kit's gate takes no names

The kit tries each edit in a check of its own. But the callers of a function are proved from its contract alone, so the bodies of
several functions can be wrong in one check: the prover tells of each function whether it is proved. An edit is refused where it
changes the body of one function, and that function isn't proved for a reason of its own, and not only because it calls one that
isn't. Each other edit is tried by the kit, alone.
"""

import os
import sys
import threading

import bodies
import kit
import kit_command
import sparing_ci
from copies import CHECKED

# What is used of the kit's command.
PARTS = ("must_fail", "checked", "edits_of", "edited")
# What it has beside that where its gate takes names, and where it doesn't.
WITH_NAMES = ("REFUSED", "Kept")
WITHOUT_NAMES = ("must_fail_all", "edits_alone")
# A check that came to a verdict ends with this line.
VERDICT = "logic="
LONGEST = 160


def main(names):
    try:
        rt = kit_command.load()
        takes_names = kit.keeps_what_passed()
    except kit.NoKit as error:
        print(error, file=sys.stderr)
        return 2
    joint = Joint(rt)
    if not all(hasattr(rt, it) for it in (*PARTS, *(WITH_NAMES if takes_names else WITHOUT_NAMES))):
        print("This kit tries the wrong bodies one by one.", file=sys.stderr)
    elif takes_names:
        rt.must_fail, rt.Kept.keep_tried = joint.must_fail, lambda kept, *tried: joint.keep_tried(kept, *tried)
    else:
        rt.must_fail, rt.must_fail_all = joint.must_fail, joint.must_fail_all
    if takes_names:
        sparing_ci.keep_all(rt)
        return rt.main(["ci", *names])
    return rt.main(["must-fail", *names])


class Joint:
    """Tries the edits of each crate together, once the first of them is asked for."""

    def __init__(self, rt):
        self.rt, self.alone = rt, rt.must_fail
        self.keep = rt.Kept.keep_tried if hasattr(rt, "Kept") else None
        self.refused, self.told, self.locks, self.guard = {}, set(), {}, threading.Lock()

    def must_fail(self, crate, edit, flags, kept=None):
        """Stands for the kit's function of this name: returns what a try of the edit comes to, and what to say."""
        why = self.refusals(crate, flags, kept).get(edit) if kept else None
        if why is None:
            return self.alone(crate, edit, flags, kept)
        text = f"must-fail {crate.name}/{os.path.basename(edit)}: refused, as it must be: {why[:LONGEST]}"
        self.told.add(text)
        return getattr(self.rt, "REFUSED", True), text

    def must_fail_all(self, crate, edits, flags):
        """Stands for the older kits' function of this name, and begins with what the last check of the crate kept."""
        kept = os.path.join(crate.folder, "out", CHECKED)
        os.makedirs(kept, exist_ok=True)
        tried = [self.must_fail(crate, it, flags, kept) for it in edits]
        if not self.rt.checked(crate, {}, flags, kept).returncode:
            return tried
        return [(False, f"must-fail {crate.name}/{os.path.basename(it)}: the crate isn't proved without it") for it in edits]

    def keep_tried(self, kept, name, kind, text):
        """Stands for the kit's function of this name: the gate takes no verdict from here but the kit's own."""
        if text not in self.told:
            self.keep(kept, name, kind, text)

    def refusals(self, crate, flags, kept):
        with self.guard:
            lock = self.locks.setdefault(crate.name, threading.Lock())
        with lock:
            if crate.name not in self.refused:
                self.refused[crate.name] = self.tried(crate, flags, kept)
        return self.refused[crate.name]

    def tried(self, crate, flags, kept):
        """Returns the crate's edits that were refused together with others, each with the reason."""
        functions = {it: bodies.function_of(crate.name, it, crate.folder) for it in self.rt.edits_of(crate)[0]}
        left, found = [it for it in functions if functions[it]], {}
        while left:
            batch = one_a_function(left, functions)
            new = self.try_together(crate, batch, functions, flags, kept) if len(batch) > 1 else {}
            if not new:
                break
            found.update(new)
            left = [it for it in left if it not in found]
        return found

    def try_together(self, crate, batch, functions, flags, kept):
        """Tries these edits in one check, or each half where that comes to no verdict. Returns those that were refused, with the reasons."""
        lines = self.check(crate, batch, flags, kept)
        if lines is not None:
            told = {it: bodies.refused(lines, functions[it]) for it in batch}
            return {it: why for it, why in told.items() if why}
        if len(batch) == 1:
            return {}
        half = len(batch) // 2
        found = self.try_together(crate, batch[:half], functions, flags, kept)
        return {**found, **self.try_together(crate, batch[half:], functions, flags, kept)}

    def check(self, crate, batch, flags, kept):
        """Returns the lines of a check with all these edits made, or None where it came to no verdict."""
        texts, why = self.rt.edited("\n".join(map(text_of, batch)), crate.folder)
        if why:
            return None
        ran = self.rt.checked(crate, texts, flags, kept)
        lines = ran.stdout.rstrip("\n").split("\n")
        return lines if ran.returncode == 1 and lines[-1].startswith(VERDICT) else None


def one_a_function(edits, functions):
    """Returns the first of these edits for each function."""
    first = {}
    for it in edits:
        first.setdefault(functions[it], it)
    return [*first.values()]


def text_of(edit):
    with open(edit, encoding="utf-8") as file:
        return file.read().rstrip("\n")


if __name__ == "__main__":
    sys.exit(main(sys.argv[1:]))
