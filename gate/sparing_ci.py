"""Runs the kit's gate, `rt ci`, without its last act.

usage: python3 gate/sparing_ci.py [NAME ..]    as `rt ci [NAME ..]`

At its end the kit throws out what it keeps of earlier runs and this run didn't use, as far as that is more than 10 GB. A run of a few
crates uses little, so the others' proofs would be thrown out. Here they stay until the next `rt ci`. A kit that keeps nothing looks
at each crate once here, and not along each path to it (kit_command.py). What is proved, and how, is the kit's own. The kit promises
nothing of its inside: where that act isn't found, the run ends as the kit ends it.
"""

import sys

import kit
import kit_command


def main(names):
    try:
        rt = kit_command.load()
        keep_all(rt)
    except kit.NoKit as error:
        print(error, file=sys.stderr)
        return 2
    return rt.main(["ci", *names])


def keep_all(rt):
    """Has the kit throw out nothing at the end of its gate."""
    if hasattr(rt, "Kept") and hasattr(rt.Kept, "shrink"):
        rt.Kept.shrink = lambda kept: None
    elif kit.keeps_what_passed():
        print("This kit may throw out proofs of other crates that it keeps.", file=sys.stderr)


if __name__ == "__main__":
    sys.exit(main(sys.argv[1:]))
