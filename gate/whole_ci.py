"""Runs the kit's gate, `rt ci`, with less memory set aside for each check, so that no processor waits for memory (kit_command.py).

usage: python3 gate/whole_ci.py [--anew]    as `rt ci [--anew]`

Unless RT_JOBS is set, the kit starts as many checks at once as there are processors and memory for, and gives a proof those
processors that no other proof wants. What is proved, and how, is the kit's own.
"""

import sys

import kit
import kit_command


def main(words):
    try:
        rt = kit_command.load()
    except kit.NoKit as error:
        print(error, file=sys.stderr)
        return 2
    return rt.main(["ci", *words])


if __name__ == "__main__":
    sys.exit(main(sys.argv[1:]))
