"""Builds the program with its proofs, some four crates side by side."""

import os
import shutil
import subprocess
import sys

import kit
from copies import copy_crates, workplace
from processes import started, with_temporary
from report import Progress, known_seconds
from sources import PROGRAM, SPARING_CI, below, note_built, program_of


def build():
    """Proves the program and the crates that it stands on, and returns whether all are proved.

    It is the gate's way, without its edits: what was proved on this machine before isn't proved again, and what is proved here
    isn't proved again by the gate.
    """
    names = below(PROGRAM)
    with workplace("proved-build-") as (copy, temporary):
        copy_crates(copy, names)
        proofs, _edits = known_seconds(names)
        report = Progress(proofs, {}, kit.warning(kit.version()))
        how = {"cwd": copy, "env": with_temporary(temporary), "stderr": subprocess.STDOUT, "text": True, "errors": "replace"}
        with started([sys.executable, "-B", SPARING_CI], stdout=subprocess.PIPE, **how) as gate:
            for line in gate.stdout:
                report.hear(line.rstrip("\n"))
            if gate.wait():
                return False
        program = program_of(PROGRAM)
        os.makedirs(os.path.dirname(program), exist_ok=True)
        shutil.copy(os.path.join(copy, "crates", PROGRAM, "out", PROGRAM), program)
    note_built(program, PROGRAM)
    return True
