"""The scripts that are played: the cases of the text files beside this file, and the scripts in examples/; and how a script is played."""

import os
import re
import subprocess
import tempfile

HERE = os.path.dirname(os.path.abspath(__file__))
EXAMPLES = os.path.join(os.path.dirname(os.path.dirname(HERE)), "examples")
SIX_NODES = os.path.join(EXAMPLES, "six_nodes.json")
THREE_NODES = os.path.join(EXAMPLES, "three_nodes.json")
# The examples that are played in the cluster with replicas.
WITH_REPLICAS = ("move_a_slot", "hand_over")
# How long a script may take, in seconds.
PATIENCE = 60
# The name of the script in the folder where it is played.
SCRIPT = "steps.script"


def cases():
    """Yields each case of the text files: its name, its cluster, its script, what is printed, the status, and what is said of the script."""
    for name in sorted(it for it in os.listdir(HERE) if it.endswith(".txt")):
        for number, block in enumerate(re.split("\n\n(?=#)", read(os.path.join(HERE, name)).strip("\n")), 1):
            lines = block.split("\n")
            while lines[0].startswith("#"):
                del lines[0]
            at = lines.index("----")
            printed = lines[at + 1:]
            status = int(printed.pop().split()[1]) if printed and printed[-1].startswith("status ") else 0
            said = printed.pop().removeprefix("says ") if printed and printed[-1].startswith("says ") else None
            yield f"{name}, case {number}", cluster_of(os.path.join(HERE, name[:-4]), SIX_NODES), text_of(lines[:at]), text_of(printed), status, said


def examples():
    """Yields each script in examples/ in the same way."""
    for name in sorted(it[:-7] for it in os.listdir(EXAMPLES) if it.endswith(".script")):
        path = os.path.join(EXAMPLES, name)
        cluster = cluster_of(path, SIX_NODES if name in WITH_REPLICAS else THREE_NODES)
        yield name, cluster, read(f"{path}.script"), read(f"{path}.out"), 0, None


def play(program, cluster, script):
    """The status, the output and the standard error."""
    with tempfile.TemporaryDirectory() as folder:
        with open(os.path.join(folder, SCRIPT), "w", encoding="ascii", newline="") as file:
            file.write(script)
        words = [program, "simulate", "--config", os.path.abspath(cluster), "--script", SCRIPT]
        done = subprocess.run(words, cwd=folder, capture_output=True, timeout=PATIENCE, check=False)
    return done.returncode, done.stdout.decode("latin-1"), done.stderr.decode("latin-1")


def cluster_of(path, other):
    """The cluster of that name, or else the other one."""
    own = f"{path}.json"
    return own if os.path.exists(own) else other


def text_of(lines):
    return "".join(line + "\n" for line in lines)


def read(path):
    with open(path, encoding="ascii", newline="") as file:
        return file.read()
