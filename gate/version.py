"""Says of which commit this checkout is, and whether a build of the program was proved, and of the files that are here.

usage: gate/version.py BUILD    is that build, crates/rcluster/out/rcluster or rcluster.unproved
"""

import os
import subprocess
import sys

from sources import PROGRAM, ROOT, is_built, program_of


def main(build):
    told = [f"commit {it}" for it in commit()]
    told.append("proved" if os.path.realpath(build) == os.path.realpath(program_of(PROGRAM)) else "not proved")
    if not is_built(build, PROGRAM):
        told.append("not known to be of these sources")
    print(", ".join(told))
    return 0


def commit():
    """Yields the commit of the checkout, if git knows it: `+changes` behind it says that some file is another one."""
    # A folder that merely lies in the checkout of something else is none.
    if os.path.exists(os.path.join(ROOT, ".git")):
        name, changes = git("rev-parse", "--short=12", "HEAD"), git("status", "--porcelain")
        if name and changes is not None:
            yield name + ("+changes" if changes else "")


def git(*words):
    """What git says, or None where it fails or isn't there."""
    try:
        return subprocess.run(["git", "-C", ROOT, *words], stdout=subprocess.PIPE, stderr=subprocess.DEVNULL, text=True, check=True).stdout.strip()
    except (OSError, subprocess.CalledProcessError):
        return None


if __name__ == "__main__":
    sys.exit(main(*sys.argv[1:]))
