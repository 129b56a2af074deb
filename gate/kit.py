"""The Rattle kit of this machine, and the versions under which everything passed."""

import os
import shutil
import subprocess

HERE = os.path.dirname(os.path.abspath(__file__))
# A line a version, as `rt version` prints it.
VERSIONS = os.path.join(HERE, "KITS")
# No check of a crate here takes more memory, in bytes.
CHECK_MEMORY = 5 << 30


class NoKit(Exception):
    """The kit can't be found or asked."""


def folder():
    """Returns the folder of the kit."""
    command = shutil.which("rt")
    if command is None:
        raise NoKit("the Rattle kit has to be on the PATH: there is no command `rt`")
    return os.path.dirname(os.path.dirname(os.path.realpath(command)))


def version():
    """Returns what `rt version` prints."""
    folder()
    try:
        asked = subprocess.run(["rt", "version"], stdout=subprocess.PIPE, stderr=subprocess.STDOUT, text=True, check=True)
    except (OSError, subprocess.CalledProcessError) as error:
        raise NoKit(f"`rt version` failed: {error}") from error
    return asked.stdout.strip()


def keeps_what_passed():
    """Whether this kit's gate keeps on the machine what passed. One that doesn't proves everything again each time."""
    asked = subprocess.run(["rt", "help"], stdout=subprocess.PIPE, stderr=subprocess.STDOUT, text=True, errors="replace", check=False)
    return "--anew" in asked.stdout


def checks_at_once():
    """Returns how many checks may run at once: as many as there are processors and memory for, or what RT_JOBS says."""
    jobs = min(len(os.sched_getaffinity(0)), free_memory() // CHECK_MEMORY)
    return int(os.environ.get("RT_JOBS", max(jobs, 1)))


def free_memory():
    """Returns how many bytes of memory are free."""
    with open("/proc/meminfo", encoding="ascii") as file:
        return 1024 * next(int(line.split()[1]) for line in file if line.startswith("MemAvailable:"))


def known_versions():
    """Returns the versions under which everything passed."""
    with open(VERSIONS, encoding="utf-8") as file:
        return [line.strip() for line in file if line.strip()]


def warning(running):
    """Returns what to say where a proof fails under this version, or None where everything passed under it."""
    known = known_versions()
    if running in known:
        return None
    return f"This kit is {running}. Everything passed under {', '.join(known)}, so a proof may fail here that nobody changed."
