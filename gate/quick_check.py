"""Builds programs without their proofs, runs each as the kit's gate runs it, and runs test scripts side by side."""

import contextlib
import os
import shutil
import signal
import subprocess
import sys
import tempfile
import time

from processes import started, temporary_folder
from sources import ROOT, below, folder_of, status_of, unproved_program

BUILD = os.path.join(ROOT, "gate", "quick_build.py")
# How many programs are built at once. Each takes some GB of memory.
MOST_BUILDS = 2
# How long a program may run, in seconds.
PATIENCE = 120
# How many test scripts run at once: one for two processors, because some look at what is done in time.
MOST_SCRIPTS = max(1, (os.cpu_count() or 1) // 2)
# These take longest, so they begin first.
LONG_SCRIPT = "tests/on_a_socket/run"


def build_programs(crates):
    """Builds the programs of these crates that aren't built yet. Returns those that are built then."""
    # What stands on most takes longest.
    left, running, built = sorted(crates, key=lambda it: -len(below(it))), {}, []
    with contextlib.ExitStack() as ending:
        while left or running:
            while left and len(running) < MOST_BUILDS:
                crate = left.pop(0)
                running[crate] = ending.enter_context(started([sys.executable, "-B", BUILD, crate]))
            time.sleep(0.2)
            ended = [it for it, build in running.items() if build.poll() is not None]
            built += [it for it in ended if running.pop(it).returncode == 0]
    return built


def is_run_right(crate):
    """Runs the program of the crate, and returns whether it prints what the crate's file `stdout` has, and ends with its status."""
    folder, begun = folder_of(crate), time.monotonic()
    words = [unproved_program(crate), *text_in(folder, "args").decode().splitlines()]
    with temporary_folder("run-") as room:
        if os.path.isdir(os.path.join(folder, "data")):
            shutil.copytree(os.path.join(folder, "data"), room, dirs_exist_ok=True)
        how = {"cwd": room, "input": text_in(folder, "stdin"), "stdout": subprocess.PIPE, "stderr": subprocess.DEVNULL}
        try:
            ran = subprocess.run(words, timeout=PATIENCE, check=False, **how)
            is_right = (ran.returncode, ran.stdout) == (wanted_status(crate), text_in(folder, "stdout"))
        except subprocess.TimeoutExpired:
            is_right = False
    came = "wrote what it has to" if is_right else "FAILED, or wrote something else than it has to,"
    print(f"{crate}: {came} in {time.monotonic() - begun:.0f} s", flush=True)
    return is_right


def wanted_status(crate):
    """Returns the status that the crate's file `status` names, or else its line of crates.txt."""
    return int(text_in(folder_of(crate), "status") or status_of(crate))


def text_in(folder, name):
    """Returns what that file of the folder has, or nothing where it isn't there."""
    try:
        with open(os.path.join(folder, name), "rb") as file:
            return file.read()
    except FileNotFoundError:
        return b""


def run_side_by_side(scripts):
    """Runs test scripts, each by its words, and returns whether all is well with each. What one of them prints is shown as it ends."""
    left, running, are_well = sorted(scripts, key=lambda it: it[0] != LONG_SCRIPT), [], []
    with contextlib.ExitStack() as ending:
        while left or running:
            while left and len(running) < MOST_SCRIPTS:
                words, printed = left.pop(0), ending.enter_context(tempfile.TemporaryFile("w+"))
                how = {"stdout": printed, "stderr": subprocess.STDOUT}
                running.append((ending.enter_context(started(words, by=signal.SIGINT, **how)), words, printed, time.monotonic()))
            time.sleep(0.2)
            for script, words, printed, begun in [it for it in running if it[0].poll() is not None]:
                printed.seek(0)
                print(printed.read(), end="")
                are_well.append(script.returncode == 0)
                say_of_script(words, are_well[-1], begun)
            running = [it for it in running if it[0].returncode is None]
    return are_well


def say_of_script(words, is_well, begun):
    """Says how a test script ended, by its words up to the program that it runs."""
    named = " ".join(it for it in words if not os.path.isabs(it))
    print(f"{named}: {'passed' if is_well else 'FAILED'} in {time.monotonic() - begun:.0f} s", flush=True)
