"""Commands and temporary folders that end with the script that began them."""

import contextlib
import os
import shutil
import signal
import subprocess
import sys
import tempfile
import time

# How long a command that is told to end may take for that, and how long one that may end by itself, in seconds.
PATIENCE = 10
MOMENT = 1
ENDING = (signal.SIGINT, signal.SIGTERM, signal.SIGHUP)


def end_in_order():
    """Has each signal that ends this script first end the commands that it began, and remove its temporary folders.

    A signal that is passed over, as under `nohup`, still is.
    """

    def end(number, _frame):
        for it in ENDING:
            signal.signal(it, signal.SIG_IGN)
        sys.exit(128 + number)

    for it in ENDING:
        if signal.getsignal(it) != signal.SIG_IGN:
            signal.signal(it, end)


@contextlib.contextmanager
def started(words, by=signal.SIGTERM, **how):
    """A command that is ended by that signal where it still runs behind the block."""
    process = subprocess.Popen(words, **how)
    try:
        yield process
    finally:
        # Ctrl-C reaches it, too, so it may be ending already.
        if not ends(process, MOMENT):
            process.send_signal(by)
            if not ends(process, PATIENCE):
                process.kill()
                process.wait()


def ends(process, seconds):
    """Waits for the process for so long at most, and returns whether it has ended."""
    try:
        process.wait(seconds)
        return True
    except subprocess.TimeoutExpired:
        return False


@contextlib.contextmanager
def temporary_folder(prefix):
    """A folder that is removed behind the block, also where a command that was ended there still writes for a moment."""
    folder = tempfile.mkdtemp(prefix=prefix)
    try:
        yield folder
    finally:
        until = time.monotonic() + PATIENCE
        while os.path.exists(folder) and time.monotonic() < until:
            shutil.rmtree(folder, ignore_errors=True)


def with_temporary(folder):
    """Returns an environment in which a command makes its temporary files in that folder."""
    return {**os.environ, "TMPDIR": folder}
