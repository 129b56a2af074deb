"""The program, run to its end or as a server."""

import json
import os
import re
import subprocess
import tempfile
import threading
import time

PATH = os.path.abspath(os.path.join(os.path.dirname(os.path.abspath(__file__)), "..", "..", "crates/rcluster/out/rcluster"))
# How many threads of each node of a server serve its clients in turn. With none each client has a thread of its own.
LOOPS = 0
# The line that says that clients with a thread each wait for each other.
CROWD = re.compile(rb"rcluster: [0-9.]+ node [0-9]+: its clients wait for each other, [^\n]*\n")
# How long the program may take to begin or to end, in seconds: on a slow host a run that moves 2,000 slots takes longer than 20.
PATIENCE = 180
# Held while a process begins, and while a port is probed: a process that begins has the probe open until it runs its program, and
# so that port is taken for a moment.
BEGINNING = threading.Lock()
# The name of the configuration in the folder where the program runs.
FILE = "cluster.json"


def run(*words, text=None, files=(), given=b"", given_file=None):
    """The status, the output and the standard error of the program with these words, in a folder whose `cluster.json` has that text,
    and that has these files with their bytes. Standard input gives these bytes, or is that file.
    """
    with tempfile.TemporaryDirectory() as folder:
        if text is not None:
            write(folder, text)
        write_all(folder, files)
        file = None if given_file is None else os.open(given_file, os.O_RDONLY)
        with BEGINNING:
            stdin = subprocess.PIPE if file is None else file
            begun = subprocess.Popen([PATH, *words], cwd=folder, stdin=stdin, stdout=subprocess.PIPE, stderr=subprocess.PIPE)
        if file is not None:
            os.close(file)
        with begun:
            try:
                output, errors = begun.communicate(given if file is None else None, timeout=PATIENCE)
            finally:
                begun.kill()
    return begun.returncode, output, errors


def write(folder, text):
    with open(os.path.join(folder, FILE), "w", encoding="utf-8") as file:
        file.write(text)


def write_all(folder, files):
    for name in files:
        with open(os.path.join(folder, name), "wb") as file:
            file.write(files[name])


def loops():
    """The words that say who serves the clients."""
    return ("--loops", str(LOOPS)) if LOOPS else ()


class Server:
    """The program that serves a cluster. It is killed at the end of the block where it hasn't ended."""

    def __init__(self, cluster, *options, source=None, files=(), stdin=subprocess.DEVNULL):
        """The words in `source` tell the cluster where it isn't told by a file. The folder has these other files with their bytes."""
        self.cluster, self.options, self.source, self.files, self.stdin = cluster, options, source, files, stdin

    def __enter__(self):
        self.folder = tempfile.TemporaryDirectory()
        if not self.source:
            write(self.folder.name, json.dumps(self.cluster))
        write_all(self.folder.name, self.files)
        self.errors = tempfile.TemporaryFile()
        self.begun = time.monotonic()
        with BEGINNING:
            self.process = subprocess.Popen(
                [PATH, "serve", *(self.source or ("--config", FILE)), *loops(), *self.options],
                cwd=self.folder.name, stdin=self.stdin, stdout=subprocess.PIPE, stderr=self.errors,
            )
        # A line for each node. Where one is missing, the row that compares them says so, and this says why.
        patience = threading.Timer(PATIENCE, self.process.kill)
        patience.start()
        self.lines = b"".join(self.process.stdout.readline() for _ in self.cluster["nodes"])
        patience.cancel()
        if not self.lines.startswith(b"node "):
            print(f"a server didn't begin: {self.outcome(PATIENCE)}", flush=True)
        return self

    def __exit__(self, *_error):
        self.process.kill()
        self.process.communicate()
        self.errors.close()
        self.folder.cleanup()

    def outcome(self, seconds):
        """The status, what was printed behind the nodes' lines, and the standard error. The status is None where it hasn't ended in time.

        On a slow host the clients of any run may come to wait for each other: the line that says so is left out.
        """
        try:
            status = self.process.wait(seconds)
        except subprocess.TimeoutExpired:
            return None, b"", b""
        self.errors.seek(0)
        return status, self.process.stdout.read(), CROWD.sub(b"", self.errors.read())

    def processor_ticks(self):
        """How many ticks of the system's clock the program has used a processor, for itself and in the system."""
        with open(f"/proc/{self.process.pid}/stat", encoding="ascii") as file:
            fields = file.read().rpartition(")")[2].split()
        return int(fields[11]) + int(fields[12])

    def holdings(self):
        """How many threads and how many open files it has."""
        return tuple(len(os.listdir(f"/proc/{self.process.pid}/{what}")) for what in ("task", "fd"))

    def holdings_in_time(self, wanted, seconds):
        """The same, once it is what is wanted, or else what it is after so many seconds."""
        last = time.monotonic() + seconds
        while (held := self.holdings()) != wanted and time.monotonic() < last:
            time.sleep(0.05)
        return held
