"""How many seconds of a processor each crate takes in a run of the kit's gate."""

import collections
import os
import re
import resource
import threading

# How often the running checks are looked at, in seconds. What a check takes behind the last look is missing in the table.
PERIOD = 2
TICKS = os.sysconf("SC_CLK_TCK")
CRATE = re.compile(rb"\0--crate-name\0(\w+)\0")
# The kit tries an edit in a folder of this name.
OF_EDIT = "/rt-edit-"
# What a check may be of.
PROOF, EDITS = "proof", "edits"


class ProcessorTime(threading.Thread):
    """Looks at the checks below the process of that number until it is asked for the table."""

    def __init__(self, top=None):
        super().__init__(daemon=True)
        self.top = str(top or os.getpid())
        self.checks = {}
        self.ended = threading.Event()

    def run(self):
        while not self.ended.wait(PERIOD):
            self.look()

    def look(self):
        processes = Processes()
        for pid in processes.below(self.top):
            crate, kind = crate_of(pid), kind_of(pid)
            # What a check has others do for it counts with it.
            if crate and kind and not crate_of(processes.parent(pid)):
                self.checks[pid, processes.start(pid)] = crate, kind, processes.seconds(pid)

    def table(self):
        """Ends the looking. Returns lines with each crate's seconds, the dearest first."""
        self.ended.set()
        self.join()
        return self.lines()

    def spent(self, crate, kind):
        """Returns how many seconds the crate's proof took so far, or its edits."""
        return sum(own for name, its_kind, own in [*self.checks.values()] if (name, its_kind) == (crate, kind))

    def lines(self):
        seconds = collections.defaultdict(collections.Counter)
        for crate, kind, own in self.checks.values():
            seconds[crate][kind] += own
        lines = ["processor seconds: crate, proof, edits"]
        for crate, of in sorted(seconds.items(), key=lambda it: -sum(it[1].values())):
            lines.append(f"{crate:20} {of[PROOF]:6.0f} {of[EDITS]:6.0f}")
        return lines


class Processes:
    """The processes of the machine, as the system tells of them at one moment."""

    def __init__(self):
        # Of each its parent, and so on: what its `stat` tells behind its name.
        self.stats = {}
        self.children = collections.defaultdict(list)
        for pid in filter(str.isdigit, os.listdir("/proc")):
            stat = told("/proc/%s/stat" % pid).rpartition(b")")[2].split()
            if stat:
                self.stats[pid] = stat
                self.children[self.parent(pid)].append(pid)

    def parent(self, pid):
        return self.stats[pid][1].decode()

    def start(self, pid):
        return self.stats[pid][19]

    def below(self, pid):
        for child in self.children[pid]:
            yield child
            yield from self.below(child)

    def seconds(self, pid):
        """How long it had a processor, with those that it began."""
        ticks = sum(int(it) for it in self.stats[pid][11:15])
        return ticks / TICKS + sum(self.seconds(child) for child in self.children[pid])


def crate_of(pid):
    """The crate that this process checks, if it is a check."""
    crate = CRATE.search(told(f"/proc/{pid}/cmdline"))
    return crate and crate[1].decode()


def kind_of(pid):
    """Whether this process works on an edit or on a proof, unless it has ended."""
    try:
        return EDITS if OF_EDIT in os.readlink(f"/proc/{pid}/cwd") else PROOF
    except OSError:
        return None


def told(path):
    """What stands there, or nothing where the process has ended."""
    try:
        with open(path, "rb") as file:
            return file.read()
    except OSError:
        return b""


def ended_seconds():
    """Returns how many seconds of a processor all processes took that this one began, and that have ended."""
    used = resource.getrusage(resource.RUSAGE_CHILDREN)
    return used.ru_utime + used.ru_stime
