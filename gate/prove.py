"""Proves crates over what their last checks kept in crates/NAME/out, several side by side, for a kit whose gate keeps nothing.

usage: python3 gate/prove.py [NAME ..]    these crates and those below them, or all

It is what `rt all check` does, but looks once at each crate, and not along each path to it. It gives no verdict: only `./check` proves
from nothing. What the kit says of a crate is in crates/NAME/out/prove.log.
"""

import copy
import os
import sys
import time
from concurrent.futures import FIRST_COMPLETED, ThreadPoolExecutor, wait

import kit
import kit_command
from report import known_seconds
from sources import ROOT, below, crate_names, folder_of, libraries

# A check takes more of a processor with each further one, so it gets another only where no other check wants it: first the one behind
# which most is left.
MOST_JOBS = 3


def main(names):
    unknown = [it for it in names if it not in crate_names()]
    if unknown:
        print(f"There is no crate {unknown[0]}.", file=sys.stderr)
        return 2
    os.chdir(ROOT)
    try:
        rt = kit_command.load()
        at_once = kit.checks_at_once()
    except kit.NoKit as error:
        print(error, file=sys.stderr)
        return 2
    wanted = set().union(*map(below, names or crate_names()))
    crates = [it for it in crates_of(rt) if it.name in wanted]
    # Until it is closed, no other command of the kit works in these folders.
    held = rt.rtlib.lock(crates)
    failed = prove(crates, at_once)
    for folder in held:
        os.close(folder)
    if failed:
        print(f"not proved: {' '.join(failed)}")
    return 1 if failed else 0


def crates_of(rt):
    """Returns the kit's crates, lowest first, each with its files `args` and `status`."""
    make = rt.rtlib.Crate.__init__

    def made(crate, *given, **named):
        make(crate, *given, **named)
        rt.read_files(crate)

    rt.rtlib.Crate.__init__ = made
    # It sets the handler of a signal, which only the main thread may.
    rt.rtlib.guarded()
    return rt.rtlib.crates_below(ROOT)


def prove(crates, at_once):
    """Proves the crates, those first behind which most is left. Returns the names of those that aren't proved."""
    behind = seconds_behind([it.name for it in crates])
    left, proved, failed, running = list(crates), set(), [], {}
    begun = time.monotonic()
    with ThreadPoolExecutor(at_once) as pool:
        while left or running:
            ready = [it for it in left if all(lower.name in proved for lower in it.below())]
            idle = at_once - sum(jobs for _crate, jobs in running.values())
            for place, crate in enumerate(sorted(ready, key=lambda it: -behind[it.name])[:idle]):
                jobs = min(MOST_JOBS, max(1, idle - (len(ready) - place - 1)))
                idle -= jobs
                left.remove(crate)
                running[pool.submit(check, crate, jobs)] = crate, jobs
            if not running:
                break
            for done in wait(running, return_when=FIRST_COMPLETED).done:
                (crate, _jobs), (status, seconds) = running.pop(done), done.result()
                name = crate.name
                if status:
                    failed.append(name)
                else:
                    proved.add(name)
                verdict = "NOT PROVED" if status else "proved"
                print(f"{time.monotonic() - begun:6.0f} s  {name} {verdict} in {seconds:.0f} s; {len(left)} left", flush=True)
    return failed + [it.name for it in left]


def check(crate, jobs):
    """Returns the status of a check of the crate with so many processors, and how long it took."""
    begun, crate, words = time.monotonic(), copy.copy(crate), ("--jobs", str(jobs))
    os.makedirs(os.path.join(folder_of(crate.name), "out"), exist_ok=True)
    with open(os.path.join(folder_of(crate.name), "out", "prove.log"), "w", encoding="utf-8", errors="replace") as crate.out:
        try:
            status = crate.build_rlib(words, anew=False) if crate.makes_rlib() else crate.check(list(words))
        except SystemExit as end:
            status = end.code
    return status, time.monotonic() - begun


def seconds_behind(names):
    """Returns for each crate how long the longest chain of proofs is that begins with it, by docs/GATE.md."""
    proofs, _edits = known_seconds(names)
    cited, behind = libraries(), {}
    for name in reversed(list(proofs)):
        above = [behind[it] for it in behind if name in cited[it]]
        behind[name] = proofs[name] + max(above, default=0)
    return behind


if __name__ == "__main__":
    sys.exit(main(sys.argv[1:]))
