"""Passes everything: proofs, edits that must be refused, programs, and test scripts.

usage: ./check [--anew]             with --anew the kit takes nothing from what it passed on this machine before
       ./check --quick              builds the programs without their proofs, in some minutes, and runs them and the test scripts
       ./check --wrong [NAME ..]    tries the wrong bodies in crates/NAME/wrong, those of all crates if none is named
"""

import os
import signal
import subprocess
import sys
import time

import kit
from processes import end_in_order, started
from processor_time import EDITS, PROOF, ProcessorTime, ended_seconds
from quick_check import BUILD, build_programs, is_run_right, run_side_by_side, say_of_script
from report import Progress, known_seconds
from sources import PROGRAM, ROOT, TRIALS, WHOLE_CI, crate_names, note_built, program_of, unproved_program
from wrong import try_wrong_bodies

# The test scripts, each with the program that it runs, if it runs one, and the words before that.
SCRIPTS = [
    ("tests/refused_memory", TRIALS),
    ("tests/refused_moves", TRIALS),
    ("tests/refused_audit", TRIALS),
    ("tests/refused_calls", PROGRAM),
    ("tests/simulated/run", PROGRAM),
    ("tests/drawings/run", PROGRAM),
    ("tests/cases/run", PROGRAM),
    ("tests/on_a_socket/run", PROGRAM),
    ("tests/on_a_socket/run", PROGRAM, "--loops", "2"),
    ("tests/fixtures/run", PROGRAM),
    ("tests/transcripts/run", PROGRAM),
    ("tests/starting/run", PROGRAM),
    ("tests/documents/run", None),
    ("tests/wrong_bodies/run", None),
    ("tests/kits/run", None),
]
# Where the kit's report of the last run is kept whole, with the processor's seconds of each crate behind it.
LOG = os.path.join(ROOT, "check.log")


def main(words):
    end_in_order()
    os.chdir(ROOT)
    if words in ([], ["--anew"]):
        return check(words)
    if words == ["--quick"]:
        return check_quickly()
    if words[:1] == ["--wrong"] and not any(it.startswith("-") for it in words[1:]):
        return try_wrong_bodies(words[1:])
    print(__doc__, end="", file=sys.stderr)
    return 2


def check(words):
    begun = time.monotonic()
    # What needs no program takes seconds, so it tells first what is wrong.
    are_well = [run_script(words_of(built_program, *it)) for it in SCRIPTS if not it[1]]
    # Where this fails, it is built once more below, and then says why.
    with started([sys.executable, "-B", BUILD, TRIALS], stdout=subprocess.DEVNULL, stderr=subprocess.DEVNULL) as building:
        passed, failed = pass_crates(words)
        building.wait()
    if not failed:
        note_built(program_of(PROGRAM), PROGRAM)
    are_well.append(TRIALS in build_programs([TRIALS]) and is_run_right(TRIALS))
    are_well += [run_script(words_of(built_program, *it)) for it in SCRIPTS if it[1]]
    passed, failed = passed + are_well.count(True), failed + are_well.count(False)
    print(f"in {time.monotonic() - begun:.0f} s on {os.cpu_count()} cores, {ended_seconds():.0f} s of a processor")
    print(f"{passed} passed, {failed} failed")
    return 1 if failed or not passed else 0


def check_quickly():
    """Builds the programs that the test scripts run, without proofs, and runs them and the scripts."""
    begun = time.monotonic()
    programs = sorted({script[1] for script in SCRIPTS if script[1]})
    built = build_programs(programs)
    for it in programs:
        if it not in built:
            print(f"{it}: it isn't built, so each script that runs it has FAILED", flush=True)
    are_well = [it in built and is_run_right(it) for it in programs]
    may_run = [it for it in SCRIPTS if it[1] in (None, *built)]
    are_well += [False] * (len(SCRIPTS) - len(may_run)) + run_side_by_side([words_of(unproved_program, *it) for it in may_run])
    print(f"in {time.monotonic() - begun:.0f} s on {os.cpu_count()} cores")
    print(f"{are_well.count(True)} passed, {are_well.count(False)} failed; nothing was proved")
    return 0 if all(are_well) else 1


def pass_crates(words):
    """Passes the kit's gate. Returns how much passed and how much failed."""
    try:
        running = kit.version()
        # A kit that keeps nothing proves everything again in any case, and may not know the word.
        gate = [sys.executable, "-B", WHOLE_CI, *(words if kit.keeps_what_passed() else [])]
    except kit.NoKit as error:
        print(error, file=sys.stderr)
        return 0, 1
    proofs, edits = known_seconds(crate_names())
    seconds = sum(proofs.values()) + sum(edits.values())
    print(f"the kit is {running}", flush=True)
    print(f"{len(proofs)} crates took {seconds:,} s of a processor, as docs/GATE.md tells. What is kept takes none", flush=True)
    taken = ProcessorTime()
    taken.start()
    report = Progress(proofs, edits, kit.warning(running), taken.spent)
    how = {"stdout": subprocess.PIPE, "stderr": subprocess.STDOUT, "text": True, "errors": "replace"}
    with started(gate, **how) as run, open(LOG, "w", encoding="utf-8") as log:
        for line in run.stdout:
            log.write(line)
            log.flush()
            report.hear(line.rstrip("\n"))
        log.writelines(f"{line}\n" for line in taken.table())
        all_proofs, all_edits = (sum(taken.spent(it, kind) for it in proofs) for kind in (PROOF, EDITS))
        print(f"proofs took {all_proofs:,.0f} s of a processor, and edits {all_edits:,.0f} s", flush=True)
        # A gate that failed without a count is one failure. A bad edit shows nothing, so it is one, too.
        return report.passed, max(report.failed, int(run.wait() != 0)) + report.bad_edits


def run_script(words):
    """Runs a test script, and returns whether all is well."""
    begun = time.monotonic()
    with started(words, by=signal.SIGINT) as running:
        is_well = running.wait() == 0
    say_of_script(words, is_well, begun)
    return is_well


def built_program(crate):
    """Returns where the program lies that a test script runs: the proved one, or that of the trials, which aren't proved."""
    return unproved_program(crate) if crate == TRIALS else program_of(crate)


def words_of(place, script, program, *options):
    """Returns the words that run a test script with the program that lies in that place."""
    return [script, *options, *([place(program)] if program else [])]


if __name__ == "__main__":
    sys.exit(main(sys.argv[1:]))
