"""Builds the program, as far as it isn't built yet, and serves a cluster.

The program is built without its proofs, which takes some three minutes. Where ./check has proved it, that build is served.
FILE describes the cluster; without it and without --masters that is examples/six_nodes.json. Every other option is one of
`rcluster serve`, which `./rcluster serve --help` lists, as --masters 3, --ticks 600 or --log. Where --loops isn't given it is 1, or 2 where
there are two processors for each node.
"""

import argparse
import contextlib
import json
import os
import sys
import time

import kit
import proved_build
import quick_build
from processes import end_in_order
from sources import PROGRAM, ROOT, folder_of, is_built, program_of, unproved_program

EXAMPLE = os.path.join(ROOT, "examples", "six_nodes.json")
# Of the options of `rcluster serve` those that take no value: behind each other one stands its value, and no FILE.
FLAGS = {"--check", "--journal", "--log", "--orders"}
# With one of these the words say which cluster is served, or `rcluster` says what is missing beside it.
SOURCES = {"--config", "--masters", "--replicas", "--port", "--backlog"}
# How many threads of a node serve its clients at most, where --loops isn't given.
MOST_LOOPS = 2
# How long the kit's own way without proofs serves at most.
SECONDS = "3600"


def main(words):
    asked, words = arguments(words)
    file = file_in(words)
    if file is not None and not os.path.isfile(words[file]):
        print(f"there is no file {os.path.abspath(words[file])}", file=sys.stderr)
        return 1
    end_in_order()
    # Standard output gets what `rcluster serve` prints, and nothing else.
    with contextlib.redirect_stdout(sys.stderr):
        try:
            return (serve_proved if asked.proved else serve)(service(words, file, len(os.sched_getaffinity(0))))
        except kit.NoKit as error:
            print(error)
            return 1


def arguments(words):
    """What is asked of this script, and all other words."""
    how = {"formatter_class": argparse.RawDescriptionHelpFormatter, "allow_abbrev": False}
    parser = argparse.ArgumentParser(prog="./serve", usage="./serve [--proved] [FILE] [OPTION ..]", description=__doc__, **how)
    parser.add_argument("--proved", action="store_true", help="serves it once the program is proved")
    return parser.parse_known_args(words)


def file_in(words):
    """The place of FILE among the words: the first one that is neither an option nor its value."""
    before = None
    for at, word in enumerate(words):
        if not word.startswith("-") and (before is None or not takes_value(before)):
            return at
        before = word
    return None


def takes_value(word):
    return word.startswith("-") and "=" not in word and word not in FLAGS


def service(words, file, processors):
    """The words for `rcluster serve`: these, behind what is given where they don't say it."""
    words = list(words)
    if file is not None:
        words.insert(file, "--config")
    names = {it.partition("=")[0] for it in words}
    if not names & SOURCES:
        words = ["--config", EXAMPLE, *words]
    if "--loops" not in names:
        words = ["--loops", str(max(1, min(MOST_LOOPS, processors // nodes_in(words)))), *words]
    return words


def nodes_in(words):
    """How many nodes the words have the program serve, or 1 where it will say what is wrong with them."""
    try:
        file = value_of("--config", words)
        if file is None:
            return max(1, int(value_of("--masters", words)) * (1 + int(value_of("--replicas", words) or 0)))
        # A pipe can be read once, by the program.
        if not os.path.isfile(file):
            return 1
        with open(file, encoding="utf-8") as config:
            return max(1, len(json.load(config)["nodes"]))
    except (OSError, ValueError, TypeError, KeyError):
        return 1


def value_of(option, words):
    """The value that the option has among the words, or None."""
    for word, following in zip(words, [*words[1:], None]):
        name, is_joined, value = word.partition("=")
        if name == option:
            return value if is_joined else following
    return None


def serve(words):
    if is_built(program_of(PROGRAM), PROGRAM):
        return start(program_of(PROGRAM), words)
    if not is_built(unproved_program(PROGRAM), PROGRAM):
        print("The program is built without its proofs, which takes some three minutes. The next start takes a second.", flush=True)
    try:
        program = quick_build.build(PROGRAM)
    except quick_build.Failed as failed:
        return serve_slowly(words, failed)
    print("This build was not proved on this machine: ./check does that.", flush=True)
    return start(program, words)


def serve_proved(words):
    program = program_of(PROGRAM)
    if not is_built(program, PROGRAM):
        begun = time.monotonic()
        print("The program is not proved on this machine yet. What is proved once isn't proved again.", flush=True)
        if not proved_build.build():
            print("The program is not proved, so it isn't started.")
            return 1
        print(f"The program is proved and built, in {time.monotonic() - begun:.0f} s.", flush=True)
    return start(program, words)


def serve_slowly(words, failed):
    print(f"The program can't be built quickly with this kit: {failed}")
    print("So the kit's own way without proofs serves it, a tenth as fast, for an hour. ./check proves it.", flush=True)
    lent, words = lent_files(words)
    os.chdir(folder_of(PROGRAM))
    os.execvp("rt", ["rt", "try", "--seconds", SECONDS, *lent, "--", "serve", *words])


def lent_files(words):
    """The kit's words by which the program gets the file that the words name, and the words with the name that it finds it by."""
    lent, words = [], list(words)
    for at in range(1, len(words)):
        if words[at - 1] == "--config" and os.path.isfile(words[at]):
            name = f"file{at}"
            lent += ["--data", f"{name}={os.path.abspath(words[at])}"]
            words[at] = name
    return lent, words


def start(program, words):
    os.execv(program, [program, "serve", *words])


if __name__ == "__main__":
    sys.exit(main(sys.argv[1:]))
