"""The files that a build reads, where programs lie, and whether they were built from just these files."""

import hashlib
import os
import re

import kit

ROOT = os.path.dirname(os.path.dirname(os.path.abspath(__file__)))
PROGRAM = "rcluster"
# The program that plays the trials. It is a test: no crate of the repository, and not proved.
TRIALS = "trials"
SPARING_CI = os.path.join(ROOT, "gate", "sparing_ci.py")
WHOLE_CI = os.path.join(ROOT, "gate", "whole_ci.py")
JOINT_CI = os.path.join(ROOT, "gate", "joint_ci.py")
PARTS = ("src", "specs", "proofs")
CRATES = "crates.txt"
# The line of the trials, as it would stand among those of the crates.
TRIALS_LINE = os.path.join("tests", TRIALS, "libraries.txt")
STATUS = re.compile(r"\bstatus=(\d+)")


def folder_of(crate):
    return os.path.join(ROOT, "tests" if crate == TRIALS else "crates", crate)


def program_of(crate):
    """Returns where the proved program of a crate is built."""
    return os.path.join(folder_of(crate), "out", crate)


def unproved_program(crate):
    """Returns where the program of a crate is built without its proofs."""
    return program_of(crate) + ".unproved"


def is_built(program, crate):
    """Whether the program of the crate lies there as it was built from these files, with this kit."""
    try:
        with open(note_of(program), encoding="utf-8") as file:
            return file.read() == sum_of_build(program, crate)
    except (OSError, kit.NoKit):
        return False


def note_built(program, crate):
    """Notes that the program of the crate was built from these files, with this kit."""
    with open(note_of(program), "w", encoding="utf-8") as file:
        file.write(sum_of_build(program, crate))


def note_of(program):
    return program + ".built"


def sum_of_build(program, crate):
    """Returns a sum of the program, of the kit and of all files that the kit reads for it."""
    total = hashlib.sha256()
    for path in (program, os.path.join(kit.folder(), "KIT-ID")):
        with open(path, "rb") as file:
            total.update(hashlib.sha256(file.read()).digest())
    total.update(sum_of_files(sources(crate)).encode())
    return total.hexdigest()


def sum_of_files(paths):
    """Returns a sum of what these files hold and of their names, from the root of the repository on."""
    total = hashlib.sha256()
    for path in sorted(paths):
        with open(path, "rb") as file:
            total.update(f"{os.path.relpath(path, ROOT)}\0{hashlib.sha256(file.read()).hexdigest()}\n".encode())
    return total.hexdigest()


def sources(crate):
    """The files that a build of the crate's program reads."""
    yield from (os.path.join(ROOT, it) for it in (*lists_for(crate), "HANDLES"))
    for name in below(crate):
        yield from files_of(name, PARTS)


def files_of(crate, parts):
    """The files in these folders of a crate."""
    for part in parts:
        for at, _, names in os.walk(os.path.join(folder_of(crate), part)):
            yield from (os.path.join(at, it) for it in names)


def lists_for(crate):
    """The lists of crates, from the root of the repository on, that a build of this one reads."""
    return (CRATES, TRIALS_LINE) if crate == TRIALS else (CRATES,)


def crate_names():
    """Returns the names of all crates."""
    return sorted(os.listdir(os.path.join(ROOT, "crates")))


def libraries(lists=(CRATES,)):
    """Returns for each crate the names of those that its line in these lists cites, the kit's too, lowest first."""
    return {head.split()[0]: cited.split() for it in lists for head, cited in lines(it)}


def status_of(crate):
    """Returns the status with which the crate's program ends as it is run by the gate."""
    found = next((STATUS.search(head) for head, _ in lines(CRATES) if head.split()[0] == crate), None)
    return int(found[1]) if found else 0


def lines(path):
    """The lines of such a list: what stands before the colon and what behind it."""
    with open(os.path.join(ROOT, path), encoding="utf-8") as file:
        for line in file:
            head, colon, cited = line.partition("#")[0].partition(":")
            if colon:
                yield head, cited


def below(crate):
    """Returns the crate and all crates of the repository that it stands on."""
    cited, found, left = libraries(lists_for(crate)), set(), [crate]
    while left:
        name = left.pop()
        if name in cited and name not in found:
            found.add(name)
            left += cited[name]
    return found
