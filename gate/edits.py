"""The wrong bodies, as edits of files: each text that one takes out stands there once, or the kit passes over it."""

import os

from sources import ROOT

# Where a crate has them: those that the gate tries, and the others.
FOLDERS = ("must-fail", "wrong")
FILE, OLD = "file: ", "old: "


def misplaced():
    """Yields each edit that can't be applied, by its path, and why."""
    for crate, edit in all_edits():
        for fault in faults_of(edit, crate):
            yield os.path.relpath(edit, ROOT), fault


def all_edits():
    """Yields the folder of its crate and the path of each edit."""
    crates = os.path.join(ROOT, "crates")
    for crate in sorted(os.listdir(crates)):
        for folder in FOLDERS:
            place = os.path.join(crates, crate, folder)
            names = sorted(os.listdir(place)) if os.path.isdir(place) else []
            yield from ((os.path.join(crates, crate), os.path.join(place, it)) for it in names if it.endswith(".edit"))


def faults_of(edit, crate):
    """Yields what is wrong with an edit of a file of the crate's folder."""
    text = None
    with open(edit, encoding="utf-8") as lines:
        for line in lines.read().splitlines():
            if line.startswith(FILE):
                path = os.path.join(crate, line[len(FILE):])
                if not os.path.exists(path):
                    yield f"there is no {line[len(FILE):]}"
                    return
                with open(path, encoding="utf-8") as file:
                    text = file.read()
            elif line.startswith(OLD):
                count = text.count(line[len(OLD):]) if text is not None else 0
                if count != 1:
                    yield f"{line[len(OLD):].strip()!r} stands in its file {count} times, and not once"
