"""A copy of the repository's crates in a folder of its own, for the kit to work on."""

import contextlib
import os
import shutil

from processes import temporary_folder
from sources import CRATES, PARTS, ROOT, TRIALS_LINE, crate_names, folder_of

# What the kit runs a program on.
RUN = ("stdin", "stdout", "args", "status", "data")
# What a check keeps of a crate for those above it, and what it keeps for its next check.
BUILT, CHECKED = "rlib", "incremental"


@contextlib.contextmanager
def workplace(prefix):
    """Gives a folder for a copy, and one for the temporary files of a command there. Both are removed behind the block."""
    with temporary_folder(prefix) as room:
        copy, temporary = os.path.join(room, "copy"), os.path.join(room, "temporary")
        for it in (room, copy, temporary):
            os.makedirs(it, exist_ok=True)
            # As root the kit runs programs there as nobody.
            os.chmod(it, 0o711)
        yield copy, temporary


def copy_crates(to, names=None, edits_of=None):
    """Copies these crates, or all, to the folder `to`, with a list of just these.

    The wrong bodies of the crates `edits_of` stand where the kit looks for edits. Those of no other crate are copied.
    """
    names = crate_names() if names is None else names
    shutil.copy(os.path.join(ROOT, "HANDLES"), to)
    with open(os.path.join(to, CRATES), "w", encoding="utf-8") as copy:
        for path in (CRATES, TRIALS_LINE):
            with open(os.path.join(ROOT, path), encoding="utf-8") as file:
                copy.writelines(line for line in file if is_wanted(line, names))
    for name in names:
        crate = folder_of(name)
        for part in (*PARTS, *RUN):
            copy_part(os.path.join(crate, part), os.path.join(to, "crates", name, part))
        if name in (edits_of or ()):
            copy_part(os.path.join(crate, "wrong"), os.path.join(to, "crates", name, "must-fail"))


def share_kept(to, crate, names):
    """Has the copies share what the last checks kept, for a kit that keeps nothing else: of these crates what those above them
    need, and of the one crate what its next check needs. That is copied, because a check writes there."""
    for name in names:
        copy_kept(to, name, BUILT, os.link)
    copy_kept(to, crate, CHECKED, shutil.copy2)


def copy_kept(to, crate, part, how):
    kept = os.path.join(folder_of(crate), "out", part)
    if os.path.isdir(kept):
        shutil.copytree(kept, os.path.join(to, "crates", crate, "out", part), copy_function=how)


def is_wanted(line, names):
    """Whether this line of crates.txt is of one of these crates."""
    head = line.partition("#")[0].partition(":")[0].split()
    return bool(head) and head[0] in names


def copy_part(part, to):
    if os.path.isdir(part):
        shutil.copytree(part, to)
    elif os.path.isfile(part):
        os.makedirs(os.path.dirname(to), exist_ok=True)
        shutil.copy(part, to)
