"""Which state of each crate's files its wrong bodies were last refused at: the lines of gate/WRONG.

A line is `NAME DATE N refused SUM`, as `./check --wrong` writes it, or `NAME DATE not tried SUM`, as `tests/documents/run --fix` writes it
of a crate that has changed since. The sum is of the crate's folders `src`, `specs`, `proofs` and `wrong`, but for lines of comments, because
no proof reads these.
"""

import datetime
import hashlib
import os
import re

from sources import PARTS, ROOT, crate_names, files_of, folder_of

FILE = "gate/WRONG"
# A line of a comment alone, in code and in definitions.
COMMENT = re.compile(rb"^[ \t]*(?://|--).*\n?", re.MULTILINE)
LINE = re.compile(r"(\w+) +(\d{4}-\d\d-\d\d) +(?:(\d+) refused|not tried) +([0-9a-f]{16})")


class Line:
    """What is known of a crate's wrong bodies. The number of those that were refused is None where they are to be tried later."""

    def __init__(self, crate, date, number, state):
        self.crate, self.date, self.number, self.state = crate, date, number, state

    def __str__(self):
        known = "not tried" if self.number is None else f"{self.number} refused"
        return f"{self.crate:14} {self.date} {known:>10} {self.state}"


def crates_with_wrong_bodies():
    return [it for it in crate_names() if bodies_of(it)]


def bodies_of(crate):
    """Returns the names of the crate's wrong bodies. A text beside them is none."""
    folder = os.path.join(folder_of(crate), "wrong")
    return [it for it in os.listdir(folder) if not it.endswith(".md")] if os.path.isdir(folder) else []


def state_of(crate):
    """Returns a sum of what it rests on in the crate's files that its wrong bodies are refused."""
    total = hashlib.sha256()
    for path in sorted(files_of(crate, (*PARTS, "wrong"))):
        with open(path, "rb") as file:
            text = COMMENT.sub(b"", file.read())
        total.update(f"{os.path.relpath(path, ROOT)}\0{hashlib.sha256(text).hexdigest()}\n".encode())
    return total.hexdigest()[:16]


def read():
    """Returns the head of the file, and each crate's line."""
    with open(os.path.join(ROOT, FILE), encoding="utf-8") as file:
        texts = file.read().splitlines()
    found = [LINE.fullmatch(it.strip()) for it in texts]
    head = [text for text, line in zip(texts, found) if not line]
    return head, {it[1]: Line(it[1], it[2], it[3] and int(it[3]), it[4]) for it in found if it}


def note_refused(crate, state):
    """Writes that all wrong bodies of the crate were refused today, in that state of its files."""
    head, lines = read()
    lines[crate] = Line(crate, datetime.date.today().isoformat(), len(bodies_of(crate)), state)
    write(head, lines)


def forget(crate):
    """Removes the crate's line."""
    head, lines = read()
    lines.pop(crate, None)
    write(head, lines)


def write(head, lines):
    with open(os.path.join(ROOT, FILE), "w", encoding="utf-8") as file:
        file.writelines(f"{it}\n" for it in [*head, *(lines[crate] for crate in sorted(lines))])


def put_off():
    """Writes of each crate that has changed since its line was written that its wrong bodies are to be tried later. Returns these crates."""
    head, lines = read()
    changed = [it for it in crates_with_wrong_bodies() if it not in lines or lines[it].state != state_of(it)]
    for crate in changed:
        lines[crate] = Line(crate, datetime.date.today().isoformat(), None, state_of(crate))
    if changed:
        write(head, lines)
    return changed


def faults():
    """Yields what is wrong with the file, and which command mends it."""
    head, lines = read()
    yield from (f"not a line: {it}" for it in head if not it.startswith("#"))
    crates = crates_with_wrong_bodies()
    yield from (f"{it} has no wrong bodies: remove its line" for it in lines if it not in crates)
    for crate in crates:
        line = lines.get(crate)
        since = f"it has changed since its line was written on {line.date}" if line else "its wrong bodies have no line"
        if line is None or line.state != state_of(crate):
            yield f"{crate}: {since}. ./check --wrong {crate} tries them; tests/documents/run --fix writes that they are to be tried later"
        elif line.number not in (None, len(bodies_of(crate))):
            yield f"{crate} has {len(bodies_of(crate))} wrong bodies, and not {line.number}"


def to_be_tried():
    """Returns the crates whose wrong bodies are to be tried later."""
    return sorted(it.crate for it in read()[1].values() if it.number is None)
