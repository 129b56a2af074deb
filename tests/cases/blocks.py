"""The form of the files: blocks between empty lines, each with commands, a line `----`, and what the commands give.

A line that begins with `# ` is a comment. In a word `\\r`, `\\n` and `\\x` with two digits stand for a byte, `""` stands for an empty
word, and `a\\{1000}` for a thousand `a`. Bytes that a case gives are shown in the same way, on one line.
"""

import re

# Up to this number, bytes that are the same are shown one by one.
LONGEST_RUN = 99
ESCAPES = re.compile(rb"\\(?:(r)|(n)|x([0-9a-f]{2}))")
REPEATED = re.compile(rb"(\\[rn]|\\x[0-9a-f]{2}|[^\\])\\\{(\d+)\}")
RUNS = re.compile(rb"(.)\1{%d,}" % LONGEST_RUN, re.DOTALL)


class Malformed(Exception):
    """A file, or a line of it, that can't be played. The words say what is wrong with it."""


def cases_in(path):
    """Yields the commands of each case, and the lines that they have to give."""
    with open(path, encoding="ascii", newline="") as file:
        text = file.read()
    for block in text.strip("\n").split("\n\n"):
        script, dashes, wanted = block.partition("\n----")
        if not dashes or wanted[:1] not in ("", "\n"):
            raise Malformed(f"a case without a line of dashes: {block[:80]!r}")
        yield [it for it in script.split("\n") if not it.startswith("# ")], wanted.strip("\n").split("\n") if wanted.strip("\n") else []


def verb_of(command):
    """The first word of a command, and the rest of it."""
    verb, _, rest = command.partition(" ")
    return verb, rest


def words_of(part):
    """The words of a part of a command, which may be none."""
    return [bytes_of(it) for it in part.split(" ")] if part else []


def bytes_of(word):
    """The bytes that a word of a command stands for."""
    if word == '""':
        return b""
    spelled_out = REPEATED.sub(lambda it: it[1] * int(it[2]), word.encode("ascii"))
    if b"\\" in ESCAPES.sub(b"", spelled_out):
        raise Malformed(f"no such escape: {word[:80]}")
    return ESCAPES.sub(escaped, spelled_out)


def escaped(found):
    return b"\r" if found[1] else b"\n" if found[2] else bytes([int(found[3], 16)])


def shown(data):
    """The bytes on a line, with plain spaces. A byte that stands there many times is shown once, with their number."""
    parts, at = [], 0
    for run in RUNS.finditer(data):
        parts += [byte_by_byte(data[at:run.start()]), byte_by_byte(run[1]), "\\{%d}" % (run.end() - run.start())]
        at = run.end()
    return "".join([*parts, byte_by_byte(data[at:])])


def byte_by_byte(data):
    return "".join(map(shown_byte, data))


def shown_byte(byte):
    if byte == 13:
        return "\\r"
    if byte == 10:
        return "\\n"
    return chr(byte) if 32 <= byte <= 126 and byte != 92 else "\\x%02x" % byte


def shown_word(data):
    """The bytes as one word of a command."""
    return shown(data).replace(" ", "\\x20") or '""'
