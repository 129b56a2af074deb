"""The names in code marks: whether each stands in the sources, and each behind `::` or a colon beside the name before it."""

import re

import texts

CODE = re.compile(r"`([^`]+)`")
WORD = texts.WORD
# A name behind that of its type, its trait or its crate.
QUALIFIED = re.compile(r"(\w+)(?:<[^`]*?>)?::(\w+)")
# What a function or a type has, behind a colon: its clauses, its methods.
LISTED = re.compile(r"`([\w:]+)`(?: of `\w+`)?: ((?:(?:, | and )?`\w+`)+)")
# What stands before a name where code defines it.
DEFINED = re.compile(r"\b(?:fn|struct|enum|trait|type|macro_rules!)\s+(\w+)")
# Names that stand nowhere here: of Redis, its clients and Rust's std,
ELSEWHERE = {"AUTH", "SHARDS", "bigkeys", "factor", "scan", "transaction", "validity", "std"}
# of the kit and of the system,
TOOLS = {"Lts", "MALLOC_MMAP_THRESHOLD_", "lo", "oantt", "opt", "plant", "unshare"}
# and words in place of a name.
PLACEHOLDERS = {"BODY", "COMMAND", "CRATE", "MODULE", "NAME", "OFFSET", "VERB", "play_NAME"}
ALLOWED = ELSEWHERE | TOOLS | PLACEHOLDERS


def faults(line):
    """Yields what isn't right in a line."""
    for code in CODE.findall(line):
        for word in WORD.findall(code):
            if word not in ALLOWED and not texts.has(word):
                yield f"`{word}` stands nowhere"
        for first, second in QUALIFIED.findall(code):
            if first not in ALLOWED and texts.has(first) and not stand_together(first, second):
                yield f"no `{second}` beside `{first}`"
    for first, names in LISTED.findall(line):
        crates = crates_of(first.split("::")[0])
        for second in CODE.findall(names):
            if crates and not any(second in texts.words_of_crate(crate) for crate in crates):
                yield f"no `{second}` beside `{first}`"


def stand_together(first, second, known={}):
    """Whether a file of code has both, or the crate of the first name the second one."""
    if first in texts.libraries():
        return second in texts.words_of_crate(first)
    if (first, second) not in known:
        known[first, second] = any({first, second} <= texts.words_of(path) for _crate, path in texts.code())
    return known[first, second]


def crates_of(name, known={}):
    """The crates that define the name, or the one that bears it."""
    if name in texts.libraries():
        return {name}
    if not known:
        for crate, path in texts.code():
            for defined in DEFINED.findall(texts.text(path)):
                known.setdefault(defined, set()).add(crate)
    return known.get(name, set())
