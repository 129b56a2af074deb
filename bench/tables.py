#!/usr/bin/env python3
"""Puts the tables of runs into docs/SPEED.md, in place of those that stand there. A comment in front of a table names its run and the heading under
which that has it: `<!-- RUN.md: HEADING -->`, with a run of bench/runs. tests/documents/run says where another one stands there.

usage: bench/tables.py
"""

import os
import re
import sys

ROOT = os.path.dirname(os.path.dirname(os.path.abspath(__file__)))
SPEED = os.path.join(ROOT, "docs", "SPEED.md")
RUNS = os.path.join(ROOT, "bench", "runs")
COMMENT = re.compile(r"<!-- ([\w.-]+\.md): (.+) -->")


def main(words):
    if words:
        print(__doc__, end="", file=sys.stderr)
        return 2
    lines = with_tables(lines_of(SPEED))
    with open(SPEED, "w", encoding="utf-8") as file:
        file.write("\n".join(lines))
    return 0


def tables_in_speed():
    """Of each table that has a comment its run, the heading there, and whether it is the one of that run."""
    lines = lines_of(SPEED)
    for at, line in enumerate(lines):
        comment = COMMENT.fullmatch(line)
        if comment:
            yield *comment.groups(), rows_from(lines, at + 1) == table_of(*comment.groups())


def with_tables(lines):
    """The lines, in which each table behind a comment is the one that it names."""
    lines, result = iter(lines), []
    for line in lines:
        result.append(line)
        comment = COMMENT.fullmatch(line)
        if comment:
            result += ["", *table_of(*comment.groups())]
            # What stands there now ends at the first line that is none of a table.
            result.append(next(it for it in lines if it and not it.startswith("|")))
            result.insert(-1, "")
    return result


def table_of(run, heading):
    """The rows of the table that the run has under this heading."""
    lines = lines_of(os.path.join(RUNS, run))
    return rows_from(lines, lines.index(f"## {heading}") + 1)


def rows_from(lines, at):
    """The rows of the first table from there on."""
    first = next(it for it in range(at, len(lines)) if lines[it].startswith("|"))
    behind = next((it for it in range(first, len(lines)) if not lines[it].startswith("|")), len(lines))
    return lines[first:behind]


def lines_of(path):
    with open(path, encoding="utf-8") as file:
        return file.read().split("\n")


if __name__ == "__main__":
    sys.exit(main(sys.argv[1:]))
