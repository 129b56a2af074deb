"""Compiles the module that `rt try` makes of a program as Rust compiles a release build. It runs in the place of the kit's clang.

The module checks at run time whatever a program could do wrong, fills each local before it is set, and is compiled without
optimization. Of these checks those stay that a release build of Rust has, too: that an index is within its bounds, that no divisor is
zero, that nothing is reached that can't be, and each other `requires` that the kit looks at. Sums wrap where they overflow, and what only
unsafe code can break isn't looked at. A program of which every function is proved breaks none of them. What is to be inlined, and what
never, is as the sources say (inlining.py).
"""

import os
import re
import subprocess

from inlining import asked_of_functions, with_word

# Of the words with which `rt try` calls clang, these are left out.
SLOW = ("-O0", "-fsanitize=address")
# These are those of a proved build.
FAST = ("-O3", "-fno-vectorize", "-fno-slp-vectorize")
# The module's own functions that stop the program where a check fails: these are left out, by their names.
CHECK = re.compile(r'define internal void @"rattle-llvm-checks::(?:Alignment|Cast|Null|Offset|Overflow|Shift|Signature|Value)"\(')
# What such a function does first: it looks at its argument.
LOOK = "  br i1 %r0, label %true, label %false\n"
PASS = "  br label %true\n"
# A local is filled before it is set.
FILL = re.compile(r"  call void @llvm\.memset\.p0\.i64\(ptr %\w+, i8 -86, i64 \d+, i1 false\)\n")


def main(words, clang, made):
    """Compiles to the object file `made` where clang is called for the module of the program, and hands on all other calls."""
    if "-fsanitize=address" not in words:
        os.execv(clang, [clang, *words])
    with open(f"{made}.begun", "w", encoding="utf-8"):
        pass
    words = [it for it in words if it not in SLOW]
    module = words.index("ir") + 1
    words[module] = released(words[module], clang, made)
    words[words.index("-o") + 1] = f"{made}.part"
    if subprocess.run([clang, *words, *FAST], check=False).returncode == 0:
        os.rename(f"{made}.part", made)
    # So `rt try` stops here.
    return 1


def released(module, clang, made):
    """Returns where the module lies as a release build has it, or where it lies if it can't be read."""
    text, lean = f"{made}.all.ll", f"{made}.ll"
    if subprocess.run([clang, "-x", "ir", module, "-S", "-emit-llvm", "-O0", "-o", text], check=False).returncode:
        return module
    with open(text, encoding="utf-8") as lines, open(lean, "w", encoding="utf-8") as left:
        left.writelines(as_released(lines))
    os.remove(text)
    return lean


def as_released(lines):
    """Yields the lines of a module without the checks that a release build doesn't make, and without the filling of locals."""
    is_check, asked = False, asked_of_functions()
    for line in lines:
        is_check = line != "}\n" and (is_check or bool(CHECK.match(line)))
        if not FILL.fullmatch(line):
            yield PASS if is_check and line == LOOK else with_word(line, asked)
