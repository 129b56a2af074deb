"""Which functions are to be inlined, and which never, as their sources say: the module that `rt try` makes of a program doesn't have it."""

import os
import re

from sources import crate_names, files_of

ASKED = re.compile(r"\s*#\[inline\((never|always)\)\]")
WORDS = {"never": "noinline", "always": "alwaysinline"}
# The trait and the type of a block of methods.
METHODS = re.compile(r"impl(?:<.*?>)? (?:(\w+)(?:<[^{]*?>)? for )?(\w+)")
FUNCTION = re.compile(r"\s*(?:pub(?:\(\w+\))? )?(?:const )?fn (\w+)")
# A function of the module, without the types that it was made for.
DEFINED = re.compile(r'define internal .*?@"([^"]+?)(?:::<[^"]*)?"\(')


def asked_of_functions():
    """Returns LLVM's word for each function whose source asks for one, by its crate, its type if it is a method, and its name."""
    found = {}
    for crate in crate_names():
        for path in files_of(crate, ("src",)):
            with open(path, encoding="utf-8") as lines:
                found.update({(crate, *function): word for function, word in asked_in(lines)})
    return found


def asked_in(lines):
    """Yields each function of a file that is to be inlined or never, with LLVM's word for that."""
    owner, word = (), None
    for line in lines:
        if line.startswith("}"):
            owner = ()
        methods, asked, function = METHODS.match(line), ASKED.match(line), FUNCTION.match(line)
        if methods:
            # The module names a method of a trait by type and trait, and a destructor by the type alone.
            trait = methods[1] or ""
            owner = (methods[2] + ("" if trait == "Drop" else trait),)
        if asked:
            word = WORDS[asked[1]]
        if function:
            if word:
                yield (*owner, function[1]), word
            word = None


def with_word(line, asked):
    """Returns the line of a module, with the word that is asked of its function where it defines one."""
    defined = DEFINED.match(line)
    if not defined:
        return line
    names = defined[1].split("::")
    # Before a function stands its module, and before a method its type.
    function = names[-2:] if names[-2:-1] and names[-2][0].isupper() else names[-1:]
    word = asked.get((names[0], *function))
    head, number, rest = line.rpartition(" #")
    return f"{head} {word}{number}{rest}" if word and number else line
