"""What definitions, proofs and code cite: whether the module stands there, and whether crates.txt names just the libraries that a crate's files cite."""

import os
import re

import texts

# A module of another crate, or of the own one: behind `declared` and `contracts` stands that of a file of code.
CITED = re.compile(r"\bRattle\.(\w+)\.(specs|proofs)\.(?:(?:declared|contracts)\.)?([A-Za-z_]\w*)")
# What code names of a library.
USED = re.compile(r"\b(\w+)::|\buse (\w+);")
LIBRARY = re.compile(r"\bRattle\.(\w+)\b")


def faults():
    """Yields each file, or list, that isn't right, with what is to be said of it."""
    for crate, libraries in texts.libraries().items():
        cited = set()
        for path in files(crate):
            text = texts.text(path)
            cited.update(LIBRARY.findall(text))
            if path.endswith(".rt"):
                cited.update(one or other for one, other in USED.findall(text))
            for library, kind, module in CITED.findall(text):
                if library in texts.libraries() and not stands(library, kind, module):
                    yield path, f"no module {module} in {kind} of {library}"
                elif library in texts.libraries() and library not in (crate, *libraries):
                    yield path, f"it cites {library}, which the line of {crate} in crates.txt doesn't name"
        for library in libraries:
            if library not in cited:
                yield "crates.txt", f"no file of {crate} cites {library}"


def files(crate):
    return [path for folder in ("src", "specs", "proofs") for path in texts.files_of(crate, folder) if path.endswith((".rt", ".antt"))]


def stands(crate, kind, module):
    """Whether a crate has a file for that module, or code that bears the name."""
    places = [os.path.join(kind, module), os.path.join("src", module)]
    at = os.path.join(texts.ROOT, "crates", crate)
    return any(os.path.exists(os.path.join(at, place + end)) for place in places for end in ("", ".antt", ".rt")) or module in texts.words_of_crate(crate)
