"""The sources: the files of the crates without their comments, what each crate stands on, and the words of all files that a document may name."""

import os
import re

import sources

ROOT = os.path.dirname(os.path.dirname(os.path.dirname(os.path.abspath(__file__))))
WORD = re.compile(r"[A-Za-z_]\w*")
# From there to the end of a line a comment stands.
COMMENT = {".rt": re.compile(r"//.*"), ".antt": re.compile(r"--.*")}
# Beside the crates: folders, and files at the root.
SCRIPTS = ("gate", "tests", "bench", "examples")
ALONE = ("check", "serve", "rcluster", "crates.txt")
# What these folders have beside scripts.
NO_SCRIPTS = (".md", ".svg", ".out")


def text(path, known={}):
    """The text of a file without its comments, where it is code or definitions."""
    if path not in known:
        with open(os.path.join(ROOT, path), encoding="utf-8", errors="replace") as file:
            comment = COMMENT.get(os.path.splitext(path)[1])
            known[path] = comment.sub("", file.read()) if comment else file.read()
    return known[path]


def words_of(path, known={}):
    if path not in known:
        known[path] = set(WORD.findall(text(path)))
    return known[path]


def files_of(crate, folder):
    """The files in a folder of a crate."""
    return files_below(os.path.join("crates", crate, folder))


def files_below(folder):
    for place, folders, names in os.walk(os.path.join(ROOT, folder)):
        folders[:] = [it for it in folders if it not in ("out", "runs", "__pycache__")]
        for name in names:
            yield os.path.join(place, name)[len(ROOT) + 1:]


def libraries(known={}):
    """The libraries that files of each crate cite, by crates.txt, lowest first."""
    if not known:
        known.update(sources.libraries())
    return known


def code(known=[]):
    """Each file of code with its crate."""
    if not known:
        known += [(crate, path) for crate in libraries() for path in files_of(crate, "src") if path.endswith(".rt")]
    return known


def words_of_crate(crate, known={}):
    """The words of a crate's code and definitions, and the names of its files."""
    if crate not in known:
        paths = [path for folder in ("src", "specs") for path in files_of(crate, folder)]
        known[crate] = {*map(name_of, paths)}.union(*map(words_of, paths))
    return known[crate]


def has(word):
    """Whether the word stands anywhere."""
    return word in all_words() or word in words_of_proofs()


def all_words(known=set()):
    """The words of all crates' code and definitions, their names, and the words of all scripts."""
    if not known:
        for crate in libraries():
            known.update([crate], words_of_crate(crate))
        paths = [path for folder in SCRIPTS for path in files_below(folder) if not path.endswith(NO_SCRIPTS)]
        known.update(*map(words_of, [*paths, *ALONE]))
    return known


def words_of_proofs(known=set()):
    """The words of all proofs, and the names of their files and of wrong bodies."""
    if not known:
        for crate in libraries():
            for path in files_of(crate, "proofs"):
                known.update([name_of(path)], words_of(path))
            known.update(name_of(path) for folder in ("wrong", "must-fail") for path in files_of(crate, folder))
    return known


def name_of(path):
    return os.path.splitext(os.path.basename(path))[0]
