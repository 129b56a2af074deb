"""The kit's command `rt` as a module, for scripts that run its gate with a change of their own."""

import functools
import importlib.machinery
import importlib.util
import os
import sys

import kit

# What a crate's class reckons anew along each path down through crates.txt, in kits that keep nothing.
PER_PATH = ("below", "stamp")
# How many times more memory the kit reckons for a check than checks took here.
TOO_MUCH = 2


def load():
    """Returns the kit's command as a module, one that looks once at each crate."""
    script = os.path.join(kit.folder(), "bin", "rt")
    loader = importlib.machinery.SourceFileLoader("rt", script)
    module = importlib.util.module_from_spec(importlib.util.spec_from_loader("rt", loader))
    sys.modules["rt"] = module
    loader.exec_module(module)
    set_less_aside(module)
    if not kit.keeps_what_passed():
        reckon_once(module)
    return module


def set_less_aside(rt):
    """Has the kit reckon half the memory for each check. Else processors have nothing to do while memory is free."""
    reckoned = getattr(rt, "need", None)
    if reckoned:
        rt.need = lambda crate: reckoned(crate) // TOO_MUCH


def reckon_once(rt):
    """Has the kit reckon once for each crate which libraries it stands on, and once what the sum of its files is.

    Kits before 13f reckon both along each path down through crates.txt, and some 460,000 paths lead down from `rcluster`. A gate
    uses these sums for nothing but to tell whether a file has changed meanwhile, and keeps nothing by them.
    """
    crate = getattr(getattr(rt, "rtlib", None), "Crate", None)
    for name in PER_PATH:
        if name in vars(crate or object):
            setattr(crate, name, once(getattr(crate, name), "_once_" + name))


def once(method, field):
    """The method, with its answer kept in that field of its object. A list is handed out as a copy."""

    @functools.wraps(method)
    def answer(self):
        if field not in self.__dict__:
            self.__dict__[field] = method(self)
        kept = self.__dict__[field]
        return list(kept) if isinstance(kept, list) else kept

    return answer
