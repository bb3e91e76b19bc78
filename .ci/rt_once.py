#!/usr/bin/env python3
"""Runs rt, and has it look at each crate once where it goes down through crates.txt.

    .ci/rt_once.py WORDS ..      as rt WORDS ..

The rt of some kits asks which crates stand below one, and sums the files of these, once for each way down: for our crates
that is tens of millions of ways, and an hour of a processor. Here the crates below one are found once for each, and each is
summed once within one sum, which comes to the same. Nothing else of rt is touched, and what an rt does in one way is left as it is.
"""
import importlib.machinery
import importlib.util
import inspect
import os
import shutil
import sys
import threading

SUMS_EACH_WAY = "[dep.stamp() for dep in self.deps]"
LOOKS_EACH_WAY = "for it in [*dep.below(), dep] if it not in found"


def loaded(path):
    """The program of this path as a module, which isn't run."""
    loader = importlib.machinery.SourceFileLoader("rt_of_kit", path)
    module = importlib.util.module_from_spec(importlib.util.spec_from_loader("rt_of_kit", loader))
    loader.exec_module(module)
    return module


def once_each(stamp):
    """The same sum of a crate, in which each crate below is summed once."""
    at_hand = threading.local()

    def told(crate):
        sums = getattr(at_hand, "sums", None)
        if sums is None:
            at_hand.sums = {}
            try:
                return stamp(crate)
            finally:
                at_hand.sums = None
        if crate.folder not in sums:
            sums[crate.folder] = stamp(crate)
        return sums[crate.folder]

    return told


def below_once(crate):
    """The libraries below a crate, each after those that it uses, which are found once."""
    at_hand = getattr(crate, "found_below", None)
    if at_hand is None:
        at_hand = list(dict.fromkeys(it for dep in crate.deps for it in [*below_once(dep), dep]))
        crate.found_below = at_hand
    return list(at_hand)


def is_made_so(method, words):
    """Whether the text of a method of rt has these words."""
    return method is not None and words in inspect.getsource(method)


def main(words):
    path = shutil.which("rt")
    if not path:
        sys.exit("rt_once: rt isn't there")
    rt = loaded(os.path.realpath(path))
    crate = getattr(getattr(rt, "rtlib", None), "Crate", None)
    if is_made_so(getattr(crate, "below", None), LOOKS_EACH_WAY):
        crate.below = below_once
    if is_made_so(getattr(crate, "stamp", None), SUMS_EACH_WAY):
        crate.stamp = once_each(crate.stamp)
    return rt.main(words)


if __name__ == "__main__":
    sys.dont_write_bytecode = True
    sys.exit(main(sys.argv[1:]))
