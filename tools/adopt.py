#!/usr/bin/env python3
"""adopt.py [CHECKOUT]: puts what `rt ci` has proved on this machine into a checkout's out/ folders.

rt ci keeps each proof under the sums of all files that it read. Where they are those of the checkout, this takes the
libraries, for rt check, rt must-fail and rt plant to begin with, and the built program. `./jobctl prove` calls it first.
It calls rt's own functions and writes below crates/*/out alone. Nothing here counts for rt ci, which sets out/ aside.
"""
import importlib.machinery
import importlib.util
import os
import shutil
import sys


def load_rt():
    """Returns rt's own code as a module."""
    sys.dont_write_bytecode = True
    file = shutil.which("rt")
    if not file:
        sys.exit("adopt.py: there is no command rt on the PATH")
    loader = importlib.machinery.SourceFileLoader("rt_of_the_kit", file)
    made = importlib.util.module_from_spec(importlib.util.spec_from_loader("rt_of_the_kit", loader))
    loader.exec_module(made)
    return made


def adopt(top):
    """Takes over what is kept, lowest first, and returns the names of the crates that were and were not given."""
    os.chdir(top)
    rt = load_rt()
    rt.Crate.allowed = rt.handles_of(top)
    crates = rt.crates_of(top)
    held = rt.rtlib.lock(crates)
    kept, given = rt.Kept(crates), set()
    for crate in crates:
        if not all(below.name in given for below in crate.deps):
            continue
        # What stands there beside the kept files makes rt take the kept ones for damaged, and drop them.
        shutil.rmtree(f"{crate.folder}/out/rlib", ignore_errors=True)
        if not kept.give(crate, False, kept.key(crate)):
            continue
        kept.is_built(crate)
        given.add(crate.name)
        if not crate.is_program:
            with open(f"{crate.folder}/out/rlib/stamp", "w", encoding="utf-8") as it:
                it.write(crate.stamp())
    del held
    return given, [it.name for it in crates if it.name not in given]


def main():
    top = os.path.abspath(sys.argv[1] if len(sys.argv) > 1 else os.path.join(os.path.dirname(__file__), ".."))
    given, missing = adopt(top)
    print(f"adopted {len(given)} of {len(given) + len(missing)} crates")
    if missing:
        print("not kept:", " ".join(missing))


main()
