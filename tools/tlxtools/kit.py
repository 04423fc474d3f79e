"""What the tools call of the toolchain beside its commands: the parts of `rt` that know the words of a check and read an edit.

tools/kit.py WORD.. runs `rt WORD..` in a folder in which no source changes meanwhile. `rt` sums up the sources of a crate and of all
below it anew for each way that leads to a crate, which takes minutes at the top of the tree. Here each crate is summed up once.
"""

import functools
import os
import subprocess
import sys
import types

from tlxtools.crate_list import TOP


@functools.lru_cache(maxsize=None)
def rt():
    """The command `rt` as a module, with sums that are made once. It stands in the folder bin, beside the toolchain's first page."""
    page = subprocess.run(["rt", "doc"], capture_output=True, text=True, check=True).stdout.strip()
    path = os.path.join(os.path.dirname(page), "bin", "rt")
    module = sys.modules["rt"] = types.ModuleType("rt")
    module.__file__ = path
    with open(path, encoding="utf-8") as source:
        exec(compile(source.read(), path, "exec"), vars(module))
    module.rtlib.Crate.stamp = once(module.rtlib.Crate.stamp)
    return module


def once(stamp):
    """The sum of a crate, made at the first call for its folder."""
    known = {}

    def found(crate):
        if crate.folder not in known:
            known[crate.folder] = stamp(crate)
        return known[crate.folder]

    return found


def command():
    """The words that run `rt` in a folder in which no source changes."""
    return [sys.executable, "-B", os.path.join(TOP, "tools", "kit.py")]


def rattle():
    """The path of the compiler and prover."""
    return rt().rtlib.RATTLE


@functools.lru_cache(maxsize=None)
def _crates():
    return {crate.name: crate for crate in rt().rtlib.crates_below(TOP)}


def kit_crate(name):
    """What the toolchain knows of a crate of this tree, or None if there is no such crate."""
    return _crates().get(name)


def main():
    return rt().main(sys.argv[1:])
