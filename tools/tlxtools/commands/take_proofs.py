"""Takes what another clone of this repository has proved: tools/take_proofs CLONE [CRATE..], from anywhere.

`rt` keeps proofs for `rt ci` alone. So `rt check` and tools/planted would prove each crate of a new clone again. This takes the library of
each crate of which no source differs between the two trees, nor one of a crate below it, by hard links. What this tree has built of such a
crate is replaced, and what it has of any other crate stays. Of each CRATE it also copies what the check kept: then tools/planted proves
only what an edit changes, and not the whole crate for each group of edits. No check may run in either tree meanwhile. The last line counts
the crates.
"""

import filecmp
import os
import shutil
import sys

from tlxtools.crate_list import TOP, below, crates
from tlxtools.kit import kit_crate
from tlxtools.lanes import PARTS, folder_of

USAGE = 64


def is_same_folder(one, other):
    """Whether two folders have the same files, or neither is there."""
    if not (os.path.isdir(one) and os.path.isdir(other)):
        return os.path.isdir(one) == os.path.isdir(other)
    found = filecmp.dircmp(one, other, ignore=[])
    if found.left_only or found.right_only or found.funny_files:
        return False
    _, differ, unread = filecmp.cmpfiles(one, other, found.common_files, shallow=False)
    return not differ and not unread and all(is_same_folder(os.path.join(one, name), os.path.join(other, name)) for name in found.common_dirs)


def is_same(name, clone):
    """Whether a crate has the same sources in both trees."""
    return all(is_same_folder(os.path.join(folder_of(name), part), os.path.join(folder_of(name, clone), part)) for part in PARTS)


def take(name, clone):
    """Takes the library of a crate. Its stamp says of which sources it is."""
    ours, theirs = (os.path.join(folder_of(name, top), "out", "rlib") for top in (TOP, clone))
    shutil.rmtree(ours, ignore_errors=True)
    shutil.copytree(theirs, ours, copy_function=os.link, ignore=shutil.ignore_patterns("stamp"))
    with open(os.path.join(ours, "stamp"), "w", encoding="ascii") as to:
        to.write(kit_crate(name).stamp())


def take_kept(name, clone):
    """Copies what a check of the crate kept, if there was one. A later check writes there, so links would change the clone."""
    ours, theirs = (os.path.join(folder_of(name, top), "out", "incremental") for top in (TOP, clone))
    if os.path.isdir(theirs):
        shutil.rmtree(ours, ignore_errors=True)
        shutil.copytree(theirs, ours)


def main():
    words, all_crates = sys.argv[1:], crates()
    if not words or not os.path.isdir(os.path.join(words[0], "crates")) or not set(words[1:]) <= set(all_crates):
        print(__doc__, end="", file=sys.stderr)
        return USAGE
    clone = os.path.abspath(words[0])
    same = {name for name in all_crates if is_same(name, clone)}
    taken = [name for name in all_crates
             if {name, *below(name, all_crates)} <= same and os.path.isdir(os.path.join(folder_of(name, clone), "out", "rlib", f"{name}.rlib"))]
    for name in taken:
        take(name, clone)
        if name in words[1:]:
            take_kept(name, clone)
    print(f"{len(taken)} of {len(all_crates)} crates")
    return 0
