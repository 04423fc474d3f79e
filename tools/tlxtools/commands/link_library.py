"""Builds the library of C right after `rt ci`, for the gate: over the crates that it left proved, so that only the library's own is proved again.

`rt ci` proves that crate and builds nothing of it. tools/library.sh builds it by `rt lib`, which takes nothing of what `rt ci` proved and
proves each crate below once more. No file may have changed since `rt ci`: this looks at no dates. If it fails, nothing is left, and
tools/library.sh proves and builds all.
"""

import os
import subprocess
import sys

from tlxtools.crate_list import TOP, below, crates

LIBRARY = "tl_c"


def left(name):
    """The folder in which `rt ci` left a crate that it proved."""
    return os.path.join(TOP, "crates", name, "out", "rlib")


def command(kit):
    """The words that prove the library's crate and build it. `kit` is the toolchain's folder."""
    all_crates = crates()
    words = [f"{kit}/bin/rattle", "build", "--crate-name", LIBRARY, "--crate-type", "staticlib", "src/lib.rt"]
    words += ["--extern", f"std={kit}/rlibs/std.rlib", "-L", f"dependency={kit}/rlibs"]
    for name in all_crates[LIBRARY]:
        place = left(name) if name in all_crates else f"{kit}/rlibs"
        words += ["--extern", f"{name}={place}/{name}.rlib"]
    for name in sorted(below(LIBRARY, all_crates)):
        words += ["-L", f"dependency={left(name)}"]
    words += ["--antt-project", f"{kit}/rattle/logic/antt-project.json", "--logic-built", f"{kit}/logic_built"]
    words += ["--links", f"{LIBRARY}=", "--jobs", str(min(os.cpu_count() or 1, 4)), "--toolchain", f"{kit}/toolchain"]
    return [*words, "-o", f"out/lib{LIBRARY}.a"]


def main():
    page = subprocess.run(["rt", "doc"], capture_output=True, text=True, check=True).stdout.strip()
    folder = os.path.join(TOP, "crates", LIBRARY)
    with open(os.path.join(folder, "build.log"), "wb") as log:
        status = subprocess.run(command(os.path.dirname(page)), cwd=folder, stdout=log, stderr=log, check=False).returncode
    if status:
        print(f"tools/link_library: the library was not built: crates/{LIBRARY}/build.log says why", file=sys.stderr)
    return status
