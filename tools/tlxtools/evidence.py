"""planted/EVIDENCE: for each wrong body that the prover must refuse, when it was refused last, what that rests on, and by which goal.

A line has seven fields: the crate, the edit, three sums, the date, and the goal that stayed open, with its function. The sums are of the
edit, of its cone (the parts of its crate on which the refusal rests, which tools/tlxtools/cones.py finds), and of what stands below the crate
(specs and public contracts) with the toolchain. Lines that are only a comment are in none of them, since no proof depends on them. If
the cone can't be found, the sum of the whole crate (src, specs and proofs) stands in its place.
"""

import dataclasses
import functools
import os
import re
import subprocess

from tlxtools.cones import FOLDERS, sum_of, sum_of_cone
from tlxtools.crate_list import TOP, below, crates
from tlxtools.edits import FUNCTION, crates_with_edits, edits_of
from tlxtools.items import files_of, read

FILE = os.path.join(TOP, "planted", "EVIDENCE")
HEAD = """\
# Each wrong body, with the goal that the prover left open when it was tried last. Written by tools/planted; docs/design/planted.md says more.
# crate edit sum-of-edit sum-of-cone sum-below date function: goal
"""


@dataclasses.dataclass(frozen=True)
class Line:
    """What is known of an edit."""

    crate: str
    edit: str
    of_edit: str
    of_cone: str
    of_below: str
    date: str
    goal: str

    def __str__(self):
        return " ".join(dataclasses.astuple(self))


def uncommented(text):
    """A source or proof file without the lines that are only a comment."""
    return "\n".join(line for line in text.split("\n") if not line.lstrip().startswith(("//", "--")))


@functools.lru_cache(maxsize=None)
def sum_of_crate(crate):
    """The sum of all that the crate itself has but for comments."""
    files = files_of(crate, FOLDERS)
    return sum_of(*(part.encode() for name, path in files for part in (name, uncommented(read(path).decode()))))


def sum_of_own(edit, goal):
    """The sum of what the refusal of an edit by this goal rests on in its crate: of its cone, or of the crate if that is not known."""
    whole = sum_of_crate(edit.crate)
    return sum_of_cone(edit, goal) or whole


def contracts(text):
    """A source file without the bodies of its functions, its private functions and its comments."""
    kept, indent, state = [], "", "item"
    for line in text.split("\n"):
        found = FUNCTION.match(line) if state == "item" else None
        if found:
            indent, is_public = found[1], line.lstrip().startswith("pub ")
            state = "head"
        bare = line.strip()
        if bare and not bare.startswith("//") and (state == "item" or state == "head" and is_public):
            kept.append(bare)
        is_over = line == indent + "}" or found and line.endswith(("}", ";"))
        if state != "item" and is_over:
            state = "item"
        elif state == "head" and (line == indent + "{" or line.endswith(" {") and not re.match(r"\s*(requires|ensures|ghost)\b", line)):
            state = "body"
    return "\n".join(kept)


@functools.lru_cache(maxsize=None)
def sum_of_promises(crate):
    """The sum of what the crates above can cite of a crate: its definitions and its public contracts, without comments."""
    sources = [contracts(read(path).decode()) for _, path in files_of(crate, ("src",))]
    definitions = [uncommented(read(path).decode()) for _, path in files_of(crate, ("specs",))]
    return sum_of(*(text.encode() for text in sources + definitions))


@functools.lru_cache(maxsize=None)
def toolchain():
    """The toolchain's line."""
    return subprocess.run(["rt", "version"], capture_output=True, text=True, check=True).stdout.strip()


@functools.lru_cache(maxsize=None)
def sum_below(crate):
    """The sum of what a crate stands on: the promises of the crates below it, and the toolchain."""
    return sum_of(toolchain().encode(), *(f"{it} {sum_of_promises(it)}".encode() for it in sorted(below(crate, crates()))))


def line_of(edit, date, goal):
    """The line of an edit that was refused by this goal. The sums are of the files as they stood at the crate's first use here."""
    return Line(edit.crate, edit.name, sum_of(edit.text.encode()), sum_of_own(edit, goal), sum_below(edit.crate), date, goal)


def load():
    """The lines of the file, each under its crate and its edit."""
    if not os.path.exists(FILE):
        return {}
    rows = (line.split(" ", 6) for line in read(FILE).decode().split("\n") if line and not line.startswith("#"))
    return {(line.crate, line.edit): line for line in (Line(*row) for row in rows)}


def store(lines):
    """Writes the file whole: of an edit that is gone no line stays."""
    there = {(edit.crate, edit.name) for crate in crates_with_edits() for edit in edits_of(crate)}
    with open(FILE + ".new", "w", encoding="utf-8") as to:
        to.write(HEAD + "".join(f"{line}\n" for key, line in sorted(lines.items()) if key in there))
    os.replace(FILE + ".new", FILE)


def fault_of(edit, line):
    """Why the line does not speak of the edit as it is now, or None."""
    if line is None:
        return "it was never refused by an open goal"
    if line.of_edit != sum_of(edit.text.encode()):
        return "it has changed since it was tried"
    if line.of_cone != sum_of_own(edit, line.goal):
        return "what it rests on has changed since it was tried"
    return None


def is_stale(edit, line):
    """Whether only what stands below the edit's crate has changed since it was tried."""
    return fault_of(edit, line) is None and line.of_below != sum_below(edit.crate)


def is_old(edit, line):
    """Whether anything has changed since the edit was tried."""
    return fault_of(edit, line) is not None or is_stale(edit, line)
