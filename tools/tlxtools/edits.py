"""The wrong bodies that the prover must refuse: crates/CRATE/must-fail/*.edit, which the gate tries, and planted/CRATE/*.edit."""

import dataclasses
import os
import re

from tlxtools.crate_list import TOP

FUNCTION = re.compile(r'(\s*)(?:pub(?:\([a-z]+\))? )?(?:const )?(?:unsafe )?(?:extern "C" )?fn (\w+)')
# How many edits are tried in one check at the most.
MOST_AT_ONCE = 10


@dataclasses.dataclass(frozen=True)
class Edit:
    """A wrong body: the crate that it changes, its file, and the text that the file had when it was read."""

    crate: str
    path: str
    text: str

    @classmethod
    def read(cls, crate, path):
        """The edit of a file."""
        with open(path, encoding="utf-8") as it:
            return cls(crate, path, it.read())

    @property
    def name(self):
        return os.path.basename(self.path).removesuffix(".edit")

    def lines(self):
        """The text's lines, each with the word that it begins with."""
        return [line.partition(":")[::2] for line in self.text.split("\n") if line]

    def goal(self):
        """The goal that has to stay open, if the edit has a line that names it."""
        return next((text.strip() for word, text in self.lines() if word == "goal"), None)

    def places(self):
        """The functions that the edit changes, each as a Function. None stands for what is in no function."""
        found, file = set(), ""
        for word, text in self.lines():
            if word == "file":
                file = text.strip()
            elif word == "old":
                found.add(function_with(os.path.join(TOP, "crates", self.crate), file, text.removeprefix(" ")))
        return found


@dataclasses.dataclass(frozen=True)
class Function:
    """A function of a crate's file, with its first and its last line."""

    file: str
    name: str
    first: int
    last: int

    def has(self, file, line):
        """Whether the line is one of the function's."""
        return file == self.file and self.first <= line <= self.last


def functions(lines):
    """The functions of a file as the formatter lays them out: name, first and last line. A function within another is a part of it."""
    name, indent, first = None, "", 0
    for number, line in enumerate(lines, 1):
        found = FUNCTION.match(line) if name is None else None
        if found:
            indent, name, first = found[1], found[2], number
        if name and (line == indent + "}" or found and line.endswith("}")):
            yield name, first, number
            name = None


def function_with(folder, file, text):
    """The function of the crate in which the text stands, or None."""
    try:
        with open(os.path.join(folder, file), encoding="utf-8") as it:
            whole = it.read()
    except OSError:
        return None
    at = whole[:max(whole.find(text), 0)].count("\n") + 1
    found = (Function(file, *it) for it in functions(whole.split("\n")) if it[1] <= at <= it[2])
    return next(found, None) if file.startswith("src/") and text in whole else None


def edits_of(crate):
    """The edits of a crate, of both folders."""
    folders = [os.path.join(TOP, "crates", crate, "must-fail"), os.path.join(TOP, "planted", crate)]
    files = [os.path.join(at, file) for at in folders if os.path.isdir(at) for file in sorted(os.listdir(at))]
    return [Edit.read(crate, path) for path in files if path.endswith(".edit")]


def crates_with_edits():
    """The crates that have edits."""
    folders = {at.name for at in os.scandir(os.path.join(TOP, "planted")) if at.is_dir()} | set(os.listdir(os.path.join(TOP, "crates")))
    return sorted(crate for crate in folders if edits_of(crate))


def groups(edits):
    """The edits in groups, each tried by one check: no two of a group change one function. What is in no function is tried alone, and last:
    what its check proves holds for no other edit.
    """
    found = []
    for edit in edits:
        places = edit.places()
        fits = (it for it in found if None not in places | it[1] and not places & it[1] and len(it[0]) < MOST_AT_ONCE)
        group = next(fits, None)
        if group is None:
            group = [], set()
            found.append(group)
        group[0].append(edit)
        group[1].update(places)
    return [it for it, _ in sorted(found, key=lambda it: None in it[1])]
