"""What the refusal of an edit rests on: its cone, the items of its crate from which it can be read that the open goal is false.

The roots are the items that the edit changes, the function whose goal stayed open, the invariants of these functions, and the edit's
new text. From each item the cone goes on to all items of the crate that have a word of its text as a name. Of a function that is no root
only the contract counts. If an item uses a name that its file takes from elsewhere, the path of that name counts too. Of a name of
another crate of the repository the crate and the module do not count: such a name has one definition before its reader (tests/tools/names_test).

A function of an impl block is reached if it is called by name, and the rest of the block with its type; of a block of Clone with its
function. A definition of proofs/ is reached
only from what says the invariants of a function (Invariants.antt, Proof.antt), or from another that is reached so.
"""

import collections
import functools
import hashlib
import os
import re

from tlxtools.crate_list import crates
from tlxtools.items import TAKES, Item, Unread, definition_items, files_of, goals_item, plain, read, source_items

DIGITS = 12
FOLDERS = ("src", "specs", "proofs")
# the files in which a function's proof says what stays true in its loops
OF_GOALS = ("Invariants.antt", "Proof.antt")
# the name of a function of an impl block where it is called, or where its contract is cited
CALLED = re.compile(r"(?:::\s*|\.\s*(?=\w+\s*(?:\(|::|\.\{)))(\w+)")
TYPES = ("struct", "enum", "trait", "type", "union")
# the block of a trait of which nothing counts unless its function is called by name
CLONES = re.compile(r"impl(?:<[^>]*>)? Clone for\b")


def sum_of(*parts):
    """The first digits of the SHA-256 of some bytes."""
    it = hashlib.sha256()
    for part in parts:
        it.update(len(part).to_bytes(8, "little") + part)
    return it.hexdigest()[:DIGITS]


def is_said(name, words, text):
    """Whether a text with these words may use a name. One that is no word, as that of an operator, is looked for in the text."""
    return name in words or not re.fullmatch(r"\w+", name) and all(part in text for part in name.split("◌"))


@functools.lru_cache(maxsize=None)
def own_crates():
    """The crates of the repository."""
    return frozenset(crates())


def place_of(name, path):
    """What counts of the path of a name that a file takes. A name of a crate of the repository has one definition in all that one reader
    sees, whatever path leads there; a variant is one of its type.
    """
    parts = re.split(r"::|\.", path)
    crate = parts[1] if parts[0] == "Rattle" and len(parts) > 2 else parts[0]
    if crate not in own_crates() or parts[-1] != name or {"contracts", "proofs"} & set(parts):
        return path
    return ".".join(parts[parts.index("TheVariants") - 1:]) if "TheVariants" in parts else name


class Names:
    """The items that have a name."""

    def __init__(self):
        self.words = collections.defaultdict(list)
        self.others = collections.defaultdict(list)

    def add(self, item, names):
        for name in names:
            (self.words if re.fullmatch(r"\w+", name) else self.others)[name].append(item)

    def of(self, words, text=""):
        """The items that a text with these words may name."""
        for word in words & self.words.keys():
            yield from self.words[word]
        for name, items in self.others.items():
            if text and is_said(name, words, text):
                yield from items


def folders_of(item):
    """The modules to which the file of an item leads."""
    path = item.file.name.removeprefix("src/").removesuffix(".rt").split("/")
    return path[:-1] if path[-1] == "lib" else path


class Crate:
    """The items of a crate by the texts of its files."""

    def __init__(self, name, texts):
        self.name, self.texts, self.items, self.reached = name, texts, [], {}
        self.modules = {"crate", "self", "super"} | {os.path.basename(file).removesuffix(".rt") for file in self.texts if file.endswith(".rt")}
        # what says the invariants of functions, each with the folders of its path
        self.goals = []
        for file, text in self.texts.items():
            self._read(file, text)
        self.files = {item.file.name: item.file for item in self.items}
        types = {name for item in self.items if item.kind in TYPES for name in item.names}
        # the items by their names: functions, those of an impl block, the others, and those of each file of lemmas
        self.calls, self.methods, self.stated, self.lemmas = Names(), Names(), Names(), collections.defaultdict(Names)
        for item in self.items:
            if item.kind == "use" and all(place_of(name, path) == name for name in item.names for path in item.file.taken[name]):
                continue
            if item.kind == "impl" and CLONES.match(item.whole):
                self.methods.add(item, {"clone"})
                continue
            # an impl block belongs to the types and traits of its head, or to all its words if none is of this crate
            self._names_of(item).add(item, item.names | (item.head & types or item.head if item.kind == "impl" else frozenset()))

    def _names_of(self, item):
        """Where an item is looked up."""
        if item.file.name.startswith("proofs/"):
            return self.lemmas[item.file.name]
        if item.kind in ("fn", "const fn"):
            return self.methods if item.head else self.calls
        return self.stated

    def _read(self, file, text):
        folders = file.split("/")
        if file.endswith(".rt") and folders[1] not in ("tests", "tests.rt"):
            self.items += source_items(file, text)
        elif folders[0] in ("specs", "proofs") and folders[-1] in OF_GOALS:
            self.goals.append((folders[1:-1], goals_item(file, text)))
        elif folders[0] == "specs" or folders[0] == "proofs" and len(folders) == 2:
            self.items += definition_items(file, text)

    def invariants(self, item, names):
        """What the proof folders of a function say of its goals. The folder of a method stands with its type."""
        front, types = folders_of(item), tuple(word for word in item.head if word[0].isupper())
        return [it for at, it in self.goals if names & set(at) and (at[:len(front)] == front or any(folder.startswith(types) for folder in at))]

    def changed(self, file, text):
        """The items in which a text stands. A line that takes names from elsewhere is in none."""
        whole = self.texts.get(file, "")
        if text not in whole or not file.startswith("src/"):
            raise Unread
        first = whole[:whole.find(text)].count("\n") + 1
        for line in range(first, first + text.strip("\n").count("\n") + 1):
            found = [it for it in self.items if it.file.name == file and it.first <= line <= it.last and it.kind != "use"]
            if found:
                yield min(found, key=lambda it: it.last - it.first)
            elif not TAKES.match(whole.split("\n")[line - 1]):
                raise Unread

    def functions(self, path):
        """The functions that a goal's path may mean. The path of a method is that of its type, whose methods may stand in other files."""
        *front, name = path.split("::")
        found = [it for it in self.items if name in it.names and it.file.name.startswith("src/") and it.kind != "use"]
        fits = [it for it in found if front[:len(folders_of(it))] == folders_of(it) or front and front[-1] in it.head]
        if not fits:
            raise Unread
        return fits

    def is_own(self, path):
        """Whether a path is one into this crate: of definitions, or of source files."""
        front = re.match(r"\w+", path)
        return path.startswith(f"Rattle.{self.name}.") or front is not None and front[0] in self.modules

    def lemmas_of(self, item, words, text):
        """The items that a text of a proof file names: those of its file, and those that the file takes from others."""
        yield from self.lemmas[item.file.name].of(words, text)
        for name, paths in item.file.taken.items():
            for path in paths if is_said(name, words, text) else ():
                crate, file, there = re.fullmatch(r"(Rattle\.\w+\.proofs)?\.?([^.]*)\.?(.*)", path).groups()
                if crate == f"Rattle.{self.name}.proofs" and not path.endswith(".Given"):
                    names = self.lemmas[f"proofs/{file}.antt"]
                    if "." in there or f"proofs/{file}.antt" not in self.texts:
                        raise Unread
                    # a name of the file, or the file itself
                    yield from names.of({there}, there) if there else names.of(words, text)

    def next_of(self, item, text):
        """The items that a text of an item names, and the names with paths that it uses."""
        if item.kind == "use":
            # a name that is handed on says nothing but its path
            words, taken = set(item.names), [(name, path) for name in item.names for path in item.file.taken[name]]
        else:
            words = set(re.findall(r"\w+", text))
            taken = [(name, path) for name, paths in item.file.taken.items() if name == "*" or is_said(name, words, text) for path in paths]
        own = [path for _, path in taken if self.is_own(path)]
        in_paths, is_code = {word for path in own for word in re.findall(r"\w+", path)}, item.file.name.startswith("src/")
        found = [*self.stated.of(words | in_paths, text), *self.calls.of(in_paths), *self.methods.of(in_paths)]
        # a definition names a function only by the path of its contract
        if is_code or any(".contracts" in path for path in own):
            found += [*self.calls.of(words), *self.methods.of(set(CALLED.findall(text)) if is_code else words)]
        if item.file.name.startswith("proofs/"):
            found += self.lemmas_of(item, words, text)
        return found, {f"{name} of {place_of(name, path)}" for name, path in taken}

    def cone(self, roots):
        """The texts of all that these items rest on, themselves among them: their whole texts, and of others what they promise."""
        waiting, known, pairs = [(it, it.whole) for it in roots], {}, set()
        while waiting:
            item, text = waiting.pop()
            if len(known.get(item, "")) >= len(text):
                continue
            known[item] = text
            if (item, text) not in self.reached:
                self.reached[item, text] = self.next_of(item, text)
            found, taken = self.reached[item, text]
            pairs |= taken
            # the value of a constant may be that of a function, whose body counts then
            waiting += [(it, it.whole if it.kind == "const fn" else it.promise) for it in found]
        return sorted(known.values()) + sorted(pairs)

    def roots(self, edit, goal):
        """The items that an edit changes, its new text, the function of the goal, and what the proofs of these say of their goals."""
        found, file = [], ""
        for word, text in edit.lines():
            if word == "file":
                file = text.strip()
            elif word == "old":
                found += self.changed(file, text.removeprefix(" "))
            elif word == "new":
                made = plain([text])
                found.append(Item(self.files[file], 0, 0, frozenset(), made, made, "new"))
        path = goal.rpartition(": ")[0]
        functions = self.functions(path)
        goals = [it for item in found for it in self.invariants(item, item.names)]
        return found + functions + goals + [it for item in functions for it in self.invariants(item, {path.rpartition("::")[2]})]

    def sum_of(self, edit, goal):
        """The sum of the cone of an edit, or None if it can't be found."""
        try:
            return sum_of(*(text.encode() for text in self.cone(self.roots(edit, goal))))
        except (Unread, KeyError):
            return None


@functools.lru_cache(maxsize=None)
def crate_of(name):
    """A crate by its name as it stood at the first call, or None if it has what is not read."""
    try:
        return Crate(name, {file: read(path).decode() for file, path in files_of(name, FOLDERS)})
    except Unread:
        return None


@functools.lru_cache(maxsize=None)
def sum_of_cone(edit, goal):
    """The sum of what the refusal of an edit by a goal rests on, or None if that is not known."""
    crate = crate_of(edit.crate)
    return crate.sum_of(edit, goal) if crate else None
