"""Compares the names of the crates: a name that other crates or the pages cite has one definition among all that one reader sees. Then it
tests that comparison on a copy in which one definition takes the name of another. It also compares the lines of crates.txt with the files:
a line has the libraries of the repository that the crate's files name, and no others. The ways down from crate to crate stay few, since
`rt` sums up sources once a way. The last line is 'N passed, M failed'. It needs no program.

A definition is a public one of specs/, or a public type, trait, constant or function of src/. A function may have the name of the
definition of its own crate that it promises. Laws are left out: they are cited with their crate, and a law about another crate's map may
have the same name. A page cites a name between backticks.
"""

import collections
import os
import re
import shutil
import tempfile

from harness import run_test, tell
from tlxtools import tree
from tlxtools.crate_list import TOP, below, crates, ways

# How many ways may lead down from crate to crate at the most: each costs the gate some 5 ms, several times.
MOST_WAYS = 80_000
# How many names have to be compared at least: far fewer are a reader that reads nothing.
LEAST = 1000
DEFINITION = re.compile(r"^(?:[a-z]+ )*pub (?!use\b|mod\b)(?:data |record )?([^\s:(]+)", re.M)
ITEM = re.compile(r"^pub (?:const |unsafe )?(?:struct|enum|type|trait|fn|const) (\w+)", re.M)
# a line that takes names of a crate's definitions: the crate, the module, and the names or the one name
TAKES = re.compile(r"\buse Rattle\.(\w+)\.((?:[\w«»-]+\.)*)(?:\{([^}]*)\}|([^\s;{}.]+))")
# a line that takes items of a crate's code
TAKES_ITEMS = re.compile(r"\buse (\w+)::([^;]*);")
# A definition that takes the name of another, which a crate above both cites.
CHANGE = ("crates/check_watch/specs/Plan.antt", "IsGroupLink", "IsWatched")


def read(path):
    with open(path, encoding="utf-8") as file:
        return file.read()


def sources(top, crate):
    """The files of a crate that state something, each with whether it is one of definitions. Tests state nothing."""
    for part in ("specs", "src"):
        for folder, _, files in os.walk(os.path.join(top, "crates", crate, part)):
            for file in sorted(files):
                if file.endswith((".antt", ".rt")):
                    yield os.path.join(folder, file), file.endswith(".antt")


def is_of_laws(crate, path):
    return crate.endswith("_laws") and path.endswith(".rt") or os.path.basename(path) == "laws.rt"


class Names:
    """Where each name is defined, and which crates cite it from where."""

    def __init__(self, top):
        self.top = top
        self.crates = crates()
        self.seen_from = {crate: below(crate, self.crates) | {crate} for crate in self.crates}
        self.defined = collections.defaultdict(set)
        stating = [crate for crate in self.crates if not crate.endswith("_tests")]
        self.texts = {crate: [(path, spec, read(path)) for path, spec in sources(top, crate)] for crate in stating}
        for crate, files in self.texts.items():
            for path, spec, text in files:
                if not is_of_laws(crate, path):
                    for name in (DEFINITION if spec else ITEM).findall(text):
                        self.defined[name].add(crate)
        # for each name, the crates that cite it, each with the crate whose name it is
        self.cited = collections.defaultdict(set)
        for crate, files in self.texts.items():
            for _, _, text in files:
                for owner, name in self.taken(text):
                    if owner != crate and owner in self.defined.get(name, ()):
                        self.cited[name].add((crate, owner))

    def taken(self, text):
        for owner, path, names, name in TAKES.findall(text):
            for each in (names or name).split(","):
                yield owner, each.split(" as ")[0].strip()
            for part in path.split("."):
                yield owner, part
        for owner, rest in TAKES_ITEMS.findall(text):
            for name in re.findall(r"\w+", rest):
                yield owner, name

    def on_pages(self):
        """The names that stand between backticks on the pages."""
        pages = [os.path.join(self.top, "README.md"), os.path.join(self.top, "CONTRIBUTING.md")]
        pages += [os.path.join(self.top, "docs", page) for page in tree.files(os.path.join(self.top, "docs"), ".md")
                  if not tree.is_made(f"docs/{page}")]
        return {name for page in pages for text in re.findall(r"`([^`\n]+)`", read(page)) for name in re.findall(r"\w+", text)}

    def clashes(self):
        """The names that are cited, and of each that has two definitions before one reader: the name and the two crates."""
        paged = self.on_pages()
        names = [name for name in self.defined if name in self.cited or name in paged]
        found = []
        for name in sorted(names):
            owners = sorted(self.defined[name])
            # the crate whose name is cited, and the crate from which it is read
            readers = set(self.cited[name])
            if name in paged:
                readers |= {(owner, owner) for owner in owners}
            pairs = {tuple(sorted((owner, other))) for reader, owner in readers for other in owners
                     if other != owner and other in self.seen_from[reader]}
            found += [(name, *pair) for pair in sorted(pairs)]
        return names, found


def copy_with_a_change(to):
    """A copy of what is compared, in which one definition has the name of another."""
    for part in ("crates", "docs"):
        shutil.copytree(os.path.join(TOP, part), os.path.join(to, part), ignore=shutil.ignore_patterns("out", "proofs", "*.edit"))
    for page in ("README.md", "CONTRIBUTING.md"):
        shutil.copy(os.path.join(TOP, page), to)
    file, old, new = CHANGE
    path = os.path.join(to, file)
    text = read(path)
    with open(path, "w", encoding="utf-8") as out:
        out.write(re.sub(rf"\b{old}\b", new, text))


def named_by(crate, all_crates):
    """The other crates that a crate's files name."""
    found = set()
    for part in ("specs", "src", "proofs"):
        for folder, _, files in os.walk(os.path.join(TOP, "crates", crate, part)):
            for file in files:
                text = read(os.path.join(folder, file))
                found.update(re.findall(r"\bRattle\.(\w+)\.", text))
                if file.endswith(".rt"):
                    code = re.sub(r"^\s*//.*$", "", text, flags=re.M)
                    found.update(re.findall(r"\b(\w+)::", code))
    return found & set(all_crates) - {crate}


def wrong_lines(crate, all_crates):
    """What is wrong with a crate's line of crates.txt: a crate that its files name and the line has not, or the other way round."""
    listed, named = set(all_crates[crate]) & set(all_crates), named_by(crate, all_crates)
    yield from (f"it names {other} and has it not" for other in sorted(named - listed))
    yield from (f"it has {other} and names it not" for other in sorted(listed - named))


def check_lines():
    """Compares crates.txt with the files."""
    for crate in crates():
        wrong = list(wrong_lines(crate, crates()))
        tell(f"crates.txt has what {crate} names", not wrong, "; ".join(wrong))
    found = ways(crates())
    tell(f"{MOST_WAYS} ways lead down from crate to crate at the most", found <= MOST_WAYS, f"{found} do: let a crate hand on what those above it name")


def main():
    compared, clashes = Names(TOP).clashes()
    for name in compared:
        places = [f"{one} and {other}" for clashing, one, other in clashes if clashing == name]
        tell(f"{name} has one definition", not places, f"it stands in {'; '.join(places)}")
    tell(f"at least {LEAST} names are read", len(compared) >= LEAST, f"only {len(compared)} are")
    with tempfile.TemporaryDirectory() as copy:
        copy_with_a_change(copy)
        told = Names(copy).clashes()[1]
    tell("a definition with the name of another is seen", (CHANGE[2], "check_sides", "check_watch") in told)
    check_lines()


if __name__ == "__main__":
    run_test(main)
