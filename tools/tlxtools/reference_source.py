"""What tools/reference reads of a crate: its definitions (specs/), and the types and calls that its lib.rt exports (src/)."""

import collections
import os
import re

from tlxtools.tree import read

# A definition: its name, the lines of the comment above it, the headings since the one before, its text, and the file's names.
Definition = collections.namedtuple("Definition", ["name", "comment", "text"])
# A file of definitions: its name, what it says of itself, its definitions, and from which crate it takes each name.
Specs = collections.namedtuple("Specs", ["name", "comment", "definitions", "taken"])
# A public type, constant or call: the name, its doc comment, its text without a body, and from which crate its file takes each name.
Item = collections.namedtuple("Item", ["name", "comment", "text", "taken"])

DECLARED = re.compile(r"^ *(?:(?:abbrev|unfoldable) pub|pub (?:record|data)) ([^\s:(]+)", re.M)
TAKES = re.compile(r"^ *(?:ghost )?use Rattle\.(\w+)\.(?:specs\.|proofs\.)?([\w.«»-]*?)\.?\{([^}]*)\}", re.M)
EXPORTS = re.compile(r"^pub use ([\w:]+?)(?:::\{([^}]*)\}|::(\w+));", re.M | re.S)
ITEM = r"pub (?:unsafe |const |extern \"C\" )*(?:fn|struct|enum|trait|type|const) "


def taken_by(text):
    """From which crate a file takes each name: the name as the file has it, its crate, and its name there."""
    taken = {}
    for crate, _, names in TAKES.findall(text):
        for each in names.split(","):
            there, _, here = each.strip().partition(" as ")
            if there:
                taken[here.strip() or there] = (crate, there)
    return taken


def comment_of(lines):
    """The lines of a comment without its marks; lines that only head a part of a file are left out."""
    bare = [re.sub(r"^\s*--\s?", "", line) for line in lines if not re.match(r"\s*-- ----", line)]
    return [line.strip() for line in bare]


def dedent(lines):
    least = min(len(line) - len(line.lstrip()) for line in lines if line.strip())
    return "\n".join(line[least:].rstrip() for line in lines)


def blocks(text):
    """The lines between empty lines."""
    for block in re.split(r"\n[ \t]*\n", text.strip("\n")):
        if block.strip():
            yield block.split("\n")


def specs_of(top, crate):
    """The files of definitions of a crate, in the order in which specs/Lib.antt names them."""
    folder = f"crates/{crate}/specs"
    if not os.path.isdir(os.path.join(top, folder)):
        return []
    names = re.findall(r"^pub mod (\w+)", read(top, f"{folder}/Lib.antt"), re.M)
    return [specs_in(name, read(top, f"{folder}/{name}.antt")) for name in names]


def specs_in(name, text):
    """A file of definitions by its text."""
    found, said = [], []
    for place, lines in enumerate(blocks(text)):
        front = [line for line in lines if re.match(r"\s*--", line)]
        code = lines[next((at for at, line in enumerate(lines) if not re.match(r"\s*--", line)), len(lines)):]
        if place == 0 and (not code or code[0].startswith("use ")):
            said = comment_of(front)
        elif DECLARED.search("\n".join(code)):
            first = next(at for at, line in enumerate(code) if DECLARED.match(line))
            # a module's line and a comment within it stand before the definition
            own = [line for line in code[:first] if re.match(r"\s*--", line)] or lines[:len(lines) - len(code)]
            found.append(Definition(DECLARED.match(code[first]).group(1), comment_of(own), dedent(code[first:])))
    return Specs(name, said, found, taken_by(text))


def module_path(top, crate, module, within=""):
    """The file of a module that another one names, or nothing."""
    base = f"crates/{crate}/src/"
    for front in dict.fromkeys((within, "")):
        path = f"{base}{front}{module.replace('::', '/')}.rt"
        if os.path.isfile(os.path.join(top, path)):
            return path
    return ""


def doc_of(lines, mark):
    """The doc comment of lines that begin with a mark."""
    return [line.strip()[len(mark):].strip() for line in lines if line.strip().startswith(mark)]


def lib_page(top, crate):
    """What lib.rt, or main.rt of a program, says of its crate."""
    for name in ("lib.rt", "main.rt"):
        path = f"crates/{crate}/src/{name}"
        if os.path.isfile(os.path.join(top, path)):
            return doc_of(read(top, path).split("\n"), "//!")
    return []


def head_of(lines, at):
    """The doc comment above a line, past attributes."""
    first = at
    while first > 0 and re.match(r"\s*(///|#\[)", lines[first - 1]):
        first -= 1
    return doc_of(lines[first:at], "///")


def call_text(lines, at):
    """The signature of a call with its clauses, without its body."""
    indent = lines[at][:len(lines[at]) - len(lines[at].lstrip())]
    kept, has_clause = [], False
    for line in lines[at:]:
        if line in (indent + "{", indent + "{}"):
            break
        has_clause = has_clause or re.match(r"\s*(requires|ensures)\b", line)
        if not has_clause and re.search(r"\{\}?$", line):
            # a call without clauses, whose body begins on the line of its answer
            kept.append(re.sub(r"\s*\{\}?$", "", line))
            break
        kept.append(line)
    return dedent(kept)


def type_text(lines, at):
    """A type without its private fields."""
    if lines[at].rstrip().endswith((";", "{}")):
        return lines[at].strip()
    last = next((n for n in range(at, len(lines)) if lines[n] == "}"), at)
    if not lines[at].startswith("pub struct"):
        return "\n".join(line.rstrip() for line in lines[at:last + 1])
    kept, held, is_private, had_private = [lines[at]], [], False, False
    for line in lines[at + 1:last]:
        if re.match(r"    (///|#\[)", line):
            held.append(line)
        elif re.match(r"    (pub |ghost )", line):
            kept, held = kept + held + [line], []
        elif re.match(r"    \w", line):
            held, is_private, had_private = [], True, True
        elif not is_private:
            kept.append(line)
        if re.match(r"    (pub |ghost )", line):
            is_private = False
    return "\n".join(line.rstrip() for line in kept + ["    .."] * had_private + ["}"])


def model_of(lines, name):
    """What contracts see of a type: its `impl Model` without the names that it takes, or nothing."""
    at = next((n for n, line in enumerate(lines) if re.match(rf"impl(<[^>]*>)? Model for {name}\b", line)), None)
    if at is None:
        return ""
    last = next(n for n in range(at, len(lines)) if lines[n] == "}")
    kept = [line for line in lines[at:last + 1] if "ghost use " not in line]
    return "\n" + re.sub(r"\n\s*\n+", "\n", "\n".join(kept)).replace("{\n\n", "{\n")


def item_in(lines, name, taken):
    """A public item of a file by its name, or none."""
    for at, line in enumerate(lines):
        if re.match(rf"{ITEM}{name}\b", line):
            is_call = re.match(r"pub (?:unsafe |const |extern \"C\" )*fn ", line)
            text = call_text(lines, at) if is_call else type_text(lines, at) + ("" if " const " in f" {line}" else model_of(lines, name))
            return Item(name, head_of(lines, at), text, taken)
    return None


def methods_of(top, crate, name, paths):
    """The public calls of a type, in all files of the crate."""
    for path in paths:
        lines = read(top, path).split("\n")
        taken = taken_by("\n".join(lines))
        for at, line in enumerate(lines):
            if re.match(rf"impl(<[^{{]*>)? {name}\b(?! for)(?!.* for )", line):
                last = next((n for n in range(at, len(lines)) if lines[n] == "}"), at)
                for n in range(at + 1, last):
                    found = re.match(r"    pub (?:unsafe |const )*fn (\w+)", lines[n])
                    if found:
                        yield Item(f"{name}::{found.group(1)}", head_of(lines, n), call_text(lines, n), taken)


class Crate:
    """What a crate offers: its page, its definitions, its types with their calls, and its laws and other modules."""

    def __init__(self, top, name):
        self.top, self.name = top, name
        self.page = lib_page(top, name)
        self.specs = specs_of(top, name)
        self.paths = sorted(self._sources())
        self.items = []
        # what other crates have and this one hands on: the crate and the name
        self.handed_on = []
        lib = f"crates/{name}/src/lib.rt"
        if os.path.isfile(os.path.join(top, lib)):
            self._add(lib, "")

    def _sources(self):
        folder = os.path.join(self.top, "crates", self.name, "src")
        for inside, folders, names in os.walk(folder):
            folders[:] = [each for each in folders if each != "tests"]
            yield from (os.path.relpath(os.path.join(inside, each), self.top) for each in names if each.endswith(".rt") and each != "tests.rt")

    def _add(self, path, front):
        """What a file exports, with its public modules; front is the path to the file's items."""
        text = read(self.top, path)
        within = "" if path.endswith("/lib.rt") else path.split("/src/")[1][:-3] + "/"
        for module, several, one in EXPORTS.findall(text):
            for exported in re.findall(r"\w+", several or one):
                self._find(module.removeprefix("crate::").removeprefix("self::"), exported, within)
        for module in re.findall(r"^pub mod (\w+);", text, re.M):
            inner = module_path(self.top, self.name, module, within)
            for name in re.findall(rf"^{ITEM}(\w+)", read(self.top, inner), re.M) if inner else ():
                self._take(inner, name, f"{front}{module}::")
            if inner:
                self._add(inner, f"{front}{module}::")
        if not front:
            for name in re.findall(rf"^{ITEM}(\w+)", text, re.M):
                self._take(path, name, "")
            self._add_exports()

    def _find(self, module, name, within):
        path = module_path(self.top, self.name, module, within)
        if not path:
            self.handed_on.append((module.split("::")[0], name))
        elif not self._take(path, name, ""):
            # the module hands on what another one has
            inner = path.split("/src/")[1][:-3] + "/"
            for other, several, one in EXPORTS.findall(read(self.top, path)):
                if name in re.findall(r"\w+", several or one):
                    self._find(other, name, inner)

    def _take(self, path, name, front):
        lines = read(self.top, path).split("\n")
        item = item_in(lines, name, taken_by("\n".join(lines)))
        if item is None or any(other.name == front + name for other in self.items):
            return item is not None
        self.items.append(item._replace(name=front + name))
        if not re.match(r"(pub )?(?:unsafe |const |extern \"C\" )*fn ", item.text):
            self.items += methods_of(self.top, self.name, name, self.paths)
        return True

    def _add_exports(self):
        """The functions of C, which no module exports by a name."""
        for path in self.paths:
            text = read(self.top, path)
            for name in re.findall(r"no_mangle\)\]\npub extern \"C\" fn (\w+)", text):
                self._take(path, name, "")

    def definitions(self):
        return [definition for specs in self.specs for definition in specs.definitions]

    def bare(self):
        """The definitions without a comment, each with its file."""
        return [(specs.name, definition.name) for specs in self.specs for definition in specs.definitions if not any(definition.comment)]
