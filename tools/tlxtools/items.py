"""The items of a crate: what its own files declare, each with the names by which it is found and the text that counts of it.

In src/*.rt these are functions, types, constants, traits and impl blocks, and in specs/*.antt and proofs/*.antt definitions. Files of
tests are left out, as no check of an edit reads them. White space and lines that are only a comment are in no text.
"""

import dataclasses
import os
import re

from tlxtools.crate_list import TOP
from tlxtools.edits import functions

# a line that begins an item of a source file, or an attribute of one
BEGINS = re.compile(r"#!?\[|(?:pub|ghost|unsafe|extern|const|static|fn|struct|enum|union|trait|type|impl|mod|use|macro_rules)\b")
KIND = re.compile(
    r'(pub(?:\([^)]*\))? )?(?:unsafe |ghost |extern "C" (?!\{)|const (?=unsafe|extern|fn))*'
    r"(fn|struct|enum|union|trait|type|const|static|extern|macro_rules!|impl|mod|use)\b(?: mut)? *(\w*)"
)
# a line that begins a definition: one with a modifier, or a name and its type
DEFINES = re.compile(r"(?:abbrev|unfoldable|pub|record|data|module|mod|use|infix[lr]?)\s|\S+ :(?:\s|$)")
DEFINED = re.compile(r"\s*(?:(?:abbrev|unfoldable|pub|record|data|infix[lr]?\s+\d+)\s+)*([^\s:(]+)")
TAKES = re.compile(r"\s*(?:(?:pub(?:\([^)]*\))?|ghost)\s+)*use\s")
TAKEN = re.compile(r"(?:(?:pub(?:\([^)]*\))?|ghost) )*use [^\s{}]*(?:\{[^{}]*(?:\{[^{}]*\}[^{}]*)*\})?(?: as \S+)?;?")
# the parts of a text in which white space has a meaning
LITERAL = re.compile(r"""('(?:\\[^']+|[^'\\])'|"(?:\\.|[^"\\])*")""", re.S)
# what the prover is told to try first, which no goal depends on
TACTIC = re.compile(r"#\[tactic\((?:[^()]|\([^()]*\))*\)\]")
CLAUSES = re.compile(r"\b(?:requires|ensures|decreases|ghost)\b")
BRACKETS = re.compile(LITERAL.pattern + r"|[()\[\]{}]", re.S)


class Unread(Exception):
    """A file has what is not read here."""


@dataclasses.dataclass(frozen=True)
class File:
    """A file of a crate: its name in the crate, and the paths of each name that it takes from elsewhere."""

    name: str
    taken: dict = dataclasses.field(default_factory=dict, hash=False, compare=False)


@dataclasses.dataclass(frozen=True, eq=False)
class Item:
    """An item: its file, its lines, its names, its whole text, and what counts of it for an item that names it. An impl block is also
    found by the types and traits of its head.
    """

    file: File
    first: int
    last: int
    names: frozenset
    whole: str
    promise: str
    kind: str = "item"
    head: frozenset = frozenset()


def read(path):
    """The bytes of a file."""
    with open(path, "rb") as it:
        return it.read()


def files_of(crate, parts):
    """The files in these folders of a crate, in order, each as its name in the crate and its path."""
    top = os.path.join(TOP, "crates", crate)
    found = [os.path.join(at, file) for part in parts for at, _, files in os.walk(os.path.join(top, part)) for file in files]
    return sorted((os.path.relpath(path, top), path) for path in found)


def plain(lines):
    """The text of some lines without white space that has no meaning, and without the tactics of the prover."""
    parts = LITERAL.split(TACTIC.sub("", "\n".join(lines)))
    return "".join(part if at % 2 else re.sub(r"\s+", " ", part) for at, part in enumerate(parts)).strip()


def bare_lines(text, mark):
    """The lines of a file; one that is only a comment is empty."""
    return ["" if line.lstrip().startswith(mark) else line for line in text.split("\n")]


def split_list(text):
    """The parts of a list with commas, of which those in braces are no ends."""
    return [part.strip() for part in re.findall(r"(?:[^,{}]|\{(?:[^{}]|\{[^{}]*\})*\})+", text) if part.strip()]


def taken_by(text):
    """The names that a line with `use` takes, each with its path."""
    front, brace, rest = text.strip().rstrip(";").strip().partition("{")
    if brace:
        for part in split_list(rest.rstrip().removesuffix("}")):
            yield from taken_by(front + part)
        return
    path, _, name = front.partition(" as ")
    yield name.strip() or re.split(r"::|\.", path.strip().removesuffix("::self"))[-1], path.strip()


def take(file, text):
    """Notes what a line with `use` takes. Answers the names with their paths."""
    if not TAKEN.fullmatch(text):
        raise Unread
    found = list(taken_by(text[TAKES.match(text).end():]))
    for name, path in found:
        file.taken.setdefault(name, set()).add(path)
    return found


def handed_on(file, number, found):
    """The items that a line with `pub use` makes: names of this file that stand for those of another."""
    for name, path in found:
        yield Item(file, number, number, frozenset([name]), f"use {path} as {name}", f"use {path} as {name}", "use")


def promise_of(text):
    """The text of a function up to its body. If no body is found, all of it counts."""
    depth, start = 0, 0
    for found in BRACKETS.finditer(text):
        if found[0] in ("(", "[", "{"):
            segment = text[start:found.start()]
            # before the first clause stands the signature, and between clauses their names
            if found[0] == "{" and not depth and not (segment.strip() if start else CLAUSES.search(segment)):
                return text[:found.start()]
            depth += 1
        elif found[0] in (")", "]", "}"):
            depth -= 1
            start = found.end() if found[0] == "}" and not depth else start
    return text


def chunks(lines, begins):
    """The lines of each item of a file, with the number of its first line. The attributes above an item are a part of it."""
    chunk, first, is_headed = [], 0, False
    for number, line in enumerate(lines, 1):
        if begins(line) and not is_headed:
            if chunk:
                yield first, chunk
            chunk, first = [], number
        elif line.strip() and not chunk:
            raise Unread
        if begins(line):
            is_headed = line.startswith("#[")
        if chunk or begins(line):
            chunk.append(line)
    if chunk:
        yield first, chunk


def method(file, head, lines, first, at, last):
    """The function of these lines of an impl block. Its attributes above count; answers the item and the line in which it begins."""
    begin = at
    while begin > 0 and lines[begin - 1].strip() and not re.search(r"[;{}]$", lines[begin - 1]):
        begin -= 1
    own, name = plain(lines[begin:last + 1]), re.search(r"\bfn (\w+)", lines[at])[1]
    words = frozenset(re.findall(r"\w+", head))
    return Item(file, first + begin, first + last, frozenset([name]), f"{head} {own}", f"{head} {promise_of(own)}", "fn", words), begin


def impl_items(file, first, lines):
    """The items of an impl block: its functions, and the rest, which belongs to the types that the head names. The promises of a trait's
    functions are a part of the rest, as operators and other traits call them without their names.
    """
    opening = next((at for at, line in enumerate(lines) if line.endswith(("{", "{}"))), None)
    if opening is None:
        raise Unread
    head = plain(lines[:opening + 1]).rstrip("{} ")
    rest, at, is_of_trait = [], opening + 1, re.search(r"\bfor\b", head)
    for _, begin, last in functions(lines):
        item, start = method(file, head, lines, first, begin - 1, last - 1)
        yield item
        rest += lines[at:max(start, at)] + [item.promise] * bool(is_of_trait)
        at = last
    rest = plain(rest + lines[at:])
    if is_of_trait or re.search(r"\w", rest):
        names = set(re.findall(r"\b(?:const|type) (\w+)", rest))
        # contracts of a trait's functions are cited by the type with the trait, as BinOrd
        names |= {kind + trait for trait, kind in re.findall(r"(\w+)(?:<.*>)? for (\w+)", head)}
        text = f"{head} {{ {rest}"
        yield Item(file, first, first + len(lines) - 1, frozenset(names), text, text, "impl", frozenset(re.findall(r"\w+", head)))


def source_items(name, text):
    """The items of a source file."""
    file, lines = File(name), bare_lines(text, "//")
    for first, own in chunks(lines, BEGINS.match):
        headed = next((at for at, line in enumerate(own) if KIND.match(line)), None)
        if headed is None:
            if not own[0].startswith("#!["):
                raise Unread
            continue
        is_public, kind, called = KIND.match(own[headed]).groups()
        whole, last = plain(own), first + len(own) - 1
        if kind == "use":
            found = take(file, plain(own[headed:]))
            yield from handed_on(file, first, found if is_public else ())
        elif kind == "mod" and not whole.endswith(";"):
            raise Unread
        elif kind == "impl":
            yield from impl_items(file, first, own)
        elif kind == "fn":
            yield Item(file, first, last, frozenset([called]), whole, promise_of(whole), "const fn" if "const fn" in own[headed] else "fn")
        elif kind != "mod":
            inner = {"enum": r"^    (\w+)", "trait": r"\b(?:fn|const|type) (\w+)", "extern": r"\b(?:fn|static) (\w+)"}.get(kind, r"^\b\B")
            names = {called, *re.findall(inner, "\n".join(own), re.M)} - {"_", ""}
            yield Item(file, first, last, frozenset(names), whole, whole, kind)


def definition_items(name, text):
    """The items of a file of definitions or lemmas."""
    file, lines = File(name), bare_lines(text, "--")
    for first, own in chunks(lines, DEFINES.match):
        whole, last, joined = plain(own), first + len(own) - 1, "\n".join(own)
        if TAKES.match(own[0]):
            found = take(file, whole)
            yield from handed_on(file, first, found if whole.startswith("pub") else ())
        elif not re.match(r"(?:pub )?mod\s", whole):
            names = {DEFINED.match(own[0])[1]}
            if whole.startswith("module"):
                names = {DEFINED.match(line)[1] for line in own[1:] if re.match(r"\s+[^\s(]", line)}
            elif re.match(r"(?:pub\s+)?data\b", joined):
                names |= {DEFINED.match(line)[1] for line in own[1:] if re.match(r"\s+[^\s(]", line)}
            for taking in re.findall(r"^\s+use\s.*$", joined, re.M):
                take(file, taking)
            yield Item(file, first, last, frozenset(names), whole, whole, "definition")


def goals_item(name, text):
    """What a proof folder says of the goals of its function, as one item."""
    file, said = File(name), []
    for _, own in chunks(bare_lines(text, "--"), DEFINES.match):
        if TAKES.match(own[0]):
            take(file, plain(own))
        else:
            said += own
    whole = plain(said)
    return Item(file, 0, 0, frozenset(), whole, whole, "goals")
