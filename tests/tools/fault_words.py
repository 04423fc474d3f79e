"""Reads the words and the numbers of faults where they stand. Each reader has a small, strict pattern for its file. It raises `OtherForm` if the
file has another form: a part that is not there, an entry that the pattern does not take, or no entry at all. So nothing is silently left
out."""

import ast
import itertools
import os
import re
from typing import NamedTuple

NAME = "[A-Za-z0-9_.-]+"
REPLY = r"(?:\.\.|(?:AccessAck|AccessAckData|HintAck)(?: denied)?(?: [0-9a-fx]+)?)"
# What may stand for a value of each type.
HOLES = {"usize": r"\d+", "u64": r"\d+", "u16": r"\d+", "String": NAME, "UnknownKey": r"[ -~]+ \(near: [a-z_]+\)"}
# What is put for a name of a tool's own in one of its texts; a number for any other.
SAMPLES = {"KEY": "base", "key": "base", "NAME": "x", "name": "x", "LONGEST_SCRIPT": "1048576", "UNKNOWN": "x (near: base)",
           "nearest": "base"}


class OtherForm(Exception):
    """A file has another form than its reader expects. It names the file and the line."""


class Said(NamedTuple):
    """Words, or a number, and where they stand; `key` is what they are said of, and `types` the values that stand in them."""
    path: str
    line: int
    key: str
    text: str
    types: str = ""

    @property
    def at(self):
        return f"{self.path}:{self.line}"


class Template(NamedTuple):
    """What a fault may say, with any values in it."""
    said: Said
    key: tuple
    pattern: str


class Files:
    """The files of a tree. `read` has the paths that were read, for a copy of the tree; `memories` what was read of want of memory."""

    def __init__(self, top):
        self.top, self.read, self.memories = top, set(), {}

    def text(self, path):
        self.read.add(path)
        try:
            with open(os.path.join(self.top, path), encoding="utf-8") as file:
                return file.read() + "\n\n"
        except OSError as error:
            raise OtherForm(f"{path}:1: {error.strerror}") from error

    def part(self, path, head="", tail=""):
        """What stands between a head, which is there once, and the next tail; and the line that it begins on."""
        text = self.text(path)
        if not head:
            return text, 1
        if text.count(head) != 1:
            raise OtherForm(f"{path}:1: {head!r} stands there {text.count(head)} times, and not once")
        at = text.index(head) + len(head)
        line, end = 1 + text.count("\n", 0, at), text.find(tail, at)
        if end < 0:
            raise OtherForm(f"{path}:{line}: no {tail!r} after {head!r}")
        return text[at:end], line

    def words(self, path, pattern, head="", tail="\n}\n", every=None, prefix=""):
        """Each match of a pattern in a part of a file. `every` matches once for each entry there, of whatever form."""
        text, line = self.part(path, head, tail)
        made = []
        for match in re.finditer(pattern, text, re.M):
            groups = match.groupdict()
            made.append(Said(path, line + text.count("\n", 0, match.start("text")), prefix + (groups.get("key") or ""),
                             groups["text"], groups.get("types") or ""))
        wanted = len(re.findall(every, text, re.M)) if every else len(made)
        if not made or len(made) != wanted:
            raise OtherForm(f"{path}:{line}: {len(made)} entries of {wanted} were read after {head!r}")
        return made

    def errors(self, path, enum, prefix=""):
        """The variants of an enum of faults, with the texts of their attributes."""
        made = self.words(path, r'#\[error\("(?P<text>[^"]+)"\)\]\n(?: *///.*\n)* *(?P<key>\w+)(?:\((?P<types>[^)]*)\))?,$',
                          f"\npub enum {enum} {{\n", "\n}\n", r"^ {4}#\[error", prefix)
        variants, line = self.part(path, f"\npub enum {enum} {{\n", "\n}\n")
        if len(re.findall(r"^ {4}[A-Z]\w*", variants, re.M)) != len(made):
            raise OtherForm(f"{path}:{line}: a variant of {enum} has no text")
        self.memories.update({said.at: said for said in made if said.key == "Memory"})
        return made

    def table(self, path, head, column, key=None):
        """The texts in backticks in a column of a table, whose head is given; `key` is the column of what they are said of."""
        text, line = self.part(path, head, "\n\n")
        made = []
        for number, row in enumerate(text.split("\n"), line):
            cells = row.strip("| ").split(" | ")
            if not row.startswith("| ") or len(cells) <= max(column, key or 0):
                raise OtherForm(f"{path}:{number}: no row of a table: {row!r}")
            made += [Said(path, number, "" if key is None else cells[key], tick) for tick in re.findall("`([^`]+)`", cells[column])]
        if not made:
            raise OtherForm(f"{path}:{line}: no words after {head!r}")
        return made

    def mentions(self, path, start):
        """Texts that begin with a pattern: in backticks to their end, else to the end of the line."""
        made = self.words(path, rf"(?P<tick>`)?(?P<text>\b{start}(?(tick)[^`]*|[^`\n]*))", every=rf"\b{start}")
        return [said._replace(text=" ".join(said.text.split())) for said in made]

    def alternatives(self, path, name):
        """The texts that a pattern of a tool takes, with samples for values."""
        text, line = self.part(path, f"\n{name} = re.compile(", ')\\n")')
        made, front = [], None
        for literal in re.finditer(r'rf?"(?P<text>[^"]*)', text):
            piece = literal["text"].replace(r"\d+", "0")
            piece = re.sub(r"\(?\{(\w+)\}\)?", lambda hole: SAMPLES.get(hole[1], "0"), piece)
            if front is None:
                front, _, piece = piece.partition("(")
            at = line + text.count("\n", 0, literal.start())
            made += [Said(path, at, "", front + words) for words in piece.split("|") if words]
        odd = [said for said in made if not re.fullmatch("[A-Za-z0-9:'() ]+", said.text)]
        if not made or odd:
            raise OtherForm(f"{path}:{line}: {odd[0].text if odd else name!r} is no alternative of words")
        return made

    def tree(self, path):
        try:
            return ast.walk(ast.parse(self.text(path)))
        except SyntaxError as error:
            raise OtherForm(f"{path}:{error.lineno}: no Python") from error

    def calls(self, path, function, place, front):
        """The texts that are an argument of each call of a function."""
        made = [node.args[place] for node in self.tree(path)
                if isinstance(node, ast.Call) and isinstance(node.func, ast.Name) and node.func.id == function]
        return self.sampled(path, made, front)

    def values(self, path, front):
        """The texts that are values of a dictionary; an empty one is none."""
        made = []
        for node in self.tree(path):
            made += node.values if isinstance(node, ast.Dict) else [node.value] if isinstance(node, ast.DictComp) else []
        texts = [node for node in made if isinstance(node, ast.JoinedStr) or (isinstance(node, ast.Constant) and isinstance(node.value, str))]
        return [said for said in self.sampled(path, texts, front) if said.text != front]

    def strings(self, path, start):
        """The texts that begin with a pattern."""
        return [said for said in self.sampled(path, [node for node in self.tree(path) if isinstance(node, ast.Constant) and
                                                     isinstance(node.value, str) and re.match(start, node.value)], "")]

    def sampled(self, path, nodes, front):
        """The texts of nodes of Python, with samples for values."""
        made = []
        for node in nodes:
            if not isinstance(node, (ast.Constant, ast.JoinedStr)):
                raise OtherForm(f"{path}:{node.lineno}: no text")
            parts = node.values if isinstance(node, ast.JoinedStr) else [node]
            made.append(Said(path, node.lineno, "", front + "".join(sample(part) for part in parts)))
        if not made:
            raise OtherForm(f"{path}:1: no text")
        return made


def sample(part):
    """A part of a text: its words, or a sample for its value."""
    if isinstance(part, ast.Constant):
        return str(part.value)
    return SAMPLES.get(part.value.id, "0") if isinstance(part.value, ast.Name) else "0"


def filled(said, holes):
    """The templates of a fault: one, or one for each fault that it carries."""
    pieces = re.split(r"\{\d\}", said.text)
    types = said.types.split(", ")[:len(pieces) - 1]
    if len(types) < len(pieces) - 1 or any(name not in holes for name in types):
        raise OtherForm(f"{said.at}: {said.text!r} has values of types that are not known: {said.types!r}")
    choices = [holes[name] if isinstance(holes[name], list) else [Template(said, (), holes[name])] for name in types]
    for choice in itertools.product(*choices):
        pattern = re.escape(pieces[0]) + "".join(one.pattern + re.escape(piece) for one, piece in zip(choice, pieces[1:]))
        inner = next((one.said for one in choice if one.key), said)
        yield Template(inner, (said.key, *(key for one in choice for key in one.key)), pattern)


def templates(faults, **carried):
    """The templates of faults but for want of memory, which has its own words in each layer."""
    return [one for said in faults if said.key != "Memory" for one in filled(said, {**HOLES, **carried})]
