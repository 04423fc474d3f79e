"""What tools/lint and tools/lint_system share: a text that is TOML, the lines of its values, and the checks of single values."""

import difflib
import os
import re
import subprocess
import sys
import tomllib

from tlxtools.common import LONGEST_SCRIPT

DEEPEST = 80


class Fault(Exception):
    """What is wrong at a line: what the program prints for it after `script: ` or `system: `, and what a person wants to know."""

    def __init__(self, line, said, why):
        super().__init__(why)
        self.line, self.said, self.why = line, said, why


class Place:
    """A value of the document with its line: its items by number if it is an array, and by name if it is a table."""

    def __init__(self, line):
        self.line, self.items, self.depth = line, {}, 0

    def at(self, *path):
        """The place of a value below, or the nearest one above it that there is."""
        here = self
        for key in path:
            if key not in here.items:
                break
            here = here.items[key]
        return here


class Finder:
    """Finds the lines of the values of a text that is TOML. It judges nothing."""

    BARE = re.compile(r"[A-Za-z0-9_-]+")
    SCALAR = re.compile(r"[^,\]}#\n]*")

    def __init__(self, text):
        self.text, self.at, self.deepest = text, 0, 0

    def line(self):
        return self.text.count("\n", 0, self.at) + 1

    def looks_at(self, what):
        return self.text.startswith(what, self.at)

    def skip_blank(self):
        while self.at < len(self.text):
            if self.text[self.at] in " \t\r\n":
                self.at += 1
            elif self.looks_at("#"):
                end = self.text.find("\n", self.at)
                self.at = len(self.text) if end < 0 else end
            else:
                return

    def skip_string(self):
        quote = self.text[self.at]
        ending = quote * 3 if self.looks_at(quote * 3) else quote
        self.at += len(ending)
        begun = self.at
        while not self.looks_at(ending):
            self.at += 2 if quote == '"' and self.looks_at("\\") else 1
        text = self.text[begun:self.at]
        self.at += len(ending)
        return text

    def key(self):
        parts = []
        while True:
            self.skip_blank()
            if self.text[self.at] in "'\"":
                parts.append(self.skip_string())
            else:
                word = self.BARE.match(self.text, self.at)
                self.at = word.end()
                parts.append(word.group())
            self.skip_blank()
            if not self.looks_at("."):
                return parts
            self.at += 1

    def value(self, depth):
        self.skip_blank()
        place = Place(self.line())
        if self.looks_at("[") or self.looks_at("{"):
            self.deepest = max(self.deepest, depth + 1)
            closing, is_array = ("]", True) if self.looks_at("[") else ("}", False)
            self.at += 1
            self.skip_blank()
            while not self.looks_at(closing):
                if is_array:
                    place.items[len(place.items)] = self.value(depth + 1)
                else:
                    self.member(place, depth + 1)
                self.skip_blank()
                if self.looks_at(","):
                    self.at += 1
                    self.skip_blank()
            self.at += 1
        elif self.text[self.at] in "'\"":
            self.skip_string()
        else:
            self.at = self.SCALAR.match(self.text, self.at).end()
        return place

    def member(self, table, depth):
        line = self.line()
        parts = self.key()
        self.at += 1
        for part in parts[:-1]:
            table = table.items.setdefault(part, Place(line))
        value = self.value(depth)
        value.line = line
        table.items[parts[-1]] = value

    def header(self, root):
        line, is_array = self.line(), self.looks_at("[[")
        self.at += 1 + is_array
        table, parts = root, self.key()
        for part in parts[:-1]:
            table = table.items.setdefault(part, Place(line))
            table = table.items.get(len(table.items) - 1, table)
        self.at += 1 + is_array
        last = table.items.setdefault(parts[-1], Place(line))
        if is_array:
            last = last.items.setdefault(len(last.items), Place(line))
        return last

    def document(self):
        root = table = Place(1)
        self.skip_blank()
        while self.at < len(self.text):
            if self.looks_at("["):
                table = self.header(root)
            else:
                self.member(table, 0)
            self.skip_blank()
        return root


def is_integer(value):
    return isinstance(value, int) and not isinstance(value, bool)


def integers(value):
    if isinstance(value, dict):
        value = list(value.values())
    if isinstance(value, list):
        return [number for item in value for number in integers(item)]
    return [value] if is_integer(value) else []


def read(file):
    """The table of a text and its places. A text that is no TOML is a fault."""
    if len(file) > LONGEST_SCRIPT:
        raise Fault(1, f"longer than {LONGEST_SCRIPT} bytes", f"it has {len(file):,} bytes")
    try:
        text = file.decode("utf-8").removeprefix("\ufeff")
    except UnicodeDecodeError as error:
        line = file.count(b"\n", 0, error.start) + 1
        raise Fault(line, "not TOML", f"byte {error.start} is no UTF-8") from error
    try:
        table = tomllib.loads(text)
    except tomllib.TOMLDecodeError as error:
        where = re.search(r"line (\d+)", str(error))
        raise Fault(int(where[1]) if where else text.count("\n") + 1, "not TOML", str(error)) from error
    except RecursionError as error:
        raise Fault(1, "not TOML", f"arrays stand more than {DEEPEST} deep in one another") from error
    if any(not -(2**63) <= number < 2**63 for number in integers(table)):
        raise Fault(1, "not TOML", "an integer is outside 64 bits")
    finder = Finder(text)
    places = finder.document()
    if finder.deepest > DEEPEST:
        raise Fault(1, "not TOML", f"arrays stand more than {DEEPEST} deep in one another")
    return table, places


def near(word, words):
    close = difflib.get_close_matches(word, words, 1, 0.5)
    return f"; did you mean `{close[0]}`?" if close else f"; there are {', '.join(f'`{name}`' for name in words)}"


def wanted(table, key, place, is_type, kind):
    """The value of a key that has to be there."""
    if key not in table:
        raise Fault(place.line, f"missing {key}", f"`{key}` is missing")
    if not is_type(table[key]):
        raise Fault(place.at(key).line, f"wrong type of {key}", f"`{key}` has to be {kind}")
    return table[key]


def number(table, key, place, low, high):
    value = wanted(table, key, place, is_integer, "an integer")
    if not low <= value <= high:
        raise Fault(place.at(key).line, f"{key} out of range", f"`{key}` is {value}, and has to be {low} to {high:,}")
    return value


def tables(value, key, place):
    """The tables of an array of them."""
    if not isinstance(value, list):
        raise Fault(place.line, f"wrong type of {key}", f"`{key}` has to be an array of tables, [[{key}]]")
    for index, item in enumerate(value):
        if not isinstance(item, dict):
            raise Fault(place.at(index).line, f"wrong type of {key}", f"element {index} of `{key}` has to be a table")
    return value


def each(check, items, place):
    for index, item in enumerate(items):
        try:
            check(item, place.at(index))
        except Fault as fault:
            yield fault


def unknown_keys(table, places, keys, whole):
    """The keys that a program ignores, each with its line and the nearest one that it knows; `whole` is the document's name."""
    parts = [("", table, places)]
    for name in ("port", "master"):
        items = table.get(name)
        for index, item in enumerate(items if isinstance(items, list) else []):
            if isinstance(item, dict):
                parts.append((name, item, places.at(name, index)))
    for name, part, place in parts:
        for key in part:
            if key not in keys[name]:
                where = f"[[{name}]]" if name else f"the {whole}"
                yield place.at(key).line, f"`{key}` is ignored in {where}{near(key, keys[name])}"


def asked(command, text):
    """A program's own line of a fault, empty for a good text, and none if the program is not built."""
    if not os.access(command[0], os.X_OK):
        return None
    ran = subprocess.run(command, input=text, stdout=subprocess.DEVNULL, stderr=subprocess.PIPE, check=False)
    return ran.stderr.decode().strip() if ran.returncode else ""


def run(program, whole, keys, document_faults, ask):
    """Reads the file that the command line names, or standard input, and prints what is wrong with it. It warns of keys that are none
    of `keys`, if there are any. `ask` answers the program's own line for a text of a path, which decides."""
    words = sys.argv[1:]
    if len(words) > 1 or words and words[0].startswith("-"):
        sys.exit(f"usage: {os.path.basename(sys.argv[0])} [FILE]")
    name, path = (words[0], words[0]) if words else ("standard input", "/dev/stdin")
    try:
        with open(words[0], "rb") if words else sys.stdin.buffer as given:
            text = given.read()
    except OSError as error:
        print(f"{name}: {error.strerror}", file=sys.stderr)
        return 66
    faults, warnings = [], []
    try:
        table, places = read(text)
        faults = document_faults(table, places, os.path.dirname(path))
        warnings = list(unknown_keys(table, places, keys, whole)) if keys else []
    except Fault as fault:
        faults = [fault]
    said = ask(text, path)
    if said == "" and faults:
        print(f"{name}: {program} takes it; this reader of TOML 1.0 does not: line {faults[0].line}: {faults[0].why}")
        faults = []
    for fault in faults:
        print(f"{name}:{fault.line}: {whole}: {fault.said}: {fault.why}")
    if said and not faults:
        print(f"{name}: {said}")
    for line, why in warnings:
        print(f"{name}:{line}: warning: {why}")
    return 1 if faults or said else 0
