"""Compares the rows of tools/tlxtools/system_keys.py with the sources of the programs (the keys of each table, the limits and the words),
with the tables of docs/reference/keys.md and formats.md, and with docs/system.schema.json. It tests this comparison: one text is changed in
each place in turn, and it has to name that place.

If python3-jsonschema is there, systems are then compared with the schema: those of examples, and the rows of tests/tools/system_faults.py
and tests/tools/socket_faults.py. A lawful system has to be valid. In one with a fault the schema has to find the key of the fault, if a schema can
(UNSEEN has the others). Without the package a line says how many systems were skipped. The last line is 'N passed, M failed'. It needs no program.
"""

import functools
import json
import os
import re
import subprocess
import sys
import tomllib

import socket_faults
import system_faults
from harness import run_test, tell_faults
from tlxtools import system_keys as keys
from tlxtools.commands import schema
from tlxtools.common import BUSES, LONGEST_SCRIPT, MAX_SIZE, ORDERS, SIDE_KEYS, SYSTEM_KINDS
from tlxtools.crate_list import TOP
from tlxtools.tree import files, read

HERE = os.path.dirname(os.path.realpath(__file__))
SCHEMA, FORMATS, TABLE = "docs/system.schema.json", "docs/reference/formats.md", "docs/reference/keys.md"
KNOWN = "crates/check_keys/src/known.rt"
# The tables by the names that the program has for them.
KINDS = {"Top": "", "Names": "names", "Port": "port", "Master": "master", "Sizes": "sizes", "Orders": "order", "Sources": "sources", "Wires": "wires"}
LIMITS_FILE = "crates/tl_map/src/limits.rt"
# The constants of the programs, with the limits of the tools.
LIMITS = (
    (LIMITS_FILE, "MAX_JUDGED_PORTS", keys.MAX_PORTS), (LIMITS_FILE, "MAX_JUDGED_MASTERS", keys.MAX_MASTERS),
    (LIMITS_FILE, "MAX_RANGES_OF_PORT", keys.MAX_RANGES), (LIMITS_FILE, "MAX_JUDGED_SOURCES", keys.MAX_SOURCES),
    (LIMITS_FILE, "MAX_WIDE", keys.MAX_WIDE), (LIMITS_FILE, "MAX_BLOCK", keys.MAX_BLOCK),
    ("crates/tl_types/src/limits.rt", "MAX_SIZE", MAX_SIZE), ("crates/check_beats/src/bus.rt", "MAX_LANES", max(BUSES)),
    ("crates/check_description/src/read.rt", "MAX_SYSTEM", LONGEST_SCRIPT), ("crates/check_description/src/volatile.rt", "MAX_VOLATILE", keys.MAX_VOLATILE),
    ("crates/check_keys/src/value.rt", "LAST_INTEGER", keys.GREATEST), ("crates/check_keys/src/name.rt", "MAX_NAME", keys.MAX_NAME),
    ("crates/check_signals/src/prefixes.rt", "MAX_PREFIXES", keys.MAX_PREFIXES), ("crates/check_signals/src/keys.rt", "MAX_PARTS", keys.MAX_PARTS))
NUMBERS = {"i64::MAX as u64": 2**63 - 1}
# The functions that read words or numbers, with the form in which these stand there.
TEXT = r'b"([^"]*)"'
WORDS = (
    ("crates/check_description/src/kind.rt", "port_kind_of", TEXT, SYSTEM_KINDS),
    ("crates/check_description/src/rules.rt", "by_address_of", TEXT, keys.DECODES),
    ("crates/check_description/src/order.rt", "order_of", TEXT, ORDERS),
    ("crates/check_description/src/order.rt", "words_in_table", r'word_at\(table, "([^"]*)"\)', SIDE_KEYS.values()),
    ("crates/check_description/src/on_reset.rt", "on_reset_of", TEXT, keys.ON_RESETS),
    ("crates/check_description/src/crossing.rt", "port_crossing_of", TEXT, keys.CROSSINGS),
    ("crates/check_signals/src/clocks.rt", "edge_called", TEXT, keys.EDGES),
    ("crates/check_signals/src/clocks.rt", "read_is_low", TEXT, keys.LEVELS),
    ("crates/check_signals/src/keys.rt", "may_be_left_out", r"Signal::(\w+)",
     ["".join(map(str.capitalize, name.split("_"))) for name in keys.MAY_BE_LEFT_OUT]),
    ("crates/check_keys/src/bus.rt", "bus_of", r"bytes == (\d+)", [*map(str, BUSES)]))
# A text of each place, and what is put for it: the comparison has to name the file.
CHANGES = (
    (KNOWN, 'b"fifo",', ""), (KNOWN, 'b"d_denied"', 'b"d_error"'), (KNOWN, 'b"masters", b"ports"', 'b"ports", b"masters"'),
    (LIMITS_FILE, "MAX_WIDE: u32 = 65_535", "MAX_WIDE: u32 = 65_534"), ("crates/check_keys/src/value.rt", "i64::MAX as u64", "u64::MAX"),
    ("crates/check_description/src/kind.rt", 'b"w1c"', 'b"w1s"'), ("crates/check_keys/src/bus.rt", "bytes == 64", "bytes == 128"),
    ("crates/check_signals/src/keys.rt", "MAX_PARTS: usize = 512", "MAX_PARTS: usize = 511"), ("crates/check_signals/src/clocks.rt", 'b"high"', 'b"up"'),
    ("crates/check_signals/src/keys.rt", "Signal::ACorrupt | Signal::DParam", "Signal::DParam"),
    (TABLE, "| `port.length` | integer | 1 to", "| `port.length` | integer | 0 to"), (TABLE, "| `port.fifo` | boolean", "| `port.fifo` | integer"),
    (TABLE, "| `master.stride` |", "| `master.strides` |"), (TABLE, "| 8 | how many bytes the data buses", "| 4 | how many bytes the data buses"),
    (TABLE, "| `same`, `none` | `same` |", "| `same`, `none` | `none` |"), (TABLE, "| the masters, numbered from 0 |", "| masters |"),
    (FORMATS, "| `edge` |", "| `edges` |"), (FORMATS, "the name of the link's own clock", "the name of a clock"),
    (FORMATS, "1 to 64 prefixes", "1 to 65 prefixes"), (FORMATS, '`"low"` or `"high"` (the default)', '`"low"` (the default) or `"high"`'),
    (SCHEMA, '"maxItems": 64', '"maxItems": 65'), (SCHEMA, '"ops"', '"op"'))
# The faults that no schema finds: the line, and what stands in the text. The first depend on files, or on several values.
UNSEEN = (
    (r"two are called .*|ports .* overlap|(port \d+: )?(masters .*|too many .*|image .*)|mirror out of range|no signals|missing clock", ""),
    # to JSON Schema 8.0 is an integer
    (r"wrong type of .*", r"(?<!stride )= \[*\d\.0|\[0, 1\.0"),
    (r"reset out of range", r"= '(000000|010203)'"),
    (r"sizes out of range", r"= \[3, 2\]"),
    (r"volatile out of range", r"volatile = \[(\[\d+, [1-9]\d*\](, )?){1,3}\]"),
    # a name or a number that is nobody's, and a list that says otherwise than another one
    (r"reach out of range", r"reach = \[(?!''|-1|9223372036854775807|1, 1\]|'a', 'b', 'a'|0, 0)"),
    (r"hosts out of range", r"hosts = \[('gpu'|'CPU'|'0'|'ram'|2|'cpu', 0|'core', '1'|'core', 1, 0)\]"),
    (r"sources out of range", r"master = (2|7|'gpu'|'0'|'ram')|first = 0 }, { master = 0, first = 8 }"))
# Systems that are lawful, or lack a master alone, if no dump is judged by them: what they say of signals is no text.
NO_DUMP = r"\Anames = (\[|{ extra = 1, d_corrupt = 1)"
FAULT = re.compile(r"missing (\w+)|wrong type of (\w+)|(\w+) out of range|unknown key (.+) \(near: \w+\)")


@functools.lru_cache(maxsize=None)
def text_of(path):
    return read(TOP, path)


def function(text, name):
    """The text of a function of a crate; nothing if it is not there."""
    return (re.search(rf"\bfn {name}\b.*?\n( *)}}\n", text, re.S) or [""])[0]


def keys_of_program(text):
    """The keys that the program knows in each table."""
    body = text[text.index("pub fn keys(self)"):]
    arms = re.findall(r"((?:TableKind::\w+(?: \| )?)+) => (&\[.*?\]|wire_keys\(\))", body[:body.index("\n    }\n")], re.S)
    wires = re.findall(TEXT, function(text, "wire_keys"))
    return {KINDS[kind]: tuple(wires if said == "wire_keys()" else re.findall(TEXT, said))
            for kinds, said in arms for kind in re.findall(r"TableKind::(\w+)", kinds)}


def of_keys(texts):
    """What is wrong with the keys of each table: a text for each comparison, empty if it is right."""
    known = keys_of_program(texts(KNOWN))
    for table, names in keys.SYSTEM_KEYS.items():
        yield "" if known.get(table) == names else f"{KNOWN}: the keys of `{table}` are {known.get(table)}, and not {names}"


def of_limits(texts):
    """The same of the limits and the words."""
    for path, name, limit in LIMITS:
        said = re.search(rf"const {name}: \w+ = ([^;]+);", texts(path))
        number = NUMBERS.get(said[1], said[1].replace("_", "")) if said else None
        yield "" if str(number) == str(limit) else f"{path}: {name} is {number}, and not {limit}"
    for path, name, form, words in WORDS:
        said, wanted = re.findall(form, function(texts(path), name)), [*words]
        # the order says nothing
        yield "" if sorted(said) == sorted(wanted) else f"{path}: {name} has {said}, and not {wanted}"


def table_in(text, title):
    """The cells of the first table of a section whose first column is called Key, without links."""
    section = re.sub(r"\[([^\[\]]*)\]\([^()]*\)", r"\1", f"\n{text}".partition(f"# {title}\n")[2])
    lines = section[section.index("| Key |"):].partition("\n\n")[0].splitlines()[2:]
    return [tuple(cell.strip() for cell in line.strip("|").split("|")) for line in lines]


def of_table(texts):
    """The same of the table of docs/reference/keys.md, cell by cell."""
    found, wanted = table_in(texts(TABLE), "Keys of the system file"), keys.page_rows()
    yield "" if len(found) == len(wanted) else f"{TABLE}: {len(found)} keys, and not {len(wanted)}"
    for said, row in zip(found, wanted):
        for cell, right in zip(said, row):
            yield "" if cell == right else f"{TABLE}: {row[0]}: `{cell}`, and not `{right}` (tools/reference)"


def is_told(row, said):
    """Whether a cell of the table of dumps says what a row says: its meaning, the words of a key at the top, and how long an array may be."""
    words = [f'`"{word}"`' + " (the default)" * (word == row.default) for word in row.value.schema.get("enum", []) if row.table == ""]
    limits = re.findall(r"an array has (.*)", row.value.range)
    return all(part in said for part in [row.meaning, *words, *limits])


def of_dumps(texts):
    """The same of the keys of dumps there, and what is said of each."""
    rows = [(re.findall(r"`([\w.]+)`", said), meaning) for said, meaning in table_in(texts(FORMATS), "Dumps")]
    meanings = {name: meaning for names, meaning in rows for name in names}
    paths = {keys.PATHS[row.table] + row.name: row for row in keys.KEYS if row.about == keys.PLACES and row.table in keys.PATHS}
    yield "" if {*meanings} == {*paths, "resets"} else f"{FORMATS}: the keys are {', '.join(meanings)}, and not {', '.join(paths)}, resets"
    for name, row in paths.items():
        yield "" if is_told(row, meanings.get(name, "")) else f"{FORMATS}: `{name}` does not say `{row.meaning}`, `{row.value.range}`"


def of_schema(texts):
    """The same of the schema: it is the one that is made now, and each table has its keys."""
    text = texts(SCHEMA)
    yield "" if text == schema.schema_text() else f"{SCHEMA} is stale: tools/schema >{SCHEMA}"
    made = json.loads(text)
    for table, names in keys.SYSTEM_KEYS.items():
        found = tuple((made["$defs"][table] if table else made)["properties"])
        yield "" if found == names else f"{SCHEMA}: the keys of `{table}` are {found}, and not {names}"


def compared(texts):
    """What all comparisons say."""
    return [said for check in (of_keys, of_limits, of_table, of_dumps, of_schema) for said in check(texts)]


def of_changes():
    """Whether the comparison names each place that is changed."""
    for path, old, new in CHANGES:
        changed = text_of(path).replace(old, new, 1)
        said = [why for why in compared(lambda name, path=path, changed=changed: changed if name == path else text_of(name)) if why]
        is_named = said and all(why.startswith(path) for why in said)
        yield "" if is_named else f"{path}: {new!r} in place of {old!r} is not told"


def of_examples():
    """Each system of the examples and the tests, with the line of its fault; that of a lawful one is empty."""
    paths = [os.path.join(folder, path) for folder in ("examples", "tests") for path in files(os.path.join(TOP, folder), ".toml")]
    for path in paths:
        text = text_of(path)
        table = tomllib.loads(text)
        if "master" in table:
            yield text, ""
        for case in [*table.get("capture", []), *table.get("dump", [])]:
            system, said = case.get("system", table.get("system", "")), case.get("says", "")
            if system:
                yield system, said.strip() if said.startswith("system: ") else ""


def systems():
    """All systems that are compared."""
    yield from dict.fromkeys(of_examples())
    yield from ((text.decode(), line) for tables in (system_faults.TABLES, socket_faults.TABLES) for text, line in system_faults.rows(tables))


def is_seen(line, text):
    """Whether a schema can find this fault of a text."""
    return not any(re.fullmatch(fault, line) and re.search(part, text) for fault, part in UNSEEN)


def key_of(line):
    """The key that a line of a fault is about; nothing if it is about none."""
    found = FAULT.fullmatch(line)
    key = next(filter(None, found.groups())) if found else ""
    return json.loads(key) if key.startswith('"') else key


def cases():
    """What the schema is asked of systems: the text, its document, and the key that it has to find; or that it must not find, if a schema finds no
    such fault; a lawful document has no key."""
    for text, line in systems():
        fault, with_master = line.removeprefix("system: "), {"master": [{"sources": 1}]}
        if fault == "not TOML":
            continue
        document = tomllib.loads(text)
        if fault == "missing master":
            yield text, document, "master", True
            fault = ""
        if fault:
            yield text, with_master | document, key_of(fault), is_seen(fault, text)
        elif not re.match(NO_DUMP, text):
            yield text, with_master | document, None, False


def python_with_jsonschema():
    """A Python that has the package; nothing if there is none."""
    for python in (sys.executable, "/usr/bin/python3"):
        if os.access(python, os.X_OK) and subprocess.run([python, "-c", "import jsonschema"], capture_output=True, check=False).returncode == 0:
            return python
    return None


def of_systems(python, asked):
    """What is wrong with what the schema finds in systems."""
    given = json.dumps([json.loads(text_of(SCHEMA)), [document for _, document, _, _ in asked]], default=str)
    run = subprocess.run([python, os.path.join(HERE, "schema_errors.py")], input=given, stdout=subprocess.PIPE, encoding="utf-8", check=True)
    for (text, _, key, is_wanted), errors in zip(asked, json.loads(run.stdout)):
        if key is None:
            yield f"a lawful system is invalid, at {errors}:\n{text}" if errors else ""
        elif any(key in error for error in errors) == is_wanted:
            yield ""
        else:
            yield f"`{key}` is {'not found' if is_wanted else 'found, and stands in UNSEEN'}:\n{text}"


def main():
    asked, python = list(cases()), python_with_jsonschema()
    tell_faults("a place agrees", compared(text_of))
    tell_faults("a change is told", of_changes())
    if python:
        tell_faults("a system by the schema", of_systems(python, asked))
    else:
        print(f"{len(asked)} systems skipped: no Python has python3-jsonschema")


if __name__ == "__main__":
    run_test(main)
