"""Prints the JSON Schema (draft 2020-12) of system files, by the rows of tools/tlxtools/system_keys.py: tools/schema.

docs/system.schema.json holds what it prints. With this file an editor completes and checks a system file while it is written (docs/reference/formats.md,
"In an editor"). The table of docs/reference/keys.md is made of the same rows (tools/reference).

The schema has the keys of each table, with their types, ranges and words. It says which keys have to be there, and which do not stand beside others.
It says of signals what is right for a dump. What depends on another value is left to ./tlcheck --lint, as whether a name of `reach` is that of a port.
"""

import json
import re
import sys

from tlxtools.system_keys import TABLES, absent_of, page_rows, rows_of

FRONT = {"$schema": "https://json-schema.org/draft/2020-12/schema", "title": "System file of tlcheck and tlvcd",
         "description": "A crossbar of TileLink, as docs/reference/formats.md of tlx describes it. ./tlcheck --lint finds what no schema can say."}


def cell(said, column):
    """A cell of the page. One that is as the cell of another key is that one."""
    other = re.fullmatch(r"as (`[\w.]+`)", said)
    return next(row[column] for row in page_rows() if row[0] == other[1]) if other else said


def description(row):
    """What a key means, what it may say, and what it means that it is missing."""
    # the page has the rule of blocks below its table
    meaning, limits, absent = cell(row.meaning, 4), cell(row.value.range, 2), absent_of(row).replace(" (below)", "")
    said = [meaning[0].upper() + meaning[1:], *([f"Range: {limits}"] if limits else []), f"If it is missing: {absent}"]
    return ". ".join(said) + "."


def together(rows):
    """What holds of an array of tables: a key that one of them has may have to be in all."""
    keys = [row.name for row in rows if row.together]
    return {"if": {"contains": {"type": "object", "required": keys}}, "then": {"items": {"required": keys}}} if keys else {}


def value_schema(row):
    """The schema of a key's value."""
    inner = row.value.schema.get("items", {}).get("$ref", "").rpartition("/")[2]
    rules = together(rows_of(inner)) if inner else {}
    default = {} if row.default is None else {"default": row.default}
    return {"description": description(row), **default, **row.value.schema, **rules}


def conditions(rows):
    """Which keys of a table have to be there if another one is missing, and which may not stand beside others."""
    found = []
    for key in dict.fromkeys(row.instead for row in rows if row.instead):
        found.append({"if": {"not": {"required": [key]}}, "then": {"required": [row.name for row in rows if row.instead == key]}})
    for row in rows:
        if row.apart:
            found.append({"if": {"anyOf": [{"required": [key]} for key in row.apart]}, "then": {"properties": {row.name: {"not": {}}}}})
    return found


def table_schema(name):
    """The schema of a table."""
    rows = rows_of(name)
    needed, rules = [row.name for row in rows if row.needed and not row.instead], conditions(rows)
    return {"type": "object", "properties": {row.name: value_schema(row) for row in rows}, **({"required": needed} if needed else {}),
            "additionalProperties": False, **({"allOf": rules} if rules else {})}


def schema():
    """The schema of a file, with those of the tables in it."""
    return {**FRONT, **table_schema(""), "$defs": {name: table_schema(name) for name in TABLES if name}}


def schema_text():
    return json.dumps(schema(), indent=2) + "\n"


def main(words):
    if words in (["--help"], ["-h"]):
        print(__doc__.strip())
    elif not words:
        sys.stdout.write(schema_text())
    else:
        print("usage: tools/schema", file=sys.stderr)
        return 64
    return 0
