"""Writes docs/reference: a page for each crate, with what its lib.rt says, each definition of its specs/ with the comment above it, and each
public type and call of its src/ with its doc comment, its signature and its clauses: tools/reference [--check | --bare]. keys.md and causes.md
are made of tools/tlxtools/system_keys.py and tools/tlxtools/causes.py (tools/tlxtools/reference_tables.py). The pages of BY_HAND
(tools/tlxtools/tree.py) are left as they are.

--check  writes nothing, and compares the pages with what would be written; it also fails if there are more definitions without a
         comment than MOST_BARE. The last line is 'N passed, M failed'. The gate does so.
--bare   lists the definitions without a comment, crate by crate; nothing, if each has one.
"""

import os
import re
import sys

from tlxtools.crate_list import TOP, crates
from tlxtools.reference_page import Places, index_of, page_of
from tlxtools.reference_source import Crate
from tlxtools.reference_tables import tables
from tlxtools.tree import BY_HAND, is_made, read

# How many definitions may have no comment: none, so a new one needs its own.
MOST_BARE = 0
PAGES = "docs/reference"


def families(top):
    """The families of crates.txt, each with its crates."""
    found = []
    for line in read(top, "crates.txt").split("\n")[1:]:
        if line.startswith("# "):
            found.append((line[2:].rstrip("."), []))
        elif ":" in line:
            found[-1][1].append(line.split(":")[0].split()[0])
    return found


def first_pages(top):
    """The pages that are of no crate, each with its first sentence below the heading, which says who its reader is."""
    texts = {name: read(top, f"{PAGES}/{name}.md") for name in BY_HAND if os.path.exists(os.path.join(top, PAGES, f"{name}.md"))} | tables()
    for name in ("formats", "keys", "captures", "faults", "causes"):
        if name in texts:
            yield f"{name}.md", re.split(r"(?<=\.)\s", texts[name].partition("\n\n")[2], maxsplit=1)[0]


def pages(top, read_crates):
    """The text of each page by its path."""
    # programs and crates of tests offer nothing
    offering = {crate.name: crate for crate in read_crates if crate.items or crate.definitions()}
    places = Places(offering.values())
    texts = {f"{PAGES}/{name}.md": page_of(places, crate) for name, crate in offering.items()}
    return {f"{PAGES}/README.md": index_of(families(top), offering, first_pages(top)), **texts}


def write(top, texts):
    """Writes the pages, and removes those that are not among them."""
    os.makedirs(os.path.join(top, PAGES), exist_ok=True)
    for name in os.listdir(os.path.join(top, PAGES)):
        if is_made(f"{PAGES}/{name}") and f"{PAGES}/{name}" not in texts:
            os.remove(os.path.join(top, PAGES, name))
    for path, text in texts.items():
        with open(os.path.join(top, path), "w", encoding="utf-8") as file:
            file.write(text)


def stale(top, texts):
    """For each page that is there or should be: what is wrong with it, nothing if it is right."""
    folder = os.path.join(top, PAGES)
    there = {f"{PAGES}/{name}" for name in os.listdir(folder) if is_made(f"{PAGES}/{name}")} if os.path.isdir(folder) else set()
    for path in sorted(there | set(texts)):
        if path not in texts:
            yield f"{path}: no crate has this page"
        elif path not in there:
            yield f"{path}: it is missing"
        else:
            yield "" if read(top, path) == texts[path] else f"{path}: it is stale"


def check(top, texts, bare):
    too_many = f"definitions without a comment: {bare}, of which there may be {MOST_BARE}: tools/reference --bare lists them"
    said = [*stale(top, texts), too_many if bare > MOST_BARE else ""]
    failures = [why for why in said if why]
    for why in failures:
        print(f"tools/reference: {why}", file=sys.stderr)
    if any(why.startswith(PAGES) for why in failures):
        print("tools/reference: run it, and commit the pages", file=sys.stderr)
    print(f"{len(said) - len(failures)} passed, {len(failures)} failed")
    return 1 if failures else 0


def main(words, top=TOP):
    if words in (["--help"], ["-h"]):
        print(__doc__.strip())
        return 0
    if words not in ([], ["--check"], ["--bare"]):
        print("usage: tools/reference [--check | --bare]", file=sys.stderr)
        return 64
    read_crates = [Crate(top, name) for name in crates()]
    bare = [f"crates/{crate.name}/specs/{file}.antt: {name}" for crate in read_crates for file, name in crate.bare()]
    if words == ["--bare"]:
        for line in bare:
            print(line)
        return 0
    texts = pages(top, read_crates) | {f"{PAGES}/{name}.md": text for name, text in tables().items()}
    if words:
        return check(top, texts, len(bare))
    write(top, texts)
    return 0
