"""What tools/site hands to mkdocs: the pages of the site in the order of its navigation, and their texts as mkdocs wants them."""

import os
import re
import urllib.parse

from tlxtools.markdown import ITEM, Anchors, prose
from tlxtools.tree import files, read

LINK = re.compile(r"(!?\[[^\[\]]*\]\()([^()\s]+)(\))")
# What stands between backticks or fences, which is no text.
CODE = re.compile(r"^ *```.*?^ *```$|(`+)[^`].*?\1", re.M | re.S)
# What only GitHub escapes by a backslash.
ESCAPED = {"\\<": "&lt;", "\\|": "&#124;"}
PROJECT = ("CONTRIBUTING.md", "SECURITY.md", "CHANGELOG.md", "docs/release.md", "bench/README.md")


class Fault(Exception):
    """What is wrong with the documents, in one line."""


def title_of(text):
    """The first heading of a page, up to a colon."""
    return re.search(r"^# (.*)$", text, re.M)[1].replace("`", "").split(":")[0]


def linked(top, page):
    """The pages that a page links to, in its order, each with the heading above it."""
    heading = ""
    for _, line in prose(read(top, page)):
        heading = line.lstrip("# ") if line.startswith("## ") else heading
        for found in LINK.finditer(line):
            to = os.path.normpath(os.path.join(os.path.dirname(page), found[2].partition("#")[0]))
            if to.endswith(".md"):
                yield heading, to


def reference(top):
    """The pages of docs/reference, each by the first heading of its index that has it."""
    sections, listed = {}, set()
    for heading, to in linked(top, "docs/reference/README.md"):
        if to.startswith("docs/reference/") and to not in listed:
            sections.setdefault(heading.split(":")[0], []).append(to)
            listed.add(to)
    return ["docs/reference/README.md", *({heading: pages} for heading, pages in sections.items())]


def navigation(top):
    """The pages of the site: a list of pages, and of sections, each a dictionary with a title and such a list."""
    listed = dict.fromkeys(to for _, to in linked(top, "docs/README.md"))
    kinds = {kind: [page for page in listed if os.path.dirname(page) == f"docs/{kind}"] for kind in ("guide", "design")}
    readmes = [path for path in files(top, "README.md") if path.startswith(("hdl/", "examples/", "include/", "python/"))]
    return ["README.md", "docs/README.md", {"Guides": kinds["guide"]}, {"Reference": reference(top)}, {"Design": kinds["design"]}, "docs/trust.md",
            {"Project": list(PROJECT)}, {"Parts and examples": readmes}]


def pages_of(entries):
    """The pages of a navigation, one after the other."""
    for entry in entries:
        if isinstance(entry, str):
            yield entry
        else:
            for within in entry.values():
                yield from pages_of(within)


def titled(top, entries):
    """The navigation as mkdocs has it: each page with its title."""
    return [{title_of(read(top, entry)): entry} if isinstance(entry, str) else {name: titled(top, within) for name, within in entry.items()}
            for entry in entries]


def target_of(top, page, target):
    """Where a link leads: a file of the repository, and a heading or nothing. A folder stands for its README."""
    place, _, anchor = urllib.parse.unquote(target).partition("#")
    to = os.path.normpath(os.path.join(os.path.dirname(page), place)) if place else page
    if os.path.isdir(os.path.join(top, to)):
        to = os.path.join(to, "README.md")
    if to.startswith("..") or not os.path.isfile(os.path.join(top, to)):
        raise Fault(f"{page}: {target} leads to no file")
    return to, anchor


def outside_code(text, change):
    """The text with a change of all that is no code."""
    parts, at = [], 0
    for found in CODE.finditer(text):
        parts += [change(text[at:found.start()]), found.group()]
        at = found.end()
    return "".join([*parts, change(text[at:])])


def indented(text):
    """The text with four blanks before what stands in an item of a list, and an empty line before an item behind one with several parts, as mkdocs
    wants it."""
    lines, is_fenced, in_list, has_parts = [], False, False, False
    for line in text.split("\n"):
        is_fenced ^= line.lstrip().startswith("```")
        was_empty = not lines or not lines[-1].strip()
        if not is_fenced and line and not line.startswith(" "):
            is_item = bool(ITEM.match(line))
            if is_item and in_list and has_parts and not was_empty:
                lines.append("")
            in_list, has_parts = is_item or in_list and not was_empty, False
        elif in_list and not is_fenced:
            has_parts |= was_empty and bool(line)
            line = re.sub(r"^ {2,3}(?=\S)", "    ", line)
        lines.append(line)
    return "\n".join(lines)


def with_names(text):
    """The text whose headings have the names by which links of the repository find them."""
    names, lines = Anchors(), text.split("\n")
    for number, line in prose(text):
        if re.match(r"#{1,6} ", line):
            lines[number - 1] = f"{line} {{#{names.next(line.lstrip('#').strip())}}}"
    return "\n".join(lines)


def text_of(top, page, taken):
    """The text of a page for mkdocs. `taken` gets the files that its links lead to."""
    def link(found):
        if re.match(r"\w+:", found[2]):
            return found.group()
        to, anchor = target_of(top, page, found[2])
        taken.add(to)
        place = os.path.relpath(to, os.path.dirname(page) or ".")
        return f"{found[1]}{place}{'#' + anchor if anchor else ''}{found[3]}"

    def change(part):
        part = LINK.sub(link, part)
        return re.sub(r"\\[<|]", lambda found: ESCAPED[found.group()], part)

    # a link may stand around code, so code within its text is hidden first
    text = read(top, page)
    hidden = re.sub(r"(!?\[)([^\[\]]*)(\]\([^()\s]+\))", lambda found: found[1] + found[2].replace("`", "\0") + found[3], text)
    return with_names(indented(outside_code(hidden, change).replace("\0", "`")))


def source(top, to):
    """Writes the folder of which mkdocs makes the site, and answers its pages."""
    pages, taken = list(pages_of(navigation(top))), set()
    for page in pages:
        text = text_of(top, page, taken)
        os.makedirs(os.path.dirname(os.path.join(to, page)), exist_ok=True)
        with open(os.path.join(to, page), "w", encoding="utf-8") as file:
            file.write(text)
    lost = sorted(path for path in taken - set(pages) if path.endswith(".md"))
    if lost:
        raise Fault(f"these pages are linked and in no navigation: {', '.join(lost)}")
    for path in sorted(taken - set(pages)):
        os.makedirs(os.path.dirname(os.path.join(to, path)), exist_ok=True)
        with open(os.path.join(top, path), "rb") as old, open(os.path.join(to, path), "wb") as new:
            new.write(old.read())
    return pages
