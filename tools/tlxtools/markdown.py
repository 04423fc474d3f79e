"""Markdown as the repository's pages have it: which lines are prose, by which names links find headings, and how paragraphs are wrapped."""

import re
import textwrap


def prose(text):
    """The lines of a Markdown file with their numbers, but for those that are fenced, indented, or of a table."""
    is_fenced = False
    for number, line in enumerate(text.split("\n"), 1):
        if line.lstrip().startswith("```"):
            is_fenced = not is_fenced
        elif not is_fenced and not line.startswith("    ") and not line.lstrip().startswith("|"):
            yield number, line


def headings(text):
    """The headings of a Markdown file, as they are written."""
    return [line.lstrip("#").strip() for _, line in prose(text) if re.match(r"#{1,6} ", line)]


class Anchors:
    """The names by which links find headings, one after the other: small letters and digits, and dashes for blanks. A second heading of a
    name has a number behind it."""

    def __init__(self):
        self.counts = {}

    def next(self, heading):
        plain = re.sub(r"\[([^\]]*)\]\([^)]*\)", r"\1", heading)
        name = re.sub(r"[^\w\- ]", "", plain.lower()).replace(" ", "-")
        count = self.counts.get(name, 0)
        self.counts[name] = count + 1
        return f"{name}-{count}" if count else name


def anchors(text):
    """The names of all headings of a Markdown file."""
    names = Anchors()
    return {names.next(heading) for heading in headings(text)}


# the front of an item of a list
ITEM = re.compile(r"(\s*)(?:[-*]|\d+\.) ")


def is_text(line):
    """Whether a line is one of a paragraph or of an item: neither empty, nor of a table, a heading or a fence, nor indented like code."""
    return bool(line.strip()) and not line.lstrip().startswith(("|", "#", ">", "```")) and not (line.startswith("    ") and not ITEM.match(line))


def goes_on(line, indent):
    """Whether a line goes on with the paragraph or the item before it, whose text has this indent."""
    bare = line.lstrip()
    return bool(bare) and not bare.startswith(("|", "#", ">", "```")) and not ITEM.match(line) and len(line) - len(bare) == indent


def wrapped(text, width, front="", indent=0):
    """The lines of a paragraph. What stands between backticks is not cut, and neither is a link."""
    hidden = re.sub(r"`[^`]*`|!?\[[^\]]*\]\([^)]*\)", lambda found: found.group().replace(" ", "\0"), text)
    lines = textwrap.wrap(hidden, width, initial_indent=front, subsequent_indent=" " * indent, break_long_words=False, break_on_hyphens=False)
    return [line.replace("\0", " ") for line in lines]


def rewrapped(text, most, width):
    """The page, of which each paragraph or item with a line wider than the most is wrapped again at a width."""
    lines, kept, at, is_fenced = text.split("\n"), [], 0, False
    while at < len(lines):
        line = lines[at]
        is_fenced ^= line.lstrip().startswith("```")
        if is_fenced or not is_text(line):
            kept.append(line)
            at += 1
            continue
        item = ITEM.match(line)
        indent = item.end() if item else len(line) - len(line.lstrip())
        end = at + 1
        while end < len(lines) and goes_on(lines[end], indent):
            end += 1
        block = lines[at:end]
        if any(len(each) > most for each in block):
            block = wrapped(" ".join(each.strip() for each in [line[indent:], *block[1:]]), width, line[:indent], indent)
        kept += block
        at = end
    return "\n".join(kept)
