"""Checks the style of documents and tools: tools/check_style [--documents | --wrap]. The last line is 'N passed, M failed',
by files that passed and by faults.

--documents  the documents alone. In Markdown each link names a file that is there, and a heading of it; a heading in quotes behind a link to a
             page stands on that page; a path between backticks is that of a file; no line is wider than .editorconfig says, but for
             tables and what is indented or fenced. Any other text that names a page of docs, and a heading in quotes behind it, names
             one that is there. It needs no package, so the gate runs it.

--wrap       checks nothing, and wraps each paragraph of Markdown again that has a line which is too wide.

Without these the tools are checked too: bash by shellcheck, and Python by flake8, with the width of .editorconfig. They need Debian's packages
shellcheck and python3-flake8; if one is missing, the check says so and fails. Links to other hosts are not followed.
"""

import functools
import os
import re
import shutil
import subprocess
import sys
import urllib.parse

from tlxtools.crate_list import TOP
from tlxtools.markdown import anchors, headings, prose, rewrapped
from tlxtools.tree import files, is_made, read, shell_of

LINK = re.compile(r"!?\[[^\[\]]*\]\(([^()\s]+)\)(?:, \"([^\"]+)\")?")
# a page that a text names from the top of the repository, with a heading of it or without
CITED = re.compile(r"(?<![\w/.])(docs/[\w/-]+\.md)(?:`?, \"([^\"\n]+)\")?")
# a path from the top of the repository, or from the folder of a crate, at the beginning of what stands between backticks
PATH = re.compile(r"`((?:tools|tests|docs|examples|hdl|include|python|bench|planted|crates|(?:tl|check)_\w+(?=/(?:src|specs|proofs)/))/[\w./-]+)(?![\w./*{-])")
# a word in a path that stands for others, or what is built
STANDS_FOR = re.compile(r"(^|/)([A-Z]+|out)(/|$)")
TEXT = (".rt", ".antt", ".py", ".h", ".c", ".v", ".sv", ".toml", ".txt", ".1", ".edit")
# Debian's Python has the package; another python3 may be first on the path
PYTHON = "/usr/bin/python3"
# what is left alone beside what flake8 leaves alone by itself: tables that begin within a tuple, and blanks in front of a colon of a slice
IGNORED = "E122,E203"
# what is read by other scripts, so without a first line that names bash
SOURCED = ("tools/launch.sh", "tools/library.sh", "tools/python.sh", "tests/harness.sh")


def width_of(top, ending):
    """The width that .editorconfig has for files of an ending."""
    for section in re.split(r"^\[", read(top, ".editorconfig"), flags=re.M):
        names, _, keys = section.partition("]\n")
        found = re.search(r"^max_line_length = (\d+)$", keys, re.M)
        if found and f"*{ending}" in re.split(r"[{},]", names):
            return int(found.group(1))
    raise SystemExit(f"tools/check_style: .editorconfig has no max_line_length of *{ending}")


def unfenced(text):
    """A Markdown file with blanks for what is fenced and for what stands between backticks, so that places stay."""
    text = re.sub(r"^ *```.*?^ *```$", lambda found: re.sub(r"[^\n]", " ", found.group()), text, flags=re.M | re.S)
    return re.sub(r"`[^`\n]*`", lambda found: "`" + "x" * (len(found.group()) - 2) + "`", text)


def titles(text):
    """The headings as others quote them: whole, or up to a colon or a bracket, and the bold words that begin a paragraph."""
    bold = [found.group(1).rstrip(".:") for _, line in prose(text) if (found := re.match(r"\s*(?:[-*] )?\*\*([^*]+)\*\*", line))]
    whole = [title.replace("`", "") for title in headings(text) + bold]
    return {*whole, *(re.split(r":| \(", title)[0] for title in whole)}


@functools.lru_cache(maxsize=None)
def page_of(top, path):
    """The text of a page, its headings as others quote them, and the names by which links find them."""
    text = read(top, path)
    return text, titles(text), anchors(text)


def said_of_link(top, path, target, quoted):
    """What is wrong with a link of a page; nothing if it is right."""
    place, _, anchor = urllib.parse.unquote(target).partition("#")
    to = os.path.normpath(os.path.join(os.path.dirname(path), place)) if place else path
    if not os.path.exists(os.path.join(top, to)) or to.startswith(".."):
        return f"there is no {to}"
    if not to.endswith(".md"):
        return ""
    _, quotable, named = page_of(top, to)
    if anchor and anchor not in named:
        return f"{to} has no heading #{anchor}"
    if quoted and " ".join(quoted.split()).replace("`", "") not in quotable:
        return f'{to} has no heading "{quoted}"'
    return ""


def links(top):
    """For each link of a Markdown file to this repository: its place, and what is wrong with it."""
    for path in files(top, ".md"):
        whole, _, _ = page_of(top, path)
        for found in LINK.finditer(unfenced(whole)):
            target = found.group(1)
            if not re.match(r"\w+:", target):
                quoted = whole[found.start(2):found.end(2)] if found.group(2) else ""
                yield f"{path}:{whole.count(chr(10), 0, found.start()) + 1}", said_of_link(top, path, target, quoted)


def citations(top):
    """For each page that a text other than Markdown names: its place, and what is wrong with it. Tests name pages of trees of their own."""
    for path in files(top):
        if (path.endswith(TEXT) or "." not in os.path.basename(path)[1:]) and not path.endswith(("_test", "_test.py")):
            whole = read(top, path)
            for found in CITED.finditer(whole):
                yield f"{path}:{whole.count(chr(10), 0, found.start()) + 1}", said_of_link(top, "", found.group(1), found.group(2))


def paths(top):
    """For each path between backticks in a Markdown file: its place, and whether there is no such file."""
    for path in files(top, ".md"):
        whole, _, _ = page_of(top, path)
        for found in PATH.finditer("" if is_made(path) else whole):
            name = found.group(1)
            places = (name, os.path.join("crates", name), os.path.join(os.path.dirname(path), name))
            is_there = STANDS_FOR.search(name) or any(os.path.exists(os.path.join(top, place)) for place in places)
            yield f"{path}:{whole.count(chr(10), 0, found.start()) + 1}", "" if is_there else f"there is no {name}"


def widths(top):
    """For each Markdown file: its place, and its first line that is too wide."""
    most = width_of(top, ".md")
    for path in files(top, ".md"):
        # a picture can't be cut
        lines = [(number, len(line)) for number, line in prose(read(top, path)) if not line.startswith("![")]
        wide = [f"line {number} has {count} characters, and {most} are the most" for number, count in lines if count > most]
        yield path, wide[0] if wide else ""


def wrap(top):
    """Wraps paragraphs that are too wide, ten characters below the width, but for pages that a tool makes."""
    most = width_of(top, ".md")
    for path in files(top, ".md"):
        old = read(top, path)
        new = rewrapped(old, most, most - 10)
        if new != old and not is_made(path):
            with open(os.path.join(top, path), "w", encoding="utf-8") as file:
                file.write(new)
            print(path)


def told(top, command, package, paths):
    """For each of these files: its place, and what a program says of it; or that the program is missing."""
    if not shutil.which(command[0]):
        yield command[0], f"it is not installed: apt-get install {package}"
        return
    run = subprocess.run([*command, *paths], cwd=top, capture_output=True, text=True, check=False)
    if "No module named" in run.stderr:
        yield package, f"it is not installed: apt-get install {package}"
        return
    lines = (run.stdout + run.stderr).splitlines()
    for path in paths:
        of_path = [line for line in lines if line.startswith(f"{path}:")]
        yield path, "\n".join(of_path)
        lines = [line for line in lines if line not in of_path]
    yield command[0], "\n".join(lines)


def tools(top):
    """For each tool in bash and in Python: its place, and what is wrong with it."""
    every = files(top)
    bash = [path for path in every if path in SOURCED or "." not in os.path.basename(path)[1:] and shell_of(top, path) in ("bash", "sh")]
    python = [path for path in every if path.endswith(".py") or "." not in os.path.basename(path)[1:] and shell_of(top, path) == "python3"]
    yield from told(top, ["shellcheck", "-x", "-P", "SCRIPTDIR", "-S", "warning", "-f", "gcc"], "shellcheck", bash)
    width = f"--max-line-length={width_of(top, '.py')}"
    yield from told(top, [PYTHON, "-m", "flake8", "--isolated", width, f"--extend-ignore={IGNORED}"], "python3-flake8", python)


def main(words, top=TOP):
    if words in (["--help"], ["-h"]):
        print(__doc__.strip())
        return 0
    if words not in ([], ["--documents"], ["--wrap"]):
        print("usage: tools/check_style [--documents | --wrap]", file=sys.stderr)
        return 64
    if words == ["--wrap"]:
        wrap(top)
        return 0
    said = [*links(top), *citations(top), *paths(top), *widths(top)] + ([] if words else list(tools(top)))
    failures = [(place, why) for place, why in said if why]
    for place, why in failures:
        print(why if why.startswith(f"{place}:") else f"{place}: {why}", file=sys.stderr)
    # a file with many links is one that passed
    whole = {place.split(":")[0] for place, _ in said} - {place.split(":")[0] for place, _ in failures}
    print(f"{len(whole)} passed, {len(failures)} failed")
    return 1 if failures else 0
