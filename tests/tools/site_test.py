"""Tests tools/site: each page of the documents stands once in the navigation, each link leads to a file and a heading of the site, and the
texts are what mkdocs wants, on examples written by hand. Without mkdocs the tool has to say so. If mkdocs is there, the site is made in its
strict mode, and its links and its search are looked at; else a line says that this was skipped. The last line is 'N passed, M failed'. It
needs no program.
"""

import contextlib
import html.parser
import io
import json
import os
import re
import shutil
import subprocess
import sys
import tempfile
import urllib.parse

from harness import run_test, tell
from tlxtools import site_pages
from tlxtools.commands import site
from tlxtools.crate_list import TOP
from tlxtools.tree import files, read

SITE = os.path.join(TOP, "tools", "site")
# what has to be in the navigation
DOCUMENTS = re.compile(r"(?:docs/.*|README|CONTRIBUTING|SECURITY|CHANGELOG)\.md$")
# a text, and what mkdocs gets
INDENTED = (
    ("- a\n  b\n- c\n", "- a\n    b\n- c\n"),
    ("1. a\n   - b\n\nc\n  d\n", "1. a\n    - b\n\nc\n  d\n"),
    ("1. a\n\n        code\n\n   b\n2. c\n", "1. a\n\n        code\n\n    b\n\n2. c\n"),
    ("```\n- a\n  b\n```\n", "```\n- a\n  b\n```\n"))
NAMED = ("# `a::b`\n\n## c d\n\n## c d\n\n```\n# e\n```\n", "# `a::b` {#ab}\n\n## c d {#c-d}\n\n## c d {#c-d-1}\n\n```\n# e\n```\n")
# a page of a small tree, whose links lead to a page, a folder with a README, and a file
TREE = {"docs/a.md": "# A\n\n[`b`](b.md#c), [d](../d), [e](../e.txt), [f](https://f.org), `[g](g.md)`, 1 \\< 2 \\| `\\<`\n",
        "docs/b.md": "# B\n\n## C\n", "d/README.md": "# D\n", "e.txt": "e\n"}
PAGE = "# A {#a}\n\n[`b`](b.md#c), [d](../d/README.md), [e](../e.txt), [f](https://f.org), `[g](g.md)`, 1 &lt; 2 &#124; `\\<`\n"


def put(top, path, text):
    os.makedirs(os.path.dirname(os.path.join(top, path)), exist_ok=True)
    with open(os.path.join(top, path), "w", encoding="utf-8") as file:
        file.write(text)


def of_texts():
    for text, wanted in INDENTED:
        said = site_pages.indented(text)
        tell(f"{text!r} is indented", said == wanted, repr(said))
    said = site_pages.with_names(NAMED[0])
    tell("headings have names", said == NAMED[1], repr(said))
    with tempfile.TemporaryDirectory() as top:
        for path, text in TREE.items():
            put(top, path, text)
        taken = set()
        said = site_pages.text_of(top, "docs/a.md", taken)
        tell("the text of a page", said == PAGE and taken == {"docs/b.md", "d/README.md", "e.txt"}, f"{said!r}, {taken}")
        put(top, "docs/a.md", "# A\n\n[b](none.md)\n")
        try:
            site_pages.text_of(top, "docs/a.md", set())
            said = "it is taken"
        except site_pages.Fault as fault:
            said = str(fault)
        tell("a link to no file", said == "docs/a.md: none.md leads to no file", said)


def of_navigation():
    """Each document stands once in the navigation, and each link leads to a page and a heading of it, or to a file of the site."""
    pages = list(site_pages.pages_of(site_pages.navigation(TOP)))
    for path in [path for path in files(TOP, ".md") if DOCUMENTS.match(path)]:
        count = pages.count(path)
        tell(f"{path} is in the navigation", count == 1, f"{count} times; docs/README.md lists guides and pages of design")
    with tempfile.TemporaryDirectory() as folder:
        site_pages.source(TOP, folder)
        named = {page: set(re.findall(r"\{#([^}]*)\}$", read(folder, page), re.M)) for page in pages}
        for page in pages:
            lost = []
            for found in site_pages.LINK.finditer(site_pages.CODE.sub("", read(folder, page))):
                place, _, anchor = found[2].partition("#")
                to = os.path.normpath(os.path.join(os.path.dirname(page), place)) if place else page
                is_there = re.match(r"\w+:", found[2]) or os.path.isfile(os.path.join(folder, to)) and (not anchor or anchor in named.get(to, ()))
                lost += [] if is_there else [found[2]]
            tell(f"the links of {page}", not lost, f"these lead nowhere: {lost}")


def of_words():
    """What the tool says if mkdocs is missing, or if its words are wrong."""
    with tempfile.TemporaryDirectory() as folder:
        run = subprocess.run([sys.executable, SITE, folder], capture_output=True, text=True, env={**os.environ, "PATH": folder}, check=False)
        is_said = run.returncode == 69 and "apt-get install mkdocs" in run.stderr and not os.listdir(folder)
        tell("without mkdocs", is_said, f"{run.returncode}, {run.stderr}")
    run = subprocess.run([sys.executable, SITE, "--other"], capture_output=True, text=True, check=False)
    tell("--other", run.returncode == 64 and run.stderr == "usage: tools/site [FOLDER]\n", f"{run.returncode}, {run.stderr}")


class Html(html.parser.HTMLParser):
    """The links of a page and the names in it."""

    def __init__(self, text):
        super().__init__()
        self.links, self.names = [], set()
        self.feed(text)

    def handle_starttag(self, tag, attrs):
        named = dict(attrs)
        self.names.add(named.get("id"))
        self.links += [to for to in (named.get("href"), named.get("src")) if to]


def of_site():
    """The site itself: its pages, their links, and its search. Nothing is loaded from another host."""
    with tempfile.TemporaryDirectory() as folder:
        with contextlib.redirect_stdout(io.StringIO()):
            status = site.main([folder])
        tell("the site is made", status == 0, f"status {status}")
        pages = {path: Html(read(folder, path)) for path in files(folder, ".html") if path != "404.html"}
        for page, read_page in pages.items():
            lost = []
            for link in read_page.links:
                place, _, name = urllib.parse.unquote(link).partition("#")
                to = os.path.normpath(os.path.join(os.path.dirname(page), place)) if place else page
                to = os.path.join(to, "index.html") if os.path.isdir(os.path.join(folder, to)) else to
                is_there = re.match(r"\w+:", link) or os.path.isfile(os.path.join(folder, to)) and (not name or to not in pages or name in pages[to].names)
                lost += [] if is_there else [link]
            tell(f"the links of {page}", not lost, f"these lead nowhere: {lost}")
        wanted = {re.sub(r"README\.md$", "index.md", page)[:-2] + "html" for page in site_pages.pages_of(site_pages.navigation(TOP))}
        tell("all pages are there", wanted <= set(pages), f"{sorted(wanted - set(pages))}")
        index = json.loads(read(folder, "search/search_index.json"))["docs"]
        places = {entry["location"] for entry in index if "IsLawfulBook" in entry["title"] + entry["text"]}
        tell("the search", "docs/reference/tl_port.html#islawfulbook" in places, f"{sorted(places)}")
        loaded = [to for path in pages for to in re.findall(r'(?:src|<link[^>]* href)="(https?:[^"]*)"', read(folder, path))]
        tell("nothing is loaded from other hosts", not loaded, f"{loaded}")


def main():
    of_texts()
    of_navigation()
    of_words()
    if shutil.which("mkdocs"):
        of_site()
    else:
        print("the site itself skipped: mkdocs is not installed")


if __name__ == "__main__":
    run_test(main)
