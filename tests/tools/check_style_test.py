"""Tests tools/check_style on small trees with one fault each, and on the same trees without it. What needs a package that is not installed is
tested as what the check says then. The last line is 'N passed, M failed'. It needs no program.
"""

import os
import shutil
import subprocess
import sys
import tempfile

from harness import run_test, tell
from tlxtools.crate_list import TOP

NEEDED = ("check_style", "tlxtools/__init__.py", "tlxtools/commands/__init__.py", "tlxtools/commands/check_style.py",
          *(f"tlxtools/{name}.py" for name in ("crate_list", "markdown", "tree")))
EDITORCONFIG = "root = true\n\n[*.md]\nmax_line_length = 40\n\n[{*.py,tools/**}]\nmax_line_length = 30\n"
PAGE = "# One\n\n## Two words, `code`: more\n\n## Two words\n\n## Two words\n\n**Bold one.** Text.\n"
WIDE = "word " * 8 + "word"
# a page beside PAGE, which is docs/a.md, and what is said of it; nothing if it is right
DOCUMENTS = (
    ("[a](docs/a.md)", ""),
    ("[a](docs/b.md)", "there is no docs/b.md"),
    ("[a](docs)", ""),
    ("[a](../outside)", "there is no ../outside"),
    ("[a](https://example.org/none.md)", ""),
    ("`[a](docs/b.md)`", ""),
    ("```\n[a](docs/b.md)\n```", ""),
    ("![a](docs/b.png)", "there is no docs/b.png"),
    ("[two\nwords](docs/b.md)", "there is no docs/b.md"),
    ("[a](docs/a.md#one)", ""),
    ("[a](docs/a.md#two-words-code-more)", ""),
    ("[a](docs/a.md#two-words-1)", ""),
    ("[a](docs/a.md#two-words-2)", "docs/a.md has no heading #two-words-2"),
    ("[a](docs/a.md#On)", "docs/a.md has no heading #On"),
    ("# Here\n\n[a](#here)", ""),
    ("# Here\n\n[a](#there)", "page.md has no heading #there"),
    ('[a](docs/a.md), "Two words"', ""),
    ('[a](docs/a.md), "Two words, code"', ""),
    ('[a](docs/a.md), "Bold one"', ""),
    ('[a](docs/a.md), "Three words"', 'docs/a.md has no heading "Three words"'),
    (WIDE[:40], ""),
    ("a\n" + WIDE[:41], "line 2 has 41 characters, and 40 are the most"),
    ("| " + WIDE, ""),
    ("    " + WIDE, ""),
    ("```\n" + WIDE + "\n```", ""),
    ("```\n" + WIDE + "\n```\n" + WIDE, "line 4 has 44 characters, and 40 are the most"),
    ("é" * 40, ""),
    ("`tools/tlxtools/tree.py`", ""),
    ("`tools/tlxtools/tree.py WORD`", ""),
    ("`tools/none.py`", "there is no tools/none.py"),
    ("`tl_a/src/none.rt`", "there is no tl_a/src/none.rt"),
    ("`crates/CRATE/none`", ""),
    ("`other/none.py`", ""),
    ("`tools/none_*.py`", ""),
)
# with two digits more it is as wide as EDITORCONFIG says
NARROW = "x = " + "1 + " * 6
# a page that is wrapped again at 30 characters, and what becomes of it
WRAPPED = (
    (f"{WIDE}\nword\n\nword\nword\n", "word word word word word word\nword word word word\n\nword\nword\n"),
    (f"- {WIDE}\n  word\n- word\n", "- word word word word word\n  word word word word word\n- word\n"),
    (f"| {WIDE} |\n\n    {WIDE}\n\n```\n{WIDE}\n```\n", f"| {WIDE} |\n\n    {WIDE}\n\n```\n{WIDE}\n```\n"),
    ("word word word word word `word word word` word\n", "word word word word word\n`word word word` word\n"),
    ("word word word word word [word word](docs/a.md) x\n", "word word word word word\n[word word](docs/a.md) x\n"),
    (f"1. {WIDE}\n", "1. word word word word word\n   word word word word\n"),
)
# a text that is no Markdown, and what is said of it
CITATIONS = (
    ("more/a.rt", "//! `docs/a.md`, \"Two words\".", ""),
    ("more/a.rt", "//! `docs/a.md`, \"Three words\".", 'docs/a.md has no heading "Three words"'),
    ("more/run", "# docs/a.md has it", ""),
    ("more/run", "# docs/b.md has it", "there is no docs/b.md"),
    ("more/run_test", "# docs/b.md", ""),
    ("more/a.vcd", "docs/b.md", ""),
    ("more/run", "# other/docs/b.md", ""),
)
# a tool, its text, the package that judges it, and a word of what is said of it; nothing if it is right
TOOLS = (
    ("run", "#!/usr/bin/env bash\necho \"$@\"\n", "shellcheck", ""),
    ("run", "#!/usr/bin/env bash\ncd \"$1\"\n", "shellcheck", "SC2164"),
    ("run", "#!/bin/sh\ncd \"$1\"\n", "shellcheck", "SC2164"),
    ("run", "cd \"$1\"\n", "shellcheck", ""),
    ("run", "#!/usr/bin/env python3\nprint(1)\n", "flake8", ""),
    ("run", "#!/usr/bin/env python3\nimport os\n", "flake8", "F401"),
    ("run.py", "import os\n", "flake8", "F401"),
    ("run.py", NARROW + "10\n", "flake8", ""),
    ("run.py", NARROW + "100\n", "flake8", "E501"),
)


def put(top, path, text):
    place = os.path.join(top, path)
    os.makedirs(os.path.dirname(place), exist_ok=True)
    with open(place, "w", encoding="utf-8") as file:
        file.write(text)


def checked(top, *words, path=None):
    """What the check says in a tree: its status, its last line, and the lines on standard error."""
    environment = dict(os.environ, **({} if path is None else {"PATH": path}))
    run = subprocess.run([sys.executable, os.path.join(top, "tools", "check_style"), *words], capture_output=True, text=True, env=environment,
                         check=False)
    return run.returncode, run.stdout.strip().split("\n")[-1], run.stderr.splitlines()


def begun(top):
    for name in NEEDED:
        place = os.path.join(top, "tools", name)
        os.makedirs(os.path.dirname(place), exist_ok=True)
        shutil.copy(os.path.join(TOP, "tools", name), place)
    put(top, ".editorconfig", EDITORCONFIG)
    put(top, "docs/a.md", PAGE)


def of_documents(top):
    for text, why in DOCUMENTS:
        put(top, "page.md", text + "\n")
        status, last, said = checked(top, "--documents")
        is_well = (status, said) == (0, []) and last.endswith(" 0 failed") if not why else \
            status == 1 and last.endswith(" 1 failed") and len(said) == 1 and said[0].startswith("page.md:") and said[0].endswith(f": {why}")
        tell(repr(text), is_well, f"{status}, {last}, {said}")
    os.remove(os.path.join(top, "page.md"))
    for path, text, why in CITATIONS:
        put(top, path, text + "\n")
        status, _, said = checked(top, "--documents")
        tell(repr(text), (status, said) == ((1, [f"{path}:1: {why}"]) if why else (0, [])), f"{said}")
        os.remove(os.path.join(top, path))


def is_there(package):
    if package == "shellcheck":
        return bool(shutil.which("shellcheck"))
    return os.path.exists("/usr/bin/python3") and not subprocess.run(
        ["/usr/bin/python3", "-m", "flake8", "--version"], capture_output=True, check=False).returncode


def of_tools(top):
    # the tools of the tree itself are wider than its width
    width = EDITORCONFIG.replace("30", "160")
    for path, text, package, why in TOOLS:
        if not is_there(package):
            status, _, said = checked(top)
            tell(f"{package} is missing", status == 1 and any("it is not installed: apt-get install" in line for line in said), f"{status}, {said}")
            continue
        put(top, ".editorconfig", EDITORCONFIG if text.startswith(NARROW) else width)
        put(top, f"more/{path}", text)
        said = [line for line in checked(top)[2] if "more/" in line]
        tell(repr(text), why in said[0] if why and said else not why and not said, f"{said}")
        os.remove(os.path.join(top, f"more/{path}"))
    put(top, ".editorconfig", width)
    status, _, said = checked(top, path="/nowhere")
    tell("no shellcheck", status == 1 and "shellcheck: it is not installed: apt-get install shellcheck" in said, f"{status}, {said}")


def of_wrapping(top):
    for text, wanted in WRAPPED:
        put(top, "page.md", text)
        status, last, said = checked(top, "--wrap")
        with open(os.path.join(top, "page.md"), encoding="utf-8") as file:
            now = file.read()
        tell(f"{text!r} is wrapped", (status, last, said, now) == (0, "page.md" if text != wanted else "", [], wanted), repr(now))
    os.remove(os.path.join(top, "page.md"))


def of_words(top):
    status, _, said = checked(top, "--other")
    tell("--other", status == 64 and said == ["usage: tools/check_style [--documents | --wrap]"], f"{status}, {said}")
    put(top, ".editorconfig", "root = true\n")
    status, _, said = checked(top, "--documents")
    tell("no width", status == 1 and said == ["tools/check_style: .editorconfig has no max_line_length of *.md"], f"{status}, {said}")


def main():
    with tempfile.TemporaryDirectory() as top:
        begun(top)
        of_documents(top)
        of_tools(top)
        put(top, ".editorconfig", EDITORCONFIG)
        of_wrapping(top)
        of_words(top)


if __name__ == "__main__":
    run_test(main)
