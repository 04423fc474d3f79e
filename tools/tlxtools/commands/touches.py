"""Lists the files that have a word, by their kinds: tools/touches [--exact] WORD.., as for a key, a fault, an operation or a limit. So a list of
what to change for another one begins with what has one like it.

A word stands for its spellings: on_reset also for OnReset, ON_RESET, on-reset and "on reset". --exact takes it as it is. Behind each file stands
how many of its lines have the word. Of several words a file is listed if it has one. Status 0, or 1 if no file has a word.
"""

import re
import sys

from tlxtools.crate_list import TOP
from tlxtools.tree import BY_HAND, files, read

# The kinds, each with what the path of a file begins with or has; the first that fits counts.
KINDS = (
    ("planted", r"planted/|crates/[^/]*/must-fail/"),
    ("specs", r"crates/[^/]*/specs/"),
    ("proofs", r"crates/[^/]*/proofs/"),
    ("src", r"crates/[^/]*/src/"),
    ("tests", r"crates/|tests/"),
    ("header, Python, hdl", r"include/|python/|hdl/"),
    ("tools", r"tools/|\.ci/|[^/.]*$"),
    ("bench", r"bench/"),
    ("reference", rf"docs/reference/(?!(?:{'|'.join(BY_HAND)})\.md$)"),
    ("docs", r"docs/|[^/]*\.md$"),
    ("examples", r"examples/"),
    ("other", r""),
)


def spellings(word):
    """What a word stands for: its parts with an underscore, a dash, a blank or nothing between them, with large or small letters."""
    parts = [part for part in re.split(r"[_\- ]+|(?<=[a-z0-9])(?=[A-Z])", word) if part]
    small = [part.lower() for part in parts]
    camel = "".join(part.capitalize() for part in small)
    return {word, "_".join(small), "-".join(small), " ".join(small), "_".join(small).upper(), camel}


def pattern_of(words, is_exact):
    """What finds a word, with neither a letter nor a digit nor an underscore beside it."""
    forms = sorted({form for word in words for form in ([word] if is_exact else spellings(word))}, key=lambda form: (-len(form), form))
    return re.compile(rf"(?<!\w)(?:{'|'.join(re.escape(form) for form in forms)})(?!\w)")


def kind_of(path):
    return next(kind for kind, front in KINDS if re.match(front, path))


def touched(top, words, is_exact):
    """For each kind the files that have a word, each with how many of its lines do."""
    pattern = pattern_of(words, is_exact)
    found = {}
    for path in files(top):
        count = sum(1 for line in read(top, path).split("\n") if pattern.search(line))
        if count:
            found.setdefault(kind_of(path), []).append((path, count))
    return found


def shown(found):
    """The lines that are printed."""
    for kind, _ in KINDS:
        if kind in found:
            yield f"{kind}: {len(found[kind])}"
            yield from (f"  {path} {count}" for path, count in found[kind])


def main():
    words = sys.argv[1:]
    if words in (["--help"], ["-h"]):
        print(__doc__.strip())
        return 0
    is_exact = "--exact" in words
    words = [word for word in words if word != "--exact"]
    if not words or any(not word.strip() or word.startswith("-") for word in words):
        print("usage: tools/touches [--exact] WORD..", file=sys.stderr)
        return 64
    found = touched(TOP, words, is_exact)
    for line in shown(found):
        print(line)
    if not found:
        print(f"tools/touches: no file has {' or '.join(words)}", file=sys.stderr)
    return 0 if found else 1
