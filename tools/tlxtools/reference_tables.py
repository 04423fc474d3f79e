"""Pages of docs/reference that tools/reference makes of tables of the tools: the keys of system files, and the likely causes of faults."""

import re

from tlxtools.causes import ADAPTED, CAUSES, DENIED, EXCHANGED, SHIFTED
from tlxtools.markdown import wrapped
from tlxtools.system_keys import page_rows

WIDTH = 140
# Where the pages are that meanings of keys name.
PAGES = {"captures.md": "captures.md", "formats.md": "formats.md", "regression.md": "../guide/regression.md"}
KEYS = ("For a reader who writes a system file: each key but those of dumps ([formats.md](formats.md), \"Dumps\"). [formats.md](formats.md), \"The system "
        "file\", has the rules, and [faults.md](faults.md), \"Of a system file\", what is refused. Made by `tools/reference` from "
        "`tools/tlxtools/system_keys.py`.")
LIKELY = ("For an engineer with an unlawful beat: what `tools/explain` prints below `look at`, in the order of likelihood. It is not found in the capture. "
          "[faults.md](faults.md), \"Of a beat\", says when each fault applies. Made by `tools/reference` from `tools/tlxtools/causes.py`.")
# What else stands there if the capture shows more, with its causes.
ELSE = (
    ("If a wrong reply is lawful with another `--order`, that stands before them.", ()),
    ("If the bytes of a wrong reply are the answer of another master's request, or its word is that of a reply before, this stands before them:", EXCHANGED),
    ("If the source of a request at a port would be right with another shift, this stands before them:", SHIFTED),
    ("If a request at a port is a part of a master's, this stands before them too, and behind them if such a request is a master's but for its "
     "source, or if a master has a reply to a request that has not crossed at its port:", ADAPTED),
    ("A wrong reply with `denied` on one side alone has these in their place:", DENIED))


def table_of(rows):
    """A table of Markdown, whose first row is its head."""
    lines = ["|" + "".join(f" {said} |" if said else " |" for said in row) for row in rows]
    return "\n".join([lines[0], "|---" * len(rows[0]) + "|", *lines[1:]])


def linked(text):
    """The text with a link for each page that it names."""
    return re.sub("|".join(map(re.escape, PAGES)), lambda found: f"[{found.group()}]({PAGES[found.group()]})", text)


def keys_page():
    table = table_of([("Key", "Type", "Range", "Absent", "Meaning"), *(tuple(map(linked, row)) for row in page_rows())])
    return "\n\n".join(["# Keys of the system file", "\n".join(wrapped(KEYS, WIDTH)), table]) + "\n"


def causes_page():
    table = table_of([("Fault", "Look at"), *((f"`{fault}`", "<br>".join(said)) for fault, said in CAUSES.items())])
    more = ["\n".join(wrapped(" ".join([when, "; ".join(said) + "."] if said else [when]), WIDTH, "- ", 2)) for when, said in ELSE]
    return "\n\n".join(["# Likely causes", "\n".join(wrapped(LIKELY, WIDTH)), table, "\n".join(more)]) + "\n"


def tables():
    """The text of each page by its name."""
    return {"keys": keys_page(), "causes": causes_page()}
