"""Tests tools/touches on a small tree whose files were written for it, and on this one: that it has each file in which a plain search finds the
word. The last line is 'N passed, M failed'. It needs no program.
"""

import os
import re
import subprocess
import tempfile

from harness import run_test, tell
from tlxtools.commands import touches
from tlxtools.crate_list import TOP
from tlxtools.tree import files, read

# The files of the small tree, each with its text.
TREE = {
    "crates/a/specs/Key.antt": "OnReset\non_reset on_reset\nnone\n",
    "crates/a/src/key.rt": "const ON_RESET\n",
    "crates/a/src/tests/on.rt": "a_on_reset on_resets OnResetKey\n",
    "crates/a/proofs/Key.antt": "on-reset\n",
    "crates/a/must-fail/x.edit": "on_reset\n",
    "crates/a/out/key.rt": "on_reset\n",
    "planted/a/x.edit": "on_reset\n",
    "planted/EVIDENCE": "on_reset\n",
    "tools/common.py": '"on_reset"\n\n"on_reset"\n',
    "tlx": "on_reset\n",
    "docs/A.md": "on reset\n",
    "docs/reference/a.md": "on_reset\n",
    "docs/reference/formats.md": "OnReset\n",
    "README.md": "`on_reset`\n",
    "examples/a.toml": "on_reset = 1\n",
    "hdl/a.v": "on_reset\n",
    "bench/run": "on_reset\n",
    "crates.txt": "on_reset\n",
    "other.txt": "nothing\n",
}
# What is found there, by hand.
FOUND = {
    "planted": [("crates/a/must-fail/x.edit", 1), ("planted/EVIDENCE", 1), ("planted/a/x.edit", 1)],
    "specs": [("crates/a/specs/Key.antt", 2)],
    "src": [("crates/a/src/key.rt", 1)],
    "proofs": [("crates/a/proofs/Key.antt", 1)],
    "header, Python, hdl": [("hdl/a.v", 1)],
    "tools": [("tlx", 1), ("tools/common.py", 2)],
    "bench": [("bench/run", 1)],
    "reference": [("docs/reference/a.md", 1)],
    "docs": [("README.md", 1), ("docs/A.md", 1), ("docs/reference/formats.md", 1)],
    "examples": [("examples/a.toml", 1)],
    "other": [("crates.txt", 1)],
}
# Of the word as it is: without OnReset, ON_RESET and the others.
EXACT = {kind: found for kind, found in FOUND.items() if kind not in ("src", "proofs", "docs", "specs")} | {
    "specs": [("crates/a/specs/Key.antt", 1)], "docs": [("README.md", 1)]}
SPELLINGS = {
    "on_reset": {"on_reset", "on-reset", "on reset", "ON_RESET", "OnReset"},
    "OnReset": {"on_reset", "on-reset", "on reset", "ON_RESET", "OnReset"},
    "xor": {"xor", "XOR", "Xor"},
}


def of_small_tree(touches):
    with tempfile.TemporaryDirectory() as top:
        for path, text in TREE.items():
            os.makedirs(os.path.dirname(os.path.join(top, path)), exist_ok=True)
            with open(os.path.join(top, path), "w", encoding="utf-8") as file:
                file.write(text)
        for word in ("on_reset", "OnReset", "ON_RESET"):
            found = touches.touched(top, [word], False)
            tell(word, found == FOUND, f"{found}")
        found = touches.touched(top, ["on_reset"], True)
        tell("exact", found == EXACT, f"{found}")
        found = touches.touched(top, ["nothing", "none"], False)
        tell("two words", found == {"specs": [("crates/a/specs/Key.antt", 1)], "other": [("other.txt", 1)]}, f"{found}")


def of_this_tree(touches):
    found = touches.touched(TOP, ["xor"], True)
    listed = {path for paths in found.values() for path, _ in paths}
    wanted = {path for path in files(TOP) if re.search(r"\bxor\b", read(TOP, path))}
    tell("xor in this tree", listed == wanted and len(listed) > 20, f"{sorted(listed ^ wanted)[:5]}")


def of_words():
    def said(*words):
        run = subprocess.run([os.path.join(TOP, "tools", "touches"), *words], capture_output=True, text=True, check=False)
        return run.returncode, run.stdout, run.stderr

    usage = (64, "", "usage: tools/touches [--exact] WORD..\n")
    for words in ((), ("--exact",), ("",), ("--other", "xor")):
        tell(f"the words {words}", said(*words) == usage, f"{said(*words)}")
    status, printed, _ = said("xor")
    tell("xor is found", status == 0 and "\n  crates/tl_ops/specs/Window.antt " in printed)
    none = "no_such_" + "word_at_all"
    tell(none, said(none) == (1, "", f"tools/touches: no file has {none}\n"), f"{said(none)}")


def main():
    for word, forms in SPELLINGS.items():
        tell(f"spellings of {word}", touches.spellings(word) == forms, f"{touches.spellings(word)}")
    of_small_tree(touches)
    of_this_tree(touches)
    of_words()


if __name__ == "__main__":
    run_test(main)
