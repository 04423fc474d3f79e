"""Tests how tools/build works in lanes, on a small tree with a stand-in for `rt` that proves nothing: each crate after those below it,
side by side, results in the tree, and nothing left behind if it fails or is stopped. The last line is 'N passed, M failed'.
"""

import os
import re
import shutil
import signal
import subprocess
import tempfile
import time

from harness import run_test, tell
from tlxtools.crate_list import TOP

CRATES = "low:\nleft: low\nright: low\ntop: left right\nother:\n"
# `rt lib` of the stand-in: it wants what is below to be built, notes when it begins and ends, and leaves a library and kept work. A
# crate whose source says so fails, takes long, or waits until another has begun, for 30 seconds at most.
STAND_IN = """\
#!/usr/bin/env python3
import os, sys, time
sys.dont_write_bytecode = True
if sys.argv[1:2] == ["doc"]:
    print(os.environ["REAL_PAGE"])
    sys.exit()
from tlxtools.kit import rt
crate = next(it for it in rt().rtlib.crates_below(os.path.abspath("../..")) if it.name == os.path.basename(os.getcwd()))
source = open("src/lib.rt").read()
with open(os.environ["NOTES"], "a") as notes:
    notes.write(f"begin {crate.name}\\n")
if not all(dep.is_built() for dep in crate.below()) or "fails" in source:
    sys.exit(1)
if "kept" in source and not os.path.exists("out/incremental/work"):
    sys.exit(1)
time.sleep(60 if "takes long" in source else 0)
for _ in range(600 if "beside" in source else 0):
    if "begin " + source.split("beside ")[1].strip() in open(os.environ["NOTES"]).read():
        break
    time.sleep(0.05)
for folder in (f"out/rlib/{crate.name}.rlib", "out/incremental"):
    os.makedirs(folder, exist_ok=True)
open("out/incremental/work", "w").close()
with open("out/rlib/stamp", "w") as to:
    to.write(crate.stamp())
with open(os.environ["NOTES"], "a") as notes:
    notes.write(f"end {crate.name}\\n")
"""
# How often it is looked, every 0.05 seconds, whether a crate is being built.
WAITS = 600
STAND_IN_COMMAND = """

def command():
    return ["rt"]
"""


class Tree:
    """A small tree in a folder of its own, and what a build of it says."""

    def __init__(self, room):
        self.top, self.lanes, self.notes = (os.path.join(room, name) for name in ("tree", "lanes", "notes"))
        shutil.copytree(os.path.join(TOP, "tools"), os.path.join(self.top, "tools"))
        with open(os.path.join(self.top, "tools", "tlxtools", "kit.py"), "a", encoding="utf-8") as to:
            to.write(STAND_IN_COMMAND)
        os.mkdir(self.lanes)
        for name, text in (("crates.txt", CRATES), ("HANDLES", "Handles allowed: none.\n")):
            self.write(name, text)
        for name in re.findall(r"(\w+):", CRATES):
            self.write(f"crates/{name}/src/lib.rt", f"// the crate {name}\n")
        self.write("crates/left/src/lib.rt", "// the crate left, beside right\n")
        self.write("crates/right/src/lib.rt", "// the crate right, beside left\n")
        self.write("bin/rt", STAND_IN)
        os.chmod(os.path.join(self.top, "bin", "rt"), 0o755)
        page = subprocess.run(["rt", "doc"], capture_output=True, text=True, check=True).stdout.strip()
        self.how = {"env": {**os.environ, "PATH": f"{self.top}/bin:{os.environ['PATH']}", "TMPDIR": self.lanes, "TREE": self.top,
                            "NOTES": self.notes, "REAL_PAGE": page, "PYTHONPATH": f"{self.top}/tools"}, "stderr": subprocess.DEVNULL}

    def write(self, path, text):
        path = os.path.join(self.top, path)
        os.makedirs(os.path.dirname(path), exist_ok=True)
        with open(path, "w", encoding="utf-8") as to:
            to.write(text)

    def start(self):
        with open(self.notes, "w", encoding="utf-8"):
            pass
        return subprocess.Popen([os.path.join(self.top, "tools", "build"), "top"], **self.how)

    def said(self):
        """What the stand-in noted, in order."""
        with open(self.notes, encoding="utf-8") as it:
            return it.read().split("\n")[:-1]

    def has(self, name, path="rlib/stamp"):
        return os.path.exists(os.path.join(self.top, "crates", name, "out", path))


def test_whole(tree):
    """A first build, and a second one that has nothing to do."""
    tell("a first build ends well", tree.start().wait() == 0)
    said = tree.said()
    tell("crates are built in order", said[:2] == ["begin low", "end low"] and said[-2:] == ["begin top", "end top"])
    tell("what is above one crate is built side by side", {*said[2:4]} == {"begin left", "begin right"})
    tell("a crate that nothing asks for is not built", not tree.has("other", ""))
    tell("each result is in the tree", all(tree.has(name) for name in ("low", "left", "right", "top")))
    tell("no lane is left", os.listdir(tree.lanes) == [])
    tell("a second build ends well", tree.start().wait() == 0)
    tell("what is built is not built again", tree.said() == [])


def test_change(tree):
    """What has changed is built over what was kept, and a failure keeps it."""
    tree.write("crates/left/src/lib.rt", "// the crate left, over what was kept\n")
    tell("a changed crate is built over kept work", tree.start().wait() == 0 and tree.said()[::2] == ["begin left", "begin top"])
    tree.write("crates/left/src/lib.rt", "// fails\n")
    tell("a crate that can't be built is a fault", tree.start().wait() == 70 and tree.said() == ["begin left"])
    tell("kept work outlives a failure", tree.has("left", "incremental/work") and os.listdir(tree.lanes) == [])


def test_stop(tree):
    """A build that is stopped leaves no lane, and gives back what was kept."""
    tree.write("crates/left/src/lib.rt", "// takes long\n")
    running = tree.start()
    for _ in range(WAITS):
        if "begin left" not in tree.said():
            time.sleep(0.05)
    running.send_signal(signal.SIGTERM)
    tell("a build that is stopped has the status of its signal", running.wait() == 128 + signal.SIGTERM)
    tell("a build that is stopped leaves no lane", os.listdir(tree.lanes) == [])
    tell("a build that is stopped keeps its work", tree.has("left", "incremental/work") and tree.has("low"))


def main():
    with tempfile.TemporaryDirectory() as room:
        tree = Tree(room)
        test_whole(tree)
        test_change(tree)
        test_stop(tree)


if __name__ == "__main__":
    run_test(main)
