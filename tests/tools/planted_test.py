"""Tests what tools/planted says of evidence, on a copy of the tree's files, and how it reads what the prover said. The last line is
'N passed, M failed'. It proves nothing.
"""

import concurrent.futures
import importlib.util
import os
import shutil
import subprocess
import tempfile
import threading
import time

from cone_cases import cone_faults
from harness import run_test, tell
from tlxtools.crate_list import TOP, below, crates
from tlxtools.edits import Edit, Function, edits_of, functions, groups
from tlxtools.evidence import contracts

CRATE = "tl_map"
# the crates whose edits are copied: one, one above it, and one that does not stand on it
KEPT = (CRATE, "check_lines", "check_start", "tl_text")

SOURCE = """\
/// Adds one.
pub fn next(count: u16) -> u16
    requires { count < 9 }
    ensures { result ≡ count + 1 }
{
    // a body
    count + 1
}

fn hidden(count: u16) -> u16 {
    count
}

impl Many {
    pub const fn least() -> u16 {
        1
    }
}
"""
PROMISES = """\
pub fn next(count: u16) -> u16
requires { count < 9 }
ensures { result ≡ count + 1 }
{
impl Many {
pub const fn least() -> u16 {
}"""
SAID = """\
so far: 0 of 2 functions checked; the verdict comes last
./proofs/map/other/Answers.antt:4:7: error: `returns`: the two types differ
note: src/map.rt:12:5: it is not proved that what the function ensures holds when it returns (`invariant_of-self`); `search` gave up
note: src/map.rt:14:5: it is not proved that what the function ensures holds when it returns (`returns-clause-fault`)
fn tl_map::map::Map::first: no proof: expected answers in ./proofs/map/Map/first/Answers.antt
fn tl_map::map::other: not proved
fn tl_map::map::third: no proof: it calls `tl_map::map::Map::first`, which is not proved
logic=not-proved
"""
SEARCHED = "./proofs/map/Map/first/Answers.antt:4:7: error: `returns-then-x`: `grind` found no proof. It did not look into `a`\n"


def fresh_planted():
    """The module of tools/planted, read anew, so that a test may change it."""
    spec = importlib.util.find_spec("tlxtools.commands.planted")
    module = importlib.util.module_from_spec(spec)
    spec.loader.exec_module(module)
    return module


def copy_tree(to):
    """Copies what evidence speaks of, with the edits of few crates."""
    def leave_out(folder, names):
        place = os.path.relpath(folder, TOP).split(os.sep)
        others = [name for name in names if place == ["planted"] and name in crates() and name not in KEPT]
        return others + [name for name in names if len(place) == 2 and (name == "out" or name == "must-fail" and place[1] not in KEPT)]

    for part in ("tools", "planted", "crates"):
        shutil.copytree(os.path.join(TOP, part), os.path.join(to, part), ignore=leave_out)
    shutil.copy(os.path.join(TOP, "crates.txt"), to)


def fresh(tree):
    """What is said of a tree, and whether it passes."""
    ran = subprocess.run([os.path.join(tree, "tools", "planted"), "--fresh"], capture_output=True, text=True, check=False)
    return ran.stdout, ran.returncode == 0


class Changed:
    """A file of the tree with another text, until this ends."""

    def __init__(self, tree, path, change):
        self.path = os.path.join(tree, path)
        with open(self.path, encoding="utf-8") as it:
            self.text = it.read()
        self.change = change

    def __enter__(self):
        made = self.change(self.text)
        assert made != self.text, self.path
        with open(self.path, "w", encoding="utf-8") as to:
            to.write(made)

    def __exit__(self, *_):
        with open(self.path, "w", encoding="utf-8") as to:
            to.write(self.text)


def test_evidence(tree):
    """Each change on which an edit rests is seen, and that of what stands below does not fail."""
    own, above = len(edits_of(CRATE)), [name for name in KEPT if name in crates() and CRATE in below(name, crates())]
    said, is_well = fresh(tree)
    tell("the evidence of the copy is complete and fresh", is_well and bool(above), said)
    for path, change in (("src/address_map.rt", "\n    // why\n"), ("specs/Map.antt", "\n  -- what\n"), ("proofs/Faults.antt", "\nlemma : ⊤\nlemma = tt\n")):
        with Changed(tree, f"crates/{CRATE}/{path}", lambda text, change=change: text + change):
            tell(f"{path}: a comment, layout or a lemma is no change", fresh(tree)[1])
    with Changed(tree, f"crates/{CRATE}/src/address_map.rt", lambda text: text.replace("ensures value {", "ensures worth {", 1)):
        said, is_well = fresh(tree)
        told = said.count("what it rests on has changed since it was tried")
        tell("a public clause below is seen", not is_well and 0 < told and all(f"planted: {name}: " in said for name in above))
        tell("a public clause below fails no crate above", said.endswith(f", {told} failed\n") and told == said.count(f"planted: {CRATE}/"))
    with Changed(tree, f"crates/{CRATE}/specs/Map.antt", lambda text: text + "strange text\n\nuse what is no\nname\n"):
        tell("a crate that is not understood is taken whole", fresh(tree)[0].count("what it rests on has changed") == own)
    edit = os.path.relpath(edits_of(CRATE)[0].path, TOP)
    with Changed(tree, edit, lambda text: text.replace("new: ", "new:  ", 1)):
        said, is_well = fresh(tree)
        tell("a changed edit is seen", not is_well and "it has changed since it was tried" in said and ", 1 failed" in said)
    with Changed(tree, "planted/EVIDENCE", lambda text: "".join(line for line in text.splitlines(True) if not line.startswith(f"{CRATE} "))):
        said, is_well = fresh(tree)
        tell("an edit without a line is seen", not is_well and said.count("it was never refused by an open goal") == own)
    tell("the tree is as it was", fresh(tree)[1])


def test_cones():
    """What an edit of a made-up crate rests on, and what not."""
    for fault in cone_faults():
        tell("what an edit of a made-up crate rests on", False, fault)
    tell("the evidence of this commit is complete and fresh", fresh(TOP)[1])


def test_reading():
    """What is taken of a source file, and of what the prover said."""
    planted = fresh_planted()
    tell("the functions of a file", list(functions(SOURCE.split("\n"))) == [("next", 2, 8), ("hidden", 10, 12), ("least", 15, 17)])
    tell("the promises of a file", contracts(SOURCE) == PROMISES)
    goals = [planted.Goal("map::Map::first", "invariant_of-self", "src/map.rt", 12),
             planted.Goal("map::Map::first", "returns-clause-fault", "src/map.rt", 14)]
    searched = planted.Goal("map::Map::first", "returns-then-x")
    tell("the open goals", planted.open_goals(SAID) == goals)
    tell("an answer that is a search", planted.open_goals(SEARCHED) == [searched])
    place = Function("src/map.rt", "first", 10, 20)
    tell("whose goal it is", searched.is_of(place) and not searched.is_of(Function("src/map.rt", "other", 10, 20)))
    edit = type("Stub", (), {"places": lambda _: {place}, "goal": lambda _: None})()
    named = type("Stub", (), {"places": lambda _: {place}, "goal": lambda _: "invariant_of-self"})()
    tell("the goal that an edit names", planted.goal_of(named, goals, False) == "map::Map::first: invariant_of-self")
    tell("the goal that an edit names, which is not open", planted.goal_of(named, goals[1:], False) is None)
    tell("the goal of a function", planted.goal_of(edit, goals, False) == "map::Map::first: returns-clause-fault")
    other = type("Stub", (), {"places": lambda _: {Function("src/map.rt", "second", 21, 30)}, "goal": lambda _: None})()
    tell("another function's goal", planted.goal_of(other, goals, False) is None)
    tell("another function's goal, alone", planted.goal_of(other, goals, True) == "map::Map::first: returns-clause-fault")
    tell("no goal", planted.goal_of(edit, [], True) is None)
    tell("the error of an answer", planted.first_error(SAID).startswith("./proofs/map/other/Answers.antt:4:7"))


def test_groups():
    """No two edits of one group change one function, and each edit is in one group."""
    for crate in (CRATE, "tl_types"):
        edits = edits_of(crate)
        made = groups(edits)
        tell(f"{crate}: no edit is lost", sorted(it.path for group in made for it in group) == sorted(it.path for it in edits))
        for group in made:
            places = [place for edit in group for place in edit.places()]
            tell(f"{crate}: no function is changed twice", len(places) == len(set(places)) and (None not in places or len(group) == 1))
    tell("what is in no function is tried last", [None in edit.places() for group in groups(edits_of("tl_types")) for edit in group][-1])
    tell("a constant is in no function", Edit.read("tl_types", os.path.join(TOP, "planted/tl_types/a_limit_of_7.edit")).places() == {None})


class Stub:
    """An edit by its name, which is the function that it changes."""

    def __init__(self, name, line=0):
        self.name, self.line = name, line

    def places(self):
        return {Function("src/map.rt", self.name, self.line, self.line + 2)}

    def goal(self):
        return None


def stub_check(tried, leaves):
    """A check by which `c` and `f` do not compile, of which only `f` is known to be at fault; `b` keeps `a` from the prover, and `e` is not
    refused. Each check notes what it tries, and leaves what it proved if it reached the prover."""
    def check(lanes, crate, group):
        names = "".join(it.name for it in group)
        tried.append(crate + names)
        if "f" in names or "c" in names:
            return None, "BAD EDIT", [it for it in group if it.name == "f"]
        if leaves:
            os.makedirs(os.path.join(lanes.room, f"kept-{crate}"), exist_ok=True)
        return " ".join(name for name in names if name != "e" and not (name == "a" and "b" in names)), None, []

    return check


class OneLane:
    """Lanes of which one check runs at a time."""

    def __init__(self, room):
        self.room = room

    @staticmethod
    def pool():
        return concurrent.futures.ThreadPoolExecutor(1)


def stubbed(tried, leaves=True):
    """tools/planted with a check that proves nothing."""
    planted = fresh_planted()
    planted.check = stub_check(tried, leaves)
    planted.open_goals = lambda said: said.split()
    planted.goal_of = lambda edit, goals, _: edit.name if edit.name in goals else None
    planted.first_error = lambda _: "no answer"
    return planted


def test_rest():
    """What a check left open is tried again, and at last alone. What a check told is given before the next one begins."""
    planted = fresh_planted()
    edits = [Stub(name) for name in "abcde"]
    tell("none is left", planted.rest_of(edits, [], []) == [])
    tell("those that are left are one group", planted.rest_of(edits, edits[1:], []) == [edits[1:]])
    tell("all are left", planted.rest_of(edits, edits, []) == [edits[:2], edits[2:]])
    tell("one is bad", planted.rest_of(edits, edits, edits[1:2]) == [[edits[0], *edits[2:]], edits[1:2]])
    tell("all are bad", planted.rest_of(edits, edits, edits) == [[edit] for edit in edits])
    at = [Stub("a", 10), Stub("b", 20)]
    tell("where a fault stands", planted.faulty(at, ["./src/map.rt:21:5: error[unknown-name]: no field", "src/other.rt:10:1: error: x"]) == at[1:])
    tell("a fault of no edit", planted.faulty(at, ["./src/map.rt:15:5: error: no field", "./src/map.rt:10:5: note: it is", "BAD"]) == [])
    tried, shown, count = [], {}, 0
    with tempfile.TemporaryDirectory() as room:
        for told in stubbed(tried).try_side_by_side(OneLane(room), {"k": [[Stub(name) for name in "abcdef"]]}):
            count += 1
            shown.update((edit.name, goal) for edit, goal, _ in told)
    tell("what one check told is given by itself", count == len(tried))
    tell("what is shown of each", shown == {"a": "a", "b": "b", "c": None, "d": "d", "e": None, "f": None})
    tell("what is tried together", tried[:2] == ["kabcdef", "kabcde"] and sorted(tried[2:]) == sorted(["kab", "kcde", "kf", "ka", "kc", "kde", "ke"]))


def test_first():
    """No second check of a crate begins before one has left what it proved; those of other crates run."""
    for leaves in (True, False):
        begun, lock, most = [], threading.Lock(), {}
        with tempfile.TemporaryDirectory() as room:
            planted = stubbed([], leaves)
            check = planted.check

            def slow(lanes, crate, group):
                has_kept = os.path.isdir(os.path.join(room, f"kept-{crate}"))
                with lock:
                    begun.append(crate)
                    most[crate] = max(most.get(crate, 0), begun.count(crate))
                    tell(f"{crate}: no two first checks run side by side", has_kept or begun.count(crate) == 1)
                for _ in range(500 if has_kept else 1):
                    # another check of the crate begins soon
                    time.sleep(0.01 * (most[crate] == 1))
                try:
                    return check(lanes, crate, group)
                finally:
                    with lock:
                        begun.remove(crate)

            planted.check = slow
            lanes = OneLane(room)
            lanes.pool = lambda: concurrent.futures.ThreadPoolExecutor(4)
            told = list(planted.try_side_by_side(lanes, {crate: [[Stub(name)] for name in "abd"] for crate in "kl"}))
        tell("each group is tried", len([it for each in told for it in each]) == 6)
        tell(f"checks {'run' if leaves else 'do not run'} side by side after the first", (max(most.values()) > 1) == leaves)


def main():
    test_reading()
    test_rest()
    test_first()
    test_groups()
    test_cones()
    with tempfile.TemporaryDirectory() as tree:
        copy_tree(tree)
        test_evidence(tree)


if __name__ == "__main__":
    run_test(main)
