"""Tries wrong bodies that the prover must refuse, those of crates/*/must-fail and of planted/: tools/planted [--stale | --changed] [CRATE..].

Without a crate all crates' edits are tried. With --changed these are those alone which --fresh fails, and with --stale those whose line in
planted/EVIDENCE is missing or old. What is not built of the crates below is proved first. An edit is refused if a goal stays open, so its
line is written then, and only then: an edit at which an answer of a proof no longer fits shows nothing. Edits of different functions are
tried by one check.

An answer that is itself a search counts as the prover's own: if it finds nothing, the goal is open. An edit of what a function calls, or one
that does not compile, keeps the function from the prover. Edits of functions in whose text the prover finds a fault are tried alone. The first
check of a crate leaves what it proved to the others, which wait for it. Lines are written after each check, so a run that is stopped loses only
the checks that have not ended.

tools/planted --fresh tries nothing. It fails if an edit has no line, or if the edit or what its refusal rests on in its crate has changed
since it was tried (docs/design/planted.md, "Edits"). Edits of which only the crates below have changed are listed, and do not fail.

The last line is 'N passed, M failed', and the status is 0 if none failed.
"""

import concurrent.futures
import contextlib
import dataclasses
import datetime
import os
import re
import shutil
import sys
import tempfile

from tlxtools import evidence
from tlxtools.crate_list import below, crates
from tlxtools.edits import crates_with_edits, edits_of, groups
from tlxtools.kit import kit_crate, rattle, rt
from tlxtools.lanes import Lanes, copy_sources, folder_of, locked

GOAL = re.compile(r"note: (?:\./)?(src/\S+?):(\d+):\d+: it is not proved that .*?\(`([^`]+)`\)")
# an answer that is a search, which found nothing
SEARCH = re.compile(
    r"(?:\./)?proofs/(\S+)/Answers\.antt:\d+:\d+: error: `([^`]+)`: "
    r"`(?:search|grind|omega|simp|cc)`(?: found no| gave up| stopped|: no proof of|: the goal does not follow)"
)
FUNCTION = re.compile(r"fn (\S+): (?:no proof|not proved)")
# a fault of a source file that keeps the crate from the prover
FAULT = re.compile(r"(?:\./)?(src/\S+?):(\d+):\d+: error\b")
USAGE = 64


@dataclasses.dataclass(frozen=True)
class Goal:
    """A goal that a check left open: its function and its name, and the line of the function where it is known."""

    function: str
    name: str
    file: str = ""
    line: int = 0

    def is_of(self, place):
        """Whether it is a goal of this function of the crate's files."""
        if self.file:
            return place.has(self.file, self.line)
        module = place.file.removeprefix("src/").removesuffix(".rt").removesuffix("lib").replace("/", "::")
        return self.function.startswith(module) and self.function.rpartition("::")[2] == place.name


def open_goals(said):
    """The goals that a check left open: those that the prover found no proof of, alone or by an answer that is a search."""
    found, waiting = [], []
    for line in said.split("\n"):
        goal, search, function = GOAL.match(line), SEARCH.match(line), FUNCTION.match(line)
        if goal:
            waiting.append((goal[3], goal[1], int(goal[2])))
        elif search:
            found.append(Goal(search[1].replace("/", "::"), search[2]))
        elif function:
            found += [Goal(function[1].partition("::")[2], *it) for it in waiting]
            waiting = []
    return found


def first_error(said):
    """The first line in which the prover says that an answer of a proof does not fit what was edited, and the goals that are open."""
    return next((line[:300] for line in said.split("\n") if ": error" in line), "no answer") + f"; open: {[goal.name for goal in open_goals(said)]}"


def goal_of(edit, goals, is_alone):
    """The goal by which an edit was refused: one of a function that it changes, the one that it names or best of what the function promises
    at its end. An edit that was tried alone may leave another function's goal open: that of a constant's law, or of a caller."""
    places, wanted = edit.places(), edit.goal()
    own = [goal for goal in goals if any(place and goal.is_of(place) for place in places)] or (goals if is_alone else [])
    best = sorted((goal for goal in own if wanted in (None, goal.name)), key=lambda goal: not goal.name.startswith("returns"))
    return f"{best[0].function}: {best[0].name}" if best else None


def put_in(edits, room):
    """Writes the edits into a copy of their crate's files. Answers the texts that changed, and of an edit that is bad why, and itself."""
    texts = {}
    for edit in edits:
        made, why = rt().edited(edit.text, room)
        if why:
            return texts, f"{edit.name}: {why}", [edit]
        for path, text in made.items():
            with open(os.path.join(room, path), "w", encoding="utf-8") as to:
                to.write(text)
        texts.update(made)
    return texts, None, []


def left_kept(lanes, crate):
    """The folder in which a check in this run leaves what it proved of the crate to those that come after it."""
    return os.path.join(lanes.room, f"kept-{crate}")


def take_kept(lanes, crate, room):
    """Brings what an earlier check of the crate kept: one with other edits in this run, or the crate's own."""
    for kept in (left_kept(lanes, crate), os.path.join(folder_of(crate), "out", "incremental")):
        if os.path.isdir(kept):
            shutil.copytree(kept, os.path.join(room, "kept"))
            return


def leave_kept(lanes, crate, room):
    """Leaves what a check kept to those with other edits of the crate, if none has left it."""
    with contextlib.suppress(OSError):
        # a folder that has files is never replaced
        os.rename(os.path.join(room, "kept"), left_kept(lanes, crate))


def faulty(edits, lines):
    """The edits that change a function in which one of these lines of a check finds a fault of the text."""
    places = [(it[1], int(it[2])) for it in map(FAULT.match, lines) if it]
    return [edit for edit in edits if any(place and place.has(*it) for place in edit.places() for it in places)]


def check(lanes, crate, edits):
    """Checks a crate with these edits, over what was kept of it. Answers what the prover said, or None and why it was not asked, and the
    edits that kept it from being asked if they are known."""
    with tempfile.TemporaryDirectory(prefix="edits-", dir=lanes.room) as room:
        copy_sources(crate, room)
        take_kept(lanes, crate, room)
        texts, why, bad = put_in(edits, room)
        if why:
            return None, why, bad
        words = [rattle(), "check", *kit_crate(crate).words(["--jobs", "1"], keeps=False), "--incremental", os.path.join(room, "kept")]
        with open(os.path.join(room, "said"), "w+", encoding="utf-8", errors="replace") as to:
            status = lanes.run(words, cwd=room, stdout=to, stderr=to)
            to.seek(0)
            said = to.read()
        last = said.rstrip("\n").rpartition("\n")[2]
        if last.startswith("logic="):
            leave_kept(lanes, crate, room)
    if status == 0:
        return None, "NOT REFUSED: the crate is still proved", []
    unread = [line for line in said.split("\n") if rt().unread(line, texts)]
    if status != 1 or not last.startswith("logic=not-proved") or unread:
        why = f"BAD EDIT: it does not reach the prover: {(''.join(unread[:1]) or said)[:300]}"
        return None, why, faulty(edits, unread or said.split("\n")) if status == 1 else []
    return said, None, []


def rest_of(edits, left, bad):
    """The groups in which edits are tried again that a check of all these left open. If it told which edits are bad, the others are one
    group, and each bad one is tried alone. If it showed some refused, the others are one group: the function of each may call one that was
    edited. If it showed none, one of them keeps the rest from the prover, so each half is one.
    """
    if bad and left:
        others = [edit for edit in left if edit not in bad]
        return [others] * bool(others) + [[edit] for edit in bad]
    if len(left) < len(edits):
        return [left] if left else []
    return [left[: len(left) // 2], left[len(left) // 2 :]]


def try_group(lanes, crate, edits):
    """Tries some edits of a crate by one check. Answers of which it is known whether they are refused, each with its goal, or None and why it
    was not refused when it was tried alone; and the groups in which the others are to be tried.
    """
    said, why, bad = check(lanes, crate, edits)
    goals, is_alone, told, left = open_goals(said) if said else [], len(edits) == 1, [], []
    for edit in edits:
        goal = goal_of(edit, goals, is_alone)
        if goal or is_alone:
            told.append((edit, goal, why or f"NOT REFUSED by an open goal: {first_error(said)}"))
        else:
            left.append(edit)
    return told, rest_of(edits, left, bad)


def try_side_by_side(lanes, of_crates):
    """Tries the groups of edits of some crates, and gives what each check tells as soon as it ends. Until a check of a crate has left what it
    proved, no other check of that crate runs, as each of them would prove the crate whole.
    """
    waiting, running = {crate: list(of) for crate, of in of_crates.items()}, {}

    def begin(crate):
        most = len(waiting[crate]) if os.path.isdir(left_kept(lanes, crate)) else 1
        ready, waiting[crate] = waiting[crate][:most], waiting[crate][most:]
        running.update((pool.submit(try_group, lanes, crate, group), crate) for group in ready)

    with lanes.pool() as pool:
        for crate in of_crates:
            begin(crate)
        while running:
            ended, _ = concurrent.futures.wait(running, return_when=concurrent.futures.FIRST_COMPLETED)
            for future in ended:
                crate, (told, again) = running.pop(future), future.result()
                waiting[crate] = again + waiting[crate]
                begin(crate)
                yield told


def try_all(lanes, edits):
    """Tries edits, the crates side by side, and writes the line of each that was refused. Answers how many were not."""
    lines, failed, day = evidence.load(), 0, datetime.datetime.now(datetime.timezone.utc).strftime("%Y-%m-%d")
    of_crates = {}
    for edit in edits:
        of_crates.setdefault(edit.crate, []).append(edit)
        # the crate is read before an edit is tried: if a file changes meanwhile, the line does not fit it
        evidence.line_of(edit, day, "")
    for told in try_side_by_side(lanes, {crate: groups(of) for crate, of in of_crates.items()}):
        for edit, goal, why in told:
            failed += goal is None
            lines.pop((edit.crate, edit.name), None)
            if goal:
                lines[edit.crate, edit.name] = evidence.line_of(edit, day, goal)
            print(f"{edit.crate}/{edit.name}: {'refused: ' + goal if goal else why}", flush=True)
        if told:
            evidence.store(lines)
    return failed


def fresh():
    """Compares the lines with the files, and answers how many edits have a line that speaks of them as they are, and how many have not."""
    lines, failed, stale = evidence.load(), 0, []
    edits = [edit for crate in crates_with_edits() for edit in edits_of(crate)]
    for edit in edits:
        line = lines.get((edit.crate, edit.name))
        why = evidence.fault_of(edit, line)
        failed += why is not None
        if why:
            print(f"planted: {edit.crate}/{edit.name}: {why}: run tools/planted --changed {edit.crate}")
        elif evidence.is_stale(edit, line):
            stale.append(edit.crate)
    if stale:
        print(f"planted: {len(stale)} edits are stale, which were tried before a crate below changed; tools/planted --stale tries them:")
    for crate in sorted(set(stale)):
        print(f"planted: {crate}: {stale.count(crate)}")
    return len(edits) - failed, failed


def main():
    flags = {word for word in sys.argv[1:] if word.startswith("--")}
    names = [word for word in sys.argv[1:] if not word.startswith("--")]
    unknown = [name for name in names if not edits_of(name)]
    if flags - {"--fresh", "--stale", "--changed"} or len(flags) > 1 or unknown or "--fresh" in flags and names:
        print(f"planted: there is no edit of {unknown[0]}" if unknown else __doc__, file=sys.stderr)
        return USAGE
    if "--fresh" in flags:
        passed, failed = fresh()
    else:
        edits = [edit for crate in names or crates_with_edits() for edit in edits_of(crate)]
        if flags:
            lines, is_wanted = evidence.load(), evidence.is_old if "--stale" in flags else evidence.fault_of
            edits = [it for it in edits if is_wanted(it, lines.get((it.crate, it.name)))]
        with Lanes(lambda text: print(f"planted: {text}", file=sys.stderr, flush=True)) as lanes:
            # the crates themselves are not needed: the first check of each proves what its edits leave alone
            broken = lanes.build(sorted({name for edit in edits for name in below(edit.crate, crates())}))
            if broken:
                print(f"planted: {broken} could not be built: see crates/{broken}/build.log", file=sys.stderr)
                return 1
            with locked({edit.crate for edit in edits}):
                failed = try_all(lanes, edits)
        passed = len(edits) - failed
    print(f"{passed} passed, {failed} failed")
    return 1 if failed else 0
