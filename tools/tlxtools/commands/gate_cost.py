"""What a run of the gate costs, crate by crate: tools/gate_cost [--to FILE] [COMMAND..], from the top; without a command `rt ci`.

Runs the command and reads the processor time of each check from /proc while it runs. After the command has ended, it prints
a table, or writes it to FILE: the processor seconds of each crate's own proof, of its tests, and of its must-fail edits. If a crate
has several edits, the unchanged crate is checked twice for them, before and after: that is their base. Each edit is then checked over it.
Below the table stands what `rt` itself took, mostly to sum up the sources of crates, one at a time. Then comes the longest chain:
crates of which each waits for the one before, up to a crate's tests and edits. No number of processors makes the run shorter than
that. Only work that is done in the run counts. A check may use half a second more than is read. The status is that of the command.
"""
import os
import subprocess
import sys
import time

from tlxtools.crate_list import crates as all_crates

TICKS = os.sysconf("SC_CLK_TCK")
# How often the processes are looked at, in seconds.
PAUSE = 0.25
PARTS = ("proof", "tests", "base", "edits")


def part_of(words, folder):
    """Which part of the gate a process of the prover with these words in this folder works for, or None for a helper."""
    if words[1] not in ("check", "build"):
        return None
    if os.path.basename(folder).startswith("rt-edit-"):
        kept = words[words.index("--incremental") + 1] if "--incremental" in words else ""
        return "base" if os.path.basename(kept) == "seed" else "edits"
    return "tests" if "--test" in words else "proof"


def stat_of(pid):
    """The fields of a process's stat from its state on, or none if it has ended."""
    try:
        with open(f"/proc/{pid}/stat") as it:
            return it.read().rpartition(")")[2].split()
    except OSError:
        return []


def descends(pid, root):
    """Whether the process was started by root, or by one that was."""
    while pid not in ("0", root):
        pid = (stat_of(pid)[1:2] or ["0"])[0]
    return pid == root


def look(costs, root):
    """Writes into costs, for each process of the prover below root, its crate, part and seconds so far."""
    for pid in filter(str.isdigit, os.listdir("/proc")):
        try:
            with open(f"/proc/{pid}/cmdline", "rb") as it:
                words = it.read().decode(errors="replace").split("\0")
            if len(words) < 3 or os.path.basename(words[0]) != "rattle" or "--crate-name" not in words:
                continue
            folder = os.readlink(f"/proc/{pid}/cwd")
        except OSError:
            continue
        fields = stat_of(pid)
        if not fields or not descends(pid, root):
            continue
        part = part_of(words, folder)
        if part:
            crate, seconds = words[words.index("--crate-name") + 1], (int(fields[11]) + int(fields[12])) / TICKS
            # the start time tells a process from a later one of the same number
            costs[int(fields[19]), pid] = crate, part, seconds


def longest_chain(crates):
    """The chain of crates that takes longest: each waits for the proof of the one before, and the last one's edits for its tests."""
    listed, found = all_crates(), {}

    def chain(name):
        """The seconds up to the end of a crate's proof, and the crates on the way."""
        if name not in found:
            before = max((chain(other) for other in listed[name] if other in crates and other in listed), default=(0, ()))
            found[name] = before[0] + crates[name]["proof"], (*before[1], name)
        return found[name]

    def end(name):
        row, whole = crates[name], chain(name)
        slower = max(row["tests"] - row["proof"], 0)
        return whole[0] + slower + row["base"] + row["edits"], whole[1]

    return max((end(name) for name in crates if name in listed), default=(0, ()))


def own_seconds(pid):
    """The processor seconds of a process so far without those that it started, or 0 if it has ended."""
    fields = stat_of(pid)
    return (int(fields[11]) + int(fields[12])) / TICKS if fields else 0


def table(costs, own):
    """The rows of the table: a crate's seconds part by part, the dearest crate first, then the sum, what `rt` itself took, and the
    longest chain.
    """
    crates = {}
    for crate, part, seconds in costs.values():
        row = crates.setdefault(crate, dict.fromkeys(PARTS, 0.0) | {"number": 0})
        row[part] += seconds
        row["number"] += part == "edits"
    seconds, chain = longest_chain(crates)
    whole = {it: sum(row[it] for row in crates.values()) for it in (*PARTS, "number")}
    rows = sorted(crates.items(), key=lambda it: -sum(it[1][part] for part in PARTS)) + [("all", whole)]
    yield f"{'crate':<20}{'proof':>8}{'tests':>8}{'base':>8}{'edits':>8}{'(each)':>8}{'all':>9}"
    for crate, row in rows:
        each = f"{row['edits'] / row['number']:.0f}" if row["number"] else ""
        yield f"{crate:<20}" + "".join(f"{row[it]:8.0f}" for it in PARTS) + f"{each:>8}{sum(row[it] for it in PARTS):9.0f}"
    yield f"processor minutes: {sum(whole[it] for it in PARTS) / 60:.1f}"
    yield f"beside them rt itself: {own / 60:.1f}"
    yield f"longest chain: {seconds / 60:.1f} minutes: {' '.join(chain)}"


def main():
    words = sys.argv[1:]
    file = None
    if words[:1] == ["--to"] and len(words) > 1:
        file, words = words[1], words[2:]
    costs, own = {}, 0
    with subprocess.Popen(words or ["rt", "ci"]) as run:
        while run.poll() is None:
            try:
                look(costs, str(run.pid))
                own = max(own, own_seconds(str(run.pid)))
            except (ValueError, IndexError):
                pass  # a process that changed while it was read; it is read again
            time.sleep(PAUSE)
    text = "\n".join(table(costs, own)) + "\n"
    if file:
        with open(file, "w", encoding="utf-8") as to:
            to.write(text)
    else:
        print(text, end="")
    return run.returncode
