"""Shows that the values of a turn can be neither lost nor used twice: such code does not compile.

A claim must be posted, a reply that was collected must be released, and a ticket is collected once. Each crate of a few lines below makes
one such mistake over the crates of this tree, copied to a temporary folder (`rt` reads no symbolic links). `rt try`, which reads types and
proves nothing, must refuse it with the error of that mistake, and must run the same crate without the mistake. It needs `rt` alone.
"""

import collections
import os
import shutil
import subprocess
import sys
import tempfile

from harness import run_test, side_by_side, tell
from tlxtools.crate_list import TOP, below, crates

ARENA = "tl_arena"
SECONDS = 600

RIGHT = """//! What is done with the values of a turn.
#![tactic(auto)]

use tl_arena::{Arena, Claim, MasterSeat, Served, Ticket};

fn slot_of_claim(claim: Claim) -> (usize, Claim) {
    (claim.slot(), claim)
}

fn slot_of_served(served: Served) -> (usize, Served) {
    (served.slot(), served)
}

fn collect_two(arena: &Arena, seat: &mut MasterSeat, one: Ticket, other: Ticket) -> Result<Served, Ticket> {
    match arena.collect(seat, one) {
        Err(ticket) => Err(ticket),
        Ok(served) => {
            arena.release(seat, served);
            arena.collect(seat, other)
        }
    }
}

fn main(_rt: HostRuntime) {}
"""

# A crate, what of the right text is written otherwise there, and the errors that it must be refused with: none of the right one.
Case = collections.namedtuple("Case", ["name", "told", "changes", "errors"])
CASES = [
    Case("uses_each_once", "each value is used once", [], []),
    Case("drops_values", "a claim and a collected reply are dropped",
         [("-> (usize, Claim)", "-> usize"), ("(claim.slot(), claim)", "claim.slot()"),
          ("-> (usize, Served)", "-> usize"), ("(served.slot(), served)", "served.slot()")],
         ["error[linear-value-let-go]: `claim`", "error[linear-value-let-go]: `served`"]),
    Case("collects_twice", "a ticket is collected twice", [("arena.collect(seat, other)", "arena.collect(seat, one)")],
         ["error[borrow-e0382]: use of moved value: `one`"]),
]


def text_of(case):
    """The program of a case."""
    text = RIGHT
    for old, new in case.changes:
        if text.count(old) != 1:
            sys.exit(f"{case.name}: `{old}` does not stand once in the text")
        text = text.replace(old, new)
    return text


def make_tree(folder):
    """Copies the crates of the arena, and puts a program for each case beside them."""
    all_crates = crates()
    lines = []
    for name in [*sorted(below(ARENA, all_crates)), ARENA]:
        for part in ("src", "specs", "proofs"):
            source = os.path.join(TOP, "crates", name, part)
            if os.path.isdir(source):
                shutil.copytree(source, os.path.join(folder, "crates", name, part))
        lines.append(f"{name}: {' '.join(all_crates[name])}\n")
    for case in CASES:
        os.makedirs(os.path.join(folder, "crates", case.name, "src"))
        with open(os.path.join(folder, "crates", case.name, "src", "main.rt"), "w", encoding="utf-8") as program:
            program.write(text_of(case))
        lines.append(f"{case.name}: {ARENA}\n")
    with open(os.path.join(folder, "crates.txt"), "w", encoding="utf-8") as listed:
        listed.writelines(lines)
    shutil.copy(os.path.join(TOP, "HANDLES"), folder)


def is_as_told(folder, case):
    """Tries the program of a case. Answers whether it is refused with its errors alone, or runs if it has none, and else what was said."""
    tried = subprocess.run(["rt", "try"], cwd=os.path.join(folder, "crates", case.name), stdin=subprocess.DEVNULL,
                           capture_output=True, text=True, timeout=SECONDS, check=False)
    said = tried.stdout + tried.stderr
    errors = [line for line in said.splitlines() if "error" in line]
    if not case.errors:
        well = tried.returncode == 0 and not errors
    else:
        well = tried.returncode != 0 and len(errors) == len(case.errors) and all(
            line.startswith("src/main.rt:") and error in line for line, error in zip(errors, case.errors))
    return well, "" if well else f"status {tried.returncode}:\n{said}"


def main():
    with tempfile.TemporaryDirectory() as folder:
        make_tree(folder)
        for case, (is_well, why) in zip(CASES, side_by_side(is_as_told, [(folder, case) for case in CASES])):
            tell(f"{case.told}: {'it does not compile' if case.errors else 'it runs'}", is_well, why)


if __name__ == "__main__":
    run_test(main)
