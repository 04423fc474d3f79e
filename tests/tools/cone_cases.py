"""A made-up crate with one edit, and changes of it: on which of them the edit rests, as tests/tools/planted_test asks."""

from tlxtools.cones import Crate
from tlxtools.edits import Edit

SOURCE = """\
//! A page.
#![tactic(auto)]
ghost use Rattle.std.specs.Prelude.{◌≡◌, ◌<◌, ℕ};
ghost use Rattle.made.specs.Rule.{IsFair, is_low};

mod other;

use crate::other::{Count, LIMIT};
use far::Ask;
use near::Reply;
use tl_types::Moved;

/// What is kept.
#[derive(Debug, Drop)]
pub struct Kept {
    counts: Vec<Count>,
    ask: Ask,
    moved: Moved,
}

impl Model for Kept {
    ghost Value = { ℕ };

    ghost view = { λ kept. kept_view kept };
}

impl Kept {
    /// The edited function.
    #[tactic(auto, using(a_lemma))]
    pub fn next(&self, count: u16) -> u16
        requires low { is_low count }
        ensures { IsFair result }
    {
        let text = "two  blanks";
        lower(count) + 1
    }

    /// One that is not called.
    fn hidden(&self) -> Reply
        ensures { result ≡ 7 }
    {
        self.reply.step()
    }
}

/// The lower one.
fn lower(count: u16) -> u16
    requires { count < LIMIT }
    ensures { result < count }
{
    count - 1
}
"""
OTHER = """\
use std::alloc::Global;

pub const LIMIT: u16 = 9;

pub struct Count {
    pub number: u16,
    pub place: u16,
}

pub struct Unused(u8);
"""
RULE = """\
-- What is fair.
use Rattle.std.specs.Prelude.{◌≡◌, ℕ}

-- it is fair
pub record IsFair (count : ℕ) : Type 0 where
  pub low : is_low count

-- it is low
abbrev pub is_low : ℕ → Type 0
is_low count = bound_of count ≡ 1

abbrev pub bound_of : ℕ → ℕ
bound_of count = count

abbrev pub kept_view : Kept → ℕ
kept_view kept = 3

abbrev pub unused : ℕ → ℕ
unused count = count
"""
PROOFS = """\
use Rattle.std.proofs.Common.{ℕ}

abbrev pub so_far : ℕ → ℕ
so_far count = count

pub a_lemma : ℕ
a_lemma = 3
"""
INVARIANTS = """\
use Rattle.made.proofs.Steps.{so_far}
use Rattle.made.proofs.lib.next.Given as goal

abbrev pub invariant-loop : goal.invariant-loop
invariant-loop l = so_far l.place
"""
CLONE = """\
impl Clone for Count {
    ghost is_clone = { λ count copy. copy ≡ count };

    fn clone(&self) -> Result<Count, AllocError> {
        Ok(Count { number: self.number, place: self.place })
    }
}

"""
FILES = {
    "src/lib.rt": SOURCE,
    "src/other.rt": OTHER,
    "specs/Lib.antt": "pub mod Rule\n",
    "specs/Rule.antt": RULE,
    "proofs/Lib.antt": "pub mod Steps\n",
    "proofs/Steps.antt": PROOFS,
    "proofs/Kept/next/Invariants.antt": INVARIANTS,
    "proofs/Kept/next/Answers.antt": "returns : goal.returns\nreturns c = rules\n",
    "proofs/Kept/hidden/Invariants.antt": "abbrev pub invariant-loop : goal.invariant-loop\n",
}
EDIT = Edit("made", "made/low.edit", "file: src/lib.rt\nold:         lower(count) + 1\nnew:         lower(count)\n")
GOAL = "Kept::next: returns"
# what is changed, its file, the old text and the new one
FRESH = [
    ("another function's body", "src/lib.rt", "self.reply.step()", "self.reply.leap()"),
    ("a called function's body", "src/lib.rt", "    count - 1\n", "    count - 2\n"),
    ("a contract of what is not called", "src/lib.rt", "result ≡ 7", "result ≡ 8"),
    ("answers", "proofs/Kept/next/Answers.antt", "rules", "search rules"),
    ("a lemma", "proofs/Steps.antt", "a_lemma = 3", "a_lemma = 4"),
    ("the tactic of a function", "src/lib.rt", "using(a_lemma)", "using(another)"),
    ("a comment", "src/lib.rt", "/// The edited function.", "/// The function."),
    ("a comment of a definition", "specs/Rule.antt", "-- it is low", "-- it is small"),
    ("layout", "src/lib.rt", "        requires low { is_low count }\n", "        requires low\n            { is_low  count }\n"),
    ("a definition that is not used", "specs/Rule.antt", "unused count = count", "unused count = 2"),
    ("a type that is not used", "src/other.rt", "Unused(u8)", "Unused(u16)"),
    ("a new function", "src/other.rt", "pub struct Unused", "fn fresh() {}\n\npub struct Unused"),
    ("a clone of its type that nobody makes", "src/other.rt", "pub struct Unused", CLONE + "pub struct Unused"),
    ("a path that only others use", "src/lib.rt", "use near::Reply", "use distant::Reply"),
    ("the crate of the repository that a name comes from", "src/lib.rt", "use tl_types::Moved", "use tl_ops::bank::Moved"),
    ("the invariants of another function", "proofs/Kept/hidden/Invariants.antt", "abbrev", "unfoldable"),
]
STALE = [
    ("the function's own body", "src/lib.rt", "let text", "let word"),
    ("white space in a text of its own", "src/lib.rt", '"two  blanks"', '"two blanks"'),
    ("its contract", "src/lib.rt", "requires low { is_low count }", "requires low { is_low 2 }"),
    ("a called function's contract", "src/lib.rt", "result < count }", "result ≡ count }"),
    ("a definition that it names", "specs/Rule.antt", "low : is_low count", "low : is_low 3"),
    ("a definition two steps away", "specs/Rule.antt", "bound_of count = count", "bound_of count = 2"),
    ("a field of its type", "src/lib.rt", "    ask: Ask,\n", "    ask: Ask,\n    more: u8,\n"),
    ("a field of a type of a field", "src/other.rt", "pub place: u16", "pub place: u32"),
    ("the model of its type", "src/lib.rt", "kept_view kept };", "kept_view 1 };"),
    ("a definition of the model", "specs/Rule.antt", "kept_view kept = 3", "kept_view kept = 4"),
    ("a constant", "src/other.rt", "u16 = 9", "u16 = 8"),
    ("its invariants", "proofs/Kept/next/Invariants.antt", "so_far l.place", "so_far 1"),
    ("a definition of its invariants", "proofs/Steps.antt", "so_far count = count", "so_far count = 1"),
    ("a path in a source file", "src/lib.rt", "use far::Ask", "use farther::Ask"),
    ("a name of another crate of the repository", "src/lib.rt", "use tl_types::Moved", "use tl_types::Gone as Moved"),
    ("a path of definitions", "specs/Rule.antt", "Rattle.std.specs.Prelude", "Rattle.std.specs.Later"),
    ("a path of an operator", "src/lib.rt", "ghost use Rattle.std.specs.Prelude", "ghost use Rattle.std.specs.Later"),
    ("a new type with a name of the cone", "src/other.rt", "pub struct Unused", "struct Count {\n    low: u8,\n}\n\npub struct Unused"),
    ("a new function with a name of the cone", "src/other.rt", "pub struct Unused", "fn lower() -> u8 {\n    1\n}\n\npub struct Unused"),
    ("a new definition with a name of the cone", "specs/Lib.antt", "pub mod Rule\n", "pub mod Rule\n\nabbrev pub is_low : ℕ\n"),
    ("a function of a trait of its type", "src/other.rt", "pub struct Unused",
     "impl Default for Kept {\n    fn default() -> Kept {\n        1\n    }\n}\n\npub struct Unused"),
]


def made(files, edit=EDIT, goal=GOAL):
    """The sum of the edit in a made-up crate."""
    return Crate("made", files).sum_of(edit, goal)


def cone_faults():
    """The changes of which it is wrongly said that the edit rests on them, or that it does not."""
    was = made(FILES)
    if was is None:
        return ["the cone is not found"]
    found = []
    for cases, is_fresh in ((FRESH, True), (STALE, False)):
        for name, file, old, new in cases:
            assert FILES[file].count(old) == 1, name
            if (made({**FILES, file: FILES[file].replace(old, new)}) == was) != is_fresh:
                found.append(f"{name}: an edit does not stay fresh" if is_fresh else f"{name}: the change is not seen")
    other = Edit("made", "made/limit.edit", "file: src/other.rt\nold: pub const LIMIT: u16 = 9;\nnew: pub const LIMIT: u16 = 8;\n")
    if made(FILES, other, "lower: returns") in (None, made({**FILES, "src/lib.rt": SOURCE.replace("count - 1", "count - 3")}, other, "lower: returns")):
        found.append("the function whose goal stays open does not count")
    clones, asks = OTHER + CLONE, Edit("made", "made/copy.edit", EDIT.text.replace("lower(count)\n", "lower(count.clone())\n"))
    if made({**FILES, "src/other.rt": clones}, asks) == made({**FILES, "src/other.rt": clones.replace("copy ≡ count", "copy ≡ copy")}, asks):
        found.append("a clone that is made does not count")
    if made(FILES, EDIT, "gone: returns") is not None or made({**FILES, "src/lib.rt": OTHER}) is not None:
        found.append("a cone is found that can't be known")
    return found
