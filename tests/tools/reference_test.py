"""Tests tools/reference on two small crates whose pages were written by hand. The last line is 'N passed, M failed'. It needs no program."""

import contextlib
import io
import os
import tempfile

from harness import run_test, tell
from tlxtools import markdown
from tlxtools import reference_source
from tlxtools.commands import reference
from tlxtools.crate_list import TOP
from tlxtools.reference_page import Places, escaped, page_of
from tlxtools.tree import read

FILES = {
    "crates.txt": "# All crates.\n\n# One family.\nlow: std\nhigh: low\n\n# Programs.\nmain: high\n",
    "crates/low/src/lib.rt": """//! Low things: numbers.
//!
//! See [`Number`] and a < b.

mod number;
pub mod laws;

pub use number::{Number, count,
    MOST};
""",
    "crates/low/src/number.rt": """//! Numbers.
ghost use Rattle.low.specs.Small.{IsSmall, least as least_of};

/// The most.
pub const MOST: u8 = 3;

/// A number.
#[derive(Debug)]
pub struct Number {
    /// Its value.
    pub value: u8,
    /// Which nobody sees.
    secret: Vec<
        u8,
    >,
    ghost small: { IsSmall value },
}

impl Model for Number {
    ghost use Rattle.low.specs.Small.{IsSmall};

    ghost Value = { ℕ };
}

impl Number {
    /// A new one.
    pub fn new(value: u8) -> Number
        requires { value ≤ MOST }
        ensures { result ≡ least_of value }
    {
        Number { value, secret: 0 }
    }

    fn hidden(&self) {
    }
}

impl fmt::Display for Number {
    pub fn shown(&self) {
    }
}

/// How many there are.
pub fn count() -> usize {
    7
}

fn hidden() {}
""",
    "crates/low/src/laws.rt": "//! Laws.\n\n/// It is small.\npub fn it_is_small()\n    ensures { IsSmall 0 }\n{}\n",
    "crates/low/specs/Lib.antt": "pub mod Small\n",
    "crates/low/specs/Small.antt": """-- Small numbers, of
-- this project's own.
use Rattle.std.specs.Prelude.{ℕ}

-- a number is small: a * b < c
abbrev pub IsSmall : ℕ → Type 0
IsSmall n = n ≤ 3

-- ---- what has no comment

abbrev pub least : ℕ → ℕ
least n = n

module _ (n : ℕ) where

  -- within a module
  pub record IsFine : Type 0 where
    pub small : IsSmall n
""",
    "crates/high/src/lib.rt": "//! High things.\n\nmod inner;\n\npub use inner::shown::Shown;\npub use low::{MOST, count};\n",
    "crates/high/src/inner.rt": "pub mod shown;\n",
    "crates/high/src/inner/shown.rt": """ghost use Rattle.low.specs.Small.{IsSmall};

/// What is shown.
pub enum Shown {
    /// One.
    One,
}

impl Shown {
    pub fn of(&self) -> u8
        ensures { IsSmall result }
    {
        1
    }
}
""",
    "crates/main/src/main.rt": "//! A program.\n",
}
LOW = """\
# `low`

Low things: numbers.

See `Number` and a \\< b.

Made by `tools/reference` from `crates/low`. The definitions are those of `specs/`, the types and calls those that `lib.rt` exports.

- **Small**: [`IsSmall`](#issmall), [`least`](#least), [`IsFine`](#isfine)
- **Types and calls**: [`Number`](#number), [`count`](#count), [`MOST`](#most)
- **Laws and modules**: [`laws::it_is_small`](#lawsit_is_small)

## Definitions

### specs/Small.antt

Small numbers, of this project's own.

#### `IsSmall`

a number is small: a \\* b \\< c

```text
abbrev pub IsSmall : ℕ → Type 0
IsSmall n = n ≤ 3
```

#### `least`

```text
abbrev pub least : ℕ → ℕ
least n = n
```

#### `IsFine`

within a module

```text
pub record IsFine : Type 0 where
  pub small : IsSmall n
```

Named here: [`IsSmall`](#issmall).

## Types and calls

### `Number`

A number.

```text
pub struct Number {
    /// Its value.
    pub value: u8,
    ghost small: { IsSmall value },
    ..
}
impl Model for Number {
    ghost Value = { ℕ };
}
```

Named here: [`IsSmall`](#issmall).

#### `Number::new`

A new one.

```text
pub fn new(value: u8) -> Number
    requires { value ≤ MOST }
    ensures { result ≡ least_of value }
```

Named here: [`Number`](#number), [`MOST`](#most), [`least`](#least).

### `count`

How many there are.

```text
pub fn count() -> usize
```

### `MOST`

The most.

```text
pub const MOST: u8 = 3;
```

## Laws and modules

### `laws::it_is_small`

It is small.

```text
pub fn it_is_small()
    ensures { IsSmall 0 }
```

Named here: [`IsSmall`](#issmall).
"""
HIGH = """\
# `high`

High things.

Made by `tools/reference` from `crates/high`. The definitions are those of `specs/`, the types and calls those that `lib.rt` exports.

- **Types and calls**: [`Shown`](#shown)

It hands on [`MOST`](low.md#most), [`count`](low.md#count).

## Types and calls

### `Shown`

What is shown.

```text
pub enum Shown {
    /// One.
    One,
}
```

#### `Shown::of`

```text
pub fn of(&self) -> u8
    ensures { IsSmall result }
```

Named here: [`IsSmall`](low.md#issmall).
"""
# a page that is written by hand, and how the index begins with it
BY_HAND = "# Formats\n\nFor a reader who writes a\nscript. And more.\n"
FIRST = ("# Reference\n\n## Formats and rules\n\n- [formats.md](formats.md): For a reader who writes a script.\n"
         "- [keys.md](keys.md): For a reader who writes a system")
INDEX = ("## One family\n\n- [`low`](low.md): Low things.\n- [`high`](high.md): High things.\n")
ANCHORS = "# `low`\n\n## A b\n\n## A b\n\n```\n# none\n```\n\n### x::y_z, [w](v.md)!\n"


def differs(said, wanted):
    """The first lines that differ."""
    pairs = zip(said.split("\n") + ["(end)"], wanted.split("\n") + ["(end)"])
    return next((f"{one!r}, and not {other!r}" for one, other in pairs if one != other), "")


def put(top, path, text):
    os.makedirs(os.path.dirname(os.path.join(top, path)), exist_ok=True)
    with open(os.path.join(top, path), "w", encoding="utf-8") as file:
        file.write(text)


def of_pages(top):
    crates = [reference_source.Crate(top, name) for name in ("low", "high")]
    places = Places(crates)
    for crate, wanted in zip(crates, (LOW, HIGH)):
        said = page_of(places, crate)
        tell(f"the page of {crate.name}", said == wanted, differs(said, wanted))
    tell("definitions without a comment", crates[0].bare() == [("Small", "least")], f"{crates[0].bare()}")
    tell("anchors", markdown.anchors(ANCHORS) == {"low", "a-b", "a-b-1", "xy_z-w"})
    tell("a comment", escaped("[`a*b`] is a*b `c*d` [e] [`f`](g::h)") == r"`a*b` is a\*b `c*d` \[e\] `f`")


def checked(reference, top, texts, bare):
    """What --check says: its status, its last line, and the lines on standard error."""
    out, err = io.StringIO(), io.StringIO()
    with contextlib.redirect_stdout(out), contextlib.redirect_stderr(err):
        status = reference.check(top, texts, bare)
    return status, out.getvalue().strip(), [line.removeprefix("tools/reference: ") for line in err.getvalue().splitlines()]


def of_check(reference, top):
    put(top, "docs/reference/formats.md", BY_HAND)
    texts = reference.pages(top, [reference_source.Crate(top, name) for name in ("low", "high", "main")])
    tell("pages", sorted(texts) == [f"docs/reference/{name}.md" for name in ("README", "high", "low")], f"{sorted(texts)}")
    index = texts["docs/reference/README.md"]
    tell("index", index.endswith(INDEX), index)
    tell("index begins", index.startswith(FIRST), index)
    most, run = reference.MOST_BARE, "run it, and commit the pages"
    put(top, "docs/reference/old.md", "")
    reference.write(top, texts)
    left = sorted(os.listdir(os.path.join(top, "docs/reference")))
    tell("what no crate has is removed, and what is written by hand is not", left == ["README.md", "formats.md", "high.md", "low.md"], f"{left}")
    tell("fresh pages", checked(reference, top, texts, most) == (0, "4 passed, 0 failed", []))
    tell("a bare definition too many", checked(reference, top, texts, most + 1) == (1, "3 passed, 1 failed", [
        f"definitions without a comment: {most + 1}, of which there may be {most}: tools/reference --bare lists them"]))
    put(top, "docs/reference/low.md", LOW + "more\n")
    tell("a stale page", checked(reference, top, texts, most) == (1, "3 passed, 1 failed", ["docs/reference/low.md: it is stale", run]))
    os.remove(os.path.join(top, "docs/reference/low.md"))
    put(top, "docs/reference/old.md", "")
    tell("a page too few, and one too many", checked(reference, top, texts, most) == (1, "3 passed, 2 failed", [
        "docs/reference/low.md: it is missing", "docs/reference/old.md: no crate has this page", run]))
    err = io.StringIO()
    with contextlib.redirect_stderr(err):
        tell("--other", reference.main(["--other"]) == 64 and err.getvalue() == "usage: tools/reference [--check | --bare]\n")


def of_this_tree():
    """Each definition of a file of this tree is on its page, as a plain search finds them."""
    top = TOP
    crate = reference_source.Crate(top, "tl_map")
    words = [line.split() for line in read(top, "crates/tl_map/specs/Map.antt").split("\n")]
    wanted = [line[2].split("(")[0] for line in words if line[:2] in (["abbrev", "pub"], ["pub", "record"], ["pub", "data"], ["unfoldable", "pub"])]
    found = [definition.name for specs in crate.specs if specs.name == "Map" for definition in specs.definitions]
    tell("tl_map", found == wanted and len(wanted) > 10, f"{found}")


def main():
    with tempfile.TemporaryDirectory() as top:
        for path, text in FILES.items():
            put(top, path, text)
        of_pages(top)
        of_check(reference, top)
    of_this_tree()


if __name__ == "__main__":
    run_test(main)
