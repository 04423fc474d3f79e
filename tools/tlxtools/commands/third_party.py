"""Writes THIRD_PARTY, the list of the kit's crates that the programs and the library are linked from, with the texts of their licences:
tools/third_party. With --check it writes nothing, and compares the file with what it would write; the last line is then
'N passed, M failed'.

crates.txt says which of the kit's crates each of tlx's crates names. The kit says which crates those stand on, what each is for
(CRATES.md), which crate of Rust it follows (its README.md), and its licence (the files LICENSE* beside that page).
"""

import os
import re
import subprocess
import sys

from tlxtools.crate_list import TOP, below, crates

FILE = os.path.join(TOP, "THIRD_PARTY")
# what is linked: each with what it becomes
LINKED = (("tlx", "tlx"), ("tlcheck", "tlcheck"), ("tlvcd", "tlvcd"), ("tl_c", "libtlx"))
# the crate of Rust that a crate of the kit follows, with its version, as the first paragraph of its page says it
FOLLOWS = re.compile(r"([a-z][\w-]*)`? (\d+\.\d+\.\d+)")
HEAD = """\
The crates of the toolchain's kit that tlx, tlcheck, tlvcd and libtlx are linked from, made by tools/third_party.

tlx itself has no licence yet. "Follows" is the crate of Rust that a crate is a port of, or whose calls it has, if its page names a version.
"Licence" has the numbers of the texts below. A crate with a dash has no file of a licence in the kit. libtlx.a also has the kit's
c/liblibc_c.a, with no file of a licence either.
"""


def read(path):
    with open(path, encoding="utf-8") as file:
        return file.read()


def kit():
    """The folder of the kit, in which the toolchain's first page stands."""
    try:
        page = subprocess.run(["rt", "doc"], capture_output=True, text=True, check=True).stdout.strip()
    except FileNotFoundError:
        sys.exit("tools/third_party: the toolchain `rt` is not on this machine")
    return os.path.dirname(page)


def used_by(folder, names):
    """These crates of the kit, and those that they stand on."""
    used = list(names)
    for name in used:
        named = re.findall(r"^dep (\w+)$", read(os.path.join(folder, "rlibs", f"{name}.rlib", "format")), re.M)
        used += [other for other in named if other not in used]
    return set(used)


def uses(folder):
    """For each crate of the kit, what is linked from it."""
    all_crates = crates()
    found = {}
    for crate, linked in LINKED:
        own = {crate, *below(crate, all_crates)}
        named = {name for each in own for name in all_crates[each] if name not in all_crates}
        # each program stands on std, which crates.txt does not name
        for name in used_by(folder, sorted(named | {"std"})):
            found.setdefault(name, []).append(linked)
    return found


def purposes(folder):
    """What each crate is for, by the table of the kit's page."""
    return dict(re.findall(r"^\| `(\w+)` \| ([^|]*) \|", read(os.path.join(folder, "rattle", "CRATES.md")), re.M))


def follows(folder, name):
    """The crates of Rust that a crate follows, each with its version."""
    path = os.path.join(folder, "rattle", name, "README.md")
    if not os.path.isfile(path):
        return "-"
    return ", ".join(f"{crate} {version}" for crate, version in FOLLOWS.findall(read(path).split("\n\n## ")[0])) or "-"


def licences(folder, name):
    """The files of the licences of a crate, each with its text."""
    place = os.path.join(folder, "rattle", name)
    return [(file, read(os.path.join(place, file)).strip("\n")) for file in sorted(os.listdir(place)) if file.startswith("LICENSE")]


def text(folder):
    """The whole list."""
    found, known = uses(folder), purposes(folder)
    known |= {name: "part of the standard library" for name in used_by(folder, ["std"])}
    numbers, rows = {}, [("Crate", "For", "Follows", "Licence", "Linked into")]
    for name in sorted(found):
        of_crate = [numbers.setdefault(body, [len(numbers) + 1, []]) for _, body in licences(folder, name)]
        for file, body in licences(folder, name):
            numbers[body][1].append(f"{name}/{file}")
        shown = ", ".join(str(number) for number, _ in of_crate) or "-"
        rows.append((name, known.get(name, "-"), follows(folder, name), shown, ", ".join(found[name])))
    widths = [max(len(row[at]) for row in rows) for at in range(len(rows[0]))]
    lines = ["  ".join(cell.ljust(width) for cell, width in zip(row, widths)).rstrip() for row in rows]
    parts = [HEAD, "\n".join(lines) + "\n"]
    for body, (number, files) in numbers.items():
        parts.append(f"{'-' * 78}\n{number}. {', '.join(files)}\n\n{body}\n")
    return "\n".join(parts)


def check(wanted):
    """Whether the file is what would be written."""
    is_same = os.path.isfile(FILE) and read(FILE) == wanted
    if not is_same:
        print("tools/third_party: THIRD_PARTY is not what tools/third_party writes: run it", file=sys.stderr)
    print("1 passed, 0 failed" if is_same else "0 passed, 1 failed")
    return 0 if is_same else 1


def main():
    words = sys.argv[1:]
    if words in (["--help"], ["-h"]):
        print(__doc__.strip())
        return 0
    if words not in ([], ["--check"]):
        print("usage: tools/third_party [--check]", file=sys.stderr)
        return 64
    wanted = text(kit())
    if words:
        return check(wanted)
    with open(FILE, "w", encoding="utf-8") as file:
        file.write(wanted)
    return 0
