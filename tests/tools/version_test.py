"""Compares each place that says the version of tlx with the file VERSION, and CHANGELOG.md with it. Then it tests that comparison on a copy:
the version is changed in each place in turn, and it has to name that place; and tools/release has to refuse a version that CHANGELOG.md does
not have. The last line is 'N passed, M failed'. It needs no program.
"""

import os
import re
import shutil
import subprocess
import tempfile

from harness import run_test, tell_faults
from tlxtools.crate_list import TOP
from tlxtools.tree import files, read

FORM = re.compile(r"(\d+)\.(\d+)\.(\d+)")
# the places, each with what stands around the version there
PLACES = (
    ("crates/tl_cli/src/options.rt", r'^const VERSION: &str = "([^"]*)";$'),
    ("python/pyproject.toml", r'^version = "([^"]*)"$'),
    ("docs/help/tlx.version", r"\Atlx (.*)\n\Z"),
    ("docs/help/tlcheck.version", r"\Atlcheck (.*)\n\Z"),
    ("docs/help/tlvcd.version", r"\Atlvcd (.*)\n\Z"),
    ("CHANGELOG.md", r"^## (\d.*)$"),
)
# the tools that read VERSION, and where
READERS = (("tools/release", '"$top/VERSION"'), ("tools/install", '"$top/VERSION"'))
# the heading of what is not released yet, and the headings below it
NEXT = re.compile(r"^## Not released yet: (.*)$", re.M)
PARTS = ["Added", "Changed", "Breaking"]
# what may have the number of a version for another reason: other crates' versions, and what is no text
PASSED_OVER = re.compile(r"^THIRD_PARTY$|\.(png|vcd|gz)$")


def numbers(version):
    """The three numbers of a version, or nothing if it is none."""
    found = FORM.fullmatch(version)
    return tuple(int(number) for number in found.groups()) if found else ()


def of_places(top, version):
    """What is wrong with the places that say the version: one text for each comparison, empty if it is right."""
    for path, pattern in PLACES:
        found = re.search(pattern, read(top, path), re.M)
        said = found.group(1) if found else "no version"
        yield "" if said == version else f"{path}: {said} and not {version}"
    for path, text in READERS:
        yield "" if text in read(top, path) else f"{path}: VERSION is not read"
    helped = {f"docs/help/{name[:-4]}.version" for name in os.listdir(os.path.join(top, "docs/help")) if name.endswith(".txt")}
    left = sorted(helped - {path for path, _ in PLACES})
    yield f"{', '.join(left)}: no program of this name is compared" if left else ""


def of_changes(top, version):
    """What is wrong with the part of CHANGELOG.md that is not released yet, if there is one."""
    text = read(top, "CHANGELOG.md")
    found = NEXT.search(text)
    if not found:
        yield "CHANGELOG.md: 'Not released yet' without a version" if "Not released yet" in text else ""
        return
    yield "" if numbers(found.group(1)) > numbers(version) else f"CHANGELOG.md: {found.group(1)} does not follow {version}"
    below = re.findall(r"^### (.*)$", text[found.end():].split("\n## ")[0], re.M)
    yield "" if below == [part for part in PARTS if part in below] and below else f"CHANGELOG.md: the headings are not {PARTS}, but {below}"


def of_others(top, version):
    """The files that say the version and are no places of it: one text, empty if there is none."""
    known = {path for path, _ in PLACES} | {"VERSION", "tests/tools/version_test.py"}
    number = re.compile(rf"(?<![\d.]){re.escape(version)}(?![\d.]*\d)")
    others = [path for path in files(top) if path not in known and not PASSED_OVER.search(path) and number.search(read(top, path))]
    return f"{', '.join(sorted(others))}: the version stands there too, and nothing compares it" if others else ""


def compared(top):
    """One text for each comparison, empty if it is right."""
    said = read(top, "VERSION")
    version = said.strip()
    yield "" if said == f"{version}\n" and numbers(version) else "VERSION: not one line with three numbers"
    yield from of_places(top, version)
    yield from of_changes(top, version)


def changes(top):
    """The changes that have to be named: a file, and what is made of its text."""
    version = read(top, "VERSION").strip()
    for path, pattern in PLACES:
        text = read(top, path)
        found = re.search(pattern, text, re.M)
        yield path, text[:found.start(1)] + "9.9.9" + text[found.end(1):]
        yield path, text[:found.start()] + text[found.end():]
    for path, reads in READERS:
        yield path, read(top, path).replace(reads, "/dev/null")
    yield "VERSION", "0.1\n"
    yield "VERSION", f"{version}\n\n"
    text = read(top, "CHANGELOG.md")
    if NEXT.search(text):
        yield "CHANGELOG.md", NEXT.sub(f"## Not released yet: {version}", text)
        yield "CHANGELOG.md", NEXT.sub("## Not released yet", text)
        yield "CHANGELOG.md", text.replace("### Added", "### New", 1)


def of_itself(top):
    """What the test does not see, in a copy of the files that it reads. One text for each try, empty if it was seen."""
    with tempfile.TemporaryDirectory() as copy:
        for path in ["VERSION", *(path for path, _ in PLACES + READERS)]:
            os.makedirs(os.path.dirname(os.path.join(copy, path)), exist_ok=True)
            shutil.copy(os.path.join(top, path), os.path.join(copy, path))
        for path, text in changes(top):
            with open(os.path.join(copy, path), "w", encoding="utf-8") as file:
                file.write(text)
            said = [one for one in compared(copy) if one]
            shutil.copy(os.path.join(top, path), os.path.join(copy, path))
            yield "" if said else f"{path}: a change of it is not named"
        with open(os.path.join(copy, "more.md"), "w", encoding="utf-8") as file:
            file.write(f"tlx {read(top, 'VERSION').strip()}\n")
        yield "" if of_others(copy, read(top, "VERSION").strip()).startswith("more.md:") else "one more file with the version is not named"
        yield from of_release(copy)


def of_release(copy):
    """What is wrong with tools/release where it has to refuse at once: changes that are not released yet, and a version that CHANGELOG.md
    does not have. One text for each, empty if it is refused."""
    made = os.path.join(copy, "made")

    def refused(why, *words):
        run = subprocess.run([os.path.join(copy, "tools/release"), *words, made], capture_output=True, text=True, check=False)
        is_so = (run.returncode, run.stdout) == (1, "") and run.stderr.startswith(f"tools/release: {why}") and not os.path.exists(made)
        return "" if is_so else f"tools/release does not say '{why}', but '{run.stderr.strip()[-200:]}'"

    if NEXT.search(read(copy, "CHANGELOG.md")):
        yield refused("CHANGELOG.md has changes that are not released yet")
    with open(os.path.join(copy, "VERSION"), "w", encoding="utf-8") as file:
        file.write("9.9.9\n")
    yield refused("CHANGELOG.md has no version 9.9.9", "--draft")


def main():
    said = [*compared(TOP), of_others(TOP, read(TOP, "VERSION").strip())]
    tell_faults("a place has the version", said)
    # a tree that fails says nothing about the test
    if not any(said):
        tell_faults("a change is told", of_itself(TOP))


if __name__ == "__main__":
    run_test(main)
