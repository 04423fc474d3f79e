"""Compares tools/lint and tools/lint_system, each judging by itself, with the programs. They run on every script of
tests/scripts and every file of tests/tools/system_faults.py and tests/tools/socket_faults.py, on every prefix of an example, and on
examples with bytes changed at random (seeds 0 to 999). The first fault that they print has to be the line that the program
prints, and a file is good for both or for neither. It needs the built programs.
"""

import os
import random
import shutil
import tempfile

import socket_faults
import system_faults
from harness import need, run_test, tell
from scripts.check import scenes, script_of
from tlxtools.commands import lint, lint_system
from tlxtools.common import TLCHECK, TLX, TOP

CHANGES = 1000


def scripts_of_files():
    """Each script of tests/scripts, with the line of its fault; that of a good one is empty."""
    return ((script_of(scene), scene.get("fault", "")) for _, scene in scenes())


def example(*path):
    with open(os.path.join(TOP, "examples", *path), "rb") as text:
        return text.read()


def scripts():
    return [example(name) for name in sorted(os.listdir(os.path.join(TOP, "examples"))) if name.endswith(".toml")]


def systems():
    folder = os.path.join(TOP, "examples", "systems")
    return ([example("systems", name, "system.toml") for name in sorted(os.listdir(folder))]
            + [example("captures", name) for name in ("system.toml", "volatile.toml")])


def put_images(folder):
    """Puts what the systems and the rows of faults name as images into a folder."""
    system_faults.put_images(folder)
    systems_folder = os.path.join(TOP, "examples", "systems")
    for name in sorted(os.listdir(systems_folder)):
        for file in sorted(os.listdir(os.path.join(systems_folder, name))):
            if file.endswith(".bin"):
                shutil.copy(os.path.join(systems_folder, name, file), folder)


def changed(examples):
    """Examples with one to three bytes changed, left out or put in."""
    for seed in range(CHANGES):
        rng = random.Random(seed)
        script = bytearray(rng.choice(examples))
        for _ in range(rng.randint(1, 3)):
            at = rng.randrange(len(script))
            script[at:at + rng.randint(0, 1)] = rng.choice([b"", b"0", b"9", b"-", b"x", b"f", b" ", b'"', b"[", b"\xff", b"="])
        yield bytes(script), None


def prefixes(text):
    return ((text[:end], None) for end in range(len(text)))


def first_line(module, whole, text, folder):
    """What the checker prints by itself: the line of the first fault, or nothing."""
    try:
        faults = module.document_faults(*module.read(text), folder)
    except module.Fault as fault:
        faults = [fault]
    return f"{whole}: {faults[0].said}" if faults else ""


def compare(module, whole, files, folder):
    """Whether a checker and its program say the same of files, in this folder."""
    for text, line in files:
        path = os.path.join(folder, "file.toml")
        with open(path, "wb") as file:
            file.write(text)
        said, program = first_line(module, whole, text, folder), module.asked(text, path)
        tell(f"{whole} {text!r}", said == program and line in (None, program), f"the checker says {said!r}, the program {program!r}, the test {line!r}")


def main():
    need(TLX, TLCHECK)
    checks = ((lint, "script", (scripts_of_files(), prefixes(example("first.toml")), changed(scripts()))),
              (lint_system, "system", (system_faults.rows(), system_faults.rows(socket_faults.TABLES), prefixes(systems()[0]), changed(systems()))))
    with tempfile.TemporaryDirectory() as folder:
        put_images(folder)
        for module, whole, all_files in checks:
            for files in all_files:
                compare(module, whole, files, folder)


if __name__ == "__main__":
    run_test(main)
