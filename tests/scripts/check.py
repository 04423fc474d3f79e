"""Runs the scripts of this folder by tlx, and compares what it prints with what was worked out by hand, from docs/reference/formats.md.

Each file has scripts with what is printed of each. A key of the file holds for each of its scripts that has not the key itself.

    options      of tlx, of each run: `--serial`, and none, if nobody says
    [[script]]
    head         what the script begins with; then comes `part`, then `tail`, then the bytes of `hex`, in hexadecimal
    parts        in place of `part`: so many scripts, of which the same is printed
    fault        the line of its fault: then nothing is on standard output, and the status is 1
    trace        else what is printed first, then with --history `history`, and by threads `account`
    apart        what depends on the schedule, a regular expression: it is taken out before the texts are compared
    lines        how many lines are printed, with those that are taken out
    status       of a command line: with 2 something is on standard error alone, with 0 on standard output alone

A text is a string or a list of texts. In place of one may stand a table: its `text` is said for each number `turn` from `from` (1, if it
has none) up to `to`. In it stand {turn}, and the names of `wheels`, lists of words that go round. `pieces` of a file are a script in
pieces: each front of it that ends in a piece has the fault that stands beside the piece.

With --history each line of a trace has to stand once in the histories, and no other line. TLX is the path of another tlx. The last line is
'N passed, M failed'.
"""

import os
import re
import subprocess
import tomllib

from harness import run_test, side_by_side, tell
from tlxtools.common import SECONDS, TLX

HERE = os.path.dirname(os.path.abspath(__file__))


def text_of(text, wheels):
    """A text as one string."""
    if isinstance(text, str):
        return text
    if isinstance(text, list):
        return "".join(text_of(part, wheels) for part in text)
    return "".join(text["text"].format(turn=turn, **{name: words[turn % len(words)] for name, words in wheels.items()})
                   for turn in range(text.get("from", 1), text["to"] + 1))


def said(scene, key):
    """What a scene says at a key, as one string."""
    return text_of(scene.get(key, ""), scene.get("wheels", {}))


def script_of(scene):
    """The script of a scene."""
    return "".join(said(scene, key) for key in ("head", "part", "tail")).encode() + bytes.fromhex(scene.get("hex", ""))


def scenes_of(group):
    """The scripts of a file, each with what the file says for all."""
    for script in group.get("script", []):
        for part in script.get("parts", [script.get("part", "")]):
            yield {**group, **script, "part": part}
    front = ""
    for piece, fault in group.get("pieces", []):
        yield from ({**group, "part": front + piece[:end], "fault": fault} for end in range(1, len(piece) + 1))
        front += piece


def scenes():
    """The scripts of all files, with the names of these."""
    for name in sorted(name for name in os.listdir(HERE) if name.endswith(".toml")):
        with open(os.path.join(HERE, name), "rb") as file:
            yield from ((name, scene) for scene in scenes_of(tomllib.load(file)))


def agree(printed):
    """Each line of the traces stands once in the histories, at its place, and no other line."""
    traced = re.findall(r"^m\d+ s\d+ (.*) (p\d+ #\d+)$", printed, re.M)
    served = re.findall(r"^(p\d+ #\d+) w\d+ (.*)$", printed, re.M)
    return sorted(traced) == sorted((message, place) for place, message in served)


def wanted(scene, words):
    """What is printed, as it was worked out: on standard output, on standard error, and the status."""
    if "fault" in scene:
        return "", f"{scene['fault']}\n", 1
    history = said(scene, "history") if "--history" in words else ""
    account = "" if "--serial" in words else said(scene, "account")
    return said(scene, "trace") + history + account, "", 0


def is_right(scene, words, run):
    """Whether a run is as it was worked out."""
    printed, told, status = run.stdout, run.stderr, run.returncode
    if "status" in scene:
        return (printed != "", told != "", status) == (scene["status"] == 0, scene["status"] != 0, scene["status"])
    rest = re.sub(scene["apart"], "", printed, flags=re.M) if "apart" in scene else printed
    return ((rest, told, status) == wanted(scene, words) and scene.get("lines", printed.count("\n")) == printed.count("\n")
            and ("--history" not in words or agree(printed)))


def failure_of(scene, words):
    """What a run of a script printed, if that is wrong; else nothing."""
    script = script_of(scene)
    run = subprocess.run([TLX, *words], input=script.decode("latin-1"), capture_output=True, encoding="latin-1", timeout=SECONDS,
                         check=False)
    if is_right(scene, words, run):
        return ""
    return f"\n  wanted {wanted(scene, words)}\n  found {run}"[:6000]


def main():
    cases = [(name, scene, options.split()) for name, scene in scenes() for options in scene.get("options", ["--serial", ""])]
    for (name, scene, words), failure in zip(cases, side_by_side(failure_of, [case[1:] for case in cases])):
        tell(f"{name}: tlx {' '.join(words)} of {script_of(scene)[:2000]!r}", not failure, failure)


if __name__ == "__main__":
    run_test(main)
