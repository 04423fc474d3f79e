"""Judges the captures of this folder by tlcheck, and compares what it prints with what was worked out by hand.

Each file has a system, the options, and captures with what is said of each: by hand, from the formats and from the chapters "Beats and
bursts" and "TL-UL and TL-UH operations" of the TileLink specification.

    options      of tlcheck
    system       the system file; or `ports` and `masters`: so many alike, port N with a byte at 0x1000 + N
    images       the files of its ports, in hexadecimal
    [[capture]]
    bus          of the system, in bytes, if the file has several; or `buses`, on each of which the capture is judged
    rows         after the header; or `text`, the whole capture; or `long_row`, the length of its one row
    says         what is printed
    covers       what the file of --coverage holds then
    instead      pairs: rows in place of those of the same times, and what is printed of the capture then

TLCHECK is the path of another tlcheck. The last line is 'N passed, M failed'.
"""

import os
import subprocess
import tempfile
import tomllib

from harness import run_test, side_by_side, tell
from tlxtools.common import HEADER, TLCHECK

HERE = os.path.dirname(os.path.abspath(__file__))
STATUSES = {"lawful": 0, "unlawful": 3, "incomplete": 3, "empty": 3}
FAULT = 1


def system_of(group, capture):
    """The text of the system file."""
    if "ports" in group:
        ports = "".join(f"[[port]]\nkind = 'ram'\nbase = {0x1000 + port}\nlength = 1\n" for port in range(group["ports"]))
        return ports + group["masters"] * "[[master]]\nsources = 3\n"
    bus = f"bus = {capture['bus']}\n" if "bus" in capture else ""
    return bus + group["system"]


def text_of(capture):
    """The text of the capture."""
    if "long_row" in capture:
        return HEADER + "\n" + capture["long_row"] * "1"
    return capture.get("text", HEADER + "\n" + capture.get("rows", ""))


def put(folder, name, content):
    path = os.path.join(folder, name)
    os.makedirs(os.path.dirname(path), exist_ok=True)
    with open(path, "wb") as file:
        file.write(content)


def content(path):
    """What a file holds; nothing if it is not there."""
    try:
        with open(path, encoding="utf-8") as file:
            return file.read()
    except FileNotFoundError:
        return ""


def found(group, capture):
    """What tlcheck prints, the status with which it ends, and what the file of the coverage holds."""
    with tempfile.TemporaryDirectory() as folder:
        put(folder, "system.toml", system_of(group, capture).encode())
        put(folder, "capture.csv", text_of(capture).encode())
        for name, digits in group.get("images", {}).items():
            put(folder, name, bytes.fromhex(digits))
        words = [TLCHECK, *group["options"].split(), *(["--coverage", "covered"] if "covers" in capture else [])]
        run = subprocess.run([*words, "system.toml", "capture.csv"], cwd=folder, stdout=subprocess.PIPE, stderr=subprocess.STDOUT,
                             encoding="utf-8", check=False)
        return run.stdout, run.returncode, content(os.path.join(folder, "covered"))


def other(capture, rows, says):
    """The capture with these rows in place of those of the same times."""
    changed = {row.split(",")[0]: row for row in rows.splitlines()}
    kept = [changed.get(row.split(",")[0], row) for row in capture["rows"].splitlines()]
    return {"rows": "".join(f"{row}\n" for row in kept), "says": says}


def each(capture):
    """The capture on each of its buses, and as its other rows make it."""
    others = [other(capture, *pair) for pair in capture.get("instead", [])]
    return [capture | {"bus": bus} for bus in capture["buses"]] if "buses" in capture else [capture, *others]


def wanted(capture):
    """The same as it was worked out."""
    last = capture["says"].rstrip("\n").split("\n")[-1]
    return capture["says"], STATUSES.get(last.split(":")[0], FAULT), capture.get("covers", "")


def main():
    cases = []
    for name in sorted(name for name in os.listdir(HERE) if name.endswith(".toml")):
        with open(os.path.join(HERE, name), "rb") as file:
            group = tomllib.load(file)
        cases += [(name, group, judged) for capture in group["capture"] for judged in each(capture)]
    answers = side_by_side(found, [case[1:] for case in cases])
    for (name, _, capture), answer in zip(cases, answers):
        tell(f"{name}: {capture}", answer == wanted(capture), f"\n  found {answer}")


if __name__ == "__main__":
    run_test(main)
