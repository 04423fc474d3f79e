"""Tests tools/tlx2vcd. Each row of the captures of examples/captures stands in its VCD, at its time and with its values, and nothing else
does. A verdict marks its row, and a reset has its own mark. A trace has its requests and replies in turn. A line that is no row is reported, with its number.
"""

import csv
import os
import subprocess

from harness import run_test, tell
from tlxtools.common import TOP

PROGRAM = os.path.join(TOP, "tools", "tlx2vcd")
CAPTURES = os.path.join(TOP, "examples", "captures")
NUMBERS = ("opcode", "param", "size", "source", "denied", "corrupt")


def convert(*arguments, text=""):
    """What tlx2vcd makes of a file, and its status."""
    done = subprocess.run([PROGRAM, *arguments], input=text, capture_output=True, text=True)
    return done.stdout, done.stderr, done.returncode


def scenes_of(vcd):
    """The values of all variables, by their path, at each time of a VCD."""
    scope, paths, now, scenes, time = [], {}, {}, {}, None
    for line in vcd.splitlines():
        words = line.split()
        if words[0] == "$scope":
            scope.append(words[2])
        elif words[0] == "$upscope":
            scope.pop()
        elif words[0] == "$var":
            paths[words[3]] = ".".join([*scope, words[4]])
        elif line[0] == "#":
            time = int(line[1:])
        elif line[0] != "$":
            value, identifier = words if len(words) == 2 else (line[0], line[1:])
            now[paths[identifier]] = value
        if time is not None:
            scenes[time] = dict(now)
    return scenes


def digits_of(word):
    """A word of hexadecimal digits as bits, unknown ones among them."""
    return "".join(digit.lower() * 4 if digit in "xXzZ" else f"{int(digit, 16):04b}" for digit in word)


def stands(row, line, scene):
    """A row's values are those of a scene."""
    at = f"{row['link']}.{row['channel']}."
    same = scene[at + "beat"] == "1" and int(scene[at + "line"][1:], 2) == line
    for name in NUMBERS:
        if row[name] and at + name in scene:
            same = same and int(scene[at + name].lstrip("b"), 2) == int(row[name])
    for name in ("address", "mask", "data"):
        if row[name]:
            same = same and scene[at + name][1:].lstrip("0") == digits_of(row[name]).lstrip("0")
    return same


def check_capture(name):
    """Each row of a capture stands in its VCD, and there are no more beats."""
    path = os.path.join(CAPTURES, name + ".csv")
    with open(path, encoding="utf-8-sig", newline="") as file:
        reader = csv.DictReader(file)
        rows = [(row, reader.line_num) for row in reader]
    scenes = scenes_of(convert(path)[0])
    tell(f"{name}: each row stands there", all(stands(row, line, scenes[int(row["time"])]) for row, line in rows))
    beats = sum(value == "1" for scene in scenes.values() for path, value in scene.items() if path.endswith(".beat"))
    tell(f"{name}: no other beats", beats == len(rows))


def main():
    for name in sorted(name[:-4] for name in os.listdir(CAPTURES) if name.endswith(".csv")):
        with open(os.path.join(CAPTURES, name + ".verdict"), encoding="utf-8") as file:
            if "lawful: " in file.read():
                check_capture(name)
    lost = os.path.join(CAPTURES, "lost_write.csv")
    with open(lost[:-4] + ".verdict", encoding="utf-8") as file:
        # with --trace tlcheck writes the replies in front of the verdict
        told = "m0 s0 putfull 0x1000 0 aa -> AccessAck p0 #0\n" + file.read()
    scenes = scenes_of(convert("--verdict", "-", lost, text=told)[0])
    parts = ("unlawful", "fault", "expected", "captured")
    named, none = ["1", "sp0_D:_wrong_reply", "sAccessAckData_aa", "sAccessAckData_00"], ["0", "s-", "s-", "s-"]
    marks = [(time, [scene["tlcheck." + part] for part in parts]) for time, scene in scenes.items()]
    tell("a verdict marks its row", all(mark == (named if time >= 14 else none) for time, mark in marks))
    # a verdict names a link as its system does
    front = os.path.join(CAPTURES, "device_spoiled_on_the_way")
    scenes = scenes_of(convert("--verdict", front + ".verdict", front + ".csv")[0])
    tell("a name in a verdict marks its row", [time for time, scene in scenes.items() if scene["tlcheck.unlawful"] == "1"] == [12, 13] and
         scenes[12]["tlcheck.fault"] == "score_D:_the_port_gave_no_such_reply")
    # a reset at 43, and the next row at 60
    scenes = scenes_of(convert(os.path.join(TOP, "examples", "systems", "sensor_hub", "lawful.csv"))[0])
    tell("a reset stands at its time", [time for time, scene in scenes.items() if scene["tlcheck.reset"] == "1"] == [43] and
         not any(value == "1" for path, value in scenes[43].items() if path.endswith(".beat")))
    with open(os.path.join(TOP, "examples", "first.trace"), encoding="utf-8") as file:
        scenes = scenes_of(convert(text=file.read())[0])
    told = [(time, scene["m0.A.message"], scene["m0.D.message"]) for time, scene in scenes.items()]
    tell("first.trace has its messages", told == [
        (0, "sPutFullData", "s-"), (1, "s-", "sAccessAck"), (2, "sGet", "s-"), (3, "s-", "sAccessAckData"), (4, "s-", "s-")])
    for text, said in (("m0 s0 get\n", "tlx2vcd: line 1: neither a capture's header nor a line of a trace\n"),
                       (open(lost, encoding="utf-8").read() + "15,m0\n", "tlx2vcd: line 9: no row of a capture\n"),
                       (open(lost, encoding="utf-8").read() + "15,reset,A,,,,,,,,,\n", "tlx2vcd: line 9: no row of a capture\n")):
        tell(said.strip(), convert(text=text) == ("", said, 1))
    tell("a missing file", convert("/nowhere")[2] == 66)


if __name__ == "__main__":
    run_test(main)
