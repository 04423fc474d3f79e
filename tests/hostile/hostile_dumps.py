"""Hostile dumps, and what tlvcd and tlcheck make of them; tests/hostile/hostile runs it.

The dump of a seed is one of examples/waves or tests/dumps, with bytes changed, left out or put in, with lines dropped, doubled or exchanged,
or cut. tlvcd must end within a minute, with all rows, or with those before a fault and its line (docs/reference/faults.md). tlcheck must
then say of the dump what it says of these rows, if they are unlawful or there is no fault, and else the fault.
"""

import os
import random
import re
import subprocess
import tomllib

from tlxtools.common import HEADER, SECONDS, TLCHECK, TLVCD, TOP

WAVES = os.path.join(TOP, "examples", "waves")
CUT = "fault\n"
FAULT = re.compile(
    r"tlvcd: (line \d+: (not a dump|no such identifier|bad value|value wider than its signal|time falls|cut in its header|the dump has a gap)"
    r"|((port|master) \d+: )?(no signal [^\n]+|two signals are called [^\n]+|[^\n]+ has \d+ bits, \d+ wanted)"
    r"|time (?P<time>\d+), [mp]\d+ [AD]: [ad]_[a-z]+ is unknown"
    r"|[^\n]+ never (rises|falls)|([^\n]+ is active at every edge|the reset is active at every beat)( \(reset_active = \"low\"\?\))?)\n")
PIECES = [b"", b"0", b"1", b"x", b"z", b"#", b"b", b"!", b" ", b"\n", b"$end", b"$dumpoff\n", b"$dumpon\n", b"\0", b"\xff"]


def examples():
    """Systems with their dumps, and the words of tlcheck for the links that have signals."""
    pairs = [(read(system), read(dump), ["--links", "both"]) for system, dump in (("system.toml", "get.vcd"), ("widths.toml", "widths.vcd"))]
    group = tomllib.loads(read(os.path.join(TOP, "tests", "dumps", "dumps_are_judged.toml")).decode())
    for dump in group["dump"]:
        if "system" not in dump and "head" not in dump:
            pairs.append((group["system"].encode(), (group["head"] + dump["body"]).encode(), ["--links", "masters"]))
    return pairs


def read(name):
    with open(os.path.join(WAVES, name), "rb") as file:
        return file.read()


def changed(rng, dump):
    """A dump with bytes changed, left out or put in, and lines dropped, doubled or exchanged; or its beginning."""
    if rng.random() < 0.2:
        return dump[:rng.randrange(len(dump) + 1)]
    lines = dump.splitlines(keepends=True)
    for _ in range(rng.randint(0, 2)):
        at, other = rng.randrange(len(lines)), rng.randrange(len(lines))
        lines[at:at + 1] = rng.choice([[], [lines[at]] * 2, [lines[other]]])
        lines = lines or [b"\n"]
    text = bytearray(b"".join(lines))
    for _ in range(rng.randint(1, 3)):
        at = rng.randrange(len(text) + 1)
        text[at:at + rng.randint(0, 2)] = rng.choice(PIECES)
    return bytes(text)


def files_of(seed, found):
    rng = random.Random(f"dump {seed}")
    system, dump, words = rng.choice(found)
    dump = changed(rng, dump)
    # some replies there begin 10 units of time after their requests
    limit = ["--within", str(rng.choice([1, 9, 10, 20, 40]))] * (rng.random() < 0.3)
    return system, dump, words + limit


def run(words, given):
    """What a program writes and reports, and its status."""
    try:
        done = subprocess.run(words, input=given, capture_output=True, timeout=SECONDS, check=False)
    except subprocess.TimeoutExpired:
        return "", "", "it had not ended"
    return done.stdout.decode("utf-8", "replace"), done.stderr.decode("utf-8", "replace"), done.returncode


def rows_before(rows, time):
    """The rows of times before one, or all."""
    return [row for row in rows.splitlines(keepends=True) if time is None or int(row.split(",")[0]) < int(time)]


def verdict_of(told, judged):
    """What tlcheck has to say of a dump, by what tlvcd told of it and by what the judge says of rows; or none if tlvcd told nothing lawful."""
    rows, said, status = told
    fault = FAULT.fullmatch(said)
    header = HEADER + "\n"
    if status == 0 and said == "" and rows.startswith(header):
        return judged(rows)
    if status != 1 or not fault or rows and not (rows.startswith(header) and rows.endswith(CUT)):
        return None
    line = said.replace("tlvcd: ", "dump: ", 1)
    before = judged(header + "".join(rows_before(rows.removeprefix(header).removesuffix(CUT), fault["time"])))
    return before if rows and before[0].startswith("unlawful") else ("", line, 1)


def judge(seed, found, folder):
    """What is wrong with the runs of a seed, and the status with which tlcheck ended: the dump is a file for one program, and standard input for the
    other."""
    system, dump, words = files_of(seed, found)
    paths = [os.path.join(folder, f"{seed}.{end}") for end in ("toml", "vcd")]
    for path, text in zip(paths, (system, dump)):
        with open(path, "wb") as file:
            file.write(text)
    check = [TLCHECK, *words, paths[0]]
    told = run([TLVCD, *paths], b"") if seed % 2 else run([TLVCD, paths[0]], dump)
    answer = run(check, dump) if seed % 2 else run([*check, paths[1]], b"")
    wanted = verdict_of(told, lambda rows: run(check, rows.encode()))
    # what no longer begins as a dump is read as a capture
    if not dump.lstrip(bytes(range(33)))[:1] == b"$":
        wanted = run(check, dump) if answer[2] == 1 and answer[1].startswith("capture: line ") else None
    for path in paths:
        os.remove(path)
    return "" if answer == wanted else f"tlvcd {told}, tlcheck {answer}, wanted {wanted}", answer[2]
