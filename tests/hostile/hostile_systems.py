"""Hostile system files and captures, and what tlcheck makes of them; tests/hostile/hostile runs it.

The system of a seed is random bytes, random words, an example with bytes or lines changed, or one of random values, lawful ones up to each limit
or also some beyond. It may name images that are not there, are a folder, are longer than their range, or can't be read. Its capture is an
example's, or has random rows, with bytes and lines changed. The program must end within a minute, with a status and lines of docs/reference/faults.md. If it
is asked what was covered, it writes that with a verdict, and not without one.
"""

import os
import random
import re
import subprocess

from tlxtools import coverage_text
from tlxtools.common import GROUPS, HEADER, LONGEST_SCRIPT, LONGEST_WAIT, OPERATIONS, ORDER_WORDS, REPLIES, SECONDS, SYSTEM_KINDS, TLCHECK, TOP, system_of
from tlxtools.system_keys import SYSTEM_KEYS

KEY = "|".join(sorted({key for keys in SYSTEM_KEYS.values() for key in keys}))
NAME = "[A-Za-z0-9_.-]+"
UNKNOWN = rf"[^\n]+ \(near: ({KEY})\)"
SYSTEM_FAULT = re.compile(
    rf"system: (longer than {LONGEST_SCRIPT} bytes|not TOML|missing ({KEY})|wrong type of ({KEY})|({KEY}) out of range|two are called {NAME}"
    rf"|unknown key {UNKNOWN}"
    r"|port \d+: image can't be read|port \d+: image is longer than its range|ports \d+ and \d+ overlap|too many masters or sources"
    r"|masters \d+ and \d+ share source \d+|port \d+: too many masters or sources|port \d+: masters \d+ and \d+ share source \d+)\n")
CAPTURE_FAULT = re.compile(r"capture: line \d+: (wrong header|row too long|cut by a fault|wrong count of columns|bad number|number out of range|no such link"
                           r"|no such channel|time falls|two beats at one time)\n")
# of what begins as a dump: no system here names signals
UNNAMED = re.compile(r"system: (missing clock|no signals|(port|master) \d+: no signals)\n")
REPLY = rf"({'|'.join(REPLIES)})( denied)?( ([0-9a-f]{{2}}|xx)+)?"
TRACE = re.compile(rf"m\d+ s\d+ ({'|'.join(OPERATIONS)}) 0x[0-9a-f]+ [0-8]( ([0-9a-f]{{2}}|--)+)? -> {REPLY} p\d+ #\d+")
ENDS = {
    0: re.compile(r"lawful: \d+ rows, \d+ requests, \d+ answered"),
    3: re.compile(rf"unlawful: line \d+, time \d+, {NAME} [AD]: ([a-z' ]+|wrong reply: expected {REPLY}, captured {REPLY})"
                  r"|empty: no request"
                  r"|incomplete: [1-9]\d* requests without reply, the first: "
                  rf"line \d+, time \d+, m\d+ s\d+ ({'|'.join(OPERATIONS)}) 0x[0-9a-f]+ [0-8]"),
}
# Images that are there, and names that are none of a file that can be read to its end within a range.
IMAGES = {"none.bin": None, "short.bin": 16, "page.bin": 4096, "long.bin": 70000}
OTHERS = ("missing.bin", "folder", "dangling.bin", "", ".", "short.bin/", "/proc/self/mem", "/dev/null", "a" * 300, "\\u0000")
WORDS = ["bus", "port", "master", "kind", "base", "length", "ranges", "image", "unknown", "sizes", "order", "mirror", "volatile", "resets", "on_reset", "hosts",
         "sources", "crossing", "fifo", "first", "stride", "name", "names", "signals", "=",
         "=", "[[port]]", "[[master]]", "[", "]", "{", "}", ",", "\n", "\n", "0", "1", "4", "64", "-1", "65536", "0x1000", "1.5", "true", "'ram'",
         "'device'", "'short.bin'", "'00ff'", "'accept'", "[0, 3]", "'''", '"""', "#", "\\", "\0", "é"]
VALUES = ["0", "1", "2", "4", "16", "-1", "64", "0x1000", "0x1_0000", "65536", "9223372036854775807", "9223372036854775808", "1.5", "true", "false",
          "'ram'", "'rom'", "'regs'", "'w1c'", "'device'", "'error'", "''", "'00'", "'0'", "'short.bin'", "'long.bin'", "'missing.bin'", "'folder'",
          "'accept'", "'reply'", "'any'", "'all'", "'none'", "'same'", "'m0'", "'dram'", "[[0, 1]]", "[[0, 1], [0, 1]]", "[]", "{}",
          "{ get = [0, 2] }", "{ get = [2, 0] }",
          "{ get = 1 }", "[1]", "[0]", "['core', 0]", "[{ master = 0, first = 0 }]", "[{ master = 1, first = 65535, stride = 2 }]"]
CELLS = ["0", "1", "2", "3", "4", "7", "8", "9", "10", "256", "65536", "m0", "m1", "p0", "p1", "p300", "A", "D", "", "", "1000", "f", "0f", "ff", "x",
         "00000000", "0000000000000000", "xxxxxxxx", "18446744073709551616", '"', '"1"', "é", "\0"]


def examples():
    """The text of each example of a capture, with that of its system."""
    systems = os.path.join(TOP, "examples", "systems")
    paths = [os.path.join(TOP, "examples", "captures"), *(os.path.join(systems, name) for name in sorted(os.listdir(systems)))]
    fronts = [os.path.join(path, name[:-4]) for path in paths for name in sorted(os.listdir(path)) if name.endswith(".csv")]
    return [(read(system_of(front)), read(front + ".csv")) for front in fronts]


def read(path):
    with open(path, "rb") as file:
        return file.read()


def changed(rng, text):
    """A text with bytes changed, left out or put in, and lines dropped, doubled or exchanged."""
    for _ in range(rng.randint(0, 2)):
        lines = text.splitlines(keepends=True) or [b"\n"]
        at, other = rng.randrange(len(lines)), rng.randrange(len(lines))
        lines[at:at + 1] = rng.choice([[], [lines[at]] * 2, [lines[other]]])
        text = b"".join(lines)
    made = bytearray(text)
    for _ in range(rng.randint(0, 4)):
        at = rng.randrange(len(made) + 1)
        made[at:at + rng.randint(0, 2)] = rng.choice([b"", bytes([rng.randrange(256)]), b"0", b"9", b"-", b"'", b"[", b"=", b",", b"x"])
    return bytes(made)


def changed_capture(rng, capture):
    """A capture with bytes and lines changed, mostly after its header; or with random rows; or one that ends early."""
    header, rows = capture.split(b"\n", 1)
    way = rng.random()
    if way < 0.6:
        return header + b"\n" + changed(rng, rows)
    return changed(rng, capture) if way < 0.7 else rows_of(rng) if way < 0.8 else capture[:rng.randrange(len(capture))]


def changed_system(rng, system):
    """A system with a value of a key changed, or with bytes and lines changed."""
    keys = [*re.finditer(rb"(?m)^\w+ = (.*)$", system)]
    if rng.random() < 0.3:
        return changed(rng, system)
    value = rng.choice(keys)
    return system[:value.start(1)] + rng.choice(VALUES).encode() + system[value.end(1):]


def image_of(rng):
    return rng.choice([*IMAGES, *IMAGES, *OTHERS])


def sizes_of(rng, wild):
    """A table of sizes: of some groups, with pairs that are lawful or also others."""
    pairs = ["[2, 2]", "[2, 3]", "[3, 3]", "[0, 8]", "[4, 8]"] + ["[3, 2]", "[-1, 3]", "[0, 9]", "[0]", "1", "[0, '1']"] * wild
    return "{ " + ", ".join(f"{group} = {rng.choice(pairs)}" for group in [*GROUPS, "acquire"] if rng.random() < 0.5) + " }"


def port_of(rng, place, wild):
    """A port whose keys have random values, many of them at a limit: lawful, or else some of them beyond."""
    odd = wild and rng.random() < 0.2
    text = [f"kind = '{rng.choice([*SYSTEM_KINDS, 'RAM'] if odd else SYSTEM_KINDS)}'"]
    base = rng.choice([0x1000, 2 ** 63 - 1, 2 ** 63, -1] if odd else [0x10000 * (place + 1)])
    length = rng.choice([0, 2 ** 63 - 1, 2 ** 63, -1] if odd else [1, 16, 4096, 65536])
    if rng.random() < 0.3:
        count = rng.choice([1, 2, 16] + [0, 17] * odd)
        text.append(f"ranges = {[[base + 0x100 * at, min(length, 0x100) - (at and odd and rng.random() < 0.1)] for at in range(count)]}")
    else:
        text.append(f"base = {base}\nlength = {length}")
    for chance, key, values in (
            (0.2, "reset", ["''", "'fF'"] + ["'0'", "'0g'", "'FF' ", "1", f"'{'00' * 70000}'"] * odd),
            (0.3, "image", [f'"{image_of(rng)}"'] if odd else ["'short.bin'"]),
            (0.3, "unknown", ["true", "false"] + ["1", "'true'"] * odd),
            (0.3, "order", ["'accept'", "'reply'", "'any'", "{}", "{ ports = 'any' }", "{ masters = 'any', ports = 'reply' }"]
             + ["'all'", "1", "'any/any'", "{ masters = 1 }", "{ ports = 'all' }", "{ port = 'any' }", "['any']"] * odd),
            (0.3, "bus", [1, 2, 4, 8, 16, 32, 64] + [0, 3, 128, -8, "'8'", 2 ** 62] * odd),
            (0.3, "sizes", [sizes_of(rng, odd)]),
            (0.3, "mirror", ["true", "false"] + ["1", "'true'", "[]"] * odd),
            (0.3, "volatile", ["[[0, 1]]", "[[0, 1], [0, 1]]"] + ["[]", "[[0, 0]]", "[[1, 65536]]", "[[-1, 1]]", "[0, 1]", "1", f"{[[0, 1]] * 65}"] * odd),
            (0.3, "on_reset", ["'keep'", "'load'"] + ["''", "'Keep'", "true", "[]"] * odd),
            (0.2, "hosts", ["[0]"] + ["[1, 0]", "[]", "[0, 0]", "[-1]", "['m0']", "[0.0]", "1", f"{[*range(64)]}", f"{[0] * 65}"] * odd),
            (0.1, "sources", ["[{ master = 0, first = 9 }]"] + ["[]", "1", "[{}]", "[{ master = 0, first = 65535, stride = 65535 }]",
                                                                "[{ master = 1, first = 0 }, { master = 0, first = 0 }]", "[{ first = 0, x = 1 }]"] * odd),
            (0.3, "crossing", ["'none'", "'same'"] + ["''", "'None'", "'parts'", "true", "['none']", "{}"] * odd),
            (0.3, "fifo", ["true", "false"] + ["1", "'true'", "[]"] * odd),
            (0.3, "name", [f"'s{place}'"] + ["'p0'", "''", "1", "'s0'"] * odd)):
        if rng.random() < chance:
            text.append(f"{key} = {rng.choice(values)}")
    return "[[port]]\n" + "\n".join(text)


def valued(rng, wild):
    """A system of random values."""
    buses = [1, 2, 4, 8, 16, 32, 64] + [0, 3, 128, 1.5, "true"] * (wild and rng.random() < 0.1)
    text = [f"bus = {rng.choice(buses)}"] if rng.random() < 0.7 else []
    if rng.random() < 0.3:
        text.append(f"resets = {rng.choice(['true', 'false'] + ['1', chr(39) * 2, '[]'] * (wild and rng.random() < 0.1))}")
    text += [port_of(rng, place, wild) for place in range(rng.choice([0, 1, 2, 3] + [15, 255, 256] * (rng.random() < 0.05)))]
    for place in range(rng.choice([1, 2, 3] + [0, 64, 65] * (wild and rng.random() < 0.1))):
        text.append(f"[[master]]\nsources = {rng.choice([1, 2, 4] + [0, 257, 65536, 65537] * (wild and rng.random() < 0.2))}")
        if wild and rng.random() < 0.2:
            text.append(f"first = {rng.choice([0, place * 8, 65535, 65536, -1])}\nstride = {rng.choice([1, 4, 65535, 0, 65536])}")
        if rng.random() < 0.2:
            reached = ["[]", "[0]", "['s0']", "[0, 1]"] + ["[0, 0]", "[255]", "[-1]", "[1.0]", "[[]]", "0"] * wild
            text.append(f"reach = {rng.choice(reached)}")
        if rng.random() < 0.2:
            text.append(f"fifo = {rng.choice(['true', 'false'] + ['1', chr(39) * 2, '[true]'] * (wild and rng.random() < 0.2))}")
    return "\n".join(text).encode()


def rows_of(rng):
    """Random cells as rows, under the header."""
    rows = [",".join(rng.choice(CELLS) for _ in range(rng.choice([12, 12, 12, 11, 13, 1]))) for _ in range(rng.randrange(8))]
    return "\n".join([HEADER, *rows]).encode()


def files_of(seed, found):
    """The system and the capture of a seed."""
    rng = random.Random(f"system {seed}")
    kind = seed % 8
    system, capture = rng.choice(found)
    if kind == 0:
        system = rng.choice([rng.randbytes(rng.randrange(400)), " ".join(rng.choice(WORDS) for _ in range(rng.randrange(60))).encode()])
    elif kind < 3:
        system = valued(rng, kind == 1)
    elif kind < 5:
        system = changed_system(rng, system)
    return system, capture if kind in (1, 3) else changed_capture(rng, capture)


def put_images(folder):
    """The images that systems of this module and of the examples name."""
    for name, length in IMAGES.items():
        with open(os.path.join(folder, name), "wb") as file:
            file.write(bytes(length or 0))
    for name in ("boot_rom.bin", "flash.bin", "uncleared.bin"):
        with open(os.path.join(folder, name), "wb") as file:
            file.write(b"\x97\x02\x00\x00")
    os.mkdir(os.path.join(folder, "folder"))
    os.symlink(os.path.join(folder, "missing.bin"), os.path.join(folder, "dangling.bin"))


def run(words, given):
    try:
        done = subprocess.run([TLCHECK, *words], input=given, capture_output=True, timeout=SECONDS, check=False)
    except subprocess.TimeoutExpired:
        return "it had not ended", "", ""
    return done.returncode, done.stdout.decode("utf-8", "replace"), done.stderr.decode("utf-8", "replace")


def is_right(status, out, err, traces):
    """Whether a run ended in a way of docs/reference/faults.md."""
    lines = out.split("\n")
    if lines.pop() != "":
        return False
    if status == 1:
        fault = (SYSTEM_FAULT.fullmatch(err) or UNNAMED.fullmatch(err)) and not lines or CAPTURE_FAULT.fullmatch(err)
    else:
        fault = status in ENDS and err == "" and lines and ENDS[status].fullmatch(lines.pop())
    return bool(fault) and all(TRACE.fullmatch(line) for line in lines) and (traces or not lines)


def wrong_coverage(path, is_wanted):
    """What is wrong with the coverage that runs have left, which is removed; nothing if none is there and none is wanted."""
    if not os.path.exists(path):
        return "no coverage" if is_wanted else ""
    with open(path, encoding="utf-8", errors="replace") as file:
        text = file.read()
    os.remove(path)
    try:
        coverage_text.read(text)
    except coverage_text.NoCoverage as fault:
        return f"coverage: {fault}"
    return "" if is_wanted else "a coverage that nobody asked for, or without a verdict"


def judge(seed, found, folder):
    """What is wrong with the runs of a seed, and the status that they ended with: the capture is a file, and standard input."""
    rng = random.Random(f"words {seed}")
    system, capture = files_of(seed, found)
    paths = [os.path.join(folder, f"{seed}.{end}") for end in ("toml", "csv")]
    for path, text in zip(paths, (system, capture)):
        with open(path, "wb") as file:
            file.write(text)
    words = ["--links", rng.choice(["both", "masters", "ports", "each"]), "--order", rng.choice(ORDER_WORDS)]
    words += [word for word in ("--trace", "--complete") if rng.random() < 0.5]
    words += ["--within", str(rng.choice([1, 2, 3, 5, 1 << 32, LONGEST_WAIT]))] * (rng.random() < 0.3)
    coverage = os.path.join(folder, f"{seed}.cov")
    words += ["--coverage", coverage] * (rng.random() < 0.5)
    read_file, read_input = run([*words, *paths], b""), run([*words, paths[0], "-"], capture)
    for path in paths:
        os.remove(path)
    wrong = wrong_coverage(coverage, coverage in words and read_file[0] in ENDS)
    if wrong:
        return f"{words}: {read_file}, {wrong}", read_file[0]
    if read_file != read_input:
        return f"{words}: of a file {read_file}, of standard input {read_input}", read_file[0]
    return "" if is_right(*read_file, "--trace" in words) else f"{words}: {read_file}", read_file[0]
