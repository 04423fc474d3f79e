"""Judges random captures, lawful and unlawful, and compares all that is written with a judge of its own.

Usage: tests/hostile/random_captures [COUNT [FIRST_SEED [BUS]]]. With BUS all links have buses of BUS bytes.

A seed has a random system (tests/hostile/random_systems.py): buses of 1 to 64 bytes, also mixed ones after width adapters, memories with unknown and
volatile bytes, images, tables of sizes, devices, several ranges, also of one memory, masters with sources in low bits, ports that list the
masters that reach them and their sources there, ports that are judged by themselves, links whose replies come in order, corrupt data of requests
and replies, resets in between. A
crossbar is run there, without a bug or with one, also with adapters that renumber sources or that have memories of their own, and what its
monitors capture is judged. Then rows of it are changed, left out, doubled or cut short, or are no longer rows. Each capture is judged with
random options by tlcheck and by tools/tlxtools/judge_model.py, which have to agree in each byte: verdict, trace, counts and status. Limits of time are
near the times that replies took. What a crossbar without a bug shows must be lawful, or empty if no request crossed the watched links. Of every
second seed both also count what each capture has covered (tools/tlxtools/coverage_model.py).
Every fifth seed is the serial run of a script by tlx (tools/capture.py), which must be lawful with each option, also with the longest time of a
reply as the limit, and whose trace must be that of tlx. If there are 1,000 seeds or more, each kind of fault has to come. The gate runs seeds
0 to 999. It needs the built programs (./tlx and ./tlcheck build them; TLX=path and TLCHECK=path take others).
"""

import collections
import concurrent.futures
import functools
import os
import random
import re
import subprocess
import sys
import tempfile
import tomllib

from harness import need, run_test, tell
from random_systems import BUGS, Run, hosts_of, system_of
from tlxtools import capture
from tlxtools.common import BUSES, HEADER, LONGEST_WAIT, OPERATIONS, ORDERS, ORDER_WORDS, SECONDS, TLCHECK, TLX, carries_data, order_at
from tlxtools.coverage_model import covered
from tlxtools.judge_model import judged
from tlxtools.script_text import text_of

# What has to come among the verdicts: without names, numbers and bytes.
KINDS = {
    "lawful", "incomplete", "empty", "unknown opcode", "wrong param", "size out of range", "unaligned address", "field changed", "wrong mask",
    "wrong corrupt flag", "unknown data A",
    "no such source", "source in flight", "not this port's address", "reply without request", "reply before its request ended",
    "reply out of order",
    "size of another request", "opcode of another operation", "unknown data D", "no master sent this request", "the port gave no such reply",
    "wrong reply", "late reply", "no reply in time", "wrong header", "row too long", "cut by a fault", "wrong count of columns", "bad number",
    "number out of range", "no such link", "no such channel", "time falls", "two beats at one time"}
COLUMNS = HEADER.split(",")
VIEWS = ("both", "masters", "ports", "each")
# What may stand in a column in place of what does: the numbers near each limit, and what is no number.
WORDS = ("", "0", "1", "2", "3", "7", "8", "9", "255", "256", "65535", "65536", "18446744073709551615", "18446744073709551616", "x", "-1", "0x1",
         " 1", "1.0", "00", "0f", "m0", "m9", "p0", "p1", "p9", "q0", "reset", "A", "D", "B")
RESET = "reset" + "," * 10


def kind_of(line):
    """The kind of a last line."""
    found = re.match(r"unlawful: line \d+, time \d+, \S+ ([AD]): ([^:]*)", line)
    if found:
        return f"{found[2]} {found[1]}" if found[2] == "unknown data" else found[2]
    return line.split(": ", 2)[2] if line.startswith("capture: ") else line.split(":")[0]


# ---- changed captures

def changed_column(rng, rows):
    """A column of a row is another word."""
    at = rng.randrange(len(rows))
    words = rows[at].split(",")
    column = rng.randrange(len(words))
    words[column] = rng.choice(WORDS)
    return [*rows[:at], ",".join(words), *rows[at + 1:]]


def changed_digit(rng, rows):
    """A digit of a column with digits is another one, or unknown."""
    at = rng.randrange(len(rows))
    words = rows[at].split(",")
    columns = [column for column, word in enumerate(words) if word and column not in (1, 2)]
    column = rng.choice([*columns, *(column for column in columns if column in (3, 4, 5, 8, 9))])
    place = rng.randrange(len(words[column]))
    digit = rng.choice("0123456789" if column not in (7, 8, 9) else "0123456789abcdefx" if column == 9 else "0123456789abcdef")
    words[column] = words[column][:place] + digit + words[column][place + 1:]
    return [*rows[:at], ",".join(words), *rows[at + 1:]]


def near_field(rng, rows):
    """A field of a beat is that of another row of its channel."""
    at = rng.randrange(len(rows))
    words = rows[at].split(",")
    others = [other.split(",") for other in rows if other.split(",")[2] == words[2]]
    column = rng.choice([column for column in range(3, 12) if words[column]] or [0])
    words[column] = rng.choice(others)[column]
    return [*rows[:at], ",".join(words), *rows[at + 1:]]


def other_code(rng, rows):
    """A small number of a beat is another one, up to just beyond its greatest."""
    at = rng.randrange(len(rows))
    words = rows[at].split(",")
    column, most = rng.choice([(3, 7), (4, 5), (5, 10), (5, 10), (10, 1), (11, 1)])
    if words[column]:
        words[column] = str(rng.randint(0, most))
    return [*rows[:at], ",".join(words), *rows[at + 1:]]


def other_source(rng, rows):
    """All messages of a source of a link have another one: that of another master or of the same one, or nobody's."""
    _, link, _, _, _, _, source, *_ = rng.choice(rows).split(",")
    if not source:
        return rows
    other = str(min(max(0, int(source) + rng.choice([-2, -1, 1, 2, 4, 8, int(source)])), 65_535))
    split = [row.split(",") for row in rows]
    return [",".join([*words[:6], other, *words[7:]] if (words[1], words[6]) == (link, source) else words) for words in split]


def unknown_lane(rng, rows):
    """A lane that carries a byte, or none, is unknown."""
    places = [at for at, row in enumerate(rows) if row.split(",")[9]]
    if not places:
        return rows
    at = rng.choice(places)
    words = rows[at].split(",")
    lane = rng.randrange(len(words[9]) // 2)
    words[9] = words[9][:2 * lane] + rng.choice(["xx", "Z0", "0x"]) + words[9][2 * lane + 2:]
    return [*rows[:at], ",".join(words), *rows[at + 1:]]


def without_row(rng, rows):
    at = rng.randrange(len(rows))
    return [*rows[:at], *rows[at + 1:]]


def doubled_row(rng, rows):
    """A row comes once more: at the same time, or later."""
    at = rng.randrange(len(rows))
    to = rng.choice([at + 1, rng.randrange(at, len(rows)) + 1])
    time = rows[to - 1].split(",")[0]
    return [*rows[:to], ",".join([str(int(time) + rng.randrange(2)), *rows[at].split(",")[1:]]), *rows[to:]]


def added_reset(rng, rows):
    """A reset in between, at the time of a beat."""
    at = rng.randrange(len(rows))
    return [*rows[:at], f"{rows[at].split(',')[0]},{RESET}", *rows[at:]]


def exchanged_rows(rng, rows):
    """Two rows have each other's columns, but for their times."""
    at, to = rng.randrange(len(rows)), rng.randrange(len(rows))
    rows = list(rows)
    first, second = rows[at].split(","), rows[to].split(",")
    rows[at], rows[to] = ",".join([first[0], *second[1:]]), ",".join([second[0], *first[1:]])
    return rows


def broken_text(rng, rows):
    """A row that is none: of one column more or less, longer than any, of an earlier time, a header, or the end of a capture that was cut short; or
    a line without a row."""
    at = rng.randrange(len(rows))
    other = rng.choice([rows[at] + ",", rows[at].rsplit(",", 1)[0], rows[at] + "0" * 5000, "0" + rows[at][rows[at].index(","):], HEADER, "fault", ""])
    return [*rows[:at], other, *rows[at + 1:]]


def cut_short(rng, rows):
    return rows[:rng.randrange(len(rows))]


CHANGES = (changed_column, changed_digit, near_field, near_field, other_code, other_code, other_source, unknown_lane, unknown_lane, without_row,
           without_row, doubled_row, added_reset, exchanged_rows, broken_text, cut_short)


# ---- limits of time

def waits_of(rows, links):
    """How long requests of a run waited at the links whose messages are counted: those that were answered up to the reply, the others up to the
    last row."""
    waits, began, side = [], {}, "p" if links == "ports" else "m"
    for row in rows:
        time, link, channel, *_, source = row.split(",")[:7]
        if link == "reset":
            began.clear()
        elif link[0] == side and channel == "A":
            began.setdefault((link, source), int(time))
        elif link[0] == side and (link, source) in began:
            waits.append(int(time) - began.pop((link, source)))
    return waits + [int(time) - first for first in began.values()]


def limit_of(rng, waits):
    """A limit near one of the waits, mostly near the longest; now and then the least or the greatest that there is."""
    near = rng.choice([max(waits, default=1), rng.choice(waits or [1])]) + rng.choice([-2, -1, -1, 0, 0, 1])
    return rng.choice([1, LONGEST_WAIT]) if rng.random() < 0.05 else max(near, 1)


def respelled(rng, text):
    """A capture with the same meaning: digits in capitals, zeros in front of numbers, quotes, and other line ends."""
    ways = [rng.random() < 0.5 for _ in range(4)]
    lines = text.rstrip("\n").split("\n")
    for at, line in enumerate(lines[1:], 1):
        words = line.split(",")
        if ways[0]:
            words[7:10] = [word.upper() for word in words[7:10]]
        if ways[1]:
            words = [f"00{word}" if word and column in (0, 3, 5, 6) and rng.random() < 0.3 else word for column, word in enumerate(words)]
        if ways[2]:
            words = [f'"{word}"' if rng.random() < 0.2 else word for word in words]
        lines[at] = ",".join(words)
    ending = "\r\n" if ways[3] else "\n"
    return ending.join(lines) + rng.choice(["", ending])


# ---- what is judged

class Scene:
    """A system in a folder, and what comes of its captures; with `counts` also what they cover."""

    def __init__(self, folder, system, images, counts=False):
        self.folder, self.system, self.images, self.kinds, self.faults = folder, system, images, collections.Counter(), []
        self.coverage = os.path.join(folder, "coverage") if counts else None
        self.write("system.toml", text_of(system).encode())
        for number, image in images.items():
            self.write(system["port"][number]["image"], image)

    def write(self, name, data):
        with open(os.path.join(self.folder, name), "wb") as file:
            file.write(data)

    def run(self, text, words):
        """What tlcheck writes of a capture, and its status."""
        self.write("capture.csv", text.encode())
        paths = [os.path.join(self.folder, name) for name in ("system.toml", "capture.csv")]
        run = subprocess.run([TLCHECK, *words, *paths], capture_output=True, text=True, timeout=SECONDS, check=False)
        return run.stdout + run.stderr, run.returncode

    def compare(self, rows, links, order, trace, complete, header=HEADER, spelled_by=None, within=None):
        """Has both judge a capture, which tlcheck may get spelled otherwise; the kind of its last line."""
        words = ["--links", links, "--order", order, *["--trace"] * trace, *["--complete"] * complete, *(["--within", str(within)] if within else [])]
        text = "\n".join([header, *rows]) + "\n"
        wanted = judged(self.system, self.images, text, links, order, trace, complete, within)
        if self.coverage:
            words += ["--coverage", self.coverage]
        kind = self.expect(respelled(spelled_by, text) if spelled_by else text, words, wanted)
        if self.coverage:
            self.expect_coverage(words, covered(self.system, self.images, text, links, order, within))
        return kind

    def expect(self, text, words, wanted):
        """Compares what tlcheck writes of a capture with what it has to write, and its status; the kind of the last line that is wanted."""
        found, kind = self.run(text, words), kind_of(wanted[0].splitlines()[-1])
        self.kinds[kind] += 1
        if found != wanted:
            self.faults.append(f"{' '.join(words)}: wrote {found!r}, and should have written {wanted!r}")
        return kind

    def expect_coverage(self, words, wanted):
        """Compares the coverage that tlcheck has left with the one that it has to leave, or none, and removes it."""
        found = None
        if os.path.exists(self.coverage):
            with open(self.coverage, encoding="ascii") as file:
                found = file.read()
            os.remove(self.coverage)
        if found != wanted:
            self.faults.append(f"{' '.join(words)}: the coverage is {found!r}, and should have been {wanted!r}")

    def compare_orders(self, rows, links):
        """What is written of a run with one request at a time is the same whatever the order: no two requests meet, so nothing is lost by "any"."""
        text = "\n".join([HEADER, *rows]) + "\n"
        systems = [{**self.system, "port": [{**port, "order": order} for port in self.system["port"]]} for order in ORDERS]
        if len({judged(system, self.images, text, links, order, trace=True) for system, order in zip(systems, ORDERS)}) > 1:
            self.faults.append(f"--links {links}: orders differ, though there was one request at a time")


def adapters_of(rng, system, order, is_serial):
    """The ports before which something renumbers sources, those before which an adapter has a memory of its own, and the views in which a crossbar
    with these is lawful if it has no bug."""
    ports = {*range(len(system["port"]))}
    apart = {number for number in ports if system["port"][number].get("crossing") == "none"}
    # at the masters' links requests may be in another order than at a port's, unless they come one at a time, or have no order there
    told = ports if is_serial else {number for number in ports if order_at(system["port"][number], "m", order) == "any"}
    how = rng.random()
    if how < 0.2:
        fronts = {number for number in ports if number not in told or rng.random() < 0.3}
        return ports, fronts, ["masters", "each"]
    if apart and how < 0.8:
        fronts = {number for number in apart if number not in told or rng.random() < 0.5}
        renumbered = {number for number in apart - fronts if rng.random() < 0.7}
        return renumbered, fronts, ["both", "both", *["masters", "each"] * (ports <= told | fronts)]
    return set(), set(), [*VIEWS] if ports <= told else ["both", "ports"] if apart <= told else ["ports"]


def try_run(rng, scene):
    """Judges a run of a crossbar without a bug or with one, as it is and changed."""
    order, is_serial = rng.choice(ORDERS if rng.random() < 0.6 else ORDER_WORDS), rng.random() < 0.3
    renumbered, fronts, views = adapters_of(rng, scene.system, order, is_serial)
    bug = rng.choice(BUGS) if rng.random() < 0.5 else None
    rows = Run(rng, scene.system, scene.images, order, bug, is_serial, renumbered, fronts).rows()
    view = rng.choice(views)
    kind = scene.compare(rows, view, order, True, True, spelled_by=rng)
    if kind not in ("lawful", "empty") and bug is None:
        scene.faults.append(f"a crossbar without a bug is {kind}, links {view}")
    # a reset drops a request that has its place in its port's list by one order, and not by another; an adapter with a memory asks when it likes
    if is_serial and not fronts and bug not in ("sent twice", "source sent twice") and not any(row.endswith(RESET) for row in rows):
        scene.compare_orders(rows, view)

    waits = {view: waits_of(rows, view) for view in VIEWS}

    def judge(rows, header=HEADER):
        view = rng.choice(views if rng.random() < 0.8 else VIEWS)
        within = limit_of(rng, waits[view]) if rng.random() < 0.4 else None
        scene.compare(rows, view, rng.choice([order, order, *ORDER_WORDS]), rng.random() < 0.5, rng.random() < 0.5, header, within=within)

    judge(rows)
    for _ in range(5 if rows else 0):
        judge(rng.choice(CHANGES)(rng, rows))
    if rng.random() < 0.02:
        judge(rows, rng.choice(["", HEADER[1:], HEADER.upper(), HEADER + ","]))


# ---- serial runs of tlx

def operation_of(rng, bases, sources):
    """An operation: its address is mostly one of a port's, and mostly a multiple of its size."""
    name = rng.choice([*OPERATIONS, "get", "putfull", "putpart"])
    size = rng.choice([2, 3]) if OPERATIONS[name][0] in (2, 3) else rng.randrange(9)
    address = rng.choice([*bases, 0x9000]) + (rng.randrange(256) & -(1 << size) if rng.random() < 0.9 else rng.randrange(256))
    hole = 0.3 if name == "putpart" else 0
    data = " " + "".join("--" if rng.random() < hole else f"{rng.randrange(256):02x}" for _ in range(1 << size)) if carries_data(name) else ""
    return f"{rng.randrange(sources)} {name} {address:#x} {size}{data}"


def script_of(rng):
    """The text of a random script, whose buses are nothing to tlx."""
    bases = [0x1000 * (number + 1) for number in range(rng.randint(1, 4))]
    ports = [{"kind": rng.choice(["ram", "ram", "rom", "regs", "w1c"]), "base": base, "length": 256, "reset": rng.randbytes(rng.randrange(32)).hex(),
              "bus": rng.choice(BUSES)} for base in bases]
    masters = []
    for _ in range(rng.randint(1, 4)):
        sources = rng.randint(1, 5)
        masters.append({"sources": sources, "bus": rng.choice(BUSES), "ops": [operation_of(rng, bases, sources) for _ in range(rng.randint(0, 8))]})
    for port in ports:
        # tlx has a way from each master to each port
        port.update(hosts_of(rng, masters, len(masters)) if rng.random() < 0.3 else {})
        if rng.random() < 0.2:
            port["crossing"] = rng.choice(["none", "same"])
    for table in ports + masters:
        if rng.random() < 0.3:
            # one request at a time has its reply in order
            table["fifo"] = True
    return text_of({"slots": 4, "unaligned": True, "port": ports, "master": masters})


def try_script(rng, scene):
    """The serial run of a script is lawful with each option, and its trace is that of tlx."""
    rows, lines = capture.capture_of(text_of(scene.system))
    text = "\n".join([HEADER, *rows]) + "\n"
    ports = len(scene.system["port"])
    for links in VIEWS:
        told = [line for line in lines if links != "ports" or f" p{ports} #" not in line]
        last = f"lawful: {len(rows)} rows, {len(told)} requests, {len(told)} answered" if told else "empty: no request"
        within = str(max(waits_of(rows, links), default=1))
        scene.expect(text, ["--links", links, "--order", rng.choice(ORDER_WORDS), "--within", within, "--trace", "--complete"],
                     ("".join(line + "\n" for line in [*told, last]), 0 if told else 3))


def on_one_bus(system, bus):
    """A system with buses of `bus` bytes at all of its links; without `bus` the system as it is."""
    if not bus:
        return system
    parts = {kind: [{key: value for key, value in part.items() if key != "bus"} for part in system[kind]] for kind in ("port", "master")}
    return {**system, "bus": bus, **parts}


def try_seed(seed, bus=None):
    """What went wrong with a seed, and how often each kind of verdict came."""
    rng = random.Random(seed)
    with tempfile.TemporaryDirectory() as folder:
        if seed % 5 == 4:
            scene = Scene(folder, on_one_bus(tomllib.loads(script_of(rng)), bus), {})
            try_script(rng, scene)
        else:
            system, images = system_of(rng)
            scene = Scene(folder, on_one_bus(system, bus), images, seed % 2 == 0)
            try_run(rng, scene)
    return scene.faults, scene.kinds


def main():
    count = int(sys.argv[1]) if sys.argv[1:] else 1000
    first = int(sys.argv[2]) if sys.argv[2:] else 0
    bus = int(sys.argv[3]) if sys.argv[3:] else None
    need(TLX, TLCHECK)
    seeds, kinds = range(first, first + count), collections.Counter()
    with concurrent.futures.ProcessPoolExecutor() as pool:
        for seed, (faults, came) in zip(seeds, pool.map(functools.partial(try_seed, bus=bus), seeds, chunksize=16)):
            tell(f"seed {seed}", not faults, "\n".join(faults))
            kinds += came
    print(", ".join(f"{number} {kind}" for kind, number in kinds.most_common()))
    missing = KINDS - set(kinds) if count >= 1000 else set()
    if missing:
        tell("each kind of verdict came", False, f"there was no {', '.join(sorted(missing))}")


if __name__ == "__main__":
    run_test(main)
