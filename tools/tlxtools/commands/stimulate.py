"""Writes a script of random operations for a system: tools/stimulate SYSTEM --seed S --ops N [--mix FILE] [--limits tlx|judge] [--aim REPORT] >SCRIPT.

SYSTEM is a system file or a script, whose operations are replaced. The same words give the same script on any machine. With `--limits tlx`
(the default) the script is one that tlx reads; with `judge` it may have all that a system file may have, and is for a testbench. It names the
images that SYSTEM names, so its place is the folder of SYSTEM. With `--max-size N` messages have 2^N bytes at most, and with `--address-bits N`
addresses lie below 2^N. FILE is a TOML document that replaces weights of MIX below: docs/guide/regression.md says what each means. With --aim the
operations are such that may hit the bins which REPORT, of `tools/coverage report`, says were never hit. Status 1 if SYSTEM is no system or
passes the limits, 2 if the command line, FILE or REPORT is wrong.
"""

import argparse
import bisect
import itertools
import random
import sys
import tomllib

from tlxtools.aims import Aims, NoReport, bins_of
from tlxtools.common import BUS, GROUPS, GROUP_OF, LONGEST_SCRIPT, MAX_SIZE, OPERATIONS, carries_data
from tlxtools.script_text import text_of
from tlxtools.wide_sources import has_lists, has_paths, reached_by

# How often each choice is made, beside the others of its table. `supported`, `wait` and `edge_data` are of 100.
MIX = {
    "operations": {"get": 24, "putfull": 18, "putpart": 15, "min": 2, "max": 2, "minu": 2, "maxu": 2, "add": 4, "xor": 2, "or": 2, "and": 2,
                   "swap": 4, "prefetchr": 2, "prefetchw": 2},
    "sizes": {"0": 3, "1": 3, "2": 8, "3": 8, "4": 3, "5": 2, "6": 2, "7": 1, "8": 1},
    "places": {"hot": 40, "anywhere": 30, "edge": 12, "straddle": 4, "unaligned": 6, "unmapped": 4, "unreached": 0},
    "atomic_places": {"hot": 75, "anywhere": 15, "edge": 4, "straddle": 1, "unaligned": 3, "unmapped": 2, "unreached": 0},
    "masks": {"all": 2, "none": 1, "one": 3, "hole": 3, "low": 2, "high": 2, "even": 2, "odd": 2, "random": 6},
    "sources": {"again": 3, "next": 5, "any": 2},
    "supported": 90,
    "wait": 10,
    "edge_data": 25,
    "hot_words": 3,
}
SIZES = range(MAX_SIZE + 1)
# The sizes that a kind of slave serves, by the group of the operation; docs/reference/formats.md, "What is answered". A device without a table of sizes is
# asked for single words, as most are.
ATOMICS = {name for name, (opcode, _) in OPERATIONS.items() if opcode in (2, 3)}
SERVED = {"ram": {"get": SIZES, "put": SIZES, "atomic": (2, 3), "prefetch": SIZES}, "rom": {"get": SIZES, "prefetch": SIZES},
          "regs": {"get": (2, 3), "putfull": (2, 3)}, "w1c": {"get": (2, 3), "putfull": (2, 3)},
          "device": {"get": range(4), "put": range(4)}}
# What a port of a script of tlx has not.
JUDGED = ("image", "unknown", "sizes", "mirror", "volatile")
# The limits of tlx.
MOST = {"ports": 15, "masters": 16, "sources": 256, "lines": 4096, "length": 65536}
LARGEST = 1 << 64


class Mistake(Exception):
    """What is wrong with the words, with the status that it ends with."""

    def __init__(self, why, status):
        super().__init__(why)
        self.status = status


class Draws:
    """Random choices, by whole numbers alone: the same for a seed in each version of Python."""

    def __init__(self, seed):
        self.bits = random.Random(seed).getrandbits

    def below(self, count):
        return self.bits(64) % count

    def chance(self, of_100):
        return self.below(100) < of_100

    def pick(self, items):
        return items[self.below(len(items))]

    def weighted(self, weights, among=None):
        """A key of a table of weights, of those that are among some; any of these, if all weigh nothing."""
        keys = [key for key in weights if among is None or key in among]
        sums = list(itertools.accumulate(weights[key] for key in keys))
        if not sums[-1]:
            return self.pick(keys)
        return keys[bisect.bisect_right(sums, self.below(sums[-1]))]


class Stimulus:
    """The operations of a system's masters."""

    def __init__(self, system, mix, seed, most, address_bits):
        self.mix, self.draws = mix, Draws(seed)
        self.sizes, self.addresses = {str(size) for size in range(most + 1)}, (1 << address_bits) - 1
        self.ports = [(port, ranges_of(port)) for port in system.get("port", [])]
        self.sources = [master["sources"] for master in system["master"]]
        self.reached = [sorted(reached_by(system, master)) for master in range(len(self.sources))]
        self.may_be_unaligned = system.get("unaligned", False)
        self.buses = [master.get("bus", system.get("bus", BUS)) for master in system["master"]]
        self.last = [0] * len(self.sources)
        self.hot = [self.hot_words(ranges) for _, ranges in self.ports]

    def hot_words(self, ranges):
        """The first addresses of the words of a port that all masters like."""
        return [self.within(ranges, 3) for _ in range(self.mix["hot_words"])]

    def within(self, ranges, size):
        """An address of a range that is a multiple of the size, or the range's first."""
        base, length = self.draws.pick(ranges)
        first, count = -(-base >> size) << size, 0
        if first + (1 << size) <= base + length:
            count = (base + length - first) >> size
        return first + (self.draws.below(count) << size) if count else base

    def unmapped(self, size):
        """An address that no port has: after a range, or the last."""
        ends = [base + length for _, ranges in self.ports for base, length in ranges] or [0x1000]
        address = (self.draws.pick(ends) + (self.draws.below(64) << 3)) >> size << size
        is_held = any(base <= address < base + length for _, ranges in self.ports for base, length in ranges)
        return LARGEST - (1 << size) if is_held or self.draws.chance(10) else address

    def address_of(self, place, port, size):
        ranges, reach = self.ports[port][1], 1 << size
        if place == "hot":
            word = self.draws.pick(self.hot[port]) if self.hot[port] else self.within(ranges, size)
            return word + (self.draws.below(8 >> size) << size) if size < 3 else word >> size << size
        base, length = self.draws.pick(ranges)
        if place == "edge":
            return base if self.draws.chance(50) else max(base, base + length - reach)
        if place == "straddle":
            return max(0, base - reach // 2 if self.draws.chance(30) else base + length - reach // 2)
        if place == "unaligned":
            return self.within(ranges, size) + (1 + self.draws.below(reach - 1) if reach > 1 else 0)
        return self.within(ranges, size)

    def size_of(self, name, port):
        """A size: mostly one that the slave serves, if it serves any."""
        served = sizes_served(name, self.ports[port][0]) if self.ports else ()
        among = {str(size) for size in served} if served and self.draws.chance(self.mix["supported"]) else self.sizes
        return int(self.draws.weighted(self.mix["sizes"], among & self.sizes or self.sizes))

    def sizes_of(self, name, port):
        """The sizes that the slave of a port serves of an operation, and that messages may have."""
        return [size for size in sizes_served(name, self.ports[port][0]) if str(size) in self.sizes]

    def bus_of(self, master):
        return self.buses[master]

    def mask_of(self, count):
        """Which bytes of a partial put are set."""
        shape, half = self.draws.weighted(self.mix["masks"]), count // 2
        one = self.draws.below(count)
        return {"all": lambda k: True, "none": lambda k: False, "one": lambda k: k == one, "hole": lambda k: k != one,
                "low": lambda k: k < half, "high": lambda k: k >= half, "even": lambda k: k % 2 == 0, "odd": lambda k: k % 2 == 1,
                "random": lambda k: self.draws.chance(50)}[shape]

    def data_of(self, name, size):
        """The bytes of an operation as scripts spell them; some are a number at an edge, as the least one with a sign."""
        count = 1 << size
        data = [self.draws.below(256) for _ in range(count)]
        if self.draws.chance(self.mix["edge_data"]):
            half = 1 << 8 * count - 1
            data = self.draws.pick([0, 1, half - 1, half, 2 * half - 1]).to_bytes(count, "little")
        is_set = self.mask_of(count) if name == "putpart" else lambda k: True
        return "".join(f"{byte:02x}" if is_set(k) else "--" for k, byte in enumerate(data))

    def source_of(self, master):
        """The source that was last used again, the next one, or any."""
        count, way = self.sources[master], self.draws.weighted(self.mix["sources"])
        moved = {"again": 0, "next": 1, "any": self.draws.below(count)}[way]
        self.last[master] = (self.last[master] + moved) % count
        return self.last[master]

    def operation(self, master):
        """A line of a master."""
        name = self.draws.weighted(self.mix["operations"])
        place = self.draws.weighted(self.mix["atomic_places" if name in ATOMICS else "places"])
        ports = self.reached[master]
        if place == "unreached":
            ports = [port for port in range(len(self.ports)) if port not in ports]
        port = self.draws.pick(ports) if ports else 0
        size = self.size_of(name, port)
        is_mapped = ports and place != "unmapped"
        address = self.address_of(place, port, size) if is_mapped else self.unmapped(size)
        if not self.may_be_unaligned:
            address = address >> size << size
        address &= self.addresses
        data = " " + self.data_of(name, size) if carries_data(name) else ""
        return f"{self.source_of(master)} {name} {address:#x} {size}{data}"

    def lines(self, count):
        """This number of operations, master by master; some are followed by a wait."""
        lines = [[] for _ in self.sources]
        for _ in range(count):
            master = self.draws.below(len(lines))
            lines[master].append(self.operation(master))
            if self.draws.chance(self.mix["wait"]):
                lines[master].append("wait")
        return lines


def sizes_served(name, port):
    """The sizes that a slave serves of an operation: those of its table, if it has one, or of its kind."""
    if "sizes" in port:
        least, greatest = port["sizes"].get(GROUP_OF[name], (1, 0))
        return range(least, greatest + 1)
    served = SERVED[port["kind"]]
    group = "atomic" if name in ATOMICS else "prefetch" if name.startswith("prefetch") else "put" if name.startswith("put") else name
    return served.get(name, served.get(group, ()))


def ranges_of(port):
    return [tuple(pair) for pair in port["ranges"]] if "ranges" in port else [(port["base"], port["length"])]


def read_system(path):
    """The system of a file; what it lacks is left to tlcheck to name."""
    try:
        with open(path, "rb") as file:
            system = tomllib.load(file)
        for port in system.get("port", []):
            if port["kind"] not in SERVED or not all(length > 0 <= base for base, length in ranges_of(port)):
                raise ValueError
            for group in GROUPS:
                range(*port.get("sizes", {}).get(group, (0, 0)))
        if not system["master"] or any(master["sources"] < 1 for master in system["master"]):
            raise ValueError
        if not has_paths(system) or not has_lists(system):
            raise ValueError
    except OSError as error:
        raise Mistake(f"{path}: {error.strerror}", 1) from None
    except (KeyError, TypeError, ValueError, AttributeError):
        raise Mistake(f"{path} is no system file: ./tlcheck {path} says why", 1) from None
    return system


def read_mix(path):
    """MIX with the weights of a file in their places."""
    mix = {key: dict(value) if isinstance(value, dict) else value for key, value in MIX.items()}
    try:
        with open(path, "rb") as file:
            given = tomllib.load(file)
    except (OSError, tomllib.TOMLDecodeError) as error:
        raise Mistake(f"{path}: {error}", 2) from None

    def put(table, front, values):
        for key, value in values.items():
            if key not in table:
                raise Mistake(f"{path}: there is no {front}{key}", 2)
            if isinstance(table[key], dict) and isinstance(value, dict):
                put(table[key], f"{key}.", value)
            elif type(value) is not int or value < 0 or isinstance(table[key], dict):
                raise Mistake(f"{path}: {front}{key} is a whole number, 0 or more" if not isinstance(table[key], dict) else f"{path}: {key} is a table", 2)
            else:
                table[key] = value

    put(mix, "", given)
    return mix


def read_report(path):
    """The bins that a report says were never hit."""
    try:
        with open(path, encoding="ascii") as file:
            return bins_of(file.read())
    except (OSError, UnicodeDecodeError, NoReport) as error:
        raise Mistake(f"{path}: {error}", 2) from None


def check_limits(system):
    """Raises the first limit of tlx that a script passes."""
    ports, masters = system.get("port", []), system["master"]
    counts = [("ports", len(ports)), ("masters", len(masters)), *(("sources", master["sources"]) for master in masters),
              *(("length", length) for port in ports for _, length in ranges_of(port)), *(("lines", len(master["ops"])) for master in masters)]
    for name, count in counts:
        if count > MOST[name]:
            raise Mistake(f"{count} {name}, and tlx takes {MOST[name]} at most: give other words, or --limits judge", 1)
    for number, port in enumerate(ports):
        keys = [key for key in JUDGED if port.get(key)] + ["device"] * (port["kind"] == "device")
        if keys:
            raise Mistake(f"port {number} has `{keys[0]}`, which tlx does not know: --limits judge takes it", 1)
        if len(ranges_of(port)) > 1:
            raise Mistake(f"port {number} has several ranges, and a script of tlx has one: --limits judge takes them", 1)
        if "ranges" in port:
            (port["base"], port["length"]), = ranges_of(port)
            del port["ranges"]


def script_of(system, mix, words):
    """The text of a script of the number of operations that the words ask for."""
    system = {"slots": system.get("slots", 16), **{key: system[key] for key in ("bus", "unaligned", "corrupt", "decode", "resets", "period") if key in system},
              "port": [dict(port) for port in system.get("port", [])], "master": [dict(master) for master in system["master"]]}
    stimulus = Stimulus(system, mix, words.seed, words.max_size, words.address_bits)
    bins = read_report(words.aim) if words.aim else []
    for master, lines in zip(system["master"], Aims(stimulus).lines(bins, words.ops) if bins else stimulus.lines(words.ops)):
        master["ops"] = lines
    if words.limits == "tlx":
        check_limits(system)
    text = text_of(system)
    if words.limits == "tlx" and len(text) > LONGEST_SCRIPT:
        raise Mistake(f"the script has {len(text)} bytes, and tlx takes {LONGEST_SCRIPT}: ask for fewer operations", 1)
    return text


def number(word):
    """A number of the command line."""
    if not word.isascii() or not word.isdigit() or int(word) >= LARGEST:
        raise argparse.ArgumentTypeError(f"{word!r} is no whole number below 2^64")
    return int(word)


def up_to(most):
    """A small number of the command line."""
    def read(word):
        if number(word) > most:
            raise argparse.ArgumentTypeError(f"{word!r} is no number from 0 to {most}")
        return int(word)
    return read


def main():
    parser = argparse.ArgumentParser(prog="tools/stimulate", description="Writes a script of random operations for a system.", allow_abbrev=False)
    parser.add_argument("system", metavar="SYSTEM")
    parser.add_argument("--seed", type=number, required=True, help="below 2^64; the same words give the same script on any machine")
    parser.add_argument("--ops", type=number, required=True, help="how many operations, of all masters together")
    parser.add_argument("--mix", metavar="FILE", help="other weights, as a TOML document")
    parser.add_argument("--aim", metavar="REPORT", help="operations that may hit the bins which this report of tools/coverage says were never hit; "
                        "if there is none, random ones")
    parser.add_argument("--limits", choices=("tlx", "judge"), default="tlx", help="tlx: 15 ports of one range and 65,536 bytes, 16 masters of 256 "
                        "sources and 4,096 lines, 1,048,576 bytes of text. A script that passes one of them is refused, and so is a system with images, "
                        "unknown or volatile bytes, tables of sizes or devices. judge: no limits: a system file with operations, for a testbench; "
                        "tlcheck reads it too. It names the images that SYSTEM names, so it belongs in the folder of SYSTEM. Default: tlx")
    parser.add_argument("--max-size", type=up_to(MAX_SIZE), default=MAX_SIZE, metavar="N", help="messages have 2^N bytes at most (8)")
    parser.add_argument("--address-bits", type=up_to(64), default=64, metavar="N", help="addresses lie below 2^N (64)")
    words = parser.parse_args()
    try:
        mix = read_mix(words.mix) if words.mix else MIX
        sys.stdout.write(script_of(read_system(words.system), mix, words))
    except Mistake as mistake:
        print(f"tools/stimulate: {mistake}", file=sys.stderr)
        return mistake.status
    return 0
