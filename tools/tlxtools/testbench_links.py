"""The links of a crossbar for tools/testbench: the ports of the module by which each is connected, its widths, and the ranges behind it.
hdl/README.md has the rules ("A testbench around your crossbar").
"""

import re

from tlxtools.bus import bus_of
from tlxtools.common import BUSES, GROUPS, MAX_SIZE, SIGNALS, SYSTEM_KINDS, with_bits
from tlxtools.wide_sources import WideSources, reached_by

STYLES = ("vectors", "structs", "chisel")
# Signals that the testbench connects if the system file or the command line names them.
EXTRAS = ("a_corrupt", "d_param", "d_sink")
# The widths that differ between designs, with the most bits of each.
WIDTHS = {"address": 64, "source": 16, "size": 4, "d_param": 8}
# Those of a master's link that the master drives; the slave drives them at no port's link.
BY_MASTERS = ("a_valid", "a_opcode", "a_param", "a_size", "a_source", "a_address", "a_mask", "a_data", "a_corrupt", "d_ready")
# The sizes that a kind of slave serves, by the names of the table of sizes; docs/reference/formats.md, "What is answered".
ALL = (0, MAX_SIZE)
KIND_SIZES = {"ram": {"get": ALL, "putfull": ALL, "putpart": ALL, "arithmetic": (2, 3), "logical": (2, 3), "intent": ALL},
              "rom": {"get": ALL, "intent": ALL}, "regs": {"get": (2, 3), "putfull": (2, 3)}, "w1c": {"get": (2, 3), "putfull": (2, 3)}}
# What a device without a table of sizes is asked for, up to the greatest size of other slaves.
DEVICE_GROUPS = ("get", "putfull", "putpart")
# The marks of the struct with the requests and of the one with the replies; `_i` and `_o` depend on the side.
PARTS = (("h2d", "d2h"), ("req", "rsp"))
NAME = re.compile(r"[A-Za-z_][A-Za-z0-9_$]*")
WIRE = re.compile(r"([A-Za-z_][A-Za-z0-9_$]*)(?:\[([0-9]+)(?::([0-9]+))?\])?")
# The longest `reset` of a port that stands in the testbench.
LONGEST_RESET = 4096
# How many addresses behind a range are asked for, of which none is a port's.
HOLE = 256


class Mistake(Exception):
    """What is wrong, with the status that it ends with."""

    def __init__(self, why, status=1):
        super().__init__(why)
        self.status = status


def ranges_of(port):
    return [tuple(pair) for pair in port["ranges"]] if "ranges" in port else [(port["base"], port["length"])]


def own_name(name):
    """The part of a hierarchical name that the crossbar's own port has."""
    return name.rpartition(".")[2]


class Link:
    """A link: where each of its signals is among the ports of the crossbar, and how wide they are.

    `places` has for each signal a port, with the bits of it or None, or a constant as a string, or None if the crossbar has no such signal.
    `structs` has the ports of its requests and of its replies, if they are structs."""

    def __init__(self, side, number, table, system):
        self.side, self.number, self.table = side, number, table
        self.role = "master" if side == "m" else "port"
        self.called = f"{side}{number}"
        self.name = table.get("name", self.called)
        self.bus = bus_of(system, table)
        self.widths = {}
        self.places, self.structs = {}, ()

    def fail(self, why):
        raise Mistake(f"{self.role} {self.number}: {why}")

    def bits(self, signal):
        """How many bits a signal has."""
        kind = signal if signal == "d_param" else signal[2:]
        fixed = {"opcode": 3, "param": 3, "mask": self.bus, "data": 8 * self.bus}
        return fixed.get(kind) or self.widths.get(kind, 1)

    def has(self, signal):
        """Whether the crossbar has a signal, or the system file a constant for it."""
        return isinstance(self.places.get(signal), (tuple, str))

    def is_driven(self, signal):
        """Whether the testbench drives a signal: the other ones are outputs of the crossbar."""
        return (signal in BY_MASTERS) == (self.side == "m")

    def find(self, system, style, extras):
        """Finds the ports by `signals`, `bits`, `names` and `wires` of the system file, or else by the link's name."""
        has_bits = self.table.get("bits", system.get("bits", style == "chisel"))
        prefixes = self.table.get("signals", [])
        prefixes = [prefixes] if isinstance(prefixes, str) else prefixes
        if not isinstance(prefixes, list) or not all(isinstance(prefix, str) for prefix in prefixes):
            self.fail("signals is no string and no array of strings")
        wires = self.table.get("wires", {})
        if style == "structs" and not has_bits and (prefixes or not wires):
            self.structs = self.struct_names(prefixes)
        front = own_name(prefixes[0]) if prefixes else ""
        if prefixes and not front:
            front = own_name(prefixes[0].rstrip(".")) + "_"
        front = front or re.sub(r"\W", "_", self.name) + "_"
        for signal in [*SIGNALS, "d_sink"]:
            names = system.get("names", {}) if prefixes else {}
            said = wires.get(signal, names.get(signal))
            if said is None and (signal in EXTRAS and signal not in extras or wires and not prefixes):
                continue
            if signal in wires:
                self.places[signal] = self.place_of(signal, said)
            elif said in ("0", "1", "-"):
                self.places[signal] = None if said == "-" else said
            else:
                behind = said or (with_bits(signal) if has_bits else signal)
                self.places[signal] = (behind if self.structs else front + behind, None)
        for signal in ("a_valid", "a_ready", "a_opcode", "a_size", "a_address", "d_valid", "d_ready", "d_opcode"):
            if not isinstance(self.places.get(signal), tuple):
                self.fail(f"{signal} is no port of the crossbar")

    def struct_names(self, prefixes):
        """The ports of the structs of requests and of replies."""
        own = [own_name(prefix.rstrip(".")) for prefix in prefixes]
        marks = [*PARTS, ("_i", "_o") if self.side == "m" else ("_o", "_i")]
        if not own:
            front = re.sub(r"\W", "_", self.name)
            return tuple(front + mark for mark in marks[-1])
        if len(own) != 2:
            self.fail("its signals are no two structs")
        for request, reply in marks:
            if request in own[1] and reply in own[0]:
                own.reverse()
        return tuple(own)

    def place_of(self, signal, said):
        """Where a wire is."""
        if said in ("0", "1", "-"):
            return None if said == "-" else said
        if not isinstance(said, str):
            self.fail(f"{signal} is an array of wires, and a testbench takes one port or bits of one")
        found = WIRE.fullmatch(own_name(said))
        if not found:
            self.fail(f"{signal}: {said} is no plain name with bits of it")
        port, high, low = found.groups()
        if high is None:
            return port, None
        bits = int(high), int(low if low is not None else high)
        if bits[0] < bits[1] or bits[0] - bits[1] + 1 != self.bits(signal):
            self.fail(f"{signal}: {said} has {abs(bits[0] - bits[1]) + 1} bits, {self.bits(signal)} wanted")
        return port, bits


def sizes_of(port, most):
    """The sizes that a port serves, by the names of the table of sizes."""
    if "sizes" in port:
        return {group: tuple(port["sizes"][group]) for group in GROUPS if group in port["sizes"]}
    if port["kind"] == "device":
        return {group: (0, most) for group in DEVICE_GROUPS}
    return KIND_SIZES[port["kind"]]


def greatest_size(ports):
    """The greatest size that a port serves; devices that do not say it leave it to others."""
    said = [greatest for port in ports if "sizes" in port or port["kind"] != "device" for _, greatest in sizes_of(port, 0).values()]
    return max(said, default=3)


def wire_bits(table, signal):
    """How many bits a wire of the system file has, or 0 if it does not say it."""
    said = table.get("wires", {}).get(signal)
    found = WIRE.fullmatch(own_name(said)) if isinstance(said, str) else None
    if not found or found[2] is None:
        return 0
    return abs(int(found[2]) - int(found[3] or found[2])) + 1


def set_widths(links, system, given):
    """How wide address, source, size and the parameter of replies are at each link: as `extra` of its table says it, else the command line, else
    the bits of its wires, else as few as the system needs. The specification gives that parameter two bits, and some designs three."""
    ports, sources = system["port"], WideSources(system)
    last = max((base + length - 1 for port in ports for base, length in ranges_of(port)), default=0)
    needed = {"address": 32 if last < 1 << 32 else 64, "size": greatest_size(ports).bit_length(), "d_param": 2}
    for link in links:
        greatest = link.table["sources"] - 1 if link.side == "m" else sources.greatest(link.number)
        extra = link.table.get("extra", {})
        for kind, most in WIDTHS.items():
            said = extra.get(f"{kind}_bits") if isinstance(extra, dict) else None
            least = max(1, greatest.bit_length()) if kind == "source" else needed[kind]
            bits = said or given.get(kind) or wire_bits(link.table, kind if kind == "d_param" else f"a_{kind}") or least
            if type(bits) is not int or not 1 <= bits <= most:
                link.fail(f"{kind}_bits out of range")
            link.widths[kind] = bits
        # a port's link that is judged by itself has sources of its own
        if (1 << link.widths["source"]) <= greatest and link.table.get("crossing") != "none":
            link.fail(f"a_source has {link.widths['source']} bits, and its sources go to {greatest}")


def holes_of(ports, address_bits):
    """Ranges that no port has, behind those of ports."""
    ranges = sorted(pair for port in ports for pair in ranges_of(port))
    ends = [base + length for base, length in ranges] or [0]
    starts = [base for base, _ in ranges[1:]] + [1 << address_bits]
    return [(end, min(HOLE, start - end)) for end, start in zip(ends, starts) if start > end]


def master_map(system, number, most, address_bits):
    """What a master asks for: base, length and sizes of each range; none of one that no slave has for it."""
    reached = reached_by(system, number)
    found = [(base, length, sizes_of(port, most) if place in reached else {})
             for place, port in enumerate(system["port"]) for base, length in ranges_of(port)]
    return found + [(base, length, {}) for base, length in holes_of(system["port"], address_bits)]


def check_port(link, port):
    """Looks whether a port's table is one that a slave can be made of."""
    if port.get("kind") not in SYSTEM_KINDS:
        link.fail(f"kind has to be one of {', '.join(SYSTEM_KINDS)}")
    try:
        pairs = ranges_of(port)
        good = bool(pairs) and all(type(number) is int for pair in pairs for number in pair) and all(base >= 0 < length for base, length in pairs)
        sizes = [tuple(port["sizes"].get(group, (0, 0))) for group in GROUPS] if "sizes" in port else []
        good = good and all(0 <= least <= greatest <= MAX_SIZE for least, greatest in sizes)
        reset = bytes.fromhex(port.get("reset", ""))
    except (KeyError, TypeError, ValueError, AttributeError):
        good = False
    if not good:
        link.fail("base, length, ranges, sizes or reset is missing or wrong: ./tlcheck --lint says which")
    if len(reset) > LONGEST_RESET:
        link.fail(f"reset has {len(reset)} bytes, and a testbench takes {LONGEST_RESET}: put them into an image")


def measured(system, given):
    """The links of a system, masters first, each with its widths."""
    links = [Link("m", number, master, system) for number, master in enumerate(system["master"])]
    links += [Link("p", number, port, system) for number, port in enumerate(system["port"])]
    for link in links:
        if link.bus not in BUSES:
            link.fail(f"bus has to be one of {', '.join(map(str, BUSES))}")
        if link.side == "p":
            check_port(link, link.table)
        elif type(link.table.get("sources")) is not int or not 1 <= link.table["sources"] <= 1 << 16:
            link.fail("sources has to be 1 to 65536")
    set_widths(links, system, given)
    return links


def links_of(system, style, given, extras):
    """The links of a system, masters first, each with its places and widths."""
    links = measured(system, given)
    for link in links:
        for key in ("clock", "link_reset", "edge"):
            if key in link.table:
                link.fail(f"it has its own {key}, and a testbench has one clock and one reset")
    for link in links:
        link.find(system, style, extras)
    return links


def vectors_of(links):
    """The ports of the crossbar of which the system file names bits."""
    return sorted({place[0] for link in links for place in link.places.values() if isinstance(place, tuple) and place[1] and not link.structs})
