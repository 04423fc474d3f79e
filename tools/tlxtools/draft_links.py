"""The links of a crossbar by the names of a dump's signals: the standard's names behind a prefix, Chisel's, or the members of two structs, named
or by their place in a vector. For tools/draft, which has the rules at its top.
"""

import re

from tlxtools.common import BUSES, with_bits
from tlxtools.draft_structs import partners, structs_of
from tlxtools.gtkwave_save import SIGNALS

# The signals without which a prefix is no link. The handshakes may stand elsewhere, as in vectors of all links; then they have to be named.
CORE = ("a_opcode", "a_address", "d_opcode")
VALIDS = ("a_valid", "d_valid")
# Signals that designs may not have, for which a constant stands.
CONSTANTS = ("a_param", "d_denied", "d_corrupt")
# Those that most designs have not: tlvcd looks for them behind a prefix, and leaves their columns empty.
EXTRAS = ("a_corrupt", "d_param")
# What may be an array, of which each element is a signal.
IN_ARRAYS = ("a_mask", "a_data", "d_data")
# How many bits tlvcd takes; those of mask and data follow from the bus.
WIDTHS = {"a_opcode": 8, "a_param": 8, "a_size": 8, "d_opcode": 8, "d_param": 8, "d_size": 8, "a_source": 16, "d_source": 16, "a_address": 64}
MASTER_WORDS = {"host", "master", "client", "cpu"}
PORT_WORDS = {"device", "slave", "ram", "dram", "sram", "port"}
# What a name has to be (docs/reference/formats.md, "The system file").
NAME = re.compile(r"(?![mp][0-9]+$)[A-Za-z0-9_.-]{1,32}")


def spellings(signal):
    """How designs call a signal: the standard's name, Chisel's, and error in place of denied."""
    for name in (signal, "d_error") if signal == "d_denied" else (signal,):
        yield name
        yield with_bits(name)


def written(prefix, spelling):
    """How a dump has a name: as it is, or after a backslash, which Icarus keeps of an escaped name."""
    scope, point, front = prefix.rpartition(".")
    return prefix + spelling, f"{scope}{point}\\{front}{spelling}"


def members(prefix, variables):
    """The names of the signals that stand behind a prefix."""
    found = {}
    for signal in SIGNALS:
        names = [name for spelling in spellings(signal) for name in written(prefix, spelling)]
        places = (variables.named, variables.arrays) if signal in IN_ARRAYS else (variables.named,)
        if name := next((name for place in places for name in names if name in place), None):
            found[signal] = name
    return found


def words_in(part):
    """The words of a part of a name: between underscores and brackets, without digits at their ends."""
    return {word.rstrip("0123456789") for word in re.split(r"[_\W]+", part.lower())}


class Link:
    """A link: the names of its signals, and the parts of the name that it is called by."""

    def __init__(self, prefixes, names, called, variables):
        self.prefixes, self.prefix, self.names = prefixes, prefixes[0], names
        nets = {signal: variables.net_of(name) for signal, name in names.items()}
        self.identifiers = {signal: identifier for signal, (identifier, _) in nets.items()}
        self.bits = {signal: bits for signal, (_, bits) in nets.items()}
        # the elements of those that are arrays
        self.elements = {signal: variables.arrays[name] for signal, name in names.items() if name not in variables.named}
        self.parts = [part for part in called.rstrip("_.").split(".") if part]
        self.declared = variables.named
        self.doubles = [name for name in names.values() if name in variables.twice]
        self.aliases = []

    def behind(self):
        """How the names stand behind the prefixes, but for arrays and for signals that the design has not or calls otherwise: each signal with
        its name, as the standard has it or else as Chisel has it, behind the first prefix that has one. None if they do not."""
        for how in (str, with_bits):
            names = {signal: next((prefix + how(signal) for prefix in self.prefixes if prefix + how(signal) in self.declared),
                                  self.prefix + how(signal)) for signal in SIGNALS}
            if all(name == names[signal] for signal, name in self.names.items() if signal != "d_denied" and signal not in self.elements):
                return names
        return None

    def rank(self):
        """Where it stands among links of the same nets: those with most signals come first, then the outermost."""
        return -len(self.names.keys() - {*EXTRAS}), self.names["a_opcode"].count(".")

    def is_same(self, other):
        """Whether both are one link: each signal that both have is one net."""
        return all(self.identifiers[signal] == other.identifiers[signal] for signal in self.identifiers.keys() & other.identifiers.keys())

    def bus(self):
        """How many bytes its data has, or None if no bus has so many."""
        bits = self.bits.get("a_data", self.bits.get("d_data", 0))
        return bits // 8 if bits % 8 == 0 and bits // 8 in BUSES else None

    def role(self):
        """Whether it is a master's link or a port's, by the words of its name and of the scope that it stands in, or None."""
        for part in self.parts[:-3:-1]:
            is_master, is_port = words_in(part) & MASTER_WORDS, words_in(part) & PORT_WORDS
            if is_master or is_port:
                return None if is_master and is_port else "master" if is_master else "port"
        sides = words_in(self.parts[-1] if self.parts else "") & {"in", "out"}
        return {"in": "master", "out": "port"}[sides.pop()] if len(sides) == 1 else None

    def missing(self):
        """The signals that the dump has not: those that are constants, and those that have to be named."""
        left_out = EXTRAS if self.behind() else ()
        absent = [signal for signal in SIGNALS if signal not in self.names and signal not in left_out]
        lone = {"a_source", "d_source"} & set(absent)
        constants = [signal for signal in absent if signal in CONSTANTS + EXTRAS or len(lone) == 2 and signal in lone]
        return constants, [signal for signal in absent if signal not in constants]

    def misfits(self):
        """The signals with more or fewer bits than tlvcd takes, each with the bits that it takes."""
        bus = self.bus()
        for signal, bits in self.bits.items():
            if signal.endswith(("data", "mask")):
                wanted = bus and bus * (8 if signal.endswith("data") else 1)
                if wanted and bits != wanted:
                    yield signal, bits, wanted
            elif bits > WIDTHS.get(signal, 1):
                yield signal, bits, WIDTHS.get(signal, 1)


def link_at(prefix, variables):
    """The link whose requests stand behind a prefix, or None."""
    names, called, prefixes = members(prefix, variables), prefix, [prefix]
    if "d_opcode" not in names:
        for other, head in partners(prefix):
            replies = members(other, variables)
            if "d_opcode" in replies and "a_opcode" not in replies:
                names, called, prefixes = names | replies, head, [prefix, other]
                break
    if any(signal not in names for signal in CORE) or len(names.keys() & {*VALIDS}) == 1:
        return None
    return Link(prefixes, {signal: names[signal] for signal in SIGNALS if signal in names}, called, variables)


def found_links(variables):
    """The links of a dump in its order, behind a prefix and then in two vectors."""
    prefixes = {}
    for signal in ("a_valid", "a_opcode", "a_bits_opcode"):
        for name in variables.named:
            prefix = name.removesuffix(signal).removesuffix("\\")
            if name.endswith(signal) and not prefix[-1:].isalnum():
                prefixes.setdefault(prefix.replace("\\", ""), prefix)
    yield from filter(None, (link_at(prefix, variables) for prefix in [*prefixes.values()]))
    for name, called, names in structs_of(variables):
        yield Link([name], {signal: names[signal] for signal in SIGNALS if signal in names}, called, variables)


def links_of(variables, top=None):
    """The links of a dump. Of the same nets in several scopes those with most signals are taken, and of these the outermost; the others are its
    aliases."""
    groups = []
    for link in found_links(variables):
        if top is None or link.names["a_opcode"].startswith(top + "."):
            group = next((group for group in groups if group[0].is_same(link)), None)
            if group is None:
                groups.append(group := [])
            group.append(link)
    for group in groups:
        link = min(group, key=Link.rank)
        link.aliases = [other for other in group if other is not link]
        yield link


def name_of(link, links):
    """The shortest end of a link's name that no other link has, if it may be a name."""
    def ending(parts, count):
        return ".".join(re.sub(r"[^A-Za-z0-9_.-]+", "_", part).strip("_") for part in parts[-count:])
    for count in range(1, len(link.parts) + 1):
        name = ending(link.parts, count)
        if NAME.fullmatch(name) and sum(ending(other.parts, count) == name for other in links) == 1:
            return name
    return None
