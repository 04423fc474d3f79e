"""Writes a system file to begin with, from the scopes of a value change dump (VCD).

    tools/draft [--top SCOPE] DUMP >system.toml

DUMP is a file, or standard input if it is `-`. With --top only the links in this scope are taken. What a dump can't tell stands in a line
that begins with `# TODO`; when all of them are filled in, tlvcd takes the file. docs/guide/your_rtl.md leads through it. Nothing of it is
proved: look at what was drafted before you trust a verdict.

What is drafted:

    a link             a prefix, at the top or after a character that is no letter or digit, with a_valid, a_opcode, a_address, d_valid and
                       d_opcode, or without both valids, which you name then. Chisel's names count, and d_error for d_denied
    one of two structs a prefix with a_valid whose replies have _o for _i, _i for _o, d2h for h2d, or rsp for req. If they are two vectors,
                       their members follow from the widths of OpenTitan's structs, 86 and 52 bits, or 109 and 66 with user bits; of
                       others a comment says that bits of them have to be named
    an array           an array of signals in `wires`, the highest index first: look whether that one has the highest lanes
    one in several scopes  that with most signals, else the outermost; a comment names the others
    signals, wires     `signals` if all names are the standard's (d_denied may have another); with `bits = true` if all are Chisel's; else
                       `wires`
    a missing signal   "-" for d_corrupt, and in `wires` for a_corrupt and d_param; "0" for a_param and d_denied, and for the two sources if
                       both are missing. Name the others. If a_corrupt or d_param is unknown at a beat, it counts as missing
    name               the shortest end of the link's name, by whole scopes, that no other link has
    bus                from the width of a_data, else of d_data
    sources            the greatest source that crossed, and one more
    kind, base, length yours. A comment has the first and the last byte that was asked for, and the least aligned power of two around them
    clock, reset       the outermost signal of one bit, first in the scopes of links, that is called clk, clock, clk_i or aclk; reset, rst,
                       rst_n, rst_ni, resetn, reset_n or aresetn. Several nets are listed
    reset_active       "low" if the name has an n after rst or reset; if its last value is not the other one, choose
    period             how far the first two rising edges of the clock are from each other
    a link's clock     a signal that is called like a clock in the scope of the link, if it is the only one there and rises at other times
                       than the clock; with it the reset of this scope. A comment names signals beside the clock that are called like one

A link is a master's if the last part of its name (tb.dut.cpu_), else the scope that it stands in (tb.cpu.link_), has the word host, master,
client or cpu. It is a port's if that has device, slave, ram, dram, sram or port. With neither it is a master's if the last part has `in`
(auto_in_1_), and a port's if it has `out`. Words stand between dots, underscores and brackets; case, and digits at their end, do not count.
If words disagree, or none is there, the link stands there as both, in comments. Give a link that has another clock its own `clock`, and
one whose beats cross at falling edges `edge`.

DUMP is read once. What crosses is counted at rising edges of the link's clock, outside its reset; if no clock or several are found, nothing
is counted. A net that the dump declares bit by bit counts as one vector, and an escaped name of Icarus without its backslash.

Status 1: no dump, or no links in it. Status 2: the command line.
"""

import json
import sys

from tlxtools.draft_links import links_of, name_of
from tlxtools.draft_structs import unknown_structs
from tlxtools.dump import NoDump, Watch, steps_of, variables_of, words_of

USAGE = "usage: tools/draft [--top SCOPE] DUMP"
CLOCKS = ("clk", "clock", "clk_i", "aclk")
# The signals that a wire may leave out; without d_corrupt each beat is as the standard asks.
LEFT_OUT = ("a_corrupt", "d_param", "d_corrupt")
# The names of resets, and which of them say that they are active at 0.
LOW_RESETS = ("rst_n", "rst_ni", "resetn", "reset_n", "aresetn")
RESETS = ("reset", "rst", *LOW_RESETS)
HEAD = """\
# Drafted by tools/draft from the names of a dump. Fill in what begins with "# TODO" (docs/guide/your_rtl.md, "Fill in what is left").
"""


def quoted(name):
    """A name as a string of TOML: its escapes are those of JSON."""
    return json.dumps(name, ensure_ascii=False)


def chosen(names, variables, links):
    """The signals of these names that may be meant, one of each net: the outermost of the scopes that links stand in, else of all."""
    pool = [name for name, (_, bits) in variables.named.items()
            if bits == 1 and name.rpartition(".")[2].lower() in names and name not in variables.twice]

    def holds_links(name):
        inside = name[:len(name) - len(name.rpartition(".")[2])]
        return any(link.names["a_opcode"].startswith(inside) for link in links)
    pool = [name for name in pool if holds_links(name)] or pool
    depth = min((name.count(".") for name in pool), default=0)
    nets = {}
    for name in pool:
        if name.count(".") == depth:
            nets.setdefault(variables.named[name][0], name)
    return list(nets.values())


def other_clocks(clock, variables):
    """The other signals beside the clock that have its word in their names, one of each net."""
    nets = {variables.named[clock][0]: None}
    for name, (identifier, bits) in variables.named.items():
        is_called = {"clk", "clock"} & set(name.rpartition(".")[2].lower().split("_"))
        if bits == 1 and is_called and name.count(".") == clock.count(".") and name not in variables.twice:
            nets.setdefault(identifier, name)
    return [f"# TODO {name}: another clock? A link that has it needs `clock` and `link_reset`" for name in nets.values() if name]


def in_scope(names, variables, link):
    """The signal of one of these names in the scope that a link stands in, if there is one alone."""
    scope = link.names["a_opcode"].rpartition(".")[0]
    found = {variables.named[name][0]: name for name in variables.scoped.get(scope, ())
             if name.rpartition(".")[2].lower() in names and variables.named[name][1] == 1 and name not in variables.twice}
    return next(iter(found.items())) if len(found) == 1 else (None, None)


def clock_lines(clocks, rises):
    """The clock with its period, or those that may be it."""
    if len(clocks) == 1:
        return [f"clock = {quoted(clocks[0])}", *([f"period = {rises.period()}"] if rises.period() else [])]
    if not clocks:
        return [f"# TODO clock: no signal is called {', '.join(CLOCKS)}", '# clock = ".."']
    return ["# TODO clock: choose one of these", *(f"# clock = {quoted(name)}" for name in clocks)]


def polarity(reset, last):
    """Which value of a reset is active, by its name and by its last value: it is not active at the end of a dump."""
    named = "0" if reset.rpartition(".")[2].lower() in LOW_RESETS else "1"
    return named, {"0": "1", "1": "0"}.get(last, named)


def reset_lines(resets, last):
    """The reset and its polarity, or what may be it."""
    if not resets:
        return [f"# TODO reset: no signal is called {', '.join(RESETS)}; a design without one needs no line"]
    if len(resets) > 1:
        return ["# TODO reset: choose one of these, with reset_active = \"low\" if it is active at 0",
                *(f"# reset = {quoted(name)}" for name in resets)]
    named, changes = polarity(resets[0], last)
    lines = [f"reset = {quoted(resets[0])}"]
    if named == changes:
        return lines + ['reset_active = "low"'] * (named == "0")
    return [f"# TODO reset: {resets[0]} is active at {changes} by its changes, at {named} by its name: choose the polarity",
            *(f"# {line}" for line in lines), f'# reset_active = "{"low" if changes == "0" else "high"}"']


class Crossings:
    """What crossed at each link, by the clock and the reset at the top or by its own."""

    def __init__(self, variables, links, clocks, resets):
        self.named = [names[0] if len(names) == 1 else None for names in (clocks, resets)]
        self.main = tuple(variables.named[name][0] if name else None for name in self.named)
        self.own = []
        for link in links:
            (clock, clock_name), (reset, reset_name) = (in_scope(names, variables, link) for names in (CLOCKS, RESETS))
            self.own.append(((clock, reset), (clock_name, reset_name)) if clock not in (None, self.main[0]) else None)
        self.watch = Watch([link.identifiers for link in links], [[self.main, *([own[0]] if own else [])] for own in self.own])

    def rises(self):
        return self.watch.rises.get(self.main[0])

    def last(self):
        return self.watch.last.get(self.main[1])

    def has_own(self, place):
        """Whether a link has a clock of its own: it rises, and at other times than the clock at the top."""
        own, main = self.own[place] and self.watch.rises[self.own[place][0][0]], self.rises()
        return bool(own) and own.count > 0 and not (main and own.is_same(main))

    def pair(self, place):
        """The clock and the reset of a link, with their names."""
        return self.own[place] if self.has_own(place) else (self.main, self.named)

    def active(self, place):
        """The value at which the reset of a link is active, or None without one."""
        (_, reset), (_, name) = self.pair(place)
        return name and polarity(name, self.watch.last.get(reset))[1]

    def crossed(self, place):
        return self.watch.crossed(place, self.pair(place)[0], self.active(place))

    def unknown(self, place):
        """The signals that many designs leave open and that were unknown at a beat."""
        return {signal for where, signal in self.watch.unknown if where == place}

    def lines(self, place):
        """The clock and the reset that a link has for itself."""
        if not self.has_own(place):
            return []
        clock, reset = self.pair(place)[1]
        lines = [f"clock = {quoted(clock)}"]
        if reset:
            lines += [f"link_reset = {quoted(reset)}", f'reset_active = "{"low" if self.active(place) == "0" else "high"}"']
        return lines


def source_lines(link, crossed):
    """The count of a master's sources: the least that covers those that crossed."""
    bits = link.bits.get("a_source", 0)
    most = f"a_source has {bits} bits, at most {1 << min(bits, 16)} sources" if bits else "the link has no a_source"
    if crossed.source is None:
        return [f"# TODO sources: no request crossed; {most}", "sources = 1"]
    return [f"# {most}; the greatest that crossed is {crossed.source}", f"sources = {crossed.source + 1}"]


def range_lines(crossed):
    """The range of a port, which the user has to say, beside the addresses that crossed and the least aligned range that holds them."""
    told = "no request crossed"
    if crossed.low is not None:
        length = 1 << (crossed.low ^ crossed.high).bit_length()
        base = crossed.low & -length
        told = f"{crossed.low:#x} to {crossed.high:#x} crossed; base = {base:#x} and length = {length:#x} hold them"
    return [f"# TODO base, length: {told}", "base = 0x????", "length = 0x????"]


def wire_of(link, signal):
    """The value of a wire: a name, or an array of names."""
    elements = link.elements.get(signal)
    return f"[{', '.join(map(quoted, elements))}]" if elements else quoted(link.names[signal])


def wire_lines(link, role, left_open):
    """Where the signals of a link are: one prefix or two, and a table of those that are not behind it. Some are there, and left open."""
    lines = []
    for signal, bits, wanted in link.misfits():
        lines.append(f"# TODO {signal}: {link.names[signal]} has {bits} bits, and tlvcd takes {wanted}: name bits of it in wires")
    lines += [f"# TODO {name}: two signals are called so, and tlvcd takes neither" for name in link.doubles]
    behind = link.behind()
    if behind:
        prefixes = [quoted(prefix) for prefix in link.prefixes]
        lines += [f"signals = [{', '.join(prefixes)}]" if prefixes[1:] else f"signals = {prefixes[0]}"]
        lines += ["bits = true"] * (not behind["a_opcode"].endswith("a_opcode"))
    constants, unknown = link.missing()
    wires = [f"{signal} = {wire_of(link, signal)}" for signal, name in link.names.items()
             if signal not in left_open and (not behind or name != behind[signal] or signal in link.elements)]
    wires += [f'{signal} = "-"  # it is unknown' for signal in sorted(left_open)]
    wires += [f'{signal} = "{"-" if signal in LEFT_OUT else "0"}"  # the dump has no such signal' for signal in constants]
    wires += [f'# TODO {signal} = "..": the dump has no such signal' for signal in unknown]
    return lines + (["", f"[{role}.wires]", *wires] if wires else [])


def table_lines(link, role, name, crossings, place):
    """The table of a link as that of a master or of a port, with the lines that it has for its own clock."""
    crossed = crossings.crossed(place)
    lines = [f"[[{role}]]", *([f"name = {quoted(name)}"] if name else [])]
    if role == "port":
        lines += ["# TODO kind: ram, rom, regs, w1c or device", 'kind = "device"', *range_lines(crossed)]
    else:
        lines += source_lines(link, crossed)
    bus = link.bus()
    lines += [f"bus = {bus}"] if bus else ["# TODO bus: 1, 2, 4, 8, 16, 32 or 64 bytes; the width of the data does not tell"]
    lines += [f"# the same nets: {other.prefix}" for other in link.aliases]
    return lines + crossings.lines(place) + wire_lines(link, role, crossings.unknown(place))


def link_lines(links, crossings):
    """The tables of all links: ports, masters, and those that may be either."""
    roles = [link.role() for link in links]
    for wanted in ("port", "master"):
        for place, link in enumerate(links):
            if roles[place] == wanted:
                yield from ["", *table_lines(link, wanted, name_of(link, links), crossings, place)]
    for place, link in enumerate(links):
        if roles[place] is None:
            yield from ["", f"# TODO {link.prefix}: a master's link or a port's? Uncomment one of the tables"]
            for role in ("master", "port"):
                lines = table_lines(link, role, name_of(link, links), crossings, place)
                yield from (f"# {line}".rstrip() for line in lines)
    if not {"master", None} & set(roles):
        yield from ["", "# TODO master: no link of a master was found, and a system has at least one", "# [[master]]", "# sources = 1"]


def struct_lines(structs):
    """The vectors that may be structs of links."""
    return [f"# TODO {name}, {other}: two packed structs of a link, of {wide} and {narrow} bits? If so, name bits of them in wires"
            for name, other, (wide, narrow) in structs]


def drafted(file, top):
    """The text of the system file, in one pass over the dump."""
    words = words_of(file)
    variables = variables_of(words)
    links, structs = list(links_of(variables, top)), struct_lines(unknown_structs(variables, top))
    if not links:
        why = f"no links{f' in the scope {top}' if top else ''}: no prefix has a_valid, a_opcode, a_address, d_valid and d_opcode"
        raise NoDump("\n".join([why, *(line.removeprefix("# TODO ") for line in structs)]))
    clocks, resets = chosen(CLOCKS, variables, links), chosen(RESETS, variables, links)
    crossings = Crossings(variables, links, clocks, resets)
    crossings.watch.follow(steps_of(words, crossings.watch.tracked()))
    others = other_clocks(clocks[0], variables) if len(clocks) == 1 else []
    lines = [*clock_lines(clocks, crossings.rises()), *others, *reset_lines(resets, crossings.last()), *structs, *link_lines(links, crossings)]
    return HEAD + "".join(f"{line}\n" for line in lines)


def parsed(words):
    """The scope and the dump of the command line, or None."""
    top, words = None, list(words)
    if words and words[0].partition("=")[0] == "--top":
        _, mark, top = words.pop(0).partition("=")
        top = top if mark else words.pop(0) if words else ""
        if not top:
            return None
    is_one = len(words) == 1 and (words[0] == "-" or not words[0].startswith("-"))
    return (top, words[0]) if is_one else None


def main():
    if sys.argv[1:] in (["--help"], ["-h"]):
        print(__doc__.strip())
        return 0
    found = parsed(sys.argv[1:])
    if found is None:
        print(f"draft: {USAGE}", file=sys.stderr)
        return 2
    top, dump = found
    how = {"encoding": "utf-8", "errors": "replace", "newline": ""}
    try:
        with open(0 if dump == "-" else dump, **how) as file:
            text = drafted(file, top)
    except OSError as error:
        print(f"draft: {dump}: can't be read: {error.strerror}", file=sys.stderr)
        return 1
    except NoDump as why:
        print(f"draft: {dump}: {why}", file=sys.stderr)
        return 1
    print(text, end="")
    return 0
