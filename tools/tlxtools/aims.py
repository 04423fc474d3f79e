"""Operations that hit bins of coverage: for each bin that a report of tools/coverage says was never hit, some of the operations that may hit it. For
tools/stimulate.
"""

import re

from tlxtools.common import GROUPS, carries_data
from tlxtools.coverage_text import ERROR, KINDS, MASTER, PORT, read_word

NEVER = re.compile(r"never: (\w+) (.*)")
# What operations do to their bytes.
OF_ACCESS = {"read": ["get"], "write": ["putfull", "putpart"], "atomic": [*GROUPS["arithmetic"], *GROUPS["logical"]], "hint": [*GROUPS["intent"]]}
# Which bytes of a partial put each shape sets, of so many.
SHAPES = {"none": lambda count: set(), "all": lambda count: {*range(count)}, "one": lambda count: {count - 1},
          "hole": lambda count: {*range(1, count)}, "low": lambda count: {*range(count // 2)}, "high": lambda count: {*range(count // 2, count)},
          "even": lambda count: {*range(0, count, 2)}, "odd": lambda count: {*range(1, count, 2)}, "other": lambda count: {0, 3}}
# So many operations follow each other where it matters how many are in flight.
ROUND = 3


class NoReport(Exception):
    """Why a text is no report."""


def bins_of(text):
    """The bins that a report says were never hit."""
    found = []
    for line in text.splitlines():
        if named := NEVER.fullmatch(line):
            kind, words = named[1], named[2].split()
            tables = KINDS.get(kind, ())
            bin = (kind, *(read_word(table, word) for table, word in zip(tables, words)))
            if len(tables) != len(words) or None in bin:
                raise NoReport(f"no such bin: {line}")
            found.append(bin)
    return found


class Aims:
    """Operations that may hit a bin, by the ports and masters of a stimulus."""

    def __init__(self, stimulus):
        self.stimulus, self.draws = stimulus, stimulus.draws
        # what no weight allows is no part of an operation that a bin does not name
        self.names = [name for name, weight in stimulus.mix["operations"].items() if weight]
        self.sizes = {int(size) for size, weight in stimulus.mix["sizes"].items() if weight}

    def lines(self, bins, count):
        """At least so many lines, master by master, that aim at the bins in a random order, and then again in another one. What is longer than
        messages may be is left out, and something else stands there."""
        lines, left = [[] for _ in self.stimulus.sources], []
        while sum(map(len, lines)) < count:
            left = left or list(bins)
            for master, line in self.at(left.pop(self.draws.below(len(left)))):
                is_short = line == "wait" or line.split()[3] in self.stimulus.sizes
                lines[master].append(line if is_short else self.stimulus.operation(master))
            # now and then all is answered before what follows
            for each in lines:
                if self.draws.chance(self.stimulus.mix["wait"]):
                    each.append("wait")
        return lines

    def at(self, bin):
        """The operations that aim at a bin, each with its master."""
        kind, words = bin[0], dict(zip(("master", "port"), bin[1:])) if KINDS[bin[0]][:2] == (MASTER, PORT) else {}
        words |= {table: bin[1] for table in KINDS[kind][:1] if table in (MASTER, PORT)}
        master, port = words.get("master"), words.get("port")
        rest = bin[1 + len(words):]
        return [*getattr(self, f"at_{kind}")(master, port, *rest)]

    # ---- what operations are made of

    def masters_of(self, port):
        """The masters that reach a port."""
        return [master for master, ports in enumerate(self.stimulus.reached) if port in ports]

    def address(self, port, size):
        """An aligned address of a port, or of none: of a word that all masters like, if a range holds it, else of any."""
        if port == ERROR:
            return self.stimulus.unmapped(size)
        found = self.stimulus.address_of("hot", port, size) >> size << size
        is_held = any(base <= found and found + (1 << size) <= base + length for base, length in self.stimulus.ports[port][1])
        return found if is_held else self.stimulus.address_of("anywhere", port, size) >> size << size

    def line(self, master, name, address, size, source=None, shape=None):
        """A line of a master."""
        source = self.stimulus.source_of(master) if source is None else source
        data = ""
        if carries_data(name):
            data = self.stimulus.data_of("putfull" if shape else name, size)
            if shape:
                is_set = SHAPES[shape](1 << size)
                data = "".join(data[2 * at:2 * at + 2] if at in is_set else "--" for at in range(1 << size))
        address &= self.stimulus.addresses
        return master, f"{source} {name} {address:#x} {size} {data}".strip()

    def served(self, port, names=None):
        """An operation and a size that a port serves, of some operations if it serves any of them."""
        pairs = [(name, size) for name in names or self.names
                 for size in (() if port == ERROR else self.stimulus.sizes_of(name, port)) if size in self.sizes]
        return self.draws.pick(pairs or [((names or ["get"])[0], 2)])

    def burst(self, master, port, count, name=None, first=0):
        """So many requests of a master to a port by sources one after the other."""
        for source in range(first, first + count):
            each, size = self.served(port, [name] if name else None)
            yield self.line(master, each, self.address(port, size), size, source % self.stimulus.sources[master])

    # ---- the kinds of bins

    def at_asked(self, master, port, name, size, where):
        address = self.address(port, size)
        yield self.line(master, name, address + (where == "unaligned" and 1 << max(0, size - 1)), size)

    def at_answered(self, master, port, name, size, how):
        yield from self.at_asked(master, port, name, size, "aligned")

    def at_corrupt(self, master, port, name, size, sent):
        # which beats are corrupt is up to whoever sends the operations
        yield from self.at_asked(master, port, name, size, "aligned")

    def at_beats(self, master, port, channel, count):
        name = "putfull" if channel == "A" else "get"
        sizes = [size for size in self.stimulus.sizes_of(name, port) if max(1, (1 << size) // self.stimulus.bus_of(master)) == count]
        yield from self.at_asked(master, port, name, self.draws.pick(sizes or [2]), "aligned")

    def at_mask(self, master, port, size, shape):
        yield self.line(master, "putpart", self.address(port, size), size, shape=shape)

    def at_in_flight(self, master, _, count):
        ports = self.stimulus.reached[master] or [ERROR]
        # at one port, or at several, since a port may hold fewer
        among = [self.draws.pick(ports)] if self.draws.chance(50) else ports
        yield master, "wait"
        for source in range(max(count, min(count + ROUND, self.stimulus.sources[master]))):
            yield from self.burst(master, self.draws.pick(among), 1, first=source)

    def at_at_port(self, _, port, count):
        masters = self.masters_of(port)
        for master in masters:
            yield master, "wait"
        for _ in range(ROUND):
            for master in masters:
                yield from self.burst(master, port, min(count, self.stimulus.sources[master]))

    def at_overtook(self, master, port, where):
        others = [other for other in self.stimulus.reached[master] if other != port]
        older = port if where == "same" else self.draws.pick(others) if others else ERROR
        for source in range(0, max(1, self.stimulus.sources[master] - 1), 2):
            name, size = self.served(older, ["get", "putfull"])
            yield self.line(master, name, self.address(older, size), size, source)
            name, size = self.served(port)
            yield self.line(master, name, self.address(port, size), size, source + 1)

    def at_again(self, master, _, after):
        source = self.draws.below(self.stimulus.sources[master])
        between = self.draws.below(1 + after)
        for turn in range(2):
            port = self.draws.pick(self.stimulus.reached[master] or [ERROR])
            name, size = self.served(port)
            yield self.line(master, name, self.address(port, size), size, source)
            if not turn and self.stimulus.sources[master] > 1:
                yield from self.burst(master, port, between, first=source + 1)
            elif not turn:
                yield master, "wait"

    def at_contested(self, _, port):
        size = 2
        address = self.address(port, size)
        for master in self.masters_of(port):
            for name in ("putfull", "get", "putfull"):
                yield self.line(master, name, address, size)

    def at_source(self, master, _, source):
        port = self.draws.pick(self.stimulus.reached[master] or [ERROR])
        name, size = self.served(port)
        yield self.line(master, name, self.address(port, size), size, source)

    def at_range(self, _, port, number):
        yield from self.at_edge(None, port, number, "first")

    def at_edge(self, _, port, number, edge):
        master = self.draws.pick(self.masters_of(port))
        name, size = self.served(port, ["get", "putfull"])
        base, length = self.stimulus.ports[port][1][number]
        yield self.line(master, name, base if edge == "first" else (base + length - 1) >> size << size, size)

    def at_latency(self, _, port, after):
        masters = self.masters_of(port)
        for master in masters:
            yield from self.burst(master, port, self.stimulus.sources[master] if after > 1 else 1)

    def at_gap(self, master, port, channel, _):
        name = self.draws.pick(["putfull", "putpart"] if channel == "A" else ["get"])
        # what the port does not serve it denies, by as many beats
        long = [size for size in sorted(self.sizes) if 1 << size > self.stimulus.bus_of(master)]
        sizes = [size for size in long if size in self.stimulus.sizes_of(name, port)]
        for _ in range(ROUND):
            size = self.draws.pick(sizes or long or [2])
            yield self.line(master, name, self.address(port, size), size)

    def at_refused(self, _, port, cause):
        masters = range(len(self.stimulus.sources)) if port == ERROR else self.masters_of(port)
        master = self.draws.pick(masters)
        if cause == "no_path":
            far = [other for other in range(len(self.stimulus.ports)) if other not in self.stimulus.reached[master]]
            port = self.draws.pick(far) if far else port
        name, size = self.served(port)
        if cause == "unaligned" and size:
            yield from self.at_asked(master, port, name, size, cause)
        elif cause == "unserved":
            yield from self.at_asked(master, port, self.draws.pick(self.names), self.draws.pick(sorted(self.sizes)), "aligned")
        elif cause == "beyond":
            base, length = self.draws.pick(self.stimulus.ports[port][1])
            yield self.line(master, name, (base + length - 1) >> size << size, size)
        else:
            yield from self.at_asked(master, port, name, size, "aligned")

    def at_lane(self, master, _, size, offset):
        port = self.draws.pick(self.stimulus.reached[master] or [ERROR])
        bus = self.stimulus.bus_of(master)
        address = self.address(port, size)
        yield self.line(master, self.served(port)[0] if port == ERROR else self.draws.pick(
            [name for name in ("get", "putfull", "putpart") if size in self.stimulus.sizes_of(name, port)] or ["get"]),
            address // bus * bus + offset, size)

    def at_after(self, _, port, first, second):
        master = self.draws.pick(self.masters_of(port))
        name, size = self.served(port, OF_ACCESS[first])
        address = self.address(port, 3)
        other, narrow = self.served(port, OF_ACCESS[second])
        for each in self.masters_of(port):
            if each != master:
                yield each, "wait"
        for _ in range(ROUND):
            yield self.line(master, name, address >> size << size, size)
            yield self.line(master, other, address >> narrow << narrow, narrow)
