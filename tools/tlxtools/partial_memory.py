"""What a slave of a system file answers, worked out from docs/reference/formats.md: a memory each of whose bytes is known or unknown, a device, or the
error port. An unknown byte is None; so is a byte that a put leaves unset. This shares no code with the programs."""

import collections

from tlxtools.bus import reply_of
from tlxtools.common import GROUP_OF, MAX_SIZE
from tlxtools.wide_sources import is_reached

# A request: its operation, its bytes if it carries some, and the places that corrupt beats carried: a byte that is given there is 0.
Ask = collections.namedtuple("Ask", ["name", "address", "size", "data", "spoiled"], defaults=[frozenset()])
# A reply: whether it is denied, its bytes if it carries some, and of a captured one the places that corrupt beats carried, which promise nothing. One
# that is expected may be denied or not if its flag is None.
Reply = collections.namedtuple("Reply", ["denied", "data", "spoiled"], defaults=[frozenset()])

ALL = (0, MAX_SIZE)
# The least and the greatest size of each group of operations that a kind of slave supports.
SUPPORT = {
    "ram": {"get": ALL, "putfull": ALL, "putpart": ALL, "arithmetic": (2, 3), "logical": (2, 3), "intent": ALL},
    "rom": {"get": ALL, "intent": ALL},
    "regs": {"get": (2, 3), "putfull": (2, 3)},
    "w1c": {"get": (2, 3), "putfull": (2, 3)},
    "error": {},
}
LOGIC = {"xor": lambda old, new: old ^ new, "or": lambda old, new: old | new, "and": lambda old, new: old & new, "swap": lambda old, new: new}


def signed(number, bits):
    return number - (1 << bits) if number >> bits - 1 else number


def combined(name, old, operand):
    """The bytes that an atomic leaves of an old window, all of whose bytes are known."""
    bits = 8 * len(old)
    before, given = int.from_bytes(old, "little"), int.from_bytes(operand, "little")
    if name in LOGIC:
        made = LOGIC[name](before, given)
    elif name == "add":
        made = (before + given) % (1 << bits)
    else:
        choose, key = min if name.startswith("min") else max, (lambda value: value) if name.endswith("u") else lambda value: signed(value, bits)
        made = choose(before, given, key=key)
    return list(made.to_bytes(len(old), "little"))


def ranges_of(port):
    """The bases and lengths of a port."""
    return [tuple(pair) for pair in port["ranges"]] if "ranges" in port else [(port["base"], port["length"])]


def holds(ranges, address, size):
    """Whether one of these ranges holds all bytes of a request."""
    return any(base <= address and address + (1 << size) <= base + length for base, length in ranges)


def port_of(system, master, address, size):
    """The number of the port to which a master's request goes: the one of whose ranges one holds all its bytes, or with the decode of addresses
    the first of them, if the master has a path to it; else that of the error port. Nobody knows of a port's own link who sends: no master."""
    ports = system.get("port", [])
    decoded = 0 if system.get("decode") == "address" else size
    found = next((number for number, port in enumerate(ports) if holds(ranges_of(port), address, decoded)), len(ports))
    return found if found == len(ports) or master is None or is_reached(system, master, found) else len(ports)


ERROR_PORT = {"kind": "error", "base": 0, "length": 0}


class Kept:
    """A request that a slave has accepted and not answered, with `--order any`: what its reply has to fit, and its place by acceptance."""

    def __init__(self, ask, start, writes, expected, place):
        self.ask, self.start, self.writes, self.expected, self.place = ask, start, writes, expected, place

    def spoils(self, shared):
        """The bytes that nobody knows once others may write these bytes of it too: an atomic's whole window, since a sum carries."""
        return self.writes if shared and not self.ask.name.startswith("put") else shared

    def lose(self, others):
        """What the reply has to fit, once others may write these bytes before it begins."""
        if self.expected and not self.expected.denied:
            places = range(self.start, self.start + len(self.expected.data))
            self.expected = self.expected._replace(data=[None if at in others else byte for at, byte in zip(places, self.expected.data)])


class Slave:
    """A slave from the beginning on, and how many requests it has served. `resets`: whether the system may be reset in between."""

    def __init__(self, port, image=b"", resets=False):
        self.kind, self.sizes = port["kind"], port.get("sizes")
        self.keeps = port.get("on_reset", "keep" if self.kind in ("ram", "rom") else "load") == "keep"
        # a reset that cuts a request short may leave bytes that nobody knows
        self.may_be_cut = resets and self.keeps
        self.is_unknown, self.served, self.kept = port.get("unknown", False), 0, []
        self.ranges = ranges_of(port)
        self.is_mirror, base = port.get("mirror", False) and self.kind != "device", self.ranges[0][0]
        self.volatile = [(base + offset, length) for offset, length in port.get("volatile", [])]
        self.first = {base + place: byte for given in (image, bytes.fromhex(port.get("reset", ""))) for place, byte in enumerate(given)}
        self.cells = dict(self.first)

    def may_answer_unknown(self):
        return self.kind == "device" or self.is_unknown or bool(self.volatile) or self.may_be_cut

    def supports(self, name, size):
        table = SUPPORT[self.kind] if self.sizes is None else self.sizes
        least, greatest = table.get(GROUP_OF[name], (1, 0))
        return least <= size <= greatest

    def byte(self, address):
        """The byte at an address; what changes by itself is unknown, whatever was written there."""
        if holds(self.volatile, address, 0):
            return None
        return self.cells.get(address, None if self.is_unknown else 0)

    def start_of(self, ask):
        """Where the bytes of a request stand: if the ranges are one memory, as far from the base of the first as from that of their own. A device
        sees them at the address that is sent."""
        own = next((base for base, length in self.ranges if holds([(base, length)], ask.address, ask.size)), None)
        return ask.address if own is None or not self.is_mirror else self.ranges[0][0] + ask.address - own

    def window(self, ask):
        start = self.start_of(ask)
        return [self.byte(at) for at in range(start, start + (1 << ask.size))]

    def served_next(self, ask):
        """What a request expects after all before it, and its place among them; of a device it expects nothing."""
        self.served += 1
        return (None if self.kind == "device" else self.answer(ask)), self.served - 1

    def answer(self, ask):
        """What a memory answers to a request, which then has taken effect. A corrupt one may be denied, and nobody knows what it has written."""
        carries = reply_of(ask.name) == "AccessAckData"
        if not self.permits(ask):
            return Reply(True, [0] * (1 << ask.size) if carries else [])
        old = self.window(ask)
        if ask.spoiled:
            self.cut(ask)
            return Reply(None, old if carries else [])
        if ask.data:
            start = self.start_of(ask)
            self.cells.update(zip(range(start, start + len(old)), self.left_by(ask, old)))
        return Reply(False, old if carries else [])

    def permits(self, ask):
        """Whether a memory serves a request."""
        return self.supports(ask.name, ask.size) and ask.address % (1 << ask.size) == 0 and holds(self.ranges, ask.address, ask.size)

    def writes(self, ask):
        """Where the bytes stand that a request may write."""
        if self.kind == "device" or not self.permits(ask):
            return set()
        start = self.start_of(ask)
        return {start + place for place, byte in enumerate(ask.data) if byte is not None}

    def accept(self, ask):
        """A request is accepted that takes effect at some moment before its reply begins. Bytes that two requests may write at once are unknown
        from then on, and a request that another one meets expects no such byte."""
        writes = self.writes(ask)
        expected, place = self.served_next(ask)
        new = Kept(ask, self.start_of(ask), writes, expected, place)
        for other in self.kept:
            new.lose(other.writes)
            other.lose(writes)
            shared = writes & other.writes
            for at in new.spoils(shared) | other.spoils(shared):
                self.cells[at] = None
        self.kept.append(new)
        return new

    def cut(self, ask):
        """A request of which these bytes have come is cut short by a reset, or is corrupt: where the bytes stand that it may write, which nobody
        knows then."""
        places = self.writes(ask)
        if places and not ask.name.startswith("put"):
            places = set(range(self.start_of(ask), self.start_of(ask) + (1 << ask.size)))
        self.cells.update(dict.fromkeys(places))
        return places

    def reset(self):
        """The memory keeps its bytes, or is as at the beginning; what it had accepted is dropped."""
        self.kept.clear()
        if not self.keeps:
            self.cells = dict(self.first)

    def left_by(self, ask, old):
        """The bytes that a put or an atomic leaves."""
        if not ask.name.startswith("put"):
            is_known = None not in old
            return combined(ask.name, old, ask.data) if is_known else ask.data if ask.name == "swap" else [None] * len(old)
        if self.kind == "w1c":
            return [cleared(before, given) for before, given in zip(old, ask.data)]
        return [before if given is None else given for before, given in zip(old, ask.data)]


def cleared(before, given):
    """A byte of which these bits are cleared: it is known if it was, or if all are."""
    if given is None:
        return before
    return 0 if given == 255 else None if before is None else before & ~given


def fits(expected, captured):
    """Whether a captured reply is one that is expected: as to its unknown bytes it is free, and as to those that are spoiled. Where the expected one
    may be denied, it is free as to that."""
    if expected is None:
        return True
    return expected.denied in (None, captured.denied) and (captured.denied or all(
        byte is None or byte == other or place in captured.spoiled for place, (byte, other) in enumerate(zip(expected.data, captured.data))))
