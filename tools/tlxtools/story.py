"""The messages of a capture up to one of its rows: which beats each has, what is in flight, and which requests wrote a byte.

It reads a capture that tlcheck has read before, so rows up to that one are well formed. It judges nothing, and shares no code with the
programs.
"""

import collections
import csv
import dataclasses
import functools
import itertools
import os
import tomllib

from tlxtools.bus import Bus, bus_of
from tlxtools.common import OPERATIONS, REPLIES, carries_data, order_at
from tlxtools.partial_memory import Ask, Slave, port_of, ranges_of
from tlxtools.spelling import spelled
from tlxtools.wide_sources import WideSources

NAMES = {codes: name for name, codes in OPERATIONS.items()}
ANSWERS = {code: name for name, code in REPLIES.items()}
# The channels in the order in which their beats cross within one time, and before all of them a reset.
RESET = "reset"
TURNS = {("m", "A"): 0, ("p", "A"): 1, ("p", "D"): 2, ("m", "D"): 3}
# So many rows before a fault are kept for its picture, and so many behind it to see how a message goes on.
RECENT, BEHIND = 64, 256
# The sides whose links a view judges, by the word of --links.
SIDES = {"both": "mp", "each": "mp", "masters": "m", "ports": "p"}


@functools.cache
def turn_of(link, channel):
    """Where a channel of a link stands among those of one time, or a reset."""
    return (-1, 0) if link == RESET else (TURNS[link[0], channel], int(link[1:]))


@dataclasses.dataclass(slots=True)
class Row:
    """A row of a capture: its line, and its columns as they are spelled."""

    line: int
    time: int
    link: str
    channel: str
    words: list

    def number(self, column):
        """A column of decimal digits: 3 is the opcode, 4 the parameter, 5 the size, 6 the source."""
        return int(self.words[column] or 0)

    def address(self):
        return int(self.words[7], 16)

    def mask(self):
        return int(self.words[8], 16)

    def lanes(self, bus):
        """The bytes of the bus from lane 0 on, None for one that is unknown. A row without data has zeros."""
        word = self.words[9] or "0" * bus.data_digits
        try:
            return list(bytes.fromhex(word)[::-1])
        except ValueError:
            pairs = (word[at:at + 2] for at in range(len(word) - 2, -2, -2))
        return [None if set(pair) & set("xXzZ") else int(pair, 16) for pair in pairs]

    def is_spoiled(self):
        """Whether its bytes promise nothing: it is a corrupt beat of a request, or of a reply that is not denied."""
        return int(self.words[11] or "0") == 1 and self.words[10] != "1"

    def turned(self):
        """Where the row stands among all."""
        return self.time, *self.turn()

    def turn(self):
        """Where the row stands among those of its time."""
        return turn_of(self.link, self.channel)


@dataclasses.dataclass(slots=True)
class Message:
    """A request at a link with its reply, as far as they have crossed."""

    link: str
    source: int
    name: str
    address: int
    size: int
    bus: Bus
    asked: list = dataclasses.field(default_factory=list)
    is_whole: bool = False
    is_over: bool = False
    # how many writes of its side took effect before it; None if it has not taken effect
    before: int = None
    answered: list = dataclasses.field(default_factory=list)
    denied: bool = False
    # the number of the port to which it goes
    port: int = None

    def lanes(self):
        return self.bus.lanes(self.address, self.size)[1]

    # most requests are never asked for their bytes
    @property
    def data(self):
        """The bytes that its beats so far have carried, None for one that is not given, and 0 for one that a corrupt beat gives."""
        found = []
        for row in self.asked if carries_data(self.name) else ():
            mask, word = row.mask(), row.lanes(self.bus)
            found += [None if not mask >> lane & 1 else 0 if row.is_spoiled() else word[lane] for lane in self.lanes()]
        return found

    @property
    def text(self):
        """These bytes as a trace spells them."""
        return "".join(spelled(self.data, self.spoiled(self.asked)))

    @property
    def reply(self):
        """The bytes that the beats of its reply so far have carried, None for one that is unknown or spoiled."""
        return [byte for row in self.answered for byte in self.carried(row)]

    def carried(self, row):
        """The bytes that a beat of its reply carries."""
        if ANSWERS[row.number(3)] != "AccessAckData":
            return []
        word = row.lanes(self.bus)
        return [None if row.is_spoiled() else word[lane] for lane in self.lanes()]

    def spoiled(self, rows):
        """The places of bytes that corrupt beats carry, of beats of the request or of its reply from the first on."""
        span = len(self.lanes())
        return {place for beat, row in enumerate(rows) if row.is_spoiled() for place in range(beat * span, (beat + 1) * span)}

    def ask(self):
        return Ask(self.name, self.address, self.size, self.data, frozenset(self.spoiled(self.asked)))

    def window(self):
        """The addresses of its bytes."""
        return range(self.address, self.address + (1 << self.size))

    def byte(self, address):
        """The byte that it carries for an address, or None, of a corrupt beat too."""
        place = address - self.address
        if not 0 <= place < 1 << self.size or place in self.spoiled(self.asked):
            return None
        data = self.data
        return data[place] if place < len(data) else None


@dataclasses.dataclass(slots=True)
class Reset:
    """A reset of the whole system: how many writes of each side took effect before it, and the requests whose reply had not begun."""

    row: Row
    before: dict
    cut: list


def meet(window, other):
    """Whether two windows have a byte in common."""
    return other.start < window.stop and window.start < other.stop


class System:
    """What a system file says, as far as a story needs it, in a view of the links."""

    def __init__(self, path, view="both"):
        with open(path, "rb") as file:
            table = tomllib.load(file)
        self.folder = os.path.dirname(path)
        self.table, self.tables = table, {"m": table["master"], "p": table.get("port", [])}
        self.buses = {f"{side}{number}": Bus(bus_of(table, it)) for side, tables in self.tables.items() for number, it in enumerate(tables)}
        self.names = {f"{side}{number}": it.get("name", f"{side}{number}") for side, tables in self.tables.items()
                      for number, it in enumerate(tables)}
        self.sources = WideSources(table)
        # the ports' links that are judged by themselves
        self.apart = {f"p{number}" for number, port in enumerate(self.tables["p"])
                      if view == "each" or view == "both" and port.get("crossing") == "none"}

    def owner(self, link, source):
        """Whose a source is: the number of the master, and the master's own source; None if it is nobody's at this link of a port, or if the link is
        judged by itself."""
        if link in self.apart:
            return None
        return (int(link[1:]), source) if link[0] == "m" else self.sources.owner(int(link[1:]), source)

    def wide(self, port, owner):
        """The source that a master's own source has at the link of a port; None if it has none there, or if the port has no link."""
        return self.sources.wide(port, *owner) if port < len(self.tables["p"]) else None

    def port_of(self, link, source, address, size):
        """The number of the port to which a request of a source at a link goes, by its master's paths; if no master is known to have the source, by
        its address alone."""
        owner = self.owner(link, source)
        return port_of(self.table, owner and owner[0], address, size)

    def port_to(self, message):
        """The number of the port to which a message goes."""
        return self.port_of(message.link, message.source, message.address, message.size)

    def slave(self, port):
        """A port's slave at reset."""
        table = self.tables["p"][port]
        return Slave(table, self.image(table))

    def image(self, table):
        if "image" not in table:
            return b""
        with open(os.path.join(self.folder, table["image"]), "rb") as file:
            return file.read()

    def origin(self, port, address):
        """What says the byte of a port at reset."""
        table = self.tables["p"][port]
        ranges = ranges_of(table)
        own = next(base for base, length in ranges if base <= address < base + length) if table.get("mirror") else ranges[0][0]
        place = address - own
        if any(offset <= place < offset + length for offset, length in table.get("volatile", [])):
            return "the key volatile: it changes by itself"
        if 0 <= place < len(table.get("reset", "")) // 2:
            return "the key reset"
        if 0 <= place < len(self.image(table)):
            return f"byte {place} of {table['image']}"
        return "unknown at reset" if table.get("unknown") else "zero at reset"


@functools.cache
def link_of(word):
    """The name of a link without zeros that lead its number, or the word of a reset."""
    return word if word == RESET else f"{word[0]}{int(word[1:])}"


def in_turn(rows):
    """The rows of one time in the order in which they cross."""
    return sorted(rows, key=Row.turn) if len(rows) > 1 else rows


def rows_of(path):
    """The rows of a capture in the order in which their beats cross."""
    group = []
    with open(path, encoding="utf-8", newline="") as file:
        records = csv.reader(file)
        next((words for words in records if words), None)
        for words in records:
            if not words:
                continue
            row = Row(records.line_num, int(words[0]), link_of(words[1]), words[2], words)
            if group and group[0].time != row.time:
                yield from in_turn(group)
                group = []
            group.append(row)
    yield from in_turn(group)


def well_formed(rows):
    """Rows up to the first record that is none: tlcheck has read no further than a fault."""
    try:
        yield from rows
    except (ValueError, LookupError, csv.Error):
        return


class Story:
    """What has crossed up to a row: the requests in flight by link and source, the last one of each that is over, and what is under way on
    each channel. Of each side the writes in the order in which they take effect. A side that the view does not judge has rows alone."""

    def __init__(self, system, order, view="both"):
        self.system, self.order, self.sides = system, order, SIDES[view]
        # the order of each port and side, once it was asked for
        self.orders = {}
        self.flights, self.over, self.under = {}, {}, {}
        self.writes, self.resets = {"m": [], "p": []}, []
        # the requests that a reset has dropped, each with the reset, by link and source until the source is used again
        self.dropped = {}
        # the row of the fault, some behind it, and the time at which the fault is seen
        self.last, self.behind, self.seen = None, [], None
        # the last rows that were taken, each with its request
        self.recent = collections.deque(maxlen=RECENT)
        # of each link how many requests are in flight, and the most so far with the row at which there were so many
        self.open, self.most = collections.Counter(), {}
        # how many requests are answered, by the port to which they went and the link at which the reply crossed
        self.done = collections.Counter()
        # the first row of each side
        self.first = {}

    def tell(self, path, line):
        """Takes the rows before this line's, in the order in which they cross, and keeps this one and some behind it."""
        rows = rows_of(path) if line is None else well_formed(rows_of(path))
        for row in rows:
            if row.line == line:
                following = itertools.takewhile(lambda other: other.link != RESET, rows)
                self.last, self.behind, self.seen = row, list(itertools.islice(following, BEHIND)), row.time
                return
            self.take(row)

    def tell_past(self, path, line, limit):
        """Takes all rows up to the first time after a limit, at which the request that this line begins has waited for too long. It keeps its row."""
        self.seen = 0
        for row in well_formed(rows_of(path)):
            if limit < self.seen < row.time:
                return
            self.seen = row.time
            if row.line == line:
                self.last = row
            self.take(row)

    def take(self, row):
        if row.link == RESET:
            self.reset(row)
            return
        side = row.link[0]
        if side not in self.first:
            self.first[side] = row
        if side not in self.sides:
            self.recent.append((row, None))
        elif row.channel == "A":
            self.take_ask(row)
        else:
            self.take_reply(row)

    def reset(self, row):
        """All that is in flight is dropped."""
        before = {side: len(writes) for side, writes in self.writes.items()}
        reset = Reset(row, before, [message for message in self.flights.values() if not message.answered])
        self.resets.append(reset)
        self.dropped |= {key: (message, reset) for key, message in self.flights.items()}
        self.flights.clear()
        self.under.clear()
        self.open.clear()

    def order_of(self, message):
        key = message.port, message.link[0]
        if key not in self.orders:
            tables = self.system.tables["p"]
            self.orders[key] = order_at(tables[message.port] if message.port < len(tables) else {}, message.link[0], self.order)
        return self.orders[key]

    def begun(self, row):
        """The request that a row begins."""
        name, link = NAMES[row.number(3), row.number(4)], row.link
        message = Message(link, row.number(6), name, row.address(), row.number(5), self.system.buses[link])
        message.port = self.system.port_to(message) if link[0] == "m" else int(link[1:])
        self.flights[link, message.source] = self.under[link, "A"] = message
        self.dropped.pop((link, message.source), None)
        self.open[link] += 1
        if link not in self.most or self.open[link] > self.most[link][0]:
            self.most[link] = self.open[link], row
        return message

    def take_ask(self, row):
        message = self.under.get((row.link, "A")) or self.begun(row)
        bus = self.system.buses[row.link]
        message.asked.append(row)
        self.recent.append((row, message))
        if len(message.asked) == bus.count(message.size, carries_data(message.name)):
            message.is_whole = True
            del self.under[row.link, "A"]
            if self.order_of(message) != "reply":
                self.serve(message)

    def serve(self, message):
        """A request takes effect. With `--order any` that is its acceptance here."""
        writes = self.writes[message.link[0]]
        message.before = len(writes)
        if carries_data(message.name):
            writes.append(message)

    def take_reply(self, row):
        message = self.under.get((row.link, "D"))
        if message is None:
            message = self.under[row.link, "D"] = self.flights[row.link, row.number(6)]
            message.denied = row.words[10] == "1"
            if self.order_of(message) == "reply":
                self.serve(message)
        message.answered.append(row)
        self.recent.append((row, message))
        bus, carries = self.system.buses[row.link], ANSWERS[row.number(3)] == "AccessAckData"
        if len(message.answered) == bus.count(message.size, carries):
            message.is_over = True
            self.open[row.link] -= 1
            self.done[message.port, row.link] += 1
            del self.under[row.link, "D"]
            del self.flights[row.link, message.source]
            self.over[row.link, message.source] = message

    def history(self, message, port):
        """For each address of a request what it held at first, and after each earlier request or reset that changed it: pairs of a request and a
        byte, which is None if it is unknown. What a port holds at first, or again after a reset, is no request's: None."""
        slave = self.system.slave(port)
        places = self.places(slave, message)
        addresses = dict(zip(places, message.window()))
        found = {addresses[place]: [(None, slave.byte(place))] for place in places}
        for event in self.events(message):
            if isinstance(event, Reset):
                changed = self.changed_by(event, slave, message.link[0], port)
            else:
                changed = self.written_by(event, slave, places) if event.port == port else ()
            for place, writer in changed:
                if place in addresses:
                    found[addresses[place]].append((writer, slave.byte(place)))
        return found

    def events(self, message):
        """The writes of a request's side that took effect before it, and the resets among them."""
        writes, taken = self.writes[message.link[0]], 0
        for reset in self.resets:
            before = reset.before[message.link[0]]
            yield from writes[taken:before]
            yield reset
            taken = before
        yield from writes[taken:message.before]

    def written_by(self, other, slave, places):
        """Has a slave take a write that meets these places: each place that it may have changed, with the write."""
        if meet(places, self.places(slave, other)) and slave.permits(other):
            ask = other.ask()
            slave.answer(ask)
            yield from ((place, other) for place in slave.writes(ask))

    @staticmethod
    def changed_by(reset, slave, side, port):
        """Resets a slave: each place that it may have changed, with the request that was cut short there, or None if the slave is as at first."""
        for other in reset.cut:
            if (other.link[0], other.port) == (side, port):
                yield from ((place, other) for place in slave.cut(other.ask()))
        if not slave.keeps:
            places = {*slave.cells}
            slave.reset()
            yield from ((place, None) for place in places)

    @staticmethod
    def places(slave, message):
        """Where the bytes of a request stand at a slave."""
        start = slave.start_of(message)
        return range(start, start + (1 << message.size))

    def later(self, message, address, value):
        """The first request that takes effect after this one, or is in flight, and carries a byte for an address; or None."""
        side = message.link[0]
        after = self.writes[side][len(self.writes[side]) if message.before is None else message.before:]
        others = [*after, *(other for other in self.flights.values() if other.link[0] == side and other.before is None)]
        return next((other for other in others if other is not message and other.byte(address) == value), None)

    def written(self, side, address, value):
        """The last put of a byte to another address that has the same place in 16 bytes: the address, and the put."""
        for message in reversed(self.writes[side]):
            for at, byte in zip(message.window(), message.data):
                if byte == value and at != address and (at - address) % 16 == 0:
                    return at, message
        return None
