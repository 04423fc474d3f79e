"""A judge of captures, written from captures.md, faults.md and formats.md of docs/reference alone: what tlcheck has to print of a system and a
capture, byte by byte. It has all rows in memory, and shares no code with the programs."""

import collections
import re

from tlxtools.bus import Bus, bus_of, reply_of
from tlxtools.common import HEADER, MAX_SIZE, OPERATIONS, REPLIES, carries_data, order_at
from tlxtools.partial_memory import ERROR_PORT, Ask, Reply, Slave, fits, port_of
from tlxtools.wide_sources import WideSources

NAMES = {codes: name for name, codes in OPERATIONS.items()}
ANSWERS = {code: name for name, code in REPLIES.items()}
LONGEST_ROW, LONGEST_TIME = 4096, (1 << 64) - 1
# What crosses at one time, in its order: a reset, then the beats of each channel.
RESET = "reset"
TURNS = {(RESET, None): -1, ("m", "A"): 0, ("p", "A"): 1, ("p", "D"): 2, ("m", "D"): 3}

Row = collections.namedtuple("Row", ["line", "time", "side", "number", "channel", "opcode", "param", "size", "source", "address", "mask", "lanes",
                                     "denied", "corrupt"])


class NoRow(Exception):
    """A record of a capture that is no row."""


class Unlawful(Exception):
    """A fault in words, and the row whose beat has it; none as long as that is the beat that crosses."""

    def __init__(self, words, row=None):
        super().__init__(words)
        self.row = row


def number_of(word, most):
    """A decimal number up to this one: first its form is judged, then its range."""
    if not re.fullmatch("[0-9]+", word):
        raise NoRow("bad number")
    if int(word) > most:
        raise NoRow("number out of range")
    return int(word)


def digits_of(word, pattern):
    """A word of hexadecimal digits of this form."""
    if not re.fullmatch(pattern, word):
        raise NoRow("bad number")
    return word


def are_same_in_cuts(one, other, width):
    """Whether two messages carry the same in cuts of so many bytes: the same cuts are spoiled, and the others have the same bytes."""
    cuts = {place // width for place in one.spoiled}
    return (len(one.data) == len(other.data) and cuts == {place // width for place in other.spoiled}
            and all(pair[0] == pair[1] or place // width in cuts for place, pair in enumerate(zip(one.data, other.data))))


def crosses_as(given, captured, width):
    """Whether a master saw the reply that a port gave."""
    return given.denied == captured.denied and are_same_in_cuts(given, captured, width)


def is_sent_as(sent, seen, width):
    """Whether a port saw the request that a master sent: in spoiled cuts too the same bytes are given."""
    return (sent[:3] == seen[:3] and [byte is None for byte in sent.data] == [byte is None for byte in seen.data]
            and are_same_in_cuts(sent, seen, width))


def must_be_corrupt(opcode, denied):
    """Whether a beat of a reply has to be marked corrupt: that of a denied one with data."""
    return denied and ANSWERS.get(opcode) == "AccessAckData"


class Link:
    """A link between a master or a port and the crossbar: its bus, what is in flight by source, and what is under way on A and on D."""

    def __init__(self, side, number, table, width):
        self.side, self.number, self.bus = side, number, Bus(width)
        self.name = table.get("name", f"{side}{number}")
        self.flights, self.asking, self.answering = {}, None, None
        # where replies come in order, the requests whose replies have not begun, the oldest first
        self.is_fifo, self.queue = table.get("fifo", False), collections.deque()


class Flight:
    """A request from its first beat to the last beat of its reply."""

    def __init__(self, row, owner, port):
        self.row, self.owner, self.port = row, owner, port
        self.name = NAMES[row.opcode, row.param]
        # the bytes of the request and of its reply, with the places of each that corrupt beats carried
        self.data, self.spoiled, self.answer, self.answer_spoiled = [], [], [], []
        # the beats that have crossed of the request and of its reply, and the row that the reply began with
        self.asked, self.answered, self.reply_row = 0, 0, None
        self.is_whole, self.place, self.expected, self.kept = False, None, None, None
        # with both sides watched: a port's flight knows its master's, and this one what the port gave
        self.origin, self.has_crossed, self.given = None, False, None

    def ask(self):
        return Ask(self.name, self.row.address, self.row.size, self.data, frozenset(self.spoiled))


class Rows:
    """Reads the rows of a capture."""

    def __init__(self, links, resets):
        self.links, self.resets, self.last, self.seen = links, resets, -1, set()

    def row_of(self, line, text):
        if len(text) > LONGEST_ROW:
            raise NoRow("row too long")
        words = text.split(",")
        if words == ["fault"]:
            raise NoRow("cut by a fault")
        if len(words) != 12:
            raise NoRow("wrong count of columns")
        time = number_of(words[0], LONGEST_TIME)
        if self.resets and words[1] == RESET:
            if any(words[2:]):
                raise NoRow("bad number")
            row = Row(line, time, RESET, 0, *[None] * 10)
            self.keep_order(row)
            return row
        named = re.fullmatch("([mp])([0-9]+)", words[1])
        link = named and self.links.get((named[1], int(named[2])))
        if not link:
            raise NoRow("no such link")
        if words[2] not in ("A", "D"):
            raise NoRow("no such channel")
        row = Row(line, time, link.side, link.number, words[2], *self.columns(words, words[2] == "A", link.bus))
        self.keep_order(row)
        return row

    def columns(self, words, is_ask, bus):
        """The columns from the opcode on, each of which is judged before the next."""
        opcode = number_of(words[3], 255)
        yield opcode
        yield number_of(words[4] or "0", 255) if not is_ask else number_of(words[4], 255)
        yield number_of(words[5], 255)
        yield number_of(words[6], 65535)
        yield int(digits_of(words[7], "[0-9a-fA-F]{1,16}"), 16) if is_ask else digits_of(words[7], "")
        mask = int(digits_of(words[8], f"[0-9a-fA-F]{{{bus.mask_digits}}}"), 16) if is_ask else digits_of(words[8], "")
        if is_ask and mask >> bus.width:
            raise NoRow("bad number")
        yield mask
        word = digits_of(words[9], f"([0-9a-fA-FxXzZ]{{{bus.data_digits}}})?") or "0" * bus.data_digits
        pairs = [word[at:at + 2] for at in range(0, len(word), 2)]
        yield [None if set(pair) & set("xXzZ") else int(pair, 16) for pair in reversed(pairs)]
        denied = digits_of(words[10], "" if is_ask else "[01]") == "1"
        yield denied
        # an empty flag is the one that the message must have
        yield number_of(words[11] or "0", 1) == 1 if is_ask else digits_of(words[11] or str(int(must_be_corrupt(opcode, denied))), "[01]") == "1"

    def keep_order(self, row):
        """The time does not fall, and at one time there is one reset, and one beat of each channel of a link."""
        if row.time < self.last:
            raise NoRow("time falls")
        if row.time > self.last:
            self.last, self.seen = row.time, set()
        if (row.side, row.number, row.channel) in self.seen:
            raise NoRow("two beats at one time")
        self.seen.add((row.side, row.number, row.channel))


class Judge:
    """Watches links of a system, in the views, by the orders and with the limit of time that the command line names."""

    def __init__(self, system, images, links, order, within=None):
        ports, masters = system.get("port", []), system["master"]
        self.system, self.ports, self.masters, self.view, self.order = system, ports, masters, links, order
        self.sources, self.may_be_unaligned, self.resets = WideSources(system), system.get("unaligned", False), system.get("resets", False)
        self.may_be_corrupt = system.get("corrupt", False)
        self.links = {(side, number): Link(side, number, table, bus_of(system, table))
                      for side, tables in (("m", masters), ("p", ports)) for number, table in enumerate(tables)}
        self.watched = {"masters": "m", "ports": "p"}.get(links, "mp")
        # the ports whose links are judged by themselves
        self.apart = [links == "each" or links == "both" and port.get("crossing") == "none" for port in ports]
        # what is counted and traced, and there the longest time from a request's first beat to that of its reply
        self.told, self.within = "p" if links == "ports" else "m", within
        self.slaves = {side: [*(Slave(port, images.get(number, b""), self.resets) for number, port in enumerate(ports)), Slave(ERROR_PORT)]
                       for side in self.watched}
        self.requests, self.answered, self.lines = 0, 0, []

    def step(self, row):
        if row.side == RESET:
            self.reset()
        elif row.side in self.watched:
            link = self.links[row.side, row.number]
            (self.ask if row.channel == "A" else self.reply)(link, row)

    def owner_of(self, link, source):
        """Whose a source of a link is: a master's own, or at a port's link that of the master that has it there; alone, a port has each source."""
        if link.side == "m":
            return (link.number, source) if source < self.masters[link.number]["sources"] else None
        return (None, source) if self.apart[link.number] else self.sources.owner(link.number, source)

    def is_in_flight(self, link, source, owner):
        """Whether a source is in flight: at a port's link the owner's own source, which may stand at another port's link with another number."""
        if link.side == "m" or self.apart[link.number]:
            return source in link.flights
        others = [other for other in self.links.values() if other.side == "p" and not self.apart[other.number]]
        return any(self.sources.wide(other.number, *owner) in other.flights for other in others)

    def crosses(self, link, flight):
        """Whether what is asked and answered at a link is compared with the other side."""
        return self.view == "both" and flight.port < len(self.ports) and not self.apart[flight.port]

    def wider_bus(self, link, flight):
        """How many bytes the wider of the buses of a master's link and of the link of its request's port has."""
        return max(link.bus.width, self.links["p", flight.port].bus.width)

    def slave_of(self, link, flight):
        """The slave that a request is served by, as this link shows it; none if the port's link shows it."""
        return None if link.side == "m" and self.crosses(link, flight) else self.slaves[link.side][flight.port]

    def serve(self, link, flight, moment):
        """A request takes effect if this is the moment for it."""
        slave = self.slave_of(link, flight)
        order = slave and order_at(self.ports[flight.port] if flight.port < len(self.ports) else ERROR_PORT, link.side, self.order)
        if order == moment:
            flight.expected, flight.place = slave.served_next(flight.ask())
        elif order == "any" and moment == "accept":
            flight.kept = slave.accept(flight.ask())
        elif order == "any":
            slave.kept.remove(flight.kept)
            flight.expected, flight.place = flight.kept.expected, flight.kept.place

    def reset(self):
        """The whole system is reset. The slave of a request whose reply has not begun may have done any part of it."""
        for link in self.links.values():
            for flight in link.flights.values():
                slave = self.slave_of(link, flight) if flight.answered == 0 else None
                if slave:
                    slave.cut(flight.ask())
            link.flights, link.asking, link.answering = {}, None, None
            link.queue.clear()
        for slaves in self.slaves.values():
            for slave in slaves:
                slave.reset()

    # ---- channel A

    def ask(self, link, row):
        flight = link.asking
        self.check_ask(link, row, flight)
        if flight is None:
            flight = link.asking = link.flights[row.source] = self.begun(link, row)
            if link.is_fifo:
                link.queue.append(flight)
        if carries_data(flight.name):
            _, lanes = link.bus.lanes(row.address, row.size)
            if row.corrupt:
                flight.spoiled += range(len(flight.data), len(flight.data) + len(lanes))
            flight.data += [None if not row.mask >> lane & 1 else 0 if row.corrupt else row.lanes[lane] for lane in lanes]
        flight.asked += 1
        if flight.asked == link.bus.count(row.size, carries_data(flight.name)):
            link.asking, flight.is_whole = None, True
            self.end_ask(link, flight)

    def check_ask(self, link, row, flight):
        """The faults of a beat by itself and beside the first one of its message."""
        name = NAMES.get((row.opcode, row.param))
        if flight is None:
            if name is None:
                raise Unlawful("unknown opcode")
            if row.size > MAX_SIZE:
                raise Unlawful("size out of range")
            if row.address % (1 << row.size) and not self.may_be_unaligned:
                raise Unlawful("unaligned address")
        elif any(getattr(row, field) != getattr(flight.row, field) for field in ("opcode", "param", "size", "source", "address")):
            raise Unlawful("field changed")
        active = link.bus.active(row.address, row.size)
        if row.mask != active and not (name == "putpart" and row.mask & ~active == 0):
            raise Unlawful("wrong mask")
        if row.corrupt and not (self.may_be_corrupt and carries_data(name)):
            raise Unlawful("wrong corrupt flag")
        if carries_data(name) and not row.corrupt and any(row.mask >> lane & 1 and byte is None for lane, byte in enumerate(row.lanes)):
            raise Unlawful("unknown data")

    def begun(self, link, row):
        """The flight that a request's first beat begins."""
        owner = self.owner_of(link, row.source)
        if owner is None:
            raise Unlawful("no such source")
        port = port_of(self.system, owner[0], row.address, row.size)
        if self.is_in_flight(link, row.source, owner):
            raise Unlawful("source in flight")
        if link.side == "p" and port != link.number:
            raise Unlawful("not this port's address")
        return Flight(row, owner, port)

    def end_ask(self, link, flight):
        if link.side == "p" and self.crosses(link, flight):
            origin = self.links["m", flight.owner[0]].flights.get(flight.owner[1])
            is_there = origin is not None and origin.is_whole and not origin.has_crossed
            if not is_there or not is_sent_as(origin.ask(), flight.ask(), self.wider_bus(self.links["m", flight.owner[0]], flight)):
                raise Unlawful("no master sent this request")
            origin.has_crossed, flight.origin = True, origin
        self.serve(link, flight, "accept")
        self.requests += link.side == self.told

    # ---- channel D

    def reply(self, link, row):
        flight, is_first = link.answering, link.answering is None
        self.check_reply(row, flight)
        if is_first:
            flight = link.answering = self.begun_reply(link, row)
            self.serve(link, flight, "reply")
        carries = ANSWERS[row.opcode] == "AccessAckData"
        if carries:
            _, lanes = link.bus.lanes(flight.row.address, row.size)
            is_spoiled = row.corrupt and not row.denied
            if is_spoiled:
                flight.answer_spoiled += range(len(flight.answer), len(flight.answer) + len(lanes))
            flight.answer += [0 if row.denied else None if is_spoiled else row.lanes[lane] for lane in lanes]
            if None in flight.answer and not (self.may_be_corrupt or self.slaves[link.side][flight.port].may_answer_unknown()):
                raise Unlawful("unknown data")
        flight.answered += 1
        is_whole = flight.answered == link.bus.count(row.size, carries)
        reply = Reply(row.denied, flight.answer, frozenset(flight.answer_spoiled))
        if is_whole:
            self.check_whole(link, flight, reply)
        # the last fault of a beat
        if is_first and link.side == self.told and self.has_passed(flight, row.time):
            raise Unlawful("late reply")
        if is_whole:
            link.answering = None
            self.end_reply(link, flight, reply)
            del link.flights[row.source]

    def check_reply(self, row, flight):
        if flight is None:
            if row.opcode not in ANSWERS:
                raise Unlawful("unknown opcode")
            if row.param:
                raise Unlawful("wrong param")
            if row.size > MAX_SIZE:
                raise Unlawful("size out of range")
        elif any(getattr(row, field) != getattr(flight.reply_row, field) for field in ("opcode", "param", "size", "source", "denied")):
            raise Unlawful("field changed")
        may_be = self.may_be_corrupt and ANSWERS[row.opcode] == "AccessAckData" and not row.denied
        if row.corrupt != must_be_corrupt(row.opcode, row.denied) and not may_be:
            raise Unlawful("wrong corrupt flag")

    def begun_reply(self, link, row):
        """The flight that a reply's first beat answers."""
        if self.owner_of(link, row.source) is None:
            raise Unlawful("no such source")
        flight = link.flights.get(row.source)
        if flight is None:
            raise Unlawful("reply without request")
        if not flight.is_whole:
            raise Unlawful("reply before its request ended")
        if link.is_fifo and link.queue[0] is not flight:
            raise Unlawful("reply out of order")
        if row.size != flight.row.size:
            raise Unlawful("size of another request")
        if ANSWERS[row.opcode] != reply_of(flight.name):
            raise Unlawful("opcode of another operation")
        if link.is_fifo:
            link.queue.popleft()
        flight.reply_row = row
        return flight

    def check_whole(self, link, flight, reply):
        """The faults of a reply that has ended."""
        if link.side == "m" and self.crosses(link, flight):
            if not flight.given or not crosses_as(flight.given, reply, self.wider_bus(link, flight)):
                raise Unlawful("the port gave no such reply")
        elif not fits(flight.expected, reply):
            raise Unlawful(f"wrong reply: expected {reply_text(flight.name, flight.expected)}, captured {reply_text(flight.name, reply)}")

    def end_reply(self, link, flight, reply):
        if flight.origin:
            flight.origin.given, flight.origin.place = reply, flight.place
        if link.side == self.told:
            self.answered += 1
            master, source = flight.owner
            self.lines.append(f"m{master} s{source} {ask_text(flight)} -> {reply_text(flight.name, reply)} p{flight.port} #{flight.place}")

    # ---- times

    def has_passed(self, flight, time):
        """Whether a request has waited for longer than the limit at a time."""
        return self.within is not None and time > flight.row.time + self.within

    def look_at(self, time):
        """After all beats of a time: the first request that waits for too long then."""
        links = [link for link in self.links.values() if link.side == self.told]
        waiting = [flight for link in links for flight in link.flights.values() if flight.answered == 0]
        first = min(waiting, key=lambda flight: turn_of(flight.row), default=None)
        if first and self.has_passed(first, time):
            raise Unlawful("no reply in time", first.row)

    # ---- the end

    def left(self):
        """The requests that are left at the end, the oldest first."""
        for side in "p" if self.view == "ports" else "m" if self.view in ("masters", "each") else "mp":
            links = [link for link in self.links.values() if link.side == side and not (side == "p" and self.apart[link.number])]
            flights = [flight for link in links for flight in link.flights.values()]
            if flights:
                return sorted(flights, key=lambda flight: turn_of(flight.row))
        return []


def turn_of(row):
    """Where a row stands in the order in which beats cross."""
    return row.time, TURNS[row.side, row.channel], row.number


def bytes_text(data):
    return "".join("xx" if byte is None else f"{byte:02x}" for byte in data)


def ask_text(flight):
    """A request as traces spell it: a byte that is given in a corrupt beat is xx."""
    pairs = ("--" if byte is None else "xx" if place in flight.spoiled else f"{byte:02x}" for place, byte in enumerate(flight.data))
    return f"{flight.name} {flight.row.address:#x} {flight.row.size}{' ' * bool(flight.data)}{''.join(pairs)}"


def reply_text(name, reply):
    data = f" {bytes_text(reply.data)}" if reply.data else ""
    return f"{reply_of(name)}{' denied' * bool(reply.denied)}{data}"


def verdict_of(judge, rows, last_line):
    """The last line of what is written, and the status; the judge has the lines of a trace."""
    judged, group, reader = 0, [], Rows(judge.links, judge.resets)

    def judge_group():
        for row in sorted(group, key=turn_of):
            try:
                judge.step(row)
            except Unlawful as fault:
                fault.row = row
                raise
        if group:
            judge.look_at(group[0].time)
        group.clear()

    # empty lines are no rows, in front of the header neither
    records = [(line, text) for line, text in enumerate(rows, 1) if text]
    line = records[0][0] if records else 1
    try:
        if not records or records[0][1] != HEADER:
            raise NoRow("wrong header")
        for line, text in records[1:]:
            row = reader.row_of(line, text)
            judged += 1
            if group and group[0].time < row.time:
                judge_group()
            group.append(row)
        judge_group()
    except NoRow as fault:
        return f"capture: line {line}: {fault}", 1
    except Unlawful as fault:
        row = fault.row
        return f"unlawful: line {row.line}, time {row.time}, {judge.links[row.side, row.number].name} {row.channel}: {fault}", 3
    return last_line(judged)


def judged(system, images, capture, links="both", order="accept", trace=False, complete=False, within=None):
    """What tlcheck writes of a capture with these options, and its status. `images` has the bytes of the ports that have an image."""
    judge = Judge(system, images, links, order, within)

    def last_line(count):
        left = judge.left() if complete else []
        if left:
            (master, source), row = left[0].owner, left[0].row
            return (f"incomplete: {len(left)} requests without reply, the first: line {row.line}, time {row.time}, m{master} s{source} "
                    f"{left[0].name} {row.address:#x} {row.size}", 3)
        if complete and not judge.requests:
            return "empty: no request", 3
        return f"lawful: {count} rows, {judge.requests} requests, {judge.answered} answered", 0

    last, status = verdict_of(judge, capture.replace("\r\n", "\n").split("\n"), last_line)
    return "".join(line + "\n" for line in [*(judge.lines if trace else []), last]), status
