"""What the links of a capture carried and how long replies took, from its rows in the order in which they cross. For tools/latency.

It reads a capture that tlcheck has read before, up to the first unlawful beat, so each beat belongs to a message. It judges nothing, and
keeps numbers alone: eight bytes for each beat, and some for each request.
"""

import array
import dataclasses
import functools

from tlxtools.bus import reply_of
from tlxtools.common import carries_data
from tlxtools.story import NAMES, RESET, rows_of

# The percentiles that are told, by the words for them.
SHARES = (("median", 50), ("90", 90), ("99", 99))
SPREAD = ("least", *(word for word, _ in SHARES), "most")
# The links that are measured for each word of --links.
SIDES = {"both": "mp", "each": "mp", "masters": "m", "ports": "p"}


def times():
    """A list of times, each of eight bytes."""
    return array.array("Q")


@dataclasses.dataclass(slots=True, frozen=True)
class Form:
    """What the first beat of a request says of all requests of its form: the operation, the beats of the request and of its reply, and how
    many bytes it moves. Of a partial put these are counted beat by beat."""

    name: str
    asked: int
    answered: int
    moves: int
    is_partial: bool


@functools.cache
def form_of(bus, opcode, parameter, size):
    """The form of a request on a bus, by its columns as they are spelled: there are few, and many requests."""
    name, size = NAMES[int(opcode), int(parameter)], int(size)
    reply = reply_of(name)
    # a partial put moves the bytes that its masks set, and a prefetch none
    moves = 0 if name == "putpart" or reply == "HintAck" else 1 << size
    return Form(name, bus.count(size, carries_data(name)), bus.count(size, reply == "AccessAckData"), moves, name == "putpart")


class Count:
    """What is counted of an operation at a link, and of a link as a whole."""

    __slots__ = ("requests", "answered", "denied", "moved", "in_flight", "most", "busy", "crossed", "clock", "to_first", "to_last")

    def __init__(self):
        self.requests = self.answered = self.denied = self.moved = self.in_flight = self.most = self.busy = 0
        self.crossed = {"A": 0, "D": 0}
        # the clock of the last beat, so that a clock with a beat on both channels counts once
        self.clock = None
        # from a request's first beat to its reply's first beat, and to its last one
        self.to_first, self.to_last = times(), times()

    def begin(self):
        self.requests += 1
        self.in_flight += 1
        if self.in_flight > self.most:
            self.most = self.in_flight

    def cross(self, channel, clock):
        self.crossed[channel] += 1
        if clock != self.clock:
            self.clock = clock
            self.busy += 1

    def end(self, flight, time):
        self.answered += 1
        self.in_flight -= 1
        self.denied += flight.denied
        self.moved += flight.moves
        self.to_first.append(flight.replied - flight.began)
        self.to_last.append(time - flight.began)


@dataclasses.dataclass(slots=True)
class Flight:
    """A request from its first beat to the last beat of its reply."""

    form: Form
    # what is counted of its operation
    count: Count
    began: int
    # how many beats of the request are to come, then of the reply
    left: int
    # how many bytes it moves
    moves: int
    replied: int = 0
    denied: bool = False


class Link:
    """A link: what is in flight by source, what is under way on each channel, and what has been counted."""

    def __init__(self, bus):
        self.bus, self.flights, self.asking, self.answering = bus, {}, None, None
        self.whole, self.operations = Count(), {}
        # of all operations, in the order of time: each beat, each request, and each whole reply with the bytes that it moved
        self.beats, self.begun = {"A": times(), "D": times()}, times()
        self.ended, self.moved = times(), times()

    def take_ask(self, row, clock):
        flight = self.asking or self.begin(row)
        if flight.form.is_partial:
            flight.moves += row.mask().bit_count()
        flight.left -= 1
        self.asking = flight if flight.left else None
        self.cross(flight.count, row.channel, row.time, clock)

    def begin(self, row):
        words = row.words
        form = form_of(self.bus, words[3], words[4], words[5])
        count = self.operations.get(form.name)
        if count is None:
            count = self.operations[form.name] = Count()
        flight = self.flights[int(words[6])] = Flight(form, count, row.time, form.asked, form.moves)
        self.begun.append(row.time)
        self.whole.begin()
        count.begin()
        return flight

    def cross(self, count, channel, time, clock):
        self.beats[channel].append(time)
        count.cross(channel, clock)
        # written out, since it is done for each row
        whole = self.whole
        whole.crossed[channel] += 1
        if clock != whole.clock:
            whole.clock = clock
            whole.busy += 1

    def take_reply(self, row, clock):
        flight = self.answering
        if flight is None:
            flight = self.answering = self.flights[int(row.words[6])]
            flight.replied, flight.left = row.time, flight.form.answered
            if row.words[10] == "1":
                flight.denied, flight.moves = True, 0
        flight.left -= 1
        self.cross(flight.count, row.channel, row.time, clock)
        if not flight.left:
            self.end(flight, row)

    def end(self, flight, row):
        self.answering = None
        del self.flights[int(row.words[6])]
        self.ended.append(row.time)
        self.moved.append(flight.moves)
        self.whole.end(flight, row.time)
        flight.count.end(flight, row.time)

    def reset(self):
        """What is in flight is dropped, and stays unanswered."""
        self.asking = self.answering = None
        self.flights.clear()
        for count in (self.whole, *self.operations.values()):
            count.in_flight = 0


class Meter:
    """The links of a system, and the times of the first row and the last one."""

    def __init__(self, system, view, period):
        self.period, self.first, self.last, self.rows = period, 0, 0, 0
        self.links = {link: Link(bus) for link, bus in system.buses.items() if link[0] in SIDES[view]}

    def take(self, row):
        if not self.rows:
            self.first = row.time
        self.last = row.time
        self.rows += 1
        if row.link == RESET:
            for link in self.links.values():
                link.reset()
            return
        link = self.links.get(row.link)
        if link:
            take = link.take_ask if row.channel == "A" else link.take_reply
            take(row, (row.time - self.first) // self.period)

    def span(self):
        """How long the capture is, in units of its time: to the end of the clock of its last row."""
        return self.last - self.first + self.period if self.rows else 0

    def clocks(self):
        return self.span() / self.period


def measured(system, path, view, period, stop=None):
    """Measures the rows of a capture up to a place, which is a time, a link and a channel; that row is not taken."""
    meter = Meter(system, view, period)
    for row in rows_of(path):
        if stop and row.time == stop[0] and (system.names.get(row.link), row.channel) == stop[1:]:
            break
        meter.take(row)
    return meter


def too_near(meter):
    """Two beats of a channel that are nearer than a clock: the link, the channel and the two times; or None."""
    for name, link in meter.links.items():
        for channel, beats in link.beats.items():
            for one, other in zip(beats, beats[1:]):
                if other - one < meter.period:
                    return name, channel, one, other
    return None


def ranked(ordered, share):
    """The nearest rank: the least of these that at least so many of a hundred are not above."""
    return ordered[(share * len(ordered) + 99) // 100 - 1]


def spread(distances, period):
    """The least of these, three percentiles and the most, in clocks; of none all are None."""
    if not distances:
        return dict.fromkeys(SPREAD)
    ordered = sorted(distances)
    found = {"least": ordered[0], **{word: ranked(ordered, share) for word, share in SHARES}, "most": ordered[-1]}
    return {word: plain(value / period) for word, value in found.items()}


def plain(value):
    """A number without a fraction that is none, and with four digits after the point at most."""
    return int(value) if value == int(value) else round(value, 4)


def figures(link, name, operation, count, meter):
    """The figures of an operation at a link, or of all of them together, by their words."""
    clocks = meter.clocks()
    found = {"link": link, "name": name, "operation": operation, "requests": count.requests, "unanswered": count.requests - count.answered,
             "denied": count.denied, "bytes": count.moved, "bytes_a_clock": plain(count.moved / clocks)}
    for words, distances in (("first", count.to_first), ("last", count.to_last)):
        found.update({f"{words}_{word}": value for word, value in spread(distances, meter.period).items()})
    shares = {"busy": count.busy, "busy_A": count.crossed["A"], "busy_D": count.crossed["D"]}
    return {**found, "most_in_flight": count.most, **{word: plain(beats / clocks) for word, beats in shares.items()}}


def all_figures(system, meter):
    """The figures of each link that had a request: of all operations together, then of each."""
    for name, link in meter.links.items():
        if link.whole.requests:
            operations = sorted(link.operations.items(), key=lambda pair: list(NAMES.values()).index(pair[0]))
            for operation, count in (("all", link.whole), *operations):
                yield figures(name, system.names[name], operation, count, meter)
