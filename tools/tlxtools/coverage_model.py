"""What a capture covers, by the judge of judge_model.py (docs/guide/regression.md, "What was covered"). Nothing of it is proved."""

import collections

from tlxtools.common import GROUP_OF, carries_data
from tlxtools.coverage_text import AFTER, EDGES, MOST_IN_FLIGHT, SOURCES_APART, text_of
from tlxtools.judge_model import Judge, verdict_of
from tlxtools.partial_memory import holds, port_of, ranges_of


def shape_of(data):
    """Which bytes a partial put gives."""
    given, count = [byte is not None for byte in data], len(data)
    halves = [place * 2 < count for place in range(count)]
    evens = [place % 2 == 0 for place in range(count)]
    shapes = {"none": not any(given), "all": all(given), "one": sum(given) == 1, "hole": sum(given) == count - 1, "low": given == halves,
              "high": given == [not half for half in halves], "even": given == evens, "odd": given == [not even for even in evens]}
    return next((shape for shape, is_so in shapes.items() if is_so), "other")


def overlap(slave, one, other):
    """Whether two requests have a byte in common, where the memory of the slave has their bytes."""
    here, there = slave.start_of(one.ask()), slave.start_of(other.ask())
    return here < there + (1 << other.row.size) and there < here + (1 << one.row.size)


def meets(slave, one, other):
    """Whether they have, and one of them writes."""
    return overlap(slave, one, other) and (carries_data(one.name) or carries_data(other.name))


def access_of(name):
    """What a request of an operation does to its bytes."""
    return {"get": "read", "putfull": "write", "putpart": "write", "arithmetic": "atomic", "logical": "atomic", "intent": "hint"}[GROUP_OF[name]]


class CoveringJudge(Judge):
    """A judge that counts what it has seen, at the links whose messages it counts."""

    def __init__(self, system, images, links, order, within=None):
        super().__init__(system, images, links, order, within)
        self.counts, self.ended, self.begun_so_far, self.latest = collections.Counter(), {}, 0, {}

    def flights(self):
        """The requests in flight at the links whose messages are counted."""
        return [flight for link in self.links.values() if link.side == self.told for flight in link.flights.values()]

    def count(self, kind, flight, *words, has_master=True, has_port=True):
        self.counts[(kind, *[flight.owner[0]] * has_master, *[flight.port] * has_port, *words)] += 1

    def place_of(self, flight):
        """The number of the range of its port that has a request, as decoders see it, and which of its ends the request has; or None."""
        row, ranges = flight.row, ranges_of(self.ports[flight.port]) if flight.port < len(self.ports) else []
        decoded, end = 0 if self.system.get("decode") == "address" else row.size, row.address + (1 << row.size)
        for number, (base, length) in enumerate(ranges):
            if holds([(base, length)], row.address, decoded):
                return number, [edge for edge, byte in zip(EDGES, (base, base + length - 1)) if row.address <= byte < end]
        return None

    def cause_of(self, flight):
        """Why a request is denied, if it is."""
        row, place = flight.row, self.place_of(flight)
        if place is None:
            return "nowhere" if port_of(self.system, None, row.address, row.size) == len(self.ports) else "no_path"
        if row.address % (1 << row.size):
            return "unaligned"
        return "unserved" if holds([ranges_of(self.ports[flight.port])[place[0]]], row.address, row.size) else "beyond"

    def step_since(self, time):
        """The least of the step of the clocks since then."""
        clocks = (self.now - time) // self.system.get("period", 1)
        return max(least for least in AFTER if least <= clocks)

    def ask(self, link, row):
        """A beat that is not the first of its request comes after another one."""
        flight = link.asking
        super().ask(link, row)
        if flight and link.side == self.told:
            self.count("gap", flight, "A", self.step_since(flight.asked_at))
            flight.asked_at = self.now
        if row.corrupt and link.side == self.told:
            asked = link.flights[row.source]
            self.count("corrupt", asked, asked.name, row.size, "asked")

    def reply(self, link, row):
        """A reply begins with its first beat, and each other beat comes after one."""
        flight, is_first = link.flights.get(row.source), link.answering is None
        super().reply(link, row)
        if link.side == self.told:
            if is_first:
                self.count("latency", flight, self.step_since(flight.begun_at), has_master=False)
            else:
                self.count("gap", flight, "D", self.step_since(flight.answered_at))
            flight.answered_at = self.now
            if row.corrupt and not row.denied:
                self.count("corrupt", flight, flight.name, row.size, "answered")

    def begun(self, link, row):
        flight = super().begun(link, row)
        if link.side == self.told:
            flight.begun_at = flight.asked_at = self.now
            flight.turn, self.begun_so_far = self.begun_so_far, self.begun_so_far + 1
            others = self.flights()
            of_master = 1 + sum(other.owner[0] == flight.owner[0] for other in others)
            at_port = 1 + sum(other.port == flight.port for other in others)
            self.count("in_flight", flight, min(of_master, MOST_IN_FLIGHT), has_port=False)
            self.count("at_port", flight, min(at_port, MOST_IN_FLIGHT), has_master=False)
            self.count("source", flight, min(flight.owner[1], SOURCES_APART), has_port=False)
            if flight.owner in self.ended:
                self.count("again", flight, self.step_since(self.ended[flight.owner]), has_port=False)
        return flight

    def end_ask(self, link, flight):
        super().end_ask(link, flight)
        if link.side == self.told:
            name, row = flight.name, flight.row
            self.count("asked", flight, name, row.size, "unaligned" if row.address % (1 << row.size) else "aligned")
            self.count("beats", flight, "A", flight.asked)
            if name == "putpart":
                self.count("mask", flight, row.size, shape_of(flight.data))
            others = [other for other in self.flights() if other is not flight and other.port == flight.port and other.is_whole]
            if any(meets(self.slaves[self.told][flight.port], flight, other) for other in others):
                self.count("contested", flight, has_master=False)
            latest, self.latest[flight.port] = self.latest.get(flight.port), flight
            if latest and overlap(self.slaves[self.told][flight.port], flight, latest):
                self.count("after", flight, access_of(latest.name), access_of(name), has_master=False)
            if 1 << row.size < link.bus.width:
                self.count("lane", flight, row.size, row.address % link.bus.width, has_port=False)
            place = self.place_of(flight)
            if place:
                self.count("range", flight, place[0], has_master=False)
                for edge in place[1]:
                    self.count("edge", flight, place[0], edge, has_master=False)

    def end_reply(self, link, flight, reply):
        super().end_reply(link, flight, reply)
        if link.side == self.told:
            self.count("answered", flight, flight.name, flight.row.size, "denied" if reply.denied else "given")
            self.count("beats", flight, "D", flight.answered)
            older = [other for other in self.flights() if other.owner[0] == flight.owner[0] and other.turn < flight.turn]
            for where in {"same" if other.port == flight.port else "other" for other in older}:
                self.count("overtook", flight, where)
            if reply.denied:
                self.count("refused", flight, self.cause_of(flight), has_master=False)
            self.ended[flight.owner] = self.now

    def reset(self):
        """No source of after a reset was in use before it, and no request is after one before it."""
        super().reset()
        self.ended.clear()
        self.latest.clear()

    def step(self, row):
        self.now = row.time
        super().step(row)


def covered(system, images, capture, links="both", order="accept", within=None):
    """The text of a capture's coverage, up to its first unlawful beat; None if it is no capture."""
    judge = CoveringJudge(system, images, links, order, within)
    _, status = verdict_of(judge, capture.replace("\r\n", "\n").split("\n"), lambda rows: ("lawful", 0))
    return None if status == 1 else text_of(judge.counts, len(judge.ports))
