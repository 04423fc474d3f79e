"""The explanation of a verdict: the request of a beat, what should stand where something else stands, and who wrote a byte. For
tools/explain; nothing of it is proved.
"""

import itertools
import re

from tlxtools.bus import reply_of
from tlxtools.causes import ADAPTED, CAUSES, DENIED, EXCHANGED, SHIFTED
from tlxtools.common import carries_data
from tlxtools.partial_memory import port_of
from tlxtools.sides import MOST, Sides, Views
from tlxtools.spelling import bytes_of, counted, hexadecimal, place_of, replied, runs_text, spelled
from tlxtools.story import ANSWERS, NAMES, Message, Story, System, turn_of

VERDICT = re.compile(r"unlawful: line (\d+), time (\d+), (\S+) ([AD]): (.*)")
WRONG = re.compile(r"wrong reply: expected (\w+)( denied)?(?: ([0-9a-fx]+))?, captured (\w+)( denied)?(?: ([0-9a-fx]+))?")
# So many wrong bytes are explained, and so many requests of other masters in flight are asked for the bytes of a wrong reply.
MOST_BYTES, MOST_OTHERS = 8, 8
# Before what other requests got of the captured bytes.
OF_OTHER = "the captured bytes"
# The faults of a request at a port that a source with another shift has.
OF_SHIFTS = ("no such source", "no master sent this request")


def value_of(row, column):
    """The number in a column: the address has hexadecimal digits, and the others decimal ones."""
    return int(row.words[column] or "0", 16 if column == 7 else 10)


def changes(first, row, columns):
    """The columns that differ from those of the first beat of a message."""
    return [f"{field}: {first.words[at]} in the first beat, {row.words[at]} here"
            for at, field in columns if value_of(first, at) != value_of(row, at)]


class Explainer:
    """Explains the verdict of a capture."""

    def __init__(self, system, story, view, views, within=None):
        self.system, self.story, self.view, self.views, self.within = system, story, view, views, within
        self.sides = Sides(self)

    def whose(self, message):
        """Whose source a request at a port has, if its link is not judged by itself."""
        owner = self.system.owner(message.link, message.source) if message.link[0] == "p" else None
        return f" (source {owner[1]} of {self.system.names[f'm{owner[0]}']})" if owner else ""

    def name(self, message):
        """A request in words: its link, its source and whose that is, what it asks, and where it stands."""
        link = self.system.names[message.link]
        asks = f"{message.name} {message.address:#x} of {bytes_of(message.size)}{' ' * bool(message.data)}{message.text}"
        return f"{link}, source {message.source}{self.whose(message)}: {asks}, {place_of(message.asked)}"

    def state(self, message):
        """How far a request has come."""
        if message.answered:
            return f"{'answered' if message.is_over else 'its reply has begun'} at {place_of(message.answered)}"
        return "not answered yet" if message.is_whole else f"under way, {counted(len(message.asked), 'beat')} so far"

    def record(self, message):
        """A request for programs."""
        return {"link": self.system.names[message.link], "source": message.source, "operation": message.name, "address": message.address,
                "bytes": 1 << message.size, "data": message.text, "asked": [row.line for row in message.asked],
                "time": message.asked[0].time, "times": [row.time for row in message.asked],
                "answered": [row.line for row in message.answered], "text": self.text(message)}

    def text(self, message):
        return f"{self.name(message)}; {self.state(message)}"

    def in_flight(self):
        """The requests in flight, the oldest first: in the order in which their first beats crossed."""
        return sorted(self.story.flights.values(), key=lambda message: message.asked[0].turned())

    # ---- requests

    def of_request(self, row, fault):
        """Explains the fault of a beat of a request."""
        link, system = row.link, self.system
        begun = self.story.under.get((link, "A"))
        name = NAMES.get((row.number(3), row.number(4)))
        if begun:
            yield f"the beat goes on with: {self.name(begun)}"
        if link[0] == "p" and fault != "no master sent this request":
            yield from self.sides.of_other(begun) if begun else self.sides.of_sender(row)
        if fault == "field changed":
            yield from self.of_changed(begun.asked[0], row, ((3, "opcode"), (4, "param"), (5, "size"), (6, "source"), (7, "address")))
            yield from self.sides.of_fields(row)
        elif fault == "wrong mask":
            bus = system.buses[link]
            right = bus.spell_mask(bus.active(row.address(), row.number(5))) + " or fewer bits" * (name == "putpart")
            yield (f"the mask of {bytes_of(row.number(5))} at {row.address():#x} on a bus of {counted(bus.width, 'byte')} is {right}; "
                   f"captured {row.words[8]}")
        elif fault == "wrong corrupt flag":
            yield (f"{name} carries no bytes that may be corrupt" if not carries_data(name) else
                   "the system file has no `corrupt = true`, so no beat of a request is marked corrupt")
        elif fault == "source in flight":
            holder = self.story.flights.get((link, row.number(6))) or self.elsewhere(row)
            if holder:
                yield f"the source is in flight: {self.text(holder)}"
        elif fault == "not this port's address":
            port, pathless = self.with_address(link, row.number(6), row.address(), row.number(5))
            yield f"{bytes_of(row.number(5))} at {row.address():#x}: the address of {port}{pathless}"
        elif fault == "no master sent this request":
            yield from self.of_stray(row, begun)
        elif fault == "no such source":
            yield self.of_nobody(row)
        yield from self.of_shift(row, fault)
        yield from (line for line, _ in self.of_adapter(row, fault))

    def with_address(self, link, source, address, size):
        """The port that has the address of a request, and that the master of its source has no path there if it has none."""
        system, owner = self.system, self.system.owner(link, source)
        # nobody asks: then the ports' addresses alone decide
        near = port_of(system.table, None, address, size)
        is_far = system.port_of(link, source, address, size) != near
        return system.names.get(f"p{near}", "no port"), f", and {system.names[f'm{owner[0]}']} has no path there" * is_far if owner else ""

    def of_nobody(self, row):
        """That nobody has the source of a beat, and which masters the port lists, if it lists some."""
        names, link = self.system.names, row.link
        listed = self.system.sources.listed[int(link[1:])] if link[0] == "p" else None
        masters = f": {names[link]} lists {', '.join(names[f'm{master}'] for master in listed)}" if listed else ""
        return f"source {row.number(6)} belongs to no master here{masters}"

    def of_shift(self, row, fault):
        """The requests that a beat at a port would fit with another shift of its source."""
        return self.sides.of_shift(row) if fault in OF_SHIFTS and (row.link[0], row.channel) == ("p", "A") else ()

    def of_adapter(self, row, fault):
        """What requests of masters a beat at a port may come from by an adapter, if its source is not theirs with another shift."""
        is_asked = fault in OF_SHIFTS and (row.link[0], row.channel) == ("p", "A") and not any(self.of_shift(row, fault))
        return [*itertools.islice(self.sides.of_adapter(row), MOST)] if is_asked else []

    def of_changed(self, first, row, columns):
        """Which fields a beat changes, and whether the message goes on."""
        yield from changes(first, row, columns)
        yield from self.sides.goes_on(row, first, [column for column, _ in columns])

    def elsewhere(self, row):
        """The request in flight of the same source of a master at another port."""
        owner = self.system.owner(row.link, row.number(6))
        return next((message for (link, source), message in self.story.flights.items()
                     if link[0] == row.link[0] and self.system.owner(link, source) == owner), None)

    def of_stray(self, row, begun):
        """How a request at a port differs from what its master has in flight."""
        owner = self.system.owner(row.link, row.number(6))
        sent = owner and self.story.flights.get((f"m{owner[0]}", owner[1]))
        if not sent:
            whose = f"source {owner[1]} of {self.system.names[f'm{owner[0]}']}" if owner else f"source {row.number(6)}"
            yield f"nothing is in flight of {whose}"
            return
        yield f"its master sent: {self.text(sent)}"
        seen = Message(row.link, row.number(6), NAMES[row.number(3), row.number(4)], row.address(), row.number(5), self.system.buses[row.link],
                       asked=[*(begun.asked if begun else []), row])
        pairs = (("operation", sent.name, seen.name), ("address", hex(sent.address), hex(seen.address)), ("size", sent.size, seen.size))
        yield from (f"{what}: {one} at the master's link, {other} here" for what, one, other in pairs if one != other)
        if sent.data and sent.name == seen.name:
            yield from self.of_bytes(sent, seen)
        if not sent.is_whole:
            yield "at the master's link it has not ended"
        before = self.story.over.get((row.link, row.number(6)))
        if before and before.asked[0].turned() > sent.asked[0].turned():
            yield f"it crossed before: {self.text(before)}"

    def of_bytes(self, sent, seen):
        """Which bytes of a request cross otherwise than its master sent them. In corrupt cuts they are free, but not which of them are given."""
        cuts = self.sides.corrupt_cuts(seen, seen.asked, sent, sent.asked)
        here, there = (spelled(message.data, cuts[0] | cuts[1]) for message in (seen, sent))
        if here == there and cuts[0] == cuts[1]:
            return
        yield f"bytes: {sent.text} at the master's link, {seen.text} here"
        yield from self.of_cuts(*cuts, "the master")
        yield from self.sides.difference(sent.address, (seen.link, seen.asked, here), (sent.link, sent.asked, there))
        yield from self.sides.of_lanes(sent.asked[0], sent, seen.data, "the bytes here")

    @staticmethod
    def of_cuts(here, there, name):
        """That other cuts are corrupt at two links, if they are."""
        if here != there:
            yield f"corrupt bytes: {runs_text(there)} at {name}'s link, {runs_text(here)} here, by beats of the wider bus"

    # ---- replies

    def last_request(self, key):
        """What a link and a source have asked before, if nothing is in flight there."""
        over = self.story.over.get(key)
        if key in self.story.dropped:
            message, reset = self.story.dropped[key]
            return f"the reset of {place_of([reset.row])} dropped the request: {self.text(message)}"
        return f"the last request of this source: {self.text(over)}" if over else "this source has asked nothing yet"

    def of_reply(self, row, fault):
        """Explains the fault of a beat of a reply."""
        story, key = self.story, (row.link, row.number(6))
        message, under = story.flights.get(key), story.under.get((row.link, "D"))
        is_mixed = under is not None and under is not message
        if is_mixed:
            yield f"the beat goes on with the reply to: {self.text(under)}"
        if message:
            yield f"the request of this beat's source: {self.text(message)}" if is_mixed else f"the request: {self.name(message)}"
        if fault == "reply without request":
            yield self.last_request(key)
        elif fault == "no such source":
            yield self.of_nobody(row)
        elif fault == "reply out of order":
            yield from self.of_turn(row)
        elif fault == "size of another request":
            yield f"the request has {bytes_of(message.size)}, the reply {1 << row.number(5)}"
            yield from self.others_of(row, lambda other: other.size == row.number(5))
        elif fault == "opcode of another operation":
            yield f"{message.name} is answered by {reply_of(message.name)}, captured {ANSWERS[row.number(3)]}"
            yield from self.others_of(row, lambda other: reply_of(other.name) == ANSWERS[row.number(3)])
        elif fault == "field changed":
            yield from self.of_changed(under.answered[0], row, ((3, "opcode"), (5, "size"), (6, "source"), (10, "denied")))
        elif fault == "the port gave no such reply":
            yield from self.of_given(row, message)
        elif fault == "late reply":
            yield self.of_limit(message)
        if row.link[0] == "m":
            yield from self.sides.of_other(message) if message else ()
            yield from self.sides.of_not_had(row)

    def waiting(self):
        """The request that the row of the fault begins, if it has waited for too long; or None."""
        row = self.story.last
        message = row and self.story.flights.get((row.link, row.number(6)))
        return message if message and message.asked[0] is row else None

    def of_limit(self, message):
        """How long a request has waited when that is seen, beside the limit."""
        waited = self.story.seen - message.asked[0].time
        return f"at time {self.story.seen} it has waited for {waited} units of time, {waited - self.within} more than --within {self.within}"

    def of_waiting(self, message):
        """Explains that a request has no reply in time."""
        yield f"the request: {self.text(message)}"
        yield self.of_limit(message)
        yield from self.sides.of_other(message)

    def of_turn(self, row):
        """The oldest request of a link without a reply, which the next reply has to answer, and how many are older than the beat's own."""
        left = [other for other in self.in_flight() if other.link == row.link and not other.answered]
        older = left.index(self.story.flights[row.link, row.number(6)])
        yield f"its turn is after {counted(older, 'older request')}"
        yield f"the next reply has to answer: {self.text(left[0])}"
        if row.link[0] == "m":
            yield f"that request goes to {self.system.names.get(f'p{left[0].port}', 'the error port')}"

    def others_of(self, row, fits):
        """Requests in flight at the link that the reply would fit."""
        for (link, source), other in self.story.flights.items():
            if link == row.link and source != row.number(6) and other.is_whole and fits(other):
                yield f"it would fit: {self.name(other)}"

    def captured(self, row, message):
        """The bytes of a reply with its last beat."""
        return message.reply + message.carried(row)

    def of_given(self, row, message):
        """What the port gave for a request that is answered at its master's link."""
        port, captured = self.system.names.get(f"p{message.port}", f"p{message.port}"), self.captured(row, message)
        answer, here = reply_of(message.name), f"captured {replied(ANSWERS[row.number(3)], row.words[10] == '1', captured)}"
        given = self.sides.at_port(message)
        if given is None or not given.answered:
            yield f"{port} has not answered it; {here}"
        elif given.is_over:
            yield f"{port} gave {replied(answer, given.denied, given.reply)}, {place_of(given.answered)}"
            yield f"{here.replace('captured', 'captured here', 1)}"
        else:
            yield f"{port} has begun to answer it: {replied(answer, given.denied, given.reply)}, {place_of(given.answered)}; {here}"
        if given and given.answered and given.denied != (row.words[10] == "1"):
            yield f"{'denied' if given.denied else 'not denied'} at {port}'s link, {'not denied' if given.denied else 'denied'} here"
        if given and given.reply and captured:
            rows = [*message.answered, row]
            cuts = self.sides.corrupt_cuts(message, rows, given, given.answered)
            yield from self.of_cuts(*cuts, port)
            captured, there = (["xx" if place in cuts[0] | cuts[1] else hexadecimal([byte]) for place, byte in enumerate(data)]
                               for data in (captured, given.reply))
            yield from self.sides.difference(message.address, (row.link, rows, captured), (given.link, given.answered, there))
            yield from self.sides.of_lanes(row, message, given.reply, f"the bytes that {port} gave")

    # ---- wrong replies

    def of_wrong(self, message, found):
        """Explains a reply with other bytes than the slave expects: lines, and runs of wrong bytes of one origin."""
        port = message.port
        if bool(found[2]) != bool(found[5]):
            return [self.denial(message, port)], []
        pairs = zip(message.window(), re.findall("..", found[3] or ""), re.findall("..", found[6] or ""))
        spoiled = {message.address + place for place in message.spoiled([*message.answered, self.story.last])}
        wrong = [pair for pair in pairs if pair[1] not in ("xx", pair[2]) and pair[0] not in spoiled]
        history, runs = self.story.history(message, port), []
        for at, expected, captured in wrong[:MOST_BYTES]:
            run = {"first": at, "last": at, "expected": expected, "captured": captured,
                   "expected_from": self.origin(port, at, history[at][-1][0]),
                   "captured_from": self.source_of(message, port, at, captured, history[at]),
                   "writer": self.of_writer(history, history[at][-1][0], message, {place for place, _, _ in wrong})}
            if not (runs and joined(runs[-1], run)):
                runs.append(run)
        more = len(wrong) - MOST_BYTES
        lines = [f"{counted(more, 'wrong byte')} more"] * (more > 0) + [*self.of_unknown(history)]
        lines += [f"{OF_OTHER}: another master's request has this answer: {self.text(other)}" for other in self.of_others(message, found[6])]
        return lines + [f"{OF_OTHER}: a reply before it has the same word: {self.text(other)}" for other in self.of_same_word()], runs

    def of_unknown(self, history):
        """Which bytes of a request corrupt ones before it have left unknown."""
        found = {}
        for at, held in history.items():
            lost = [*itertools.takewhile(lambda event: event[1] is None, reversed(held))]
            writer = lost[-1][0] if lost else None
            if writer and writer.ask().spoiled:
                found.setdefault(writer.asked[0].line, (writer, []))[1].append(at)
        for writer, places in found.values():
            kind = "put" if writer.name.startswith("put") else "atomic"
            yield f"unknown at {runs_text(places, hex)} since a corrupt {kind}: {self.name(writer)}"

    def of_same_word(self):
        """The last request of this side, but for that of the beat, that got the word of the beat in all lanes. A word that has no known digit but 0
        tells nothing."""
        row, message = self.story.last, self.story.flights.get((self.story.last.link, self.story.last.number(6)))
        word = row.words[9].lower()
        if set(word) <= set("0xz"):
            return []
        found = (other for before, other in reversed(self.story.recent) if before.channel == "D" and before.link[0] == row.link[0]
                 and other not in (None, message) and before.words[9].lower() == word)
        return [*itertools.islice(found, 1)]

    def of_others(self, message, captured):
        """The request of another master that these bytes are the answer of, if there is one: one in flight, or else the last of its master that
        was answered. Zeros tell nothing."""
        data = [int(pair, 16) for pair in re.findall("..", captured or "") if pair != "xx"]
        owner = self.system.owner(message.link, message.source)
        if owner is None or len(data) < 1 << message.size or not any(data):
            return []
        flying = [other for other in reversed(self.in_flight()) if self.is_of_another(other, message.link, owner[0], len(data))]
        over = [other for other in self.story.over.values() if self.is_of_another(other, message.link, owner[0], len(data))]
        over.sort(key=lambda other: other.answered[-1].turned(), reverse=True)
        last = {self.system.owner(other.link, other.source)[0]: other for other in reversed(over)}
        found = (other for other in [*flying[:MOST_OTHERS], *last.values()] if self.answer(other) == data)
        return [*itertools.islice(found, 1)]

    def is_of_another(self, other, link, master, count):
        """Whether a request at this port's link, or at some master's, is of another master than this, and its reply has so many bytes."""
        is_near = other.link == link or "m" == link[0] == other.link[0]
        owner = self.system.owner(other.link, other.source) if is_near else None
        return owner is not None and owner[0] != master and 1 << other.size == count and reply_of(other.name) == "AccessAckData"

    def answer(self, message):
        """What a request was answered, or has to be by what has crossed; None if it is denied."""
        if message.is_over:
            return None if message.denied else message.reply
        if message.port == len(self.system.tables["p"]) or not self.system.slave(message.port).permits(message.ask()):
            return None
        history = self.story.history(message, message.port)
        return [history[at][-1][1] for at in message.window()]

    def of_writer(self, history, writer, message, wrong):
        """How much of what a request wrote there is wrong, and whether it was answered before. Of the reset there is nothing to say."""
        if writer is None:
            return {}
        wrote = [at for at, held in history.items() if held[-1][0] is writer]
        is_before = bool(writer.answered) and writer.answered[0].turned() < message.asked[0].turned()
        return {"wrote": len(wrote), "wrong": len(wrong.intersection(wrote)), "was_answered": is_before}

    def denial(self, message, port):
        """Why a request is denied, or is not."""
        ports = self.system.tables["p"]
        if port == len(ports):
            near, pathless = self.with_address(message.link, message.source, message.address, message.size)
            return f"{near} has {bytes_of(message.size)} at {message.address:#x}{pathless}: the error port denies it"
        slave, name = self.system.slave(port), self.system.names[f"p{port}"]
        if not slave.supports(message.name, message.size):
            return f"{name} supports no {message.name} of {bytes_of(message.size)}, so it is denied"
        if not slave.permits(message.ask()):
            return f"{message.address:#x} is no multiple of {1 << message.size}, so it is denied"
        return f"{name} supports {message.name} of {bytes_of(message.size)} there, so it is not denied"

    def origin(self, port, at, message):
        """Who wrote a byte, or what says it at reset."""
        return self.record(message) if message else {"text": self.system.origin(port, at)}

    def source_of(self, message, port, at, captured, history):
        """Where a byte that was captured comes from, as far as requests tell."""
        if captured == "xx":
            return {"text": "unknown"}
        value, side = int(captured, 16), message.link[0]
        older = [writer for writer, byte in history[:-1] if byte == value]
        if older:
            return told("it stood there before", self.origin(port, at, older[-1]))
        if message.byte(at) == value:
            return {"text": "the request gives it"}
        later = self.story.later(message, at, value)
        if later:
            return told("a later request gives it", self.record(later))
        elsewhere = self.story.written(side, at, value) if value else None
        if elsewhere:
            return told(f"it was written to {elsewhere[0]:#x}", self.record(elsewhere[1]))
        return {"text": "no request gave it" if value else "zero, which no request gave"}

    # ---- the whole

    def asked_by(self, row):
        """The request that a beat goes on with or answers, or that waits since this beat; or None."""
        key = row.link, row.number(6)
        return self.waiting() or self.story.under.get((row.link, "A")) if row.channel == "A" else self.story.flights.get(key)

    def place_in(self, verdict):
        """The place of the unlawful beat of a verdict among all rows, or None."""
        found = VERDICT.fullmatch(verdict)
        link = found and next(link for link, name in self.system.names.items() if name == found[3])
        return (int(found[2]), *turn_of(link, found[4])) if found else None

    def of_expected(self, row, message, wrong):
        """Whether the expected bytes stand in other lanes of the beat."""
        pairs = re.findall("..", wrong[3] or "")
        if pairs and "xx" not in pairs and len(message.answered) == 0:
            yield from self.sides.of_lanes(row, message, [int(pair, 16) for pair in pairs], "the expected bytes")

    def links(self):
        """The link of the fault, and that of the other side if the fault lies between both."""
        row = self.story.last
        is_between = (row.link[0], row.channel) in (("p", "A"), ("m", "D")) or row.link[0] == "m" and self.waiting()
        asked = self.asked_by(row) if is_between else None
        other = self.sides.other(asked) if asked else None
        return [row.link, *([other.link] if other else [])]

    def unlawful(self, found):
        """Explains an unlawful beat."""
        row, fault = self.story.last, found[5]
        lines, runs, orders = [f"the beat: {','.join(row.words[2:])}"], [], []
        wrong = WRONG.fullmatch(fault)
        if wrong:
            message = self.story.flights[row.link, row.number(6)]
            more, runs = self.of_wrong(message, wrong)
            lines += [f"the request: {self.name(message)}", *more, *self.of_expected(row, message, wrong)]
            orders = [*self.views.of_orders(found[0])]
        elif fault == "no reply in time":
            lines += self.of_waiting(self.waiting())
        else:
            lines += self.of_request(row, fault) if row.channel == "A" else self.of_reply(row, fault)
        asked, under = self.asked_by(row), None if self.waiting() else self.story.under.get((row.link, row.channel))
        port = row.link if row.link[0] == "p" else f"p{asked.port}" if asked and under in (None, asked) else None
        other = self.sides.other(asked) if asked else None
        lawful = [order for order, said in orders if said.startswith("lawful:")]
        adapters = self.of_adapter(row, fault)
        # a reply without a request at the port is one that something before it gives
        is_adapted = bool(adapters) or fault == "the port gave no such reply" and other is None
        hints = {"is_exchanged": any(line.startswith(OF_OTHER) for line in lines),
                 "is_shifted": any(self.of_shift(row, fault)), "is_part": any(is_part for _, is_part in adapters), "is_adapted": is_adapted}
        is_late = fault == "late reply" or self.waiting()
        where = self.sides.where_waited(row, asked, port) if is_late else self.sides.where(row, asked, port, self.views, lawful)
        return {"line": row.line, "time": row.time, "seen": self.story.seen, "link": found[3], "channel": row.channel, "why": lines, "where": [*where],
                "request": self.record(asked) if asked else None, "other_side": self.record(other) if other else None,
                "bytes": runs, "orders": [f"with --order {order}: {said}" for order, said in orders],
                "in_flight": [self.record(message) for message in self.in_flight()], "look_at": causes_of(fault, wrong, lawful, **hints)}


def causes_of(fault, wrong, lawful, is_exchanged, is_shifted, is_part, is_adapted):
    """What to look at: first an order of requests with which all is lawful, replies that are exchanged, the shift of a source, or an adapter of
    which a part of a request comes; last one that may have changed a request otherwise."""
    first = [f"the order in which requests take effect: with --order {order} all is lawful" for order in lawful[:1]]
    first += EXCHANGED * is_exchanged + SHIFTED * is_shifted
    causes = DENIED if wrong and bool(wrong[2]) != bool(wrong[5]) else CAUSES[fault.partition(":")[0]]
    return first + ADAPTED * is_part + causes + ADAPTED * (is_adapted and not is_part)


def joined(run, other):
    """Whether wrong bytes that follow others have the same origins; then they are added to those."""
    is_one = run["last"] == other["first"] - 1 and all(run[key] == other[key] for key in ("expected_from", "captured_from"))
    if is_one:
        run.update({"last": other["last"], **{key: run[key] + other[key] for key in ("expected", "captured")}})
    return is_one


def told(front, origin):
    """An origin with words before its text."""
    return {**origin, "text": f"{front}: {origin['text']}"}


def option(words, name, default):
    """The value of an option of tlcheck."""
    for at, word in enumerate(words):
        if word == name:
            return words[at + 1]
        if word.startswith(name + "="):
            return word.partition("=")[2]
    return default


def explained(words, verdict):
    """The explanation of a verdict: empty if the capture is lawful or has a fault of its text."""
    return told_of(words, verdict)[0]


def told_of(words, verdict):
    """The explanation of a verdict, and the explainer that knows the rows before the fault, or None."""
    found = VERDICT.fullmatch(verdict)
    if not found and not verdict.startswith("incomplete:"):
        return {}, None
    view, order, within = option(words, "--links", "both"), option(words, "--order", "accept"), int(option(words, "--within", 0))
    system = System(words[-2], view)
    story = Story(system, order, view)
    if found and found[5] == "no reply in time":
        story.tell_past(words[-1], int(found[1]), int(found[2]) + within)
    else:
        story.tell(words[-1], int(found[1]) if found else None)
    explainer = Explainer(system, story, view, Views(words, view, order, within), within)
    if found:
        return explainer.unlawful(found), explainer
    return {"where": [*explainer.sides.where_left()], "in_flight": [explainer.record(message) for message in explainer.in_flight()]}, explainer


def of_writer(writer):
    """What is said of the request that wrote the expected bytes."""
    if writer:
        yield (f"{writer['wrong']} of its {counted(writer['wrote'], 'byte')} here {'is' if writer['wrong'] == 1 else 'are'} wrong; it was "
               f"{'' if writer['was_answered'] else 'not '}answered before this request crossed")


def sections(explanation):
    """The same for people: titles, and the lines of each that has any."""
    why = list(explanation.get("why", []))
    for run in explanation.get("bytes", []):
        place = f"{run['first']:#x}" if run["first"] == run["last"] else f"{run['first']:#x} to {run['last']:#x}"
        why += [f"wrong at {place}: expected {run['expected']}, captured {run['captured']}",
                f"  {run['expected']}: {run['expected_from']['text']}", *(f"    {line}" for line in of_writer(run["writer"])),
                f"  {run['captured']}: {run['captured_from']['text']}"]
    why += explanation.get("orders", [])
    in_flight = [request["text"] for request in explanation.get("in_flight", [])]
    for title, lines in (("why", why), ("where", explanation.get("where")), ("in flight", in_flight), ("look at", explanation.get("look_at"))):
        if lines:
            yield title, lines


def shown(explanation):
    """The sections line by line."""
    for title, lines in sections(explanation):
        yield from ("", title, *(f"  {line}" for line in lines))


def writers_of(explanation):
    """The requests that wrote what was expected or captured, each once."""
    origins = [run[key] for run in explanation.get("bytes", []) for key in ("expected_from", "captured_from")]
    return list({tuple(origin["asked"]): origin for origin in origins if "asked" in origin}.values())
