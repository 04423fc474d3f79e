"""Both sides of the crossbar at a fault: on which side it lies, the same message at the other side, the first difference between both, and
the replies that a master has not had. For tools/explain; nothing of it is proved. Messages of both sides are compared if the view is `both`, but
for those of ports that are judged by themselves: else nobody knows that they are the same.
"""

from tlxtools.bus import reply_of
from tlxtools.capture_input import said_by
from tlxtools.common import ORDERS, TLCHECK, carries_data
from tlxtools.spelling import counted, place_of, replied
from tlxtools.story import ANSWERS, NAMES

# So many requests or replies of a kind are told.
MOST = 8
OTHER_VIEW = {"masters": "ports", "ports": "masters"}


def beat_with(rows, place, bus):
    """The beat of a message that carries its byte at a place."""
    return rows[min(place // bus.width, len(rows) - 1)]


def is_part_of(row, message):
    """Whether a beat of a request asks for some bytes of a message, or does a part of its atomic."""
    name, start = NAMES.get((row.number(3), row.number(4))), row.address()
    is_atomic = carries_data(message.name) and reply_of(message.name) == "AccessAckData"
    is_less = row.number(5) < message.size and name == message.name
    return message.address <= start and start + (1 << row.number(5)) <= message.window().stop and (
        is_less or is_atomic and name in ("get", "putfull", "putpart"))


def asks_same(row, message):
    """Whether a beat of a request asks what a message asks."""
    return (message.size, message.name, message.address) == (row.number(5), NAMES.get((row.number(3), row.number(4))), row.address())


class Views:
    """What tlcheck says of the same capture in other views and orders. The limit of time is one of the links of its own view."""

    def __init__(self, words, view, order, within=None):
        self.files, self.view, self.order, self.within = words[-2:], view, order, within

    def said(self, view=None, order=None):
        """Its line, or None if it judges nothing."""
        options = ["--quiet", "--links", view or self.view, "--order", order or self.order]
        options += ["--within", str(self.within)] if self.within and view is None else []
        run = said_by(TLCHECK, [*options, *self.files], stdout=-1)
        return run.stdout.decode(errors="replace").strip() if run.returncode in (0, 3) else None

    def of_orders(self, verdict):
        """The other orders, each with what it says if requests take effect so."""
        # what is unlawful with `any` on both sides is so with each order
        for order in ORDERS if self.order not in ("any", "any/any") else ():
            said = self.said(order=order) if order != self.order else None
            if said:
                yield order, "the same line" if said == verdict else said


class Sides:
    """Both sides at a fault: of an explainer."""

    def __init__(self, explainer):
        self.explainer, self.system, self.story, self.view = explainer, explainer.system, explainer.story, explainer.view

    def name(self, link):
        return self.system.names.get(link, link)

    def compares(self, port):
        """Whether messages of the link of a port are compared with those of the masters' links."""
        return self.view == "both" and port in self.system.buses and port not in self.system.apart

    # ---- the same message at the other side

    def at_port(self, message):
        """A request of a master as it crossed at its port's link, or None. An adapter may take beats at its port before the master's beat."""
        key = f"p{message.port}", self.system.wide(message.port, self.system.owner(message.link, message.source))
        found = self.story.flights.get(key)
        if found:
            return found
        over = self.story.over.get(key)
        return over if over and over.asked[-1].turned() > message.asked[-1].turned() else None

    def at_master(self, message):
        """A request at a port as its master has it in flight, or None."""
        owner = self.system.owner(message.link, message.source)
        found = owner and self.story.flights.get((f"m{owner[0]}", owner[1]))
        return found if found and found.port == message.port else None

    def other(self, message):
        """The same request at the other side: None if it is not compared, or if it has not crossed there."""
        if not self.compares(f"p{message.port}"):
            return None
        return self.at_port(message) if message.link[0] == "m" else self.at_master(message)

    def of_other(self, message):
        """Where the same request stands at the other side."""
        if not self.compares(f"p{message.port}"):
            return
        found, owner = self.other(message), self.system.owner(message.link, message.source)
        link = f"p{message.port}" if message.link[0] == "m" else f"m{owner[0]}" if owner else None
        if found:
            yield f"at the other side: {self.explainer.text(found)}"
        elif link:
            yield f"at the other side: it has not crossed at {self.name(link)}'s link"

    def of_sender(self, row):
        """What the owner of the source of a request that begins at a port's link has in flight."""
        owner = self.system.owner(row.link, row.number(6)) if self.compares(row.link) else None
        if owner:
            found = self.story.flights.get((f"m{owner[0]}", owner[1]))
            said = self.explainer.text(found) if found else f"nothing is in flight of source {owner[1]} of {self.name(f'm{owner[0]}')}"
            yield f"at the other side: {said}"

    def difference(self, address, ours, theirs):
        """The first byte that two messages carry differently: pairs of a link and its beats, each with the bytes as they are spelled."""
        (link, rows, data), (other, beats, given) = ours, theirs
        place = next((place for place, pair in enumerate(zip(data, given)) if pair[0] != pair[1]), None)
        if place is None:
            return
        here, there = (f"{found[place]} at {self.name(at)}'s link ({place_of([beat_with(rows, place, self.system.buses[at])])})"
                       for at, rows, found in ((link, rows, data), (other, beats, given)))
        yield f"the first difference, at {address + place:#x}: {there}, {here}"

    def corrupt_cuts(self, message, rows, other, beats):
        """The places that lie in corrupt cuts of a message, by its rows at either link: cuts are beats of the wider bus."""
        width = max(self.system.buses[message.link].width, self.system.buses[other.link].width)
        found = []
        for places in (message.spoiled(rows), other.spoiled(beats)):
            cuts = {place // width for place in places}
            found.append({place for place in range(1 << message.size) if place // width in cuts})
        return found

    # ---- replies that a master has not had

    def not_had(self, link):
        """The requests of a master to which a port's reply has begun of which no beat crossed at the master's link, as they crossed at the
        port."""
        for (at, _), message in self.story.flights.items():
            given = self.other(message) if at == link and not message.answered else None
            if given and given.answered:
                yield given

    def of_not_had(self, row):
        """These, and whether a beat at the master's link fits them."""
        own = self.system.owner(row.link, row.number(6))
        for given in [given for given in self.not_had(row.link) if self.system.owner(given.link, given.source) != own][:MOST]:
            reply = replied(reply_of(given.name), given.denied, given.reply)
            unlike = self.unlike(row, given)
            fits = f"this beat differs from it in {', '.join(unlike)}" if unlike else "this beat fits it"
            yield (f"{self.name(given.link)} gave source {given.source}{self.explainer.whose(given)} {reply}, {place_of(given.answered)}; "
                   f"no beat of it crossed at {self.name(row.link)}'s link; {fits}")

    def unlike(self, row, given):
        """In what a beat differs from the same beat of a port's reply, apart from its source."""
        under = self.story.under.get((row.link, "D")) or self.story.flights.get((row.link, row.number(6)))
        begun = len(under.answered) if under else 0
        bus = self.system.buses[row.link]
        places, lanes = bus.lanes(given.address, given.size, begun)
        word = row.lanes(bus)
        answer = ANSWERS.get(row.number(3))
        pairs = (("opcode", answer, reply_of(given.name)), ("size", row.number(5), given.size), ("denied flag", row.words[10] == "1", given.denied))
        unlike = [field for field, one, other in pairs if one != other]
        data = given.reply[places.start:places.stop]
        is_other = answer == "AccessAckData" and not unlike and [word[lane] for lane in lanes][:len(data)] != data
        return unlike + ["data"] * is_other

    # ---- a beat in the midst of another message

    def of_fields(self, row):
        """Which requests of the masters in flight have the fields of a beat at a port."""
        if self.compares(row.link):
            found = [message for (link, _), message in self.story.flights.items() if link[0] == "m" and self.has_fields(row, message)]
            yield from (f"these are the fields of: {self.explainer.text(message)}" for message in found[:MOST])

    def has_fields(self, row, message):
        """Whether a request of a master has the fields of a beat at a port."""
        return self.system.owner(row.link, row.number(6)) == (int(message.link[1:]), message.source) and asks_same(row, message)

    def of_shift(self, row):
        """The requests of masters that a beat at a port fits but for its source, if that is theirs with another shift."""
        port, wide = int(row.link[1:]), row.number(6)
        for message in self.story.flights.values() if self.compares(row.link) else ():
            # a source 0 is the same with each shift
            if message.link[0] == "m" and message.source and message.port == port and asks_same(row, message) and self.at_port(message) is None:
                first, stride = self.system.sources.places[port][int(message.link[1:])]
                other, rest = divmod(wide - first, message.source)
                if rest == 0 and other != stride and other.bit_count() == 1:
                    yield (f"source {wide} is {first} + {other} * {message.source}, and {first} + {stride} * {message.source} is wanted of: "
                           f"{self.explainer.text(message)}")

    def of_adapter(self, row):
        """The requests of masters that a beat at a port may come from, if something before the port changes more than their beats: lines, and whether
        it is a part of that request."""
        owner, text = self.system.owner(row.link, row.number(6)), self.explainer.text
        for (link, source), message in self.story.flights.items() if self.compares(row.link) else ():
            if link[0] == "m" and f"p{message.port}" == row.link:
                is_own = owner == (int(link[1:]), source)
                if is_part_of(row, message):
                    yield f"it is a part of: {text(message)}", True
                elif not is_own and asks_same(row, message) and self.at_port(message) is None:
                    yield f"but for its source it is: {text(message)}", False

    def goes_on(self, row, first, columns):
        """Whether a message goes on behind a beat that does not fit it."""
        for other in self.story.behind:
            if (other.link, other.channel) == (row.link, row.channel):
                if all(other.words[column] == first.words[column] for column in columns):
                    yield f"behind it a beat has the fields of the first one again: {place_of([other])}"
                    return

    # ---- lanes

    def of_lanes(self, row, message, data, what):
        """Other lanes of a beat in which the bytes stand that belong to lanes of it: of a message that is one part of the bus."""
        bus = self.system.buses[row.link]
        span = len(data)
        if span != 1 << message.size or span >= bus.width or not any(data):
            return
        _, right = bus.lanes(message.address, message.size)
        word = row.lanes(bus)
        found = [first for first in range(0, bus.width, span) if word[first:first + span] == data]
        if len(found) == 1 and found[0] != right.start:
            yield f"{what} stand at lane {found[0]} of the beat in {place_of([row])}; the address begins at lane {right.start}"

    # ---- on which side

    def where(self, row, message, port, views, lawful):
        """On which side the fault lies, with what says so; and what crossed that way before. With the orders of `lawful` all is lawful."""
        yield from self.side_of(row, port, views)
        yield from self.of_order(row, port, lawful)
        yield from self.before(row, message, port)

    def before(self, row, message, port):
        """What the way of a message has, and what crossed there before."""
        if port in self.system.buses:
            yield from self.width_of(row, message, port)
            if port in self.story.most:
                most, first = self.story.most[port]
                yield f"in flight at {self.name(port)}'s link: at most {counted(most, 'request')} so far, first at {place_of([first])}"
        yield from self.counts(row)

    def where_waited(self, row, message, port):
        """Where a request has waited, as far as links show it, with what crossed that way before."""
        name, port_name = self.name(row.link), self.name(port)
        if row.link[0] == "p":
            yield f"in {name}: it has the request since {place_of(message.asked)}"
        elif port not in self.system.buses:
            yield f"in the error port, which has no link, or between {name} and it"
        elif self.compares(port):
            yield self.spent(message, self.story.seen)
        else:
            why = "the link of which is judged by itself" if port in self.system.apart else f"which --links {self.view} does not show"
            yield f"in {port_name}, {why}, or between {name} and it"
        yield from self.before(row, message, port)

    def spent(self, message, time):
        """How long a request has waited on its way to the port, in the port, and on the way back."""
        given, name, port = self.at_port(message), self.name(message.link), self.name(f"p{message.port}")
        if given is None:
            return f"between {name} and {port}: it has not crossed at {port}'s link"
        # an adapter may take beats at the port before the master's beat
        came, gave = max(message.asked[0].time, given.asked[0].time), given.answered[0].time if given.answered else time
        began = message.asked[0].time
        parts = f"of {time - began}: {came - began} before it crossed at {port}'s link, {gave - came} in {port}"
        return f"{parts}, {time - gave} on the way back" if given.answered else f"{parts}, which has not answered it"

    def of_order(self, row, port, lawful):
        """At a master's link, if the view has no order of requests at the port: that it may be this one."""
        if row.link[0] == "m" and not self.compares(port) and port in self.system.buses and lawful:
            why = "whose link is judged by itself" if port in self.system.apart else f"which --links {self.view} does not show"
            yield f"or the order of requests at {self.name(port)}, {why}: with --order {lawful[0]} all is lawful"

    def side_of(self, row, port, views):
        name, side = self.name(row.link), row.link[0]
        kind = "request" if row.channel == "A" else "reply"
        if (side, row.channel) == ("m", "A"):
            yield f"in {name}: this request is unlawful by what crossed at its link alone; all replies there are lawful up to there"
        elif (side, row.channel) == ("p", "D"):
            yield f"in {name}: this reply is unlawful by what crossed at its link alone; all requests there are lawful up to there"
        elif self.view in OTHER_VIEW:
            yield from self.by_other(row, port, views)
        else:
            far = "masters" if side == "p" else "ports"
            start = self.name(port) if side == "m" and port in self.system.buses else f"the {far}"
            yield f"between {start} and {name}: all beats at the {far}' links are lawful up to there, and this {kind} at {name}'s link is not"
        if side == "m" and port and port not in self.system.buses:
            yield "the error port answers this request; it has no link"

    def by_other(self, row, port, views):
        """The side of a fault at the far end of a view that judges one side: what the view of the other side says."""
        view = OTHER_VIEW[self.view]
        far, name = ("p", self.name(row.link)) if view == "ports" else ("m", self.name(row.link))
        said = views.said(view=view) if far in self.story.first else None
        if said is None:
            yield f"between the {view} and {name}, or in one of these: no row of the {view}' links was captured up to there"
            return
        place = self.explainer.place_in(said)
        if place is None or place > row.turned():
            yield f"between the {view} and {name}: with --links {view} all is lawful up to there"
        else:
            yield f"with --links {view} an earlier row is unlawful already: {said.removeprefix('unlawful: ')}"

    def width_of(self, row, message, port):
        """Whether the way has an adapter of widths."""
        link = row.link
        if link[0] == "p":
            owner = self.system.owner(link, message.source) if message else None
            link = f"m{owner[0]}" if owner else None
        widths = [self.system.buses[at].width for at in (link, port) if at]
        if len(set(widths)) == 2:
            yield f"the bus has {counted(widths[0], 'byte')} at {self.name(link)}'s link and {counted(widths[1], 'byte')} at {self.name(port)}'s"

    def counts(self, row):
        """How many requests were answered at the link before."""
        found = [(port, number) for (port, link), number in sorted(self.story.done.items()) if link == row.link]
        told = ", ".join(f"{number} from {self.name(f'p{port}') if f'p{port}' in self.system.buses else 'the error port'}" for port, number in found)
        if row.link[0] == "p":
            told = ", ".join(str(number) for _, number in found)
        yield f"whole replies at {self.name(row.link)}'s link before: {told or 'none'}"

    # ---- requests without reply

    def where_left(self):
        """How far the oldest requests that are left at masters' links have come at the other side."""
        left = [message for message in self.explainer.in_flight() if message.link[0] == "m" and self.compares(f"p{message.port}")]
        for message in left[:MOST]:
            given, port = self.at_port(message), self.name(f"p{message.port}")
            asker = f"{self.name(message.link)}, source {message.source}"
            if given is None:
                yield f"{asker}: it has not crossed at {port}'s link"
            elif given.is_over:
                yield f"{asker}: {port} answered it, {place_of(given.answered)}; the reply has not crossed whole at {self.name(message.link)}'s link"
            elif given.is_whole:
                state = "begun to answer" if given.answered else "not answered"
                yield f"{asker}: it crossed at {port}'s link, {place_of(given.asked)}; {port} has {state} it"
            else:
                yield f"{asker}: its beats have not all crossed at {port}'s link"
