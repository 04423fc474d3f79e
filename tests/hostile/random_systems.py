"""Random systems, and random runs of a crossbar of such a system: what its monitors capture. Requests overlap, messages of different links
interleave, and what carries no byte is anything. With a planted bug the run is one of another crossbar, mostly no lawful one."""

import collections

from tlxtools.bus import Bus, bus_of, reply_of
from tlxtools.common import BUSES, GROUPS, KINDS, OPERATIONS, ORDERS, SIDE_KEYS, carries_data, order_at
from tlxtools.partial_memory import ERROR_PORT, Ask, Reply, Slave, port_of, ranges_of
from tlxtools.system_keys import MAX_WIDE
from tlxtools.wide_sources import WideSources, is_reached

# What a crossbar or a slave of a run may do wrong.
BUGS = ("byte of a reply at its port", "byte of a reply at its master", "byte of a request", "denial of a reply", "lost put", "sent twice",
        "sent to another port", "early reply", "reply to another source", "unknown byte of a reply", "source shifted otherwise", "source of another master",
        "sent without a path", "source sent twice", "number in flight given again", "number of an adapter that the system does not have",
        "reply that overtakes", "corrupt at one side", "corrupt beat of a reply", "request corrupt at one side", "mask of a corrupt request",
        "bytes beside a corrupt put")


def sizes_of(rng):
    """A table of sizes, in which some operations are left out."""
    table = {}
    for group in GROUPS:
        if rng.random() < 0.8:
            table[group] = sorted([rng.randrange(9), rng.randrange(9)])
    return table


def port_of_system(rng, number, images):
    """A port, at addresses that are its own."""
    base = 0x10000 * (number + 1)
    port = {"kind": rng.choice([*KINDS, "ram", "ram", "device"])}
    lengths = [rng.choice([1, 8, 16, 60, 64, 256, 4096]) for _ in range(rng.choice([1, 1, 1, 2, 3]))]
    is_mirror = rng.random() < 0.4
    if is_mirror:
        lengths = lengths[:1] * len(lengths)
    ranges = [[base + 0x4000 * place + rng.choice([0, 0, 0, 4, 9]), length] for place, length in enumerate(lengths)]
    if len(ranges) == 1 and rng.random() < 0.7:
        ranges = [[ranges[0][0], rng.choice([lengths[0], 0xc000])]]
        port.update(base=ranges[0][0], length=ranges[0][1])
    else:
        port["ranges"] = ranges
    if is_mirror or rng.random() < 0.1:
        port["mirror"] = is_mirror
    if number == 0 and rng.random() < 0.2:
        # memory as large as a file can name, after all others
        port = {"kind": "ram", "base": 0x80000000, "length": rng.choice([2**30, 2**40, 2**62])}
        ranges = [[port["base"], port["length"]]]
    most = min(ranges[0][1], 64)
    if rng.random() < 0.5:
        port["reset"] = rng.randbytes(rng.randint(1, most)).hex()
    if rng.random() < 0.4:
        images[number] = rng.randbytes(rng.randrange(1 + rng.choice([most, min(ranges[0][1], 5000)])))
        port["image"] = f"image_{number}.bin"
    if rng.random() < 0.5:
        port["unknown"] = rng.random() < 0.8
    others = {"sizes": lambda: sizes_of(rng), "order": lambda: order_of(rng), "name": lambda: f"slave_{number}",
              "volatile": lambda: [volatile_of(rng, ranges[0][1]) for _ in range(rng.choice([1, 1, 2, 5]))],
              "on_reset": lambda: rng.choice(["keep", "load"]), "crossing": lambda: rng.choice(["none", "none", "same"]),
              "fifo": lambda: rng.random() < 0.8}
    port.update((key, value()) for key, value in others.items() if rng.random() < 0.3)
    return port


def order_of(rng):
    """An order of a port, or of each side or of one."""
    if rng.random() < 0.5:
        return rng.choice(ORDERS)
    return {side: rng.choice(ORDERS) for side in SIDE_KEYS.values() if rng.random() < 0.8}


def volatile_of(rng, length):
    """The offset and the length of bytes of a range that change by themselves, mostly a word or so near its beginning."""
    offset = rng.choice([rng.randrange(min(length, 64)), rng.randrange(length), length - 1])
    return [offset, min(length - offset, rng.choice([1, 1, 2, 4, 8, 300, length]))]


def sources_of(rng, masters):
    """Gives the masters wide sources: in blocks, by the low bits, or at random places, now and then near the greatest source."""
    how = rng.choice(["blocks", "low bits", "places"])
    end, stride = rng.randrange(50) if rng.random() < 0.9 else 65_536 - 60 * len(masters), len(masters) + rng.randrange(4)
    for number, master in enumerate(masters):
        if how == "low bits":
            master.update(first=number, stride=stride)
        elif how == "places":
            master["first"] = end
            end += master["sources"] + rng.randrange(50)


def hosts_of(rng, masters, count):
    """What a port says of the masters that reach it: so many of them in any order, by number or by name, with their places in the list in the low
    bits of the source. Or each has sources of its own, one after the other or by the low bits, now and then up to the greatest source."""
    some = rng.sample(range(len(masters)), count)
    said = [masters[number].get("name", number) if rng.random() < 0.5 else number for number in some]
    if rng.random() < 0.5:
        return {"hosts": said}
    tables, stride, end = [{"master": item} for item in said], len(some) + rng.randrange(4), rng.randrange(50)
    counts = [masters[number]["sources"] for number in some]
    if rng.random() < 0.5:
        lows = rng.sample(range(stride), len(some))
        front = rng.choice([0, 0, end, MAX_WIDE - max(low + stride * (count - 1) for low, count in zip(lows, counts))])
        for table, low in zip(tables, lows):
            table.update(first=front + low, stride=stride)
    else:
        for table, count in zip(tables, counts):
            table["first"] = end
            if rng.random() < 0.5:
                table["stride"] = rng.randint(1, 4)
            end += 1 + table.get("stride", 1) * (count - 1) + rng.randrange(9)
    return {"sources": tables}


def system_of(rng):
    """A random system, and the bytes of each image by its port."""
    images, system = {}, {"bus": rng.choice(BUSES)}
    if rng.random() < 0.6:
        system["unaligned"] = rng.random() < 0.8
    if rng.random() < 0.4:
        system["corrupt"] = rng.random() < 0.8
    if rng.random() < 0.4:
        system["decode"] = rng.choice(["bytes", "address", "address"])
    if rng.random() < 0.4:
        system["resets"] = rng.random() < 0.8
    if rng.random() < 0.3:
        system["period"] = rng.choice([1, 2, 3, 10, 2**63 - 1])
    # now and then as many as a system may have, or nearly so
    ports, masters = (rng.choice([40, 255]), 64) if rng.random() < 0.01 else (rng.randint(1, 4), rng.randint(1, 3))
    system["port"] = [port_of_system(rng, number, images) for number in range(ports)]
    system["master"] = [{"sources": rng.randint(1, 4)} for _ in range(masters)]
    sources_of(rng, system["master"])
    if rng.random() < 0.4:
        # some links have width adapters
        for table in system["port"] + system["master"]:
            if rng.random() < 0.5:
                table["bus"] = rng.choice(BUSES)
    elif system["bus"] == 8 and rng.random() < 0.5:
        del system["bus"]
    for number, master in enumerate(system["master"]):
        if rng.random() < 0.3:
            master["name"] = f"host.{number}"
    if rng.random() < 0.4:
        # behind some ports masters have other sources than behind others
        for port in system["port"]:
            if rng.random() < 0.6:
                port.update(hosts_of(rng, system["master"], rng.randint(1, masters)))
    for number, master in enumerate(system["master"]):
        if rng.random() < 0.3:
            master["reach"] = reach_of(rng, system, number)
        if rng.random() < 0.3:
            master["fifo"] = rng.random() < 0.8
    return system, images


def reach_of(rng, system, master):
    """Some of the ports, in any order, by number or by name: of those that list masters the ones that list this one."""
    ports = system["port"]
    some = [number for number, port in enumerate(ports)
            if (is_reached(system, master, number) if "hosts" in port or "sources" in port else rng.random() < 0.5)]
    rng.shuffle(some)
    return [ports[number].get("name", number) if rng.random() < 0.5 else number for number in some]


def address_of(rng, ports, size, is_unaligned=False):
    """An address: mostly one of a port's, and a multiple of the size; now and then none if requests may be unaligned."""
    if rng.random() < 0.08:
        return rng.choice([0x8000, 0, 2**64 - (1 << size), 0x80000000 - (1 << size)])
    base, length = rng.choice(ranges_of(rng.choice(ports)))
    # near the beginning, near the end, or anywhere, mostly where 4 KiB end and begin
    offset = rng.choice([rng.randrange(min(length, 64)), rng.randrange(min(length, 64)), max(0, length - rng.randint(1, 16)),
                         min(length - 1, rng.choice([rng.randrange(length), 0x1000 * rng.randrange(1, 5) - 8 + rng.randrange(16)]))])
    return base + offset if is_unaligned and rng.random() < 0.1 else (base + offset) >> size << size


def ask_of(rng, ports, hot=(), is_unaligned=False):
    """A random request, mostly at one of the hot addresses if there are some."""
    name = rng.choice([*OPERATIONS, "get", "get", "get", "putfull", "putfull", "putpart", "putpart"])
    # a slave without a table of sizes serves atomics of two sizes alone
    sizes = [2, 2, 3] if OPERATIONS[name][0] in (2, 3) and rng.random() < 0.6 else [0, 1, 2, 2, 2, 3, 3, 3, 4, 5]
    size = rng.choice(sizes) if rng.random() < 0.97 else rng.randrange(6, 9)
    hole = 0.3 if name == "putpart" else 0
    data = [None if rng.random() < hole else rng.choice([0, 255, rng.randrange(256)]) for _ in range(1 << size)] if carries_data(name) else []
    address = rng.choice(hot) >> size << size if hot and rng.random() < 0.8 else address_of(rng, ports, size, is_unaligned)
    return Ask(name, address, size, data)


class Message:
    """The beats of a message that are still to cross a link, and what is done when one of them has."""

    def __init__(self, rows, may_end, on_end):
        self.rows, self.may_end, self.on_end = collections.deque(rows), may_end, on_end
        self.count = len(self.rows)

    def crossed(self):
        """How many of its beats have crossed."""
        return self.count - len(self.rows)


class Turns:
    """The requests of a link whose replies come in order, the oldest first, up to the first beat of their replies. With a bug one overtakes."""

    def __init__(self, overtakes):
        self.overtakes, self.asked = overtakes, collections.deque()

    def places(self, waiting):
        """The places of the replies that may begin now, among those that wait."""
        first = [place for place, (transfer, _) in enumerate(waiting) if self.asked and transfer is self.asked[0]]
        others = [place for place in range(len(waiting)) if place not in first]
        return others if others and self.overtakes() else first


class Channel:
    """A channel of a link: the message under way there, and those that may begin, each with its transfer. Of a link whose replies come in order
    both channels have its turns."""

    def __init__(self, front, turns=None):
        self.front, self.turns, self.message, self.waiting = front, turns, None, []
        self.is_reply = front.endswith("D")

    def wait(self, transfer, begin):
        """A message waits for its turn; then it begins."""
        self.waiting.append((transfer, begin))

    def begun(self, rng):
        """A message that begins now, if one may."""
        places = self.turns.places(self.waiting) if self.turns and self.is_reply else range(len(self.waiting))
        if not places:
            return None
        transfer, begin = self.waiting.pop(rng.choice(places))
        if self.turns and not self.is_reply:
            self.turns.asked.append(transfer)
        elif self.turns and transfer in self.turns.asked:
            self.turns.asked.remove(transfer)
        return begin()

    def beat(self, rng):
        """The row of a beat that crosses now, if one does. A message begins when its first beat crosses, unless that has to wait as its last."""
        if rng.random() < 0.2:
            return None
        if self.message is None and self.waiting and rng.random() < 0.7:
            self.message = self.begun(rng)
        message = self.message
        if message is None or len(message.rows) == 1 and not message.may_end():
            return None
        row = message.rows.popleft()
        if not message.rows:
            self.message = None
            message.on_end()
        return f"{self.front},{row}"


class Transfer:
    """A request on its way through the crossbar and back. An adapter's own request has no master."""

    def __init__(self, ask, port, master=None, source=None):
        self.ask, self.master, self.source, self.port = ask, master, source, port
        self.has_left, self.has_come = master is None, False
        # the request at the master's link and at the port's, and the reply at either
        self.at_master, self.at_port, self.replies = None, None, []
        # the cuts of the request and of the reply, of as many bytes as the wider bus on their way has, in which some beat is corrupt
        self.asked_cuts = self.corrupt_cuts = frozenset()


class Service:
    """A request that a slave has accepted. It takes effect once, at the latest as its reply begins."""

    def __init__(self, run, transfer, slave):
        self.run, self.transfer, self.slave, self.reply = run, transfer, slave, None

    def done(self):
        """The slave's reply, once the request has taken effect."""
        self.reply = self.reply or self.run.slave_reply(self.transfer, self.slave)
        return self.reply


class Run:
    """A run of a crossbar: each master's requests go to their port, are served there in its order, and their replies come back. One that is
    serial has one request at a time: else ports may take requests in another order than they leave the masters. With the order "any" each
    request waits for a moment of its own. Before the ports `renumbered` each request gets a free source. The adapters before the ports `fronts`
    answer masters by memories of their own, in the order of the masters' side, and ask their ports what they like."""

    def __init__(self, rng, system, images, order, bug=None, is_serial=False, renumbered=(), fronts=()):
        self.rng, self.system, self.ports, self.masters, self.order = rng, system, system["port"], system["master"], order
        self.is_serial, self.renumbered = is_serial, {*renumbered, *fronts}
        self.fronts = {number: Slave(self.ports[number], images.get(number, b"")) for number in sorted(fronts)}
        self.bug = bug
        self.buses = {"m": [Bus(bus_of(system, master)) for master in self.masters], "p": [Bus(bus_of(system, port)) for port in self.ports]}
        self.slaves = [*(Slave(port, images.get(number, b"")) for number, port in enumerate(self.ports)), Slave(ERROR_PORT)]
        # the turns of the links whose replies come in order
        self.turns = {(side, number): Turns(lambda: self.has_bug("reply that overtakes", 0.9))
                      for side, tables in (("m", self.masters), ("p", self.ports)) for number, table in enumerate(tables) if table.get("fifo")}
        self.channels = {(side, number, channel): Channel(f"{side}{number},{channel}", self.turns.get((side, number)))
                         for side, channel in (("m", "A"), ("p", "A"), ("p", "D"), ("m", "D")) for number in range(len(self.buses[side]))}
        self.sources = WideSources(system)
        self.free = [set(range(master["sources"])) for master in self.masters]
        self.freed, self.used = [], [set() for _ in self.ports]
        # the requests that take effect at a moment of their own
        self.services, self.time = [], rng.choice([0, 10, rng.randrange(10_000), 2**64 - 100_000])
        # all requests since the last reset, and how likely a reset is at each time
        self.transfers, self.resets = [], rng.choice([0, 0.03, 0.1]) if system.get("resets") else 0
        most = 8 if len(self.masters) < 4 else 1
        # now and then most requests meet at two addresses
        hot = [address_of(rng, self.ports, 3) for _ in range(2)] if rng.random() < 0.5 else []
        is_unaligned = system.get("unaligned", False)
        self.asks = [[ask_of(rng, self.ports, hot, is_unaligned) for _ in range(rng.randint(1, most))] for _ in self.masters]

    def has_bug(self, name, chance=0.3):
        """Whether a bug shows itself now, which it does once."""
        shows = self.bug == name and self.rng.random() < chance
        if shows:
            self.bug = None
        return shows

    def junk(self):
        return None if self.rng.random() < 0.1 else self.rng.randrange(256)

    def rows(self):
        """All rows of the run, with their times. It ends when all is answered, or when nothing has crossed for long: a bug may stop it."""
        rows, waited = [], 0
        while (any(self.asks) or not self.is_idle()) and waited < 50:
            crossed = [self.reset()] if self.rng.random() < self.resets else []
            self.offer()
            self.serve_some()
            crossed += [row for channel in self.channels.values() if (row := channel.beat(self.rng))]
            self.rng.shuffle(crossed)
            rows += [f"{self.time},{row}" for row in crossed]
            for master, source in self.freed:
                self.free[master].add(source)
            self.freed.clear()
            self.time += self.rng.choice([1, 1, 2, 5])
            waited = 0 if crossed else waited + 1
        return rows

    def reset(self):
        """The row of a reset of the whole system. A slave may have done any part of a request whose reply has not begun."""
        for transfer in self.transfers:
            is_there = transfer.at_port or transfer.at_master and not self.goes_on(transfer)
            if is_there and not any(reply.crossed() for reply in transfer.replies) and self.rng.random() < 0.7:
                self.slave_of(transfer).cut(self.cut_short(transfer))
        for slave in (*self.slaves, *self.fronts.values()):
            slave.reset()
        for channel in self.channels.values():
            channel.message = None
            channel.waiting.clear()
        for turns in self.turns.values():
            turns.asked.clear()
        for free, master in zip(self.free, self.masters):
            free.update(range(master["sources"]))
        for numbers in (self.services, self.freed, self.transfers, *self.used):
            numbers.clear()
        return "reset" + "," * 10

    def cut_short(self, transfer):
        """A request with the bytes that have crossed its links."""
        ask = transfer.ask
        messages = (("m", transfer.master, transfer.at_master), ("p", transfer.port, transfer.at_port))
        count = min(message.crossed() * len(self.buses[side][number].lanes(ask.address, ask.size)[1]) for side, number, message in messages if message)
        return ask._replace(data=ask.data[:count])

    def goes_on(self, transfer):
        """Whether a request crosses at its port's link: the error port has none, and adapters with memories answer masters themselves."""
        return transfer.port < len(self.ports) and (transfer.master is None or transfer.port not in self.fronts)

    def slave_of(self, transfer):
        """What serves a request: its port's slave, or an adapter's memory."""
        return self.slaves[transfer.port] if self.goes_on(transfer) else self.fronts.get(transfer.port, self.slaves[transfer.port])

    def is_idle(self):
        """Whether no request is in flight."""
        return all(len(free) == master["sources"] for free, master in zip(self.free, self.masters))

    def serve_some(self):
        """Some of the requests that wait for a moment of their own take effect now, in any order."""
        self.rng.shuffle(self.services)
        for service in self.services:
            if self.rng.random() < 0.3:
                service.done()
        self.services = [service for service in self.services if not service.reply]

    def offer(self):
        """Has masters with a free source ask next."""
        for master, asks in enumerate(self.asks):
            channel = self.channels["m", master, "A"]
            is_busy = self.is_serial and not self.is_idle()
            if asks and self.free[master] and not channel.message and not channel.waiting and not is_busy:
                source = self.rng.choice(sorted(self.free[master]))
                if not self.has_bug("source sent twice"):
                    self.free[master].remove(source)
                ask = asks.pop()
                transfer = self.begun(ask, self.port_to(master, ask), master, source)
                self.transfers.append(transfer)
                channel.wait(transfer, lambda transfer=transfer: self.ask_at_master(transfer))

    def begun(self, ask, port, master=None, source=None):
        """A request that sets out, of which some cuts are corrupt, if that may be."""
        transfer = Transfer(ask, port, master, source)
        if ask.data:
            transfer.asked_cuts, width = self.some_cuts(transfer), self.wider_bus(transfer)
            transfer.ask = ask._replace(spoiled=frozenset(place for place in range(len(ask.data)) if place // width in transfer.asked_cuts))
        return transfer

    def port_to(self, master, ask):
        """The port to which a request goes. If the master has no path to the port that has its address, a crossbar with a bug sends it there."""
        right, near = (port_of(self.system, sender, ask.address, ask.size) for sender in (master, None))
        return near if right != near and self.has_bug("sent without a path") else right

    def send(self, transfer):
        """A request waits for its turn at its port's link."""
        port = self.rng.randrange(len(self.ports)) if self.has_bug("sent to another port") else transfer.port
        for _ in range(1 + self.has_bug("sent twice")):
            self.channels["p", port, "A"].wait(transfer, lambda: self.ask_at_port(transfer, port))

    def asks_behind(self, transfer):
        """What an adapter asks its port when a master asks: the same, two halves of it, a get before a put, what comes to its mind, or nothing."""
        rng, (name, address, size, data, _) = self.rng, transfer.ask
        asks, how = [transfer.ask], rng.choice(["same", "same", "halves", "get and put", "other", "nothing"])
        if how == "halves" and size and (not data or name.startswith("put")):
            half = 1 << size - 1
            asks = [Ask(name, address + place, size - 1, data[place:place + half]) for place in (0, half)]
        elif how == "get and put" and data:
            asks = [Ask("get", address, size, []), Ask("putfull", address, size, [byte or 0 for byte in data])]
        elif how == "other":
            asks = [ask_of(rng, [self.ports[transfer.port]], (), self.system.get("unaligned", False)) for _ in range(rng.randrange(3))]
        asks = [ask for ask in asks if how != "nothing" and port_of(self.system, None, ask.address, ask.size) == transfer.port]
        return [self.begun(ask, transfer.port) for ask in asks]

    def ask_at_master(self, transfer):
        behind = [transfer] if self.goes_on(transfer) else self.asks_behind(transfer) if transfer.port in self.fronts else []
        for request in behind:
            self.send(request)
        self.transfers += [request for request in behind if request is not transfer]

        def leave():
            transfer.has_left = True
            if not self.goes_on(transfer):
                self.accept(transfer)

        rows = self.columns(self.buses["m"][transfer.master], transfer, transfer.ask, transfer.source, transfer.asked_cuts)
        transfer.at_master = Message(rows, lambda: True, leave)
        return transfer.at_master

    def columns(self, bus, transfer, ask, source, cuts):
        """The beats of a request at a link. The bytes of its corrupt cuts are anything, and lanes of its corrupt beats may be unknown."""
        data = [self.rng.randrange(256) if byte is not None and place in ask.spoiled else byte for place, byte in enumerate(ask.data)]
        rows = bus.asks(ask.name, ask.size, source, ask.address, data, self.junk)
        marked = self.corrupt_beats(bus, transfer, cuts, len(rows))
        return [self.marked(row, bus) if beat in marked else row + self.rng.choice(["", "", "0"]) for beat, row in enumerate(rows)]

    def marked(self, row, bus):
        """A beat of a request that is marked corrupt, with anything in its lanes."""
        words = row.split(",")
        words[6] = bus.spell_lanes([self.junk() for _ in range(bus.width)])
        return ",".join(words) + "1"

    def owned_wide(self, transfer, port):
        """The source at the port's link that its owner has there. With a bug it is another one, also that of a master that the port does not
        list."""
        places, own = self.sources.places[port], transfer.source
        wide = self.sources.wide(port, transfer.master, own)
        others = [first + stride * own for master, (first, stride) in places.items() if master != transfer.master]
        if wide is None or others and self.has_bug("source of another master"):
            return min(self.rng.choice(others), MAX_WIDE)
        first, stride = places[transfer.master]
        if own and self.has_bug("source shifted otherwise"):
            return min(first + self.rng.choice([stride * 2, stride // 2, stride + 1]) * own, MAX_WIDE)
        return wide

    def wide_of(self, transfer, port):
        """The source at the port's link: that of its owner, or a free one of the port's own."""
        own, used = transfer.master is None or port in self.renumbered, self.used[port]
        if not own and not self.has_bug("number of an adapter that the system does not have"):
            return self.owned_wide(transfer, port)
        if used and self.has_bug("number in flight given again"):
            return self.rng.choice(sorted(used))
        wide = self.rng.choice([number for number in (0, 1, 2, 3, 4, 5, 6, 7, 300, MAX_WIDE, *range(20, 290)) if number not in used][:30])
        used.add(wide)
        return wide

    def ask_at_port(self, transfer, port):
        wide, ask, cuts = self.wide_of(transfer, port), self.ask_on_its_way(transfer.ask), transfer.asked_cuts
        if ask.data and self.has_bug("request corrupt at one side"):
            cuts = cuts ^ {0}
        early = self.has_bug("early reply")
        if early:
            self.reply_begins(transfer, port, wide, Service(self, transfer, self.slaves[port]))

        def end():
            if not early:
                self.accept(transfer, port, wide)

        transfer.at_port = Message(self.columns(self.buses["p"][port], transfer, ask, wide, cuts), lambda: transfer.has_left, end)
        return transfer.at_port

    def ask_on_its_way(self, ask):
        """A request as the crossbar gives it on. With a bug a byte of it is another one, or one of a corrupt cut is given at one side alone."""
        if ask.data and self.has_bug("byte of a request"):
            clean = [place for place in range(len(ask.data)) if place not in ask.spoiled]
            return ask._replace(data=self.spoiled(ask.data, places=clean))
        if ask.spoiled and ask.name == "putpart" and self.has_bug("mask of a corrupt request"):
            at = self.rng.choice(sorted(ask.spoiled))
            return ask._replace(data=[*ask.data[:at], 0 if ask.data[at] is None else None, *ask.data[at + 1:]])
        return ask

    def order_of(self, number, side):
        """When the requests of a port take effect, as the links of a side show it."""
        return order_at(self.ports[number] if number < len(self.ports) else ERROR_PORT, side, self.order)

    def accept(self, transfer, port=None, wide=None):
        """The last beat of a request has crossed at a port's link, or at its master's if it does not go on."""
        slave, side = (self.slave_of(transfer), "m") if port is None else (self.slaves[port], "p")
        service, order = Service(self, transfer, slave), self.order_of(transfer.port if port is None else port, side)
        if order == "accept":
            service.done()
        elif order == "any":
            self.services.append(service)
        self.reply_begins(transfer, port, wide, service)

    def slave_reply(self, transfer, slave):
        """What the slave answers: bytes that nobody knows are anything, and a device answers what it likes."""
        rng = self.rng
        if transfer.ask.data and self.has_bug("lost put"):
            return Reply(False, slave.window(transfer.ask) if reply_of(transfer.ask.name) == "AccessAckData" else [])
        expected, _ = slave.served_next(transfer.ask)
        carries = reply_of(transfer.ask.name) == "AccessAckData"
        if expected is None:
            expected = Reply(None, [None] * (carries << transfer.ask.size))
        denied = rng.random() < 0.2 if expected.denied is None else expected.denied
        reply = Reply(denied, [0 if denied else self.junk() if byte is None else byte for byte in expected.data])
        if transfer.ask.spoiled and slave.writes(transfer.ask) and self.has_bug("bytes beside a corrupt put", 0.9):
            self.write_beside(transfer.ask, slave)
        if self.has_bug("denial of a reply"):
            reply = Reply(not reply.denied, [0] * len(reply.data))
        transfer.corrupt_cuts = self.some_cuts(transfer) if reply.data and not reply.denied else frozenset()
        if reply.data and not reply.denied and self.has_bug("byte of a reply at its port"):
            reply = reply._replace(data=self.spoiled(reply.data))
        if reply.data and not reply.denied and self.has_bug("unknown byte of a reply"):
            reply = reply._replace(data=self.spoiled(reply.data, None))
        return reply

    def write_beside(self, ask, slave):
        """A corrupt request writes bytes near its own too, which it does not give."""
        start = slave.start_of(ask)
        for at in {*range(start - 64, start + (1 << ask.size) + 64)} - slave.writes(ask):
            slave.cells[at] = self.rng.randrange(256)

    def wider_bus(self, transfer):
        """How many bytes the wider bus has of those that a transfer crosses."""
        widths = [] if transfer.master is None else [self.buses["m"][transfer.master].width]
        return max(widths + ([self.buses["p"][transfer.port].width] if transfer.port < len(self.ports) else []))

    def some_cuts(self, transfer):
        """Some cuts of a message that carries the bytes of a request, or of its reply: in these some beat is corrupt, if that may be."""
        if not self.system.get("corrupt") or self.rng.random() < 0.6:
            return frozenset()
        cuts = max(1, (1 << transfer.ask.size) // self.wider_bus(transfer))
        return frozenset(cut for cut in range(cuts) if self.rng.random() < 0.5)

    def corrupt_beats(self, bus, transfer, cuts, beats):
        """The corrupt ones of a message's beats at a link: some of each corrupt cut."""
        found, span = set(), max(1, self.wider_bus(transfer) // bus.width)
        for cut in cuts:
            # at a link to which it was sent by mistake it may have fewer beats
            within = [beat for beat in range(cut * span, (cut + 1) * span) if beat < beats] or [beats - 1]
            found |= {beat for beat in within if self.rng.random() < 0.5} or {self.rng.choice(within)}
        return found

    def spoiled(self, data, byte=0, places=()):
        """The bytes with one of them changed, which stands at one of these places if there are some."""
        at = self.rng.choice(places or range(len(data)))
        other = None if byte is None else ((data[at] or 0) + self.rng.randrange(1, 256)) % 256
        return [*data[:at], other, *data[at + 1:]]

    def reply_begins(self, transfer, port, wide, service):
        """A reply waits for its turn: at the port's link, or at the master's if its request did not go on."""
        if port is None:
            self.channels["m", transfer.master, "D"].wait(transfer, lambda: self.reply_at_master(transfer, service.done()))
        else:
            self.channels["p", port, "D"].wait(transfer, lambda: self.reply_at_port(transfer, port, wide, service.done()))

    def reply_columns(self, side, number, transfer, source, reply):
        bus, ask = self.buses[side][number], transfer.ask
        kind = reply_of(ask.name)
        data = [None] * (1 << ask.size) if reply.denied else reply.data
        words = [*bus.beats(ask.address, ask.size, data, self.junk)] if kind == "AccessAckData" else [(0, [])]
        rows = []
        is_spoiled, cuts = kind == "AccessAckData" and not reply.denied, transfer.corrupt_cuts
        if is_spoiled and side == "m" and ask.size and self.has_bug("corrupt at one side"):
            cuts = cuts ^ {0}
        corrupt_beats = self.corrupt_beats(bus, transfer, cuts, len(words)) if is_spoiled else set()
        if self.has_bug("corrupt beat of a reply"):
            corrupt_beats = corrupt_beats ^ {0}
        for beat, (_, lanes) in enumerate(words):
            if is_spoiled and beat not in corrupt_beats:
                places, active = bus.lanes(ask.address, ask.size, beat)
                for place, lane in zip(places, active):
                    lanes[lane] = reply.data[place]
            # an empty flag is the one that the message must have, and an empty parameter is 0
            corrupt = self.rng.choice(["", *3 * [int(reply.denied and kind == "AccessAckData")]]) if beat not in corrupt_beats else 1
            param = self.rng.choice(["", "", 0])
            code = {"AccessAck": 0, "AccessAckData": 1, "HintAck": 2}[kind]
            rows.append(f"{code},{param},{ask.size},{source},,,{bus.spell_lanes(lanes)},{int(reply.denied)},{corrupt}")
        return rows

    def reply_at_port(self, transfer, port, wide, reply):
        if transfer.master is not None:
            self.channels["m", transfer.master, "D"].wait(transfer, lambda: self.reply_at_master(transfer, reply))

        def end():
            transfer.has_come = True
            self.used[port].discard(wide)

        source = self.rng.choice([wide, wide + 1, 3]) if self.has_bug("reply to another source") else wide
        transfer.replies.append(Message(self.reply_columns("p", port, transfer, source, reply), lambda: True, end))
        return transfer.replies[-1]

    def reply_at_master(self, transfer, reply):
        if not self.goes_on(transfer):
            transfer.has_come = True
        if reply.data and not reply.denied and self.has_bug("byte of a reply at its master"):
            reply = reply._replace(data=self.spoiled(reply.data))
        transfer.replies.append(Message(self.reply_columns("m", transfer.master, transfer, transfer.source, reply), lambda: transfer.has_come,
                                        lambda: self.freed.append((transfer.master, transfer.source))))
        return transfer.replies[-1]
