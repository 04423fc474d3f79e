"""What a system can be covered in: the bins that its ports, masters and tables of sizes have (docs/guide/regression.md, "What was covered"). Some of
them no run can hit; each such one has the reason."""

from tlxtools.bus import reply_of
from tlxtools.common import BUS, GROUP_OF, carries_data
from tlxtools.coverage_text import ACCESSES, AFTER, EDGES, ERROR, MOST_IN_FLIGHT, NAMES, SHAPES, SIZES, SOURCES_APART, WHERE
from tlxtools.partial_memory import SUPPORT, ranges_of
from tlxtools.wide_sources import reached_by

# The shapes of partial puts of one byte and of two, by their sizes; those of more bytes have each shape.
FEW_SHAPES = {0: ("none", "all"), 1: ("none", "all", "one")}
NO_SUCH_PUT = "no partial put of so few bytes has this shape before another one"
ONE_SOURCE = "the master has one source, so no request of its is older than another"
IN_ORDER = "replies at the master's link come in the order of its requests"
ONE_IN_ALL = "the masters that reach the port have one source in all"
ALIGNED = "the system has no unaligned requests"
WHOLE = "decoders look at the whole request"
ALL_PATHS = "each master has a path to each port"
FREE_LATER = "a source is free from the time after its last reply on"
CLOCK_APART = "the beats of a channel are a clock apart"


def is_supported(port, name, size):
    """Whether the slave of a port serves the operation at a size; a device may serve all that its table has."""
    table = port["sizes"] if "sizes" in port else SUPPORT["ram" if port["kind"] == "device" else port["kind"]]
    least, greatest = table.get(GROUP_OF[name], (1, 0))
    return least <= size <= greatest


def beats_of(bus, size, carries):
    return max(1, (1 << size) // bus) if carries else 1


def holds_aligned(ranges, size):
    """Whether one of these ranges holds an aligned request of this size."""
    return any(-base % (1 << size) + (1 << size) <= length for base, length in ranges)


def has_long(port, sizes, bus, channel):
    """Whether the port serves a request of which the message of this channel has several beats."""
    return any(is_supported(port, name, size) and beats_of(bus, size, carries_data(name) if channel == "A" else reply_of(name) == "AccessAckData") > 1
               for name in NAMES for size in sizes)


def corrupt_goals(system, master, number, port, sizes):
    """The bins of corrupt beats, if data may be corrupt: of requests with data that the port serves, and of replies with data to such as it serves."""
    if not system.get("corrupt"):
        return
    for name in NAMES:
        served = [size for size in sizes if is_supported(port, name, size)]
        if carries_data(name):
            yield from (("corrupt", master, number, name, size, "asked") for size in served)
        if reply_of(name) == "AccessAckData":
            yield from (("corrupt", master, number, name, size, "answered") for size in served)


def goals_of_port(system, master, number, port):
    """The bins of a master's requests to a port: what it serves is given, and what it does not serve is denied. No request has a size of which no
    range holds an aligned one."""
    sizes = [size for size in SIZES if holds_aligned(ranges_of(port), size)]
    for name in NAMES:
        for size in sizes:
            serves = is_supported(port, name, size)
            if serves:
                yield "asked", master, number, name, size, "aligned"
                yield "answered", master, number, name, size, "given"
            elif port["kind"] != "device":
                yield "answered", master, number, name, size, "denied"
    yield from corrupt_goals(system, master, number, port, sizes)
    bus = system["master"][master].get("bus", system.get("bus", BUS))
    for channel in ("A", "D"):
        if has_long(port, sizes, bus, channel):
            yield from (("gap", master, number, channel, after) for after in AFTER if after > 0)
    for channel, names in (("A", ("putfull",)), ("D", ("get",))):
        served = [size for size in sizes for name in names if is_supported(port, name, size)]
        for count in sorted({beats_of(bus, size, True) for size in served}):
            yield "beats", master, number, channel, count
    for size in sizes:
        if is_supported(port, "putpart", size):
            yield from (("mask", master, number, size, shape) for shape in FEW_SHAPES.get(size, SHAPES))
    if system["master"][master]["sources"] > 1 and not system["master"][master].get("fifo"):
        yield from (("overtook", master, number, where) for where in WHERE)


def goes_beyond(port):
    """Whether an aligned request may begin in a range of a port and end beyond it."""
    return any((base + length - 1) // (1 << size) * (1 << size) >= base and (base + length) % (1 << size)
               for base, length in ranges_of(port) for size in SIZES)


def causes_of(system, port):
    """Why a memory at a port may deny a request; a device denies what it likes."""
    if port["kind"] == "device":
        return []
    sizes = [size for size in SIZES if holds_aligned(ranges_of(port), size)]
    may = {"unaligned": system.get("unaligned", False), "beyond": system.get("decode") == "address" and goes_beyond(port),
           "unserved": any(not is_supported(port, name, size) for name in NAMES for size in sizes)}
    return [cause for cause, is_so in may.items() if is_so]


def sources_of(system, place):
    """How many sources the masters have that reach a port."""
    return sum(master["sources"] for number, master in enumerate(system["master"]) if place in reached_by(system, number))


def beyond(system):
    """The bins that a reader may look for and that no run can hit, each with the reason."""
    masters = system["master"]
    for number, master in enumerate(masters):
        for place in sorted(reached_by(system, number)):
            port = system["port"][place]
            hit = {bin for bin in goals_of_port(system, number, place, port) if bin[0] == "mask"}
            masks = [("mask", number, place, size, shape) for size in sorted({bin[3] for bin in hit}) for shape in SHAPES]
            yield from ((bin, NO_SUCH_PUT) for bin in masks if bin not in hit)
            long = {bin[3] for bin in goals_of_port(system, number, place, port) if bin[0] == "gap"}
            yield from ((("gap", number, place, channel, 0), CLOCK_APART) for channel in sorted(long))
            if master["sources"] == 1 or master.get("fifo"):
                yield from ((("overtook", number, place, where), ONE_SOURCE if master["sources"] == 1 else IN_ORDER) for where in WHERE)
        yield ("again", number, 0), FREE_LATER
    ports = range(len(system.get("port", [])))
    if not system.get("unaligned"):
        yield from ((("refused", place, "unaligned"), ALIGNED) for place in ports if sources_of(system, place))
    if system.get("decode") != "address":
        yield from ((("refused", place, "beyond"), WHOLE) for place in ports if sources_of(system, place))
    if all(len(reached_by(system, number)) == len(ports) for number in range(len(masters))):
        yield ("refused", ERROR, "no_path"), ALL_PATHS
    yield from ((("contested", place), ONE_IN_ALL) for place in range(len(system.get("port", []))) if sources_of(system, place) == 1)


def goals_of(system):
    """All bins that a system can be covered in, in no order."""
    ports, masters = system.get("port", []), system["master"]
    reached = [reached_by(system, number) for number in range(len(masters))]
    for number, master in enumerate(masters):
        for place in sorted(reached[number]):
            yield from goals_of_port(system, number, place, ports[place])
        for name in NAMES:
            yield from (("answered", number, ERROR, name, size, "denied") for size in SIZES)
        yield from (("in_flight", number, count) for count in range(1, min(master["sources"], MOST_IN_FLIGHT) + 1))
        yield from (("again", number, after) for after in AFTER if after > 0)
        bus = master.get("bus", system.get("bus", BUS))
        yield from (("lane", number, size, offset) for size in SIZES if 1 << size < bus for offset in range(0, bus, 1 << size))
        yield from (("source", number, source) for source in range(min(master["sources"], SOURCES_APART + 1)))
    yield "refused", ERROR, "nowhere"
    if any(len(places) < len(ports) for places in reached):
        yield "refused", ERROR, "no_path"
    for place in range(len(ports)):
        in_all = sources_of(system, place)
        yield from (("at_port", place, count) for count in range(1, min(in_all, MOST_IN_FLIGHT) + 1))
        if in_all > 1:
            yield "contested", place
        if in_all:
            yield from (("latency", place, after) for after in AFTER)
            yield from (("refused", place, cause) for cause in causes_of(system, ports[place]))
            yield from (("after", place, one, other) for one in ACCESSES for other in ACCESSES)
        for number in range(len(ranges_of(ports[place])) if in_all else 0):
            yield "range", place, number
            yield from (("edge", place, number, edge) for edge in EDGES)
