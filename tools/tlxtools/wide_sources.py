"""The wide sources that the masters of a system have at the links of its ports, and which ports each master reaches (docs/reference/formats.md, "The system
file"). It is worked out from that page alone, and shares no code with the programs."""


def widths(counts):
    """The first wide source of each master: blocks of powers of two, one after the other, each at a multiple of its length."""
    firsts, end = [], 0
    for count in counts:
        block = 1 << (count - 1).bit_length()
        first = -(-end // block) * block
        firsts.append(first)
        end = first + block
    return firsts


def own_places(masters):
    """The first wide source of each master and the distance to its next one, as the masters' own tables say it, or else in blocks."""
    firsts = [master.get("first") for master in masters]
    if None in firsts:
        return [(first, 1) for first in widths([master["sources"] for master in masters])]
    return [(first, master.get("stride", 1)) for first, master in zip(firsts, masters)]


def number_of(said, tables):
    """The number of the master or the port that is meant by a number or by a name: of two of one name the first."""
    return [table.get("name") for table in tables].index(said) if isinstance(said, str) else said


def listed_at(port, masters):
    """The masters that a port lists, in its order, each with its first wide source there and the distance to its next one; None if it lists none.
    With `hosts` the place in the list stands in the low bits of the source, as many as the list needs."""
    if "hosts" in port:
        stride = 1 << (len(port["hosts"]) - 1).bit_length()
        return {number_of(said, masters): (place, stride) for place, said in enumerate(port["hosts"])}
    if "sources" in port:
        return {number_of(table["master"], masters): (table["first"], table.get("stride", 1)) for table in port["sources"]}
    return None


def is_reached(system, master, number):
    """Whether a master has a path to a port. A port that lists masters says it itself; of another one the master's `reach` says it by numbers and
    names of ports, and without `reach` each master has one."""
    ports, masters = system["port"], system["master"]
    listed = listed_at(ports[number], masters)
    if listed is not None:
        return master in listed
    said = masters[master].get("reach")
    return said is None or number in [number_of(item, ports) for item in said]


def reached_by(system, master):
    """The numbers of the ports to which a master has a path."""
    return {number for number in range(len(system.get("port", []))) if is_reached(system, master, number)}


def has_paths(system):
    """Whether each `reach` is one of ports that are there."""
    ports = system.get("port", [])
    try:
        return all(0 <= number_of(said, ports) < len(ports) for master in system["master"] for said in master.get("reach", []))
    except (TypeError, ValueError):
        return False


def has_lists(system):
    """Whether each port that lists masters lists some that are there, and says by numbers which sources they have."""
    masters = system["master"]
    try:
        lists = [listed_at(port, masters) for port in system.get("port", []) if "hosts" in port or "sources" in port]
    except (AttributeError, KeyError, TypeError, ValueError):
        return False
    return all(listed and all(0 <= master < len(masters) and isinstance(first, int) and isinstance(stride, int)
                              for master, (first, stride) in listed.items()) for listed in lists)


class WideSources:
    """Whose the wide sources of a system are at each port's link. A port that lists no masters has the masters' own ones."""

    def __init__(self, system):
        self.masters = system["master"]
        self.own = dict(enumerate(own_places(self.masters)))
        self.listed = [listed_at(port, self.masters) for port in system.get("port", [])]
        self.places = [self.own if listed is None else listed for listed in self.listed]

    def owner(self, port, wide):
        """The master that has a wide source at a port's link, and the master's own source; or None."""
        for master, (first, stride) in self.places[port].items():
            own, rest = divmod(wide - first, stride)
            if rest == 0 and 0 <= own < self.masters[master]["sources"]:
                return master, own
        return None

    def wide(self, port, master, own):
        """The wide source of a master's own source at a port's link; or None if the port lists others alone."""
        first, stride = self.places[port].get(master, (None, 0))
        return None if first is None else first + stride * own

    def greatest(self, port):
        """The greatest wide source at a port's link."""
        return max(first + stride * (self.masters[master]["sources"] - 1) for master, (first, stride) in self.places[port].items())
