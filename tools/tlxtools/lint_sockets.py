"""The faults of a port's `hosts` and `sources`, which list the masters that reach it. For tools/lint_system, which has those of all other keys
of a system file."""

from tlxtools.system_keys import MAX_MASTERS, MAX_WIDE
from tlxtools.toml_lines import Fault, is_integer, wanted
from tlxtools.wide_sources import listed_at

LISTS = ("hosts", "sources")


def is_master(value):
    """Whether a value may say a master: by its name, or by its number."""
    return isinstance(value, str) or is_integer(value)


def is_entry(value):
    """Whether a value may be a table of a port's `sources`."""
    return isinstance(value, dict) and is_master(value.get("master")) and is_integer(value.get("first")) and is_integer(value.get("stride", 1))


def check_hosts(port, place):
    if "hosts" in port:
        said = wanted(port, "hosts", place, lambda value: isinstance(value, list) and all(map(is_master, value)),
                      "an array of names and numbers of masters")
        check_count(said, "hosts", place)


def check_sources(port, place):
    """A port's table of sources: all types come before all else."""
    if "sources" not in port:
        return
    said = wanted(port, "sources", place, lambda value: isinstance(value, list) and all(map(is_entry, value)),
                  "an array of tables of a `master`, a `first` and a `stride`, which may be missing")
    if "hosts" in port:
        raise Fault(place.at("sources").line, "sources out of range", "`sources` does not stand beside `hosts`")
    check_count(said, "sources", place)
    for index, entry in enumerate(said):
        for key, least in (("first", 0), ("stride", 1)):
            if not least <= entry.get(key, 1) <= MAX_WIDE:
                raise Fault(place.at("sources", index, key).line, "sources out of range",
                            f"`{key}` of element {index} is {entry[key]}, and has to be {least} to {MAX_WIDE:,}")


def check_count(said, key, place):
    if not 1 <= len(said) <= MAX_MASTERS:
        raise Fault(place.at(key).line, f"{key} out of range", f"{len(said)} masters, and there have to be 1 to {MAX_MASTERS}")


def number_of(said, tables):
    """The number of the table that is meant by a number or by a name, of two of one name the first; -1 if there is none of this name."""
    names = [table.get("name") for table in tables]
    return said if is_integer(said) else names.index(said) if said in names else -1


def listed(port):
    """The key of a port that lists masters, and what it says of each; None if it has none."""
    for key in LISTS:
        if key in port:
            return key, [entry if key == "hosts" else entry["master"] for entry in port[key]]
    return None


def numbers_of(port, masters):
    """The numbers of the masters that a port lists, in its order; None if it lists none."""
    said = listed(port)
    return said and [number_of(item, masters) for item in said[1]]


def lists_faults(ports, masters, place):
    """The first element of a port's list that names no master, or one that stands before."""
    for index, port in enumerate(ports):
        key, said = listed(port) or ("", [])
        for at, item in enumerate(said):
            line, master = place.at(index, key, at).line, number_of(item, masters)
            if not 0 <= master < len(masters):
                why = f"no master is called `{item}`" if isinstance(item, str) else f"there is no master {item}"
                yield Fault(line, f"{key} out of range", f"port {index}: {why}")
                return
            if master in [number_of(before, masters) for before in said[:at]]:
                yield Fault(line, f"{key} out of range", f"port {index}: master {master} stands twice")
                return


def paths_faults(ports, masters, place):
    """The first master whose `reach` says otherwise than the ports that list masters."""
    lists = {index: numbers_of(port, masters) for index, port in enumerate(ports)}
    for index, master in enumerate(masters):
        reached = {number_of(said, ports) for said in master["reach"]} if "reach" in master else None
        for port, numbers in lists.items():
            if reached is not None and numbers is not None and (port in reached) != (index in numbers):
                why = "lists it, and `reach` does not have the port" if index in numbers else "does not list it, and `reach` has the port"
                yield Fault(place.at(index, "reach").line, "reach out of range", f"port {port} {why}")
                return


def spread_of(port, masters):
    """The wide sources of each master that a port lists, in its order: pairs of its number and a range."""
    for master, (first, stride) in listed_at(port, masters).items():
        yield master, range(first, first + stride * masters[master]["sources"], stride)


def port_sources_faults(ports, masters, owners, place):
    """The first fault of the wide sources at the ports that list masters. `owners` has those of the masters' own tables."""
    is_full = sum(map(len, owners)) > MAX_WIDE
    for index, port in enumerate(ports):
        key = (listed(port) or ("",))[0]
        if not key:
            continue
        line, spread = place.at(index, key).line, list(spread_of(port, masters))
        last = max(wide[-1] for _, wide in spread)
        if is_full or last > MAX_WIDE:
            why = f"a wide source there is {last}, and {MAX_WIDE} is the greatest" if last > MAX_WIDE else \
                f"by the masters' own tables all {MAX_WIDE + 1} wide sources are somebody's, and one has to be nobody's"
            yield Fault(line, f"port {index}: too many masters or sources", why)
            return
        had = {}
        for at, (master, wides) in enumerate(spread):
            twice = next((wide for wide in wides if wide in had), None)
            if twice is not None:
                yield Fault(place.at(index, key, at).line, f"port {index}: masters {had[twice]} and {master} share source {twice}",
                            f"wide source {twice} is one of master {had[twice]} already")
                return
            had.update(dict.fromkeys(wides, master))
