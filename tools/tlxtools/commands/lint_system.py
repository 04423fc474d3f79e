"""Prints what is wrong with a system file, line by line: ./tlcheck --lint [SYSTEM], or standard input.

tlcheck names a file's first fault in one line of fixed text, without the line of the file. This names the file's line, the
key, and what would be right. It goes on after the first fault. The first fault that it prints is the one that tlcheck names. Images are
looked for in the folder of SYSTEM, as by tlcheck; of standard input that is /dev. Status 0 for a good file, 1 for one with a fault, 66 if
SYSTEM can't be read.

The standard library reads TOML 1.0; tlcheck reads TOML 1.1. If the program is built it is asked too, and it decides.
"""

import os
import re

from tlxtools import toml_lines
from tlxtools.common import BUSES, GROUPS, MAX_SIZE, ORDERS, SIDE_KEYS, SYSTEM_KINDS, TLCHECK
from tlxtools.lint_sockets import check_hosts, check_sources, lists_faults, number_of, paths_faults, port_sources_faults
from tlxtools.system_keys import (CROSSINGS, DECODES, GREATEST, MAX_BLOCK, MAX_MASTERS, MAX_NAME, MAX_PORTS, MAX_RANGES, MAX_SOURCES,
                                  MAX_VOLATILE, MAX_WIDE, NAME, ON_RESETS, SYSTEM_KEYS)
from tlxtools.toml_lines import Fault, each, is_integer, near, number, read, tables, wanted  # noqa: F401
from tlxtools.wide_sources import own_places

SIZES = range(MAX_SIZE + 1)
# The tables within a table: also those that a master may not have, whose keys come after the master's own.
INNER = {"": ("names",), "port": ("sizes", "order", "sources", "wires"), "master": ("sizes", "order", "wires")}
ESCAPES = {"\0": "\\0", "\t": "\\t", "\n": "\\n", "\r": "\\r", '"': '\\"', "\\": "\\\\"}


def text(table, key, place):
    return wanted(table, key, place, lambda value: isinstance(value, str), "a string")


def check_name(table, place):
    if "name" not in table:
        return
    name = text(table, "name", place)
    if not re.fullmatch(NAME, name):
        raise Fault(place.at("name").line, "name out of range",
                    f"`{name}` has to be 1 to {MAX_NAME} of A-Z a-z 0-9 _ . -, and not m or p with digits alone")


def check_bus(table, place):
    if "bus" in table and wanted(table, "bus", place, is_integer, "an integer") not in BUSES:
        raise Fault(place.at("bus").line, "bus out of range", f"`bus` is {table['bus']}, and has to be one of {', '.join(map(str, BUSES))}")


def check_flag(table, key, place):
    if key in table:
        wanted(table, key, place, lambda value: isinstance(value, bool), "`true` or `false`")


def check_unaligned(table, place):
    check_flag(table, "unaligned", place)


def check_corrupt(table, place):
    check_flag(table, "corrupt", place)


def check_period(table, place):
    if "period" in table:
        number(table, "period", place, 1, GREATEST)


def check_decode(table, place):
    if "decode" in table and text(table, "decode", place) not in DECODES:
        raise Fault(place.at("decode").line, "decode out of range", "`decode` has to be `bytes` or `address`")


def check_resets(table, place):
    check_flag(table, "resets", place)


def check_on_reset(port, place):
    if "on_reset" in port and text(port, "on_reset", place) not in ON_RESETS:
        raise Fault(place.at("on_reset").line, "on_reset out of range", "`on_reset` has to be `keep` or `load`")


def check_crossing(port, place):
    if "crossing" in port and text(port, "crossing", place) not in CROSSINGS:
        raise Fault(place.at("crossing").line, "crossing out of range", "`crossing` has to be `same` or `none`")


def check_fifo(table, place):
    check_flag(table, "fifo", place)


def is_pair(value):
    return isinstance(value, list) and len(value) == 2 and all(map(is_integer, value))


def ranges_of(port, place):
    """The ranges of a port, each with its line: of its base and length, or those that it lists."""
    listed = "ranges" in port
    if "base" in port or not listed:
        number(port, "base", place, 0, GREATEST)
    if "length" in port or not listed:
        number(port, "length", place, 1, GREATEST)
    if not listed:
        return [(port["base"], port["length"], place.line)]
    found = wanted(port, "ranges", place, lambda value: isinstance(value, list) and all(map(is_pair, value)),
                   "an array of pairs of a base and a length")
    line = place.at("ranges").line
    if "base" in port or "length" in port:
        raise Fault(line, "ranges out of range", "`ranges` stands beside neither `base` nor `length`")
    if not 1 <= len(found) <= MAX_RANGES:
        raise Fault(line, "ranges out of range", f"{len(found)} ranges, and there have to be 1 to {MAX_RANGES}")
    for index, (base, length) in enumerate(found):
        if not (0 <= base <= GREATEST and 1 <= length <= GREATEST):
            raise Fault(place.at("ranges", index).line, "ranges out of range",
                        f"range {index} is [{base}, {length}]: a base from 0 on and a length from 1 on")
    return [(base, length, place.at("ranges", index).line) for index, (base, length) in enumerate(found)]


def check_sizes(port, place):
    """The table of the sizes that a port supports of each group of operations: all types come before all ranges."""
    table, place = wanted(port, "sizes", place, lambda value: isinstance(value, dict), "a table"), place.at("sizes")
    given = {group: table[group] for group in GROUPS if group in table}
    for group, pair in given.items():
        if not is_pair(pair):
            raise Fault(place.at(group).line, "wrong type of sizes", f"`{group}` has to be a pair of the least and the greatest size")
    for group, (least, greatest) in given.items():
        if least > greatest or least not in SIZES or greatest not in SIZES:
            raise Fault(place.at(group).line, "sizes out of range", f"`{group}` is {[least, greatest]}: the least and the greatest of the sizes "
                        f"{SIZES[0]} to {SIZES[-1]}")


def check_order(port, place):
    """A port's order: a word, or one for each side; all types come before all words."""
    said = wanted(port, "order", place, lambda value: isinstance(value, (str, dict)), "a word, or a table of `masters` and `ports`")
    words = {key: said[key] for key in SIDE_KEYS.values() if key in said} if isinstance(said, dict) else {None: said}
    for key, word in words.items():
        if not isinstance(word, str):
            raise Fault(place.at("order").at(key).line, "wrong type of order", f"`{key}` has to be a word")
    for key, word in words.items():
        if word not in ORDERS:
            line = place.at("order").at(key).line if key else place.at("order").line
            raise Fault(line, "order out of range", f"`{key or 'order'}` has to be `accept`, `reply` or `any`")


def check_volatile(port, length, place):
    """The offsets and lengths in a first range of so many bytes: all types come before all else."""
    pairs = wanted(port, "volatile", place, lambda value: isinstance(value, list) and all(map(is_pair, value)),
                   "an array of pairs of an offset and a length")
    if not 1 <= len(pairs) <= MAX_VOLATILE:
        raise Fault(place.at("volatile").line, "volatile out of range", f"{len(pairs)} pairs, and there have to be 1 to {MAX_VOLATILE}")
    for index, (offset, count) in enumerate(pairs):
        if offset < 0 or count < 1 or offset + count > length:
            raise Fault(place.at("volatile", index).line, "volatile out of range",
                        f"pair {index} is [{offset}, {count}]: an offset from 0 on and a length from 1 on, within the {length} bytes of the first range")


def check_mirror(port, ranges, place):
    """Whether the ranges of a port may be one memory, if they are said to be."""
    check_flag(port, "mirror", place)
    if port.get("mirror"):
        for index, (_, length, _) in enumerate(ranges):
            if length != ranges[0][1]:
                raise Fault(place.at("mirror").line, "mirror out of range",
                            f"range {index} has {length} bytes, and the first {ranges[0][1]}: ranges of one memory are as long")


def check_port(port, place):
    check_name(port, place)
    kind = text(port, "kind", place)
    if kind not in SYSTEM_KINDS:
        raise Fault(place.at("kind").line, "kind out of range", f"`{kind}` is no kind of slave{near(kind, SYSTEM_KINDS)}")
    ranges = ranges_of(port, place)
    length = ranges[0][1]
    if "reset" in port:
        reset = text(port, "reset", place)
        line = place.at("reset").line
        if not re.fullmatch("([0-9a-fA-F]{2})*", reset):
            raise Fault(line, "reset out of range", "`reset` has to be pairs of hexadecimal digits")
        if len(reset) > 2 * length:
            raise Fault(line, "reset out of range", f"`reset` has {len(reset) // 2} bytes, and the first range {length}")
    if "image" in port:
        text(port, "image", place)
    check_flag(port, "unknown", place)
    if "sizes" in port:
        check_sizes(port, place)
    if "order" in port:
        check_order(port, place)
    check_bus(port, place)
    check_mirror(port, ranges, place)
    if "volatile" in port:
        check_volatile(port, length, place)
    check_on_reset(port, place)
    check_hosts(port, place)
    check_sources(port, place)
    check_crossing(port, place)
    check_fifo(port, place)


def check_reach(ports, master, place):
    """The ports of a master's `reach`, each by number or by name: all types come before all else."""
    said = wanted(master, "reach", place, lambda value: isinstance(value, list) and all(isinstance(item, str) or is_integer(item) for item in value),
                  "an array of names and numbers of ports")
    line = place.at("reach").line
    if len(said) > MAX_PORTS:
        raise Fault(line, "reach out of range", f"{len(said)} ports, and there are {MAX_PORTS} at most")
    found = {}
    for index, item in enumerate(said):
        line = place.at("reach", index).line
        port = number_of(item, ports)
        if not 0 <= port < len(ports):
            raise Fault(line, "reach out of range", f"no port is called `{item}`" if isinstance(item, str) else f"there is no port {item}")
        if port in found:
            raise Fault(line, "reach out of range", f"port {port} stands twice")
        found[port] = index


def check_master(has_first, ports, master, place):
    check_name(master, place)
    number(master, "sources", place, 1, MAX_SOURCES)
    if has_first:
        number(master, "first", place, 0, MAX_WIDE)
    if "stride" in master:
        number(master, "stride", place, 1, MAX_WIDE)
    check_bus(master, place)
    if "reach" in master:
        check_reach(ports, master, place)
    check_fifo(master, place)


def names_faults(ports, masters, places):
    """The first name that stands twice, of ports and then masters."""
    names = [(item["name"], places.at(key, index, "name").line)
             for key, items in (("port", ports), ("master", masters)) for index, item in enumerate(items) if "name" in item]
    for index, (name, line) in enumerate(names):
        if name in [before for before, _ in names[:index]]:
            yield Fault(line, f"two are called {name}", f"`{name}` is the name of another port or master")
            return


def image_faults(ports, place, folder):
    """The first image that can't be read, or has more bytes than the first range of its port."""
    for index, port in enumerate(ports):
        if "image" not in port:
            continue
        line, name = place.at(index, "image").line, os.path.join(folder, port["image"])
        length = ranges_of(port, place.at(index))[0][1]
        try:
            with open(name, "rb") as image:
                image.read(1)
                count = os.fstat(image.fileno()).st_size
        except (OSError, ValueError) as error:
            # a name with a zero byte is no file's
            yield Fault(line, f"port {index}: image can't be read", f"{name}: {getattr(error, 'strerror', None) or error}")
            return
        if count > length:
            yield Fault(line, f"port {index}: image is longer than its range", f"{name} has {count:,} bytes, and the range {length:,}")
            return


def overlaps(ports, place):
    """The first range that meets an earlier one."""
    before = []
    for index, port in enumerate(ports):
        for base, length, line in ranges_of(port, place.at(index)):
            for other, low, high in before:
                if max(base, low) < min(base + length, high):
                    yield Fault(line, f"ports {other} and {index} overlap", f"both have the byte at {max(base, low):#x}")
                    return
            before.append((index, base, base + length))


def owners_of(masters):
    """The wide sources of each master, as a range."""
    return [range(first, first + stride * master["sources"], stride) for master, (first, stride) in zip(masters, own_places(masters))]


def sources_faults(masters, place):
    """The first fault of the masters' wide sources."""
    in_blocks = not any("first" in master for master in masters)
    owners = owners_of(masters)
    for index, owner in enumerate(owners):
        if in_blocks and len(owner) > MAX_BLOCK or owner[-1] > MAX_WIDE:
            why = f"master {index} has {len(owner)} sources, and {MAX_BLOCK} are the most without `first`" if in_blocks and len(owner) > MAX_BLOCK \
                else f"the last wide source of master {index} is {owner[-1]}, and {MAX_WIDE} is the greatest"
            yield Fault(place.at(index, "sources").line, "too many masters or sources", why)
            return
    had = {}
    for index, owner in enumerate(owners):
        for wide in owner:
            if wide in had:
                yield Fault(place.at(index, "first").line, f"masters {had[wide]} and {index} share source {wide}",
                            f"wide source {wide} is one of master {had[wide]} already")
                return
        had.update((wide, index) for wide in owner)


def counted(value, key, place, low, high):
    """The tables of an array of `low` to `high` of them."""
    found = tables(value, key, place)
    if not low <= len(found) <= high:
        raise Fault(place.line, f"{key} out of range", f"{len(found)} of `{key}`, and there have to be {low} to {high}")
    return found


def edits(one, other):
    """How many bytes have to be changed, put in or left out."""
    row = list(range(len(other) + 1))
    for count, byte in enumerate(one, 1):
        last, row[0] = row[0], count
        for at, known in enumerate(other, 1):
            last, row[at] = row[at], min(row[at] + 1, row[at - 1] + 1, last + (byte != known))
    return row[-1]


def shown(key):
    """A key as the program prints it: in quotes and with escapes, if TOML would quote it."""
    if re.fullmatch("[A-Za-z0-9_-]+", key):
        return key
    return '"' + "".join(ESCAPES.get(char, char if char.isprintable() else f"\\u{{{ord(char):x}}}") for char in key) + '"'


def stray_keys(table, kind, place):
    """The keys of a table that may not stand there, in the order of bytes; then those of its tables; at the top of `names`."""
    for key in sorted(table, key=str.encode):
        if key not in SYSTEM_KEYS[kind]:
            nearest = min(SYSTEM_KEYS[kind], key=lambda known: edits(key.encode(), known.encode()))
            yield Fault(place.at(key).line, f"unknown key {shown(key)} (near: {nearest})", f"there are {', '.join(SYSTEM_KEYS[kind])}")
    for name in INNER.get(kind, ()):
        inner = table.get(name)
        # a port's `sources` are tables in an array, and the others are one table each
        items = inner if name == "sources" and isinstance(inner, list) else []
        for index, item in enumerate(items):
            if isinstance(item, dict):
                yield from stray_keys(item, name, place.at(name, index))
        if name != "sources" and isinstance(inner, dict):
            yield from stray_keys(inner, name, place.at(name))


def unknown_keys(table, places):
    """The keys of a file that may not stand where they do."""
    yield from stray_keys(table, "", places)
    for kind in ("port", "master"):
        items = table.get(kind)
        for index, item in enumerate(items if isinstance(items, list) else []):
            if isinstance(item, dict):
                yield from stray_keys(item, kind, places.at(kind, index))


def document_faults(table, places, folder):
    """The faults of a document of a file in this folder, in the order in which tlcheck looks for them."""
    found, ports, masters = list(unknown_keys(table, places)), [], []
    for check in (check_bus, check_unaligned, check_corrupt, check_decode, check_resets, check_period):
        try:
            check(table, places)
        except Fault as fault:
            found.append(fault)
    try:
        ports = counted(table.get("port", []), "port", places.at("port"), 0, MAX_PORTS)
        found += each(check_port, ports, places.at("port"))
    except Fault as fault:
        found.append(fault)
    try:
        wanted(table, "master", places, lambda value: True, "")
        masters = counted(table["master"], "master", places.at("master"), 1, MAX_MASTERS)
        has_first = any("first" in master for master in masters)
        found += each(lambda master, place: check_master(has_first, ports, master, place), masters, places.at("master"))
    except Fault as fault:
        found.append(fault)
    for faults in (lambda: lists_faults(ports, masters, places.at("port")), lambda: paths_faults(ports, masters, places.at("master")),
                   lambda: names_faults(ports, masters, places), lambda: image_faults(ports, places.at("port"), folder),
                   lambda: overlaps(ports, places.at("port")), lambda: sources_faults(masters, places.at("master")),
                   lambda: port_sources_faults(ports, masters, owners_of(masters), places.at("port"))):
        if not found:
            found += faults()
    return found


def asked(system, path="/dev/stdin"):
    """The program's own line for a system file, empty for a good one, and none if the program is not built."""
    said = toml_lines.asked([TLCHECK, path, "/dev/null"], system)
    return "" if said and said.startswith("capture:") else said


def main():
    return toml_lines.run("tlcheck", "system", None, document_faults, asked)
