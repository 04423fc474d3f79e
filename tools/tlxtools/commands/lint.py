"""Prints what is wrong with a script of tlx, line by line: ./tlx --lint [FILE], or standard input.

tlx names a script's first fault in one line of fixed text, without the line of the file. This names the file's line, the
key or the part of an operation, and what would be right. It goes on after the first fault, and warns of keys that tlx
ignores. The first fault that it prints is the one that tlx names. Status 0 for a good script, 1 for one with a fault, 66
if FILE can't be read.

The standard library reads TOML 1.0; tlx reads TOML 1.1. If the program is built it is asked too, and it decides.
"""

import re

from tlxtools import toml_lines
from tlxtools.common import KEYS, KINDS, MAX_SIZE, OPERATIONS, TLX, carries_data
from tlxtools.toml_lines import Fault, each, near, number, read, tables, wanted  # noqa: F401


def check_port(port, place):
    kind = wanted(port, "kind", place, lambda value: isinstance(value, str), "a string")
    if kind not in KINDS:
        raise Fault(place.at("kind").line, "kind out of range", f"`{kind}` is no kind of slave{near(kind, KINDS)}")
    number(port, "base", place, 0, 2**63 - 1)
    length = number(port, "length", place, 0, 65_536)
    if "reset" in port:
        reset = wanted(port, "reset", place, lambda value: isinstance(value, str), "a string")
        line = place.at("reset").line
        if not re.fullmatch("([0-9a-fA-F]{2})*", reset):
            raise Fault(line, "reset out of range", "`reset` has to be pairs of hexadecimal digits")
        if len(reset) > 2 * length:
            raise Fault(line, "reset out of range", f"`reset` has {len(reset) // 2} bytes, and the port {length}")


def check_master(master, place):
    number(master, "sources", place, 0, 65_535)
    ops = wanted(master, "ops", place, lambda value: isinstance(value, list), "an array of strings")
    for index, line in enumerate(ops):
        if not isinstance(line, str):
            raise Fault(place.at("ops", index).line, "wrong type of ops", f"operation {index} has to be a string")
    if len(ops) > 4096:
        raise Fault(place.at("ops").line, "ops out of range", f"{len(ops)} operations, and 4,096 are the most")


def ranges_faults(ports, place):
    """The faults of the ports' ranges among themselves."""
    if len(ports) > 15:
        yield Fault(place.at(15).line, "too many ports", f"{len(ports)} ports, and 15 are the most")
    for index, port in enumerate(ports):
        line = place.at(index).line
        if port["length"] == 0:
            yield Fault(line, f"port {index}: empty range", f"port {index} has no byte")
        for other, before in enumerate(ports[:index]):
            low = max(port["base"], before["base"])
            if low < min(port["base"] + port["length"], before["base"] + before["length"]):
                yield Fault(line, f"ports {other} and {index} overlap", f"both have the byte at {low:#x}")
                break


def sources_faults(masters, place):
    """The faults of the masters' counts of sources."""
    if len(masters) > 16:
        yield Fault(place.at(16).line, "too many masters or sources", f"{len(masters)} masters, and 16 are the most")
    for index, master in enumerate(masters):
        if master["sources"] > 256:
            line = place.at(index, "sources").line
            yield Fault(line, "too many masters or sources", f"master {index} has {master['sources']} sources, and 256 are the most")
    for index, master in enumerate(masters):
        if master["sources"] == 0:
            yield Fault(place.at(index, "sources").line, f"master {index}: no source", f"master {index} has no source")


def address_fault(word):
    is_written = re.fullmatch("0x[0-9a-fA-F]{1,16}|[0-9]{1,20}", word)
    if not is_written or int(word, 0 if word.startswith("0x") else 10) >= 2**64:
        return f"ADDRESS `{word}` has to be 0x and 1 to 16 hexadecimal digits, or 1 to 20 decimal ones, below 2^64"
    return None


def data_fault(name, size, data):
    if not carries_data(name):
        return f"`{name}` carries no DATA" if data else None
    if len(data) != 1:
        return f"`{name}` wants DATA of {2**size} bytes" if not data else f"DATA is one word, and here are {len(data)}"
    if not re.fullmatch("([0-9a-fA-F]{2}|--)*", data[0]):
        return f"DATA `{data[0]}` has to be two hexadecimal digits a byte (`--` for an unset byte of a putpart)"
    if len(data[0]) != 2 * 2**size:
        return f"DATA has {len(data[0]) // 2} bytes, and SIZE {size} wants {2**size}"
    if "-" in data[0] and name != "putpart":
        return f"an unset byte `--` stands in `putpart` alone, and not in `{name}`"
    return None


def operation_fault(line, sources):
    """What is wrong with an operation of a master that has this number of sources, or none."""
    words = [word for word in re.split("[ \t]+", line) if word]
    if words == ["wait"]:
        return None
    if len(words) < 4:
        return f"`{line}` has to be `wait` or `SOURCE NAME ADDRESS SIZE [DATA]`"
    source, name, address, size, *data = words
    if not re.fullmatch("[0-9]{1,3}", source):
        return f"SOURCE `{source}` has to be one to three decimal digits"
    if int(source) >= sources:
        return f"SOURCE {int(source)} has to be below the master's {sources} sources"
    if name not in OPERATIONS:
        return f"NAME `{name}` is no operation{near(name, tuple(OPERATIONS))}"
    if address_fault(address):
        return address_fault(address)
    if not re.fullmatch("[0-9]", size) or int(size) > MAX_SIZE:
        return f"SIZE `{size}` has to be 0 to {MAX_SIZE}: the operation is on 2^SIZE bytes"
    return data_fault(name, int(size), data)


def operations_faults(masters, place):
    for index, master in enumerate(masters):
        for count, line in enumerate(master["ops"]):
            why = operation_fault(line, master["sources"])
            if why:
                yield Fault(place.at(index, "ops", count).line, f"master {index} operation {count}: bad operation", why)


def document_faults(table, places, _folder=""):
    """The faults of a document, in the order in which tlx looks for them."""
    found, ports, masters = [], [], []
    try:
        number(table, "slots", places, 1, 256)
    except Fault as fault:
        found.append(fault)
    try:
        ports = tables(table.get("port", []), "port", places.at("port"))
        found += each(check_port, ports, places.at("port"))
    except Fault as fault:
        found.append(fault)
    try:
        wanted(table, "master", places, lambda value: True, "")
        masters = tables(table["master"], "master", places.at("master"))
        if not masters:
            raise Fault(places.at("master").line, "master out of range", "there has to be a master")
        found += each(check_master, masters, places.at("master"))
    except Fault as fault:
        found.append(fault)
    if not found:
        found += ranges_faults(ports, places.at("port"))
        found += sources_faults(masters, places.at("master"))
        found += operations_faults(masters, places.at("master"))
    return found


def asked(script, _path=""):
    """The program's own line for a script, empty for a good one, and none if the program is not built."""
    return toml_lines.asked([TLX, "--serial"], script)


def main():
    return toml_lines.run("tlx", "script", KEYS, document_faults, asked)
