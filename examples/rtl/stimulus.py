#!/usr/bin/env python3
"""What the bench reads of a tlx script: examples/rtl/stimulus.py SCRIPT DIRECTORY.

It writes there system.vh (the parameters of the system), ram_0.hex and ram_1.hex (what the RAMs hold at reset), and operations_0.hex
and operations_1.hex (what the masters do). The script has two ports of kind ram and two masters, and one bus for all links. `trace_of` is the way
back: the lines that `tlx --serial` prints, read off a capture.
"""

import os
import sys
import tomllib

TOP = os.path.dirname(os.path.dirname(os.path.dirname(os.path.abspath(__file__))))
sys.path.insert(0, os.path.join(TOP, "tools"))
sys.dont_write_bytecode = True
from tlxtools import operation_lines  # noqa: E402
from tlxtools.bus import Bus, bus_of  # noqa: E402
from tlxtools.wide_sources import widths  # noqa: E402
from tlxtools.common import HEADER, OPERATIONS, REPLIES  # noqa: E402, F401

NAMES = {codes: name for name, codes in OPERATIONS.items()}
ANSWERS = {code: name for name, code in REPLIES.items()}
CARRIES = 4


def words_of(port, lanes):
    """The words of a RAM at reset, from the one that its first byte lies in."""
    skipped, given = port["base"] % lanes, bytes.fromhex(port.get("reset", ""))
    held = bytes(skipped) + given + bytes(port["length"] - len(given))
    held += bytes(-len(held) % lanes)
    return [held[at:at + lanes][::-1].hex() for at in range(0, len(held), lanes)]


def write_operations(lines, bus, directory):
    """Writes operations_N.hex for the lines of each master, of links with this bus."""
    operation_lines.write_operations(lines, [bus.width] * len(lines), directory)


def write_stimulus(script, directory):
    """Writes what the bench reads of a script."""
    system = tomllib.loads(script)
    counts, bus = [master["sources"] for master in system["master"]], Bus(bus_of(system))
    defines = {"DATA_BITS": 8 * bus.width, "FIRST_1": widths(counts)[1], "SOURCES_0": counts[0], "SOURCES_1": counts[1]}
    files = {}
    for n, port in enumerate(system["port"]):
        defines[f"BASE_{n}"], defines[f"LENGTH_{n}"] = f"64'h{port['base']:x}", f"64'h{port['length']:x}"
        files[f"ram_{n}.hex"] = words_of(port, bus.width)
    for n, master in enumerate(system["master"]):
        defines[f"OPERATIONS_{n}"] = len(master["ops"])
    write_operations([master["ops"] for master in system["master"]], bus, directory)
    files["system.vh"] = [f"`define {name} {value}" for name, value in defines.items()]
    for name, lines in files.items():
        with open(os.path.join(directory, name), "w", encoding="ascii") as file:
            file.writelines(line + "\n" for line in lines)


def lanes_of(bus, address, size, words, masks=None):
    """The bytes of a message in the order of their addresses, spelled as a trace does, from the words of its beats."""
    spelled = ""
    for beat, word in enumerate(words):
        pairs = [word[at:at + 2] for at in range(0, len(word), 2)][::-1]
        _, lanes = bus.lanes(address, size, beat)
        spelled += "".join(pairs[lane] if masks is None or masks[beat] >> lane & 1 else "--" for lane in lanes)
    return spelled


def messages_of(bus, rows, link, channel):
    """The messages of a channel of a link: the first beat's columns, the words, the masks and the line of the first beat."""
    messages, beats = [], []
    for row in rows:
        if row[1:3] != [link, channel]:
            continue
        beats.append(row)
        carries = int(row[3]) < CARRIES if channel == "A" else int(row[3]) == REPLIES["AccessAckData"]
        if not carries or len(beats) == bus.count(int(row[5]), True):
            messages.append((beats[0], [beat[9] for beat in beats], [int(beat[8] or "0", 16) for beat in beats]))
            beats = []
    return messages


def request_text(bus, message):
    """A request as a trace spells it."""
    first, words, masks = message
    name, address, size = NAMES[int(first[3]), int(first[4])], int(first[7], 16), int(first[5])
    data = " " + lanes_of(bus, address, size, words, masks) if int(first[3]) < CARRIES else ""
    return f"{name} 0x{address:x} {size}{data}"


def reply_text(bus, message, address, size):
    """A reply as a trace spells it."""
    first, words, _ = message
    denied = first[10] == "1"
    if int(first[3]) != REPLIES["AccessAckData"]:
        return ANSWERS[int(first[3])] + " denied" * denied
    data = "00" * (1 << size) if denied else lanes_of(bus, address, size, words)
    return ANSWERS[int(first[3])] + " denied" * denied + " " + data


def trace_of(capture, system):
    """Master 0's requests in a capture with their replies, in the order of issue, as `tlx --serial` prints them; no other runs."""
    rows, bus = [line.split(",") for line in capture.splitlines()[1:]], Bus(bus_of(system))
    asks, replies = messages_of(bus, rows, "m0", "A"), messages_of(bus, rows, "m0", "D")
    ranges = [(port["base"], port["base"] + port["length"]) for port in system["port"]]
    served = [0] * (len(ranges) + 1)
    lines = []
    for ask in asks:
        address, size, source = int(ask[0][7], 16), int(ask[0][5]), ask[0][6]
        reply = next(reply for reply in replies if reply[0][6] == source)
        replies.remove(reply)
        port = next((n for n, (low, high) in enumerate(ranges) if low <= address and address + (1 << size) <= high), len(ranges))
        lines.append(f"m0 s{source} {request_text(bus, ask)} -> {reply_text(bus, reply, address, size)} p{port} #{served[port]}")
        served[port] += 1
    return lines


if __name__ == "__main__":
    with open(sys.argv[1], encoding="utf-8") as text:
        write_stimulus(text.read(), sys.argv[2])
