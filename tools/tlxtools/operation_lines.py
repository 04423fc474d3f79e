"""The operations of a script as masters in a simulation read them (hdl/tl_master.sv, examples/rtl/tl_driver.v): a line of hexadecimal digits
each, with the mask and the data of all beats."""

import os

from tlxtools.bus import Bus
from tlxtools.capture import bytes_of
from tlxtools.common import OPERATIONS

# the kinds of lines but operations; an end stands after the last
WAIT, END = 1, 2


def operation_of(line, bus):
    """A line of a script as a line of operations_N.hex: the mask and the data of a message have 256 bytes, its first beat lowest."""
    if line.strip() == "wait":
        return f"{WAIT:02x}{0:0602x}"
    source, name, address, size, *data = line.split()
    address, size = int(address, 0), int(size)
    opcode, param = OPERATIONS[name]
    beats = list(bus.beats(address, size, bytes_of(data[0]) if data else [0] * (1 << size)))
    mask = sum(mask << bus.width * beat for beat, (mask, _) in enumerate(beats))
    lanes = "".join(bus.spell_lanes(lanes) for _, lanes in reversed(beats))
    return f"00{opcode:02x}{param:02x}{size:02x}{int(source):04x}{address:016x}{mask:064x}{lanes:0>512}"


def write_operations(lines, buses, directory):
    """Writes operations_N.hex for the lines of each master, whose link has the bus of that place in the list."""
    for n, (operations, width) in enumerate(zip(lines, buses)):
        bus = Bus(width)
        with open(os.path.join(directory, f"operations_{n}.hex"), "w", encoding="ascii") as file:
            file.writelines(operation_of(line, bus) + "\n" for line in operations)
            file.write(f"{END:02x}{0:0602x}\n")
