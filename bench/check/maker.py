"""The captures that are measured, of two masters that write and read words at two ports, and their system."""

import os

from tlxtools.common import HEADER

SYSTEM = "slots = 4\n" + "".join(f'[[port]]\nkind = "ram"\nbase = {base}\nlength = 64\n' for base in (4096, 8192)) + (
    "[[master]]\nsources = 4\nops = []\n" * 2)


def operation(number):
    """The rows of a request by its number. The masters take turns; each writes a word and then reads it back."""
    turn, master = divmod(number, 2)
    pair, reads = divmod(turn, 2)
    port, source = pair % 2, turn % 4
    wide = source + 4 * master
    address = 0x1000 * (port + 1) + 8 * (pair // 2 % 4) + 32 * master
    time_of, word = 4 * number, f"{2 * pair + master:016x}"
    if reads:
        asked, answered = f"A,4,0,3,{{}},{address:x},ff,,,", f"D,1,,3,{{}},,,{word},0,0"
    else:
        asked, answered = f"A,0,0,3,{{}},{address:x},ff,{word},,", "D,0,,3,{},,,,0,0"
    return (f"{time_of},m{master},{asked.format(source)}\n{time_of + 1},p{port},{asked.format(wide)}\n"
            f"{time_of + 2},p{port},{answered.format(wide)}\n{time_of + 3},m{master},{answered.format(source)}\n")


def make(folder, rows):
    """A capture with this number of rows, a multiple of four."""
    path = os.path.join(folder, f"{rows}.csv")
    with open(path, "w", encoding="ascii") as file:
        file.write(HEADER + "\n")
        for number in range(rows // 4):
            file.write(operation(number))
    return path
