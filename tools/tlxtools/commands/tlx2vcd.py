"""A capture or a trace as a VCD, for GTKWave and its like: tools/tlx2vcd [--verdict FILE] [CAPTURE] >FILE.vcd.

Each link is a scope with a scope a channel. A beat stands from its time for the least distance of two times of the capture, with the
line that it has in the capture. Between beats all is z. --verdict names what tlcheck printed of this capture: a file, or - for standard
input. Then `tlcheck.unlawful` is 1 from the row on that it names, and texts beside it have the fault:

    ./tlcheck SYSTEM CAPTURE | tools/tlx2vcd --verdict - CAPTURE >FILE.vcd

If the capture has rows of resets, `tlcheck.reset` is 1 at each.

A trace of tlx has no times, so its beats follow each other on the links of the masters: request, then reply. CAPTURE is a file, or
standard input if it is left out. Statuses: 0; 1, a line is neither a row nor of a trace; 2, the command line; 66, a file can't be
read.
"""

import argparse
import csv
import re
import sys

from tlxtools.capture import Links
from tlxtools.common import BUS, HEADER, REPLIES

COLUMNS = HEADER.split(",")
RESET = "reset"
ASKS = ["PutFullData", "PutPartialData", "ArithmeticData", "LogicalData", "Get", "Intent"]
ANSWERS = list(REPLIES)
# how many masters tlx has
MASTERS = 16
# what a channel shows: the name, its bits (none is a text), and the base of its column. Of the mask and the data the bits are those of the
# widest bus; a link shows as many as its rows have digits for
FIELDS = {
    "A": [("message", None, 0), ("line", 32, 10), ("opcode", 8, 10), ("param", 8, 10), ("size", 8, 10), ("source", 16, 10),
          ("address", 64, 16), ("mask", 64, 16), ("corrupt", 1, 2), ("data", 512, 16)],
    "D": [("message", None, 0), ("line", 32, 10), ("opcode", 8, 10), ("param", 8, 10), ("size", 8, 10), ("source", 16, 10),
          ("denied", 1, 2), ("corrupt", 1, 2), ("data", 512, 16)],
}
VERDICT = re.compile(r"unlawful: line \d+, time (?P<time>\d+), (?P<fault>\S+ [AD]: .*?)"
                     r"(?:: expected (?P<expected>.*), captured (?P<captured>.*))?$", re.M)
TOLD = ("fault", "expected", "captured")


class NoRow(Exception):
    """A line that is none of a capture and none of a trace."""


def rows_of_capture(text):
    """The rows of a capture, each with its line and its columns by name."""
    lines = text.replace("\r\n", "\n").replace("\r", "\n").split("\n")
    rows = []
    for number, line in enumerate(lines[1:], 2):
        if line:
            columns = next(csv.reader([line]))
            row = dict(zip(COLUMNS, columns), line=str(number))
            if not is_row(columns, row):
                raise NoRow(f"line {number}: no row of a capture")
            rows.append(row)
    return rows


def is_row(columns, row):
    """A line's columns are those of a row, as far as it can be shown."""
    if len(columns) != len(COLUMNS):
        return False
    if row["link"] == RESET:
        return row["time"].isdecimal() and not any(columns[2:])
    if row["channel"] not in FIELDS or not re.fullmatch(r"[mp]\d+", row["link"]):
        return False
    try:
        return int(row["time"]) >= 0 and all(change(field, row, "") for field in FIELDS[row["channel"]])
    except ValueError:
        return False


def rows_of_trace(text):
    """The beats on the masters' links that the lines of a trace tell, one a time."""
    rows, links = [], Links({"master": [{"sources": 1}] * MASTERS})
    for number, line in enumerate(text.splitlines(), 1):
        if re.match(r"p\d+ #|free ", line):
            continue
        try:
            # no port has a link here: its number is none of 0 ports
            told = links.rows_of(line)
        except (AttributeError, IndexError):
            raise NoRow(f"line {number}: neither a capture's header nor a line of a trace") from None
        for row in told:
            rows.append(dict(zip(COLUMNS, [str(len(rows)), *row.split(",")]), line=str(number)))
    return rows


def bits_of(word, bits, base):
    """The binary digits of a column, as a VCD has them; a lane of data may be unknown."""
    if base == 16:
        digits = "".join(digit.lower() * 4 if digit in "xXzZ" else f"{int(digit, 16):04b}" for digit in word or "0")
    else:
        digits = f"{int(word or '0', base):b}"
    return digits[-bits:] if len(digits) > bits else digits


def change(field, row, identifier):
    """The line of a VCD that gives a field its value of a row, or none if no beat is there."""
    name, bits, base = field
    if bits is None:
        names = ASKS if row and row["channel"] == "A" else ANSWERS
        opcode = int(row["opcode"]) if row else 0
        return f"s{names[opcode] if opcode < len(names) else 'unknown'} {identifier}" if row else f"s- {identifier}"
    value = bits_of(row[name], bits, base) if row else "z"
    return f"{value}{identifier}" if bits == 1 else f"b{value} {identifier}"


def width_of(rows, link, name, bits):
    """How many bits a field has: a mask and data by the rows of their link, so by its bus; they are those of BUS if no row has digits."""
    if name not in ("mask", "data"):
        return bits or 1
    digits = max(len(row[name]) for row in rows if row["link"] == link)
    return 4 * digits or (BUS if name == "mask" else 8 * BUS)


def declare(links, rows, has_resets):
    """The lines that declare all variables, and the identifier of each by link, channel and name."""
    lines, names = ["$version tlx2vcd $end", "$timescale 1ns $end"], {}

    def add(key, kind, bits):
        names[key] = f"v{len(names)}"
        lines.append(f"$var {kind} {bits} {names[key]} {key[-1]} $end")

    lines.append("$scope module tlcheck $end")
    add(("tlcheck", "", "unlawful"), "wire", 1)
    for part in TOLD:
        add(("tlcheck", "", part), "string", 1)
    if has_resets:
        add(("tlcheck", "", RESET), "wire", 1)
    lines.append("$upscope $end")
    for link in links:
        lines.append(f"$scope module {link} $end")
        for channel, fields in FIELDS.items():
            lines.append(f"$scope module {channel} $end")
            add((link, channel, "beat"), "wire", 1)
            for name, bits, _ in fields:
                add((link, channel, name), "string" if bits is None else "wire", width_of(rows, link, name, bits))
            lines.append("$upscope $end")
        lines.append("$upscope $end")
    return lines + ["$enddefinitions $end"], names


def changes_of(link, channel, row, names):
    """The changes of all variables of a channel: a beat, or none."""
    yield f"{int(row is not None)}{names[link, channel, 'beat']}"
    for field in FIELDS[channel]:
        yield change(field, row, names[link, channel, field[0]])


def vcd_of(rows, verdict):
    """The lines of the VCD of some rows, with the fault that a verdict names."""
    # master before port, each by number
    links = sorted({row["link"] for row in rows} - {RESET}, key=lambda link: (link[0], int(link[1:])))
    resets = {int(row["time"]) for row in rows if row["link"] == RESET}
    lines, names = declare(links, rows, resets)
    times = sorted({int(row["time"]) for row in rows})
    width = min((later - earlier for earlier, later in zip(times, times[1:])), default=1)
    events = {}
    for row in rows:
        events.setdefault(int(row["time"]), {})[row["link"], row["channel"]] = row
        events.setdefault(int(row["time"]) + width, {})
    named = VERDICT.search(verdict)
    shown = {(link, channel): None for link in links for channel in FIELDS}
    lines += ["$dumpvars", f"0{names['tlcheck', '', 'unlawful']}"] + [f"s- {names['tlcheck', '', part]}" for part in TOLD]
    lines += [line for link, channel in shown for line in changes_of(link, channel, None, names)] + ["$end"]
    for time in sorted(events):
        lines.append(f"#{time}")
        if resets:
            lines.append(f"{int(time in resets)}{names['tlcheck', '', RESET]}")
        for key in shown:
            row = events[time].get(key)
            if row is not None or shown[key] is not None:
                lines += changes_of(*key, row, names)
                shown[key] = row
        if named and int(named["time"]) == time:
            # a text of a VCD has no spaces
            told = [f"s{(named[part] or '-').replace(' ', '_')} {names['tlcheck', '', part]}" for part in TOLD]
            lines += [f"1{names['tlcheck', '', 'unlawful']}", *told]
    return lines


def text_of(path):
    """What a file, or standard input, has."""
    if path == "-":
        return sys.stdin.read()
    with open(path, encoding="utf-8-sig", newline="") as file:
        return file.read()


def main():
    options = argparse.ArgumentParser(description=__doc__.split("\n")[0])
    options.add_argument("--verdict", metavar="FILE", help="what tlcheck said of this capture; - is standard input")
    options.add_argument("capture", nargs="?", default="-", help="the capture or trace; standard input if there is none")
    given = options.parse_args()
    try:
        text = text_of(given.capture)
        verdict = text_of(given.verdict) if given.verdict else ""
        header = text.replace('"', "").split("\n", 1)[0].rstrip("\r")
        rows = rows_of_capture(text) if header == HEADER else rows_of_trace(text)
        lines = vcd_of(rows, verdict)
    except (OSError, UnicodeDecodeError) as fault:
        print(f"tlx2vcd: {fault}", file=sys.stderr)
        return 66
    except NoRow as fault:
        print(f"tlx2vcd: {fault}", file=sys.stderr)
        return 1
    print("\n".join(lines))
    return 0
