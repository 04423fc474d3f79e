"""A save file of GTKWave for a fault that was found in a dump: the clock, the signals of the fault's link by the names of the system file,
of a fault between both sides also those of the other side's link, the cursor at the time of the fault, or at that at which a request has waited
for too long, and markers at its request (A to M) and at the requests that wrote its bytes (N to Z). For tools/explain.
"""

import math
import os
import re

from tlxtools.common import with_bits
from tlxtools.explanation import writers_of

SIGNALS = ("a_valid", "a_ready", "a_opcode", "a_param", "a_size", "a_source", "a_address", "a_mask", "a_data", "a_corrupt",
           "d_valid", "d_ready", "d_opcode", "d_param", "d_size", "d_source", "d_denied", "d_corrupt", "d_data")
# What the system file has in place of a signal's name.
CONSTANTS = ("0", "1", "-")
MARKERS, HALF = 26, 13
# How GTKWave shows a value: as a hexadecimal number at the right, or as a bit.
NUMBER, BIT = "@22", "@28"
# How many pixels the waves have in a small window, and how many GTKWave gives to a unit of time at zoom 0.
PIXELS, UNIT = 500, 200
# The least span that is shown, in units of time.
LEAST_SPAN = 16
VARIABLE = re.compile(r"\$var\s+\S+\s+(\d+)\s+\S+\s+(\S+?)\s*(\[[^]]*\])?\s+\$end")
SCOPE = re.compile(r"\$scope\s+\S+\s+(\S+)\s+\$end|\$upscope\s+\$end")


def header_of(dump):
    """The declarations of a dump."""
    lines = []
    with open(dump, encoding="utf-8", errors="replace") as file:
        for line in file:
            lines.append(line)
            if "$enddefinitions" in line:
                break
    return "".join(lines)


def variables_of(dump):
    """The names of a dump's variables with their scopes: each with the name that GTKWave has for it, which ends in its range, and its bits."""
    scopes, found, text = [], {}, header_of(dump)
    marks = sorted([*SCOPE.finditer(text), *VARIABLE.finditer(text)], key=lambda mark: mark.start())
    for mark in marks:
        if mark[0].startswith("$scope"):
            scopes.append(mark[1])
        elif mark[0].startswith("$upscope"):
            scopes.pop()
        else:
            name = ".".join([*scopes, mark[2]])
            spelled = name + (mark[3] or "").replace(" ", "")
            # a range may also be part of a name, as that of a bit that is declared alone
            found[name] = found[spelled] = spelled, int(mark[1])
    return found


def is_declared(name, variables):
    """Whether a dump has a signal of this name, or of the name before the range that it ends in."""
    return name in variables or re.sub(r"\[[^\[]*\]$", "", name) in variables


def named_by(signal, table, top, variables):
    """What a link's table says of a signal, or else the whole file's, whose table is `top`: a name, or those of several signals."""
    if signal in table.get("wires", {}):
        return table["wires"][signal]
    prefixes = table.get("signals", [])
    bundled = with_bits(signal) if table.get("bits", top.get("bits", False)) else signal
    behind = top.get("names", {}).get(signal, bundled)
    if behind in CONSTANTS:
        return behind
    names = [prefix + behind for prefix in (prefixes if isinstance(prefixes, list) else [prefixes])]
    return next((name for name in names if is_declared(name, variables)), [])


def signals_of(table, top, variables):
    """The names of a link's signals in the system file, whose table of the whole file is `top`; a constant has none."""
    for signal in SIGNALS:
        names = named_by(signal, table, top, variables)
        for name in names if isinstance(names, list) else [names]:
            if name not in CONSTANTS:
                yield name


def shown_of(names, variables):
    """The lines that show these signals. Of bits of a vector the whole vector is shown, once."""
    last, seen = None, set()
    for name in names:
        whole = name if name in variables else re.sub(r"\[[^\[]*\]$", "", name)
        if whole in variables and whole not in seen:
            seen.add(whole)
            spelled, bits = variables[whole]
            how = BIT if bits == 1 else NUMBER
            yield from [how] * (how != last)
            yield spelled
            last = how


def markers_of(explanation):
    """The times of the 26 markers, -1 for one that is not set."""
    request = (explanation.get("request") or {}).get("times", [])[:HALF]
    writers = sorted(time for writer in writers_of(explanation) for time in writer["times"])[:MARKERS - HALF]
    return [*request, *[-1] * (HALF - len(request)), *writers, *[-1] * (MARKERS - HALF - len(writers))]


def lines_of(of_link, table):
    """The names of a link's clock and reset: its own clock has no reset but its own."""
    if "clock" in of_link:
        return of_link["clock"], of_link.get("link_reset")
    return table.get("clock"), of_link.get("link_reset", table.get("reset"))


def save_of(dump, table, links, explanation):
    """The text of the save file: the table is the system file's, and the links are the fault's, as p0, and that of the other side, if it lies
    between both."""
    of_links = [table["master" if link[0] == "m" else "port"][int(link[1:])] for link in links]
    variables = variables_of(dump)
    names = [name for name in dict.fromkeys(line for of_link in of_links for line in lines_of(of_link, table)) if name]
    names += [name for of_link in of_links for name in signals_of(of_link, table, variables)]
    times = " ".join(str(time) for time in markers_of(explanation))
    lines = ["[*] tools/explain", f'[dumpfile] "{os.path.abspath(dump)}"', f"[timestart] {max(0, first_of(explanation) - 1)}",
             f"*{zoom_of(explanation):.6f} {explanation['seen']} {times}", *shown_of(names, variables)]
    return "".join(f"{line}\n" for line in lines)


def zoom_of(explanation):
    """The zoom at which all from the first time to the fault is in view, and a quarter more. One less shows twice the time."""
    span = max(LEAST_SPAN, 1.25 * (explanation["seen"] - first_of(explanation)))
    return -math.log2(span * UNIT / PIXELS)


def first_of(explanation):
    """The first time that the window shows: that of the request, or of the fault."""
    return min([explanation["time"], *(explanation.get("request") or {}).get("times", [])])
