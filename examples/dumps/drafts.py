"""What tools/draft says of the links of a dump, beside what a system file says of them: by their names, or by the rows that cross. For the checks
of this folder and of the other designs."""

import collections
import json
import os
import re
import subprocess
import sys
import tempfile
import tomllib

HERE = os.path.dirname(os.path.abspath(__file__))
TOOLS = os.path.join(os.path.dirname(os.path.dirname(HERE)), "tools")
sys.path.insert(0, TOOLS)
from tlxtools.common import BUS, SIGNALS, with_bits  # noqa: E402

# What is looked at of a draft: the tables of links, and where their signals are. Of a link that may be a master's or a port's, the draft
# has both tables as comments.
LOOKED_AT = re.compile(r"(?:# )?(\[.*|(?:bus|bits|signals|[ad]_\w+|clock|link_reset|reset_active) = .*)")
# What is taken over of the top of a draft.
TOP_LINE = re.compile(r"(clock|reset|reset_active) = .*")
TABLE = re.compile(r"(# )?\[\[(port|master)\]\]")
# The columns of a row that a link may lack, the parameter of a reply and the flag of spoiled data, by their places.
PARAM, CORRUPT = 4, 11
ROLES = ("port", "master")


def where(link, table):
    """The bus of a link and the names that each of its signals may have, one behind each prefix, without those signals that the dump has not; or
    None if it has no signals."""
    wires, prefixes, bits = link.get("wires", {}), link.get("signals", []), link.get("bits", table.get("bits", False))
    if not prefixes and not wires:
        return None
    prefixes = [prefixes] if isinstance(prefixes, str) else prefixes
    # tlvcd does without these if nothing behind the prefix has such a name, and no bench has one
    left_out = {signal: "-" for signal in ("a_corrupt", "d_param")}
    behind = {signal: [prefix + (with_bits(signal) if bits else signal) for prefix in prefixes] for signal in SIGNALS if prefixes}
    names = {**behind, **{signal: [wire] for signal, wire in {**left_out, **wires}.items()}}
    return link.get("bus", table.get("bus", BUS)), {signal: those for signal, those in names.items() if those != ["-"]}


def is_told(link, others):
    """Whether one of these links has the bus and the signals of a link, each by one of its names."""
    bus, names = link
    return any(bus == wide and names.keys() == those.keys() and all(any(name in those[signal] for name in names[signal]) for signal in names)
               for wide, those in others)


def links_of(text):
    """The links that a system file names, by their roles."""
    table = tomllib.loads(text)
    return {role: [found for link in table.get(role, []) if (found := where(link, table))] for role in ROLES}


def draft_of(dump):
    """The lines of a draft, and what is said if there is none."""
    done = subprocess.run([os.path.join(TOOLS, "draft"), dump], capture_output=True, encoding="utf-8", check=False)
    return done.stdout.splitlines(), "" if done.returncode == 0 else done.stderr.rstrip()


def tables_of(lines):
    """The text of a draft with the tables of links alone, those that are comments too."""
    first = next((place for place, line in enumerate(lines) if TABLE.fullmatch(line)), len(lines))
    return "\n".join(found[1] for line in lines[first:] if (found := LOOKED_AT.fullmatch(line)))


def fault_of_names(system, dump):
    """Why the draft of a dump does not agree with a system file, or nothing: it has the links of that file, its clock and its reset."""
    lines, fault = draft_of(dump)
    if fault:
        return fault
    told = links_of(tables_of(lines))
    with open(system, encoding="utf-8") as file:
        text = file.read()
    lacks = [f"no {role} {link}" for role, links in links_of(text).items() for link in links if not is_told(link, told[role])]
    # where several signals may be the clock or the reset, the draft lists them as comments
    wanted = [line for line in text.partition("[[")[0].splitlines() if line.startswith(("clock = ", "reset = "))]
    lacks += [f"no line {line}" for line in wanted if line not in lines and "# " + line not in lines]
    return "; ".join(lacks)


def rows_by_link(tlvcd, system, dump):
    """What crosses at each link by a system file. A flag or a parameter that only some designs have is left out."""
    found = collections.defaultdict(list)
    done = subprocess.run([tlvcd, system, dump], capture_output=True, encoding="utf-8", check=False)
    for row in done.stdout.splitlines()[1:] if done.returncode == 0 else ():
        cells = row.split(",")
        if cells[1] != "reset":
            param = cells[PARAM] if cells[2] == "A" else ""
            found[cells[1]].append((cells[0], *cells[2:PARAM], param, *cells[PARAM + 1:CORRUPT]))
    return found, done.stderr.rstrip()


def system_of(front, link):
    """A system with one link of a draft as that of a master."""
    keys = "".join(f"{key} = {json.dumps(value)}\n" for key, value in link.items() if key != "wires")
    wires = "".join(f"{signal} = {json.dumps(value)}\n" for signal, value in link.get("wires", {}).items())
    return f"{front}[[master]]\nsources = 1\n{keys}[master.wires]\n{wires}"


def fault_of_rows(system, dump, tlvcd):
    """Why the draft of a dump has not what crosses at some link of a system file, or nothing. Its names may be those of another scope. Of a link
    with the prefix of the system file, what the draft leaves open is taken from the wires there."""
    lines, fault = draft_of(dump)
    wanted, said = rows_by_link(tlvcd, system, dump)
    if fault or said:
        return fault or said
    front = "".join(line + "\n" for line in lines[:next(n for n, line in enumerate(lines) if not line)] if TOP_LINE.fullmatch(line))
    tables = tomllib.loads(tables_of(lines))
    with open(system, "rb") as file:
        own = tomllib.load(file)
    given = {str(link["signals"]): link for role in ROLES for link in own.get(role, []) if "signals" in link}
    found = []
    for link in (link for role in ROLES for link in tables.get(role, [])):
        same = given.get(str(link.get("signals")), {})
        # a clock of its own that the draft names in a comment
        clocks = {key: same[key] for key in ("clock", "link_reset", "reset_active") if key in same and f"# TODO {same.get('clock')}: " in "\n".join(lines)}
        found.append({**clocks, **link, "wires": {**same.get("wires", {}), **link.get("wires", {})}})
    crossed = []
    with tempfile.TemporaryDirectory() as folder:
        drafted = os.path.join(folder, "system.toml")
        for text in {system_of(front, link): None for link in found}:
            with open(drafted, "w", encoding="utf-8") as file:
                file.write(text)
            crossed.append(rows_by_link(tlvcd, drafted, dump)[0]["m0"])
    return "; ".join(f"no link with what crosses at {link}" for link, rows in wanted.items() if rows not in crossed)
