"""Looks for the smallest script with which a command still fails: tools/shrink [--quiet] SCRIPT -- COMMAND [WORD..] >SMALLEST.

COMMAND runs with the path of a script in the place of the word {}, or as its last word. It fails with SCRIPT: with a status that is not 0.
A smaller script counts if COMMAND ends with this same status. So let it end with another status if it meets no such failure. Operations are
left out (delta debugging), and then masters, ports, sources, slots and keys of ports and of the system. Sizes, data and addresses of those
that are left get simpler. `unaligned` stays while an operation needs it. The same command gives the same script. COMMAND finds the images
that SCRIPT names, from the folder of SCRIPT. Standard error has the progress. Status 1 if COMMAND does not fail or SCRIPT is no script, 2
if the command line is wrong.
"""

import argparse
import copy
import os
import subprocess
import sys
import tempfile
import tomllib

from tlxtools.common import carries_data
from tlxtools.script_text import MASTER_KEYS, PORT_KEYS, TOP_KEYS, text_of


# The keys of a port and of a master that are left out if COMMAND still fails. Names, ranges, and a master's sources and bus stay.
PORT_EXTRAS = tuple(key for key in PORT_KEYS if key not in ("name", "kind", "base", "length", "ranges"))
MASTER_EXTRAS = tuple(key for key in MASTER_KEYS if key not in ("name", "sources", "first", "stride", "bus"))


class Mistake(Exception):
    """Why nothing can be shrunk."""


class Search:
    """The smallest system with which the command fails so far. Images have their place from a folder."""

    def __init__(self, system, folder, words, is_quiet):
        self.smallest, self.folder, self.words, self.is_quiet = system, os.path.abspath(folder), words, is_quiet
        self.runs, self.known = 0, {}
        self.status = self.run(system)
        if self.status == 0:
            raise Mistake("the command does not fail with this script")

    def placed(self, system):
        """The system with the whole names of its images, for a script at another place."""
        ports = [{**port, "image": os.path.join(self.folder, port["image"])} if "image" in port else port for port in system.get("port", [])]
        return {**system, "port": ports}

    def run(self, system):
        """The status with which the command ends with the script of a system."""
        text = text_of(self.placed(system))
        if text not in self.known:
            self.runs += 1
            with tempfile.TemporaryDirectory() as folder:
                path = os.path.join(folder, "script.toml")
                with open(path, "w", encoding="utf-8") as file:
                    file.write(text)
                words = [path if word == "{}" else word for word in self.words]
                try:
                    done = subprocess.run(words if path in words else [*words, path], stdin=subprocess.DEVNULL, stdout=subprocess.DEVNULL,
                                          stderr=subprocess.DEVNULL, check=False)
                except OSError as error:
                    raise Mistake(f"{words[0]}: {error.strerror}") from None
            self.known[text] = done.returncode
        return self.known[text]

    def takes(self, system):
        """Whether the command fails with a system as with the first one, which is then the smallest."""
        if self.run(system) != self.status:
            return False
        self.smallest = system
        self.say()
        return True

    def say(self):
        if not self.is_quiet:
            masters, ports = self.smallest["master"], self.smallest.get("port", [])
            print(f"shrink: {len(places_of(self.smallest))} lines, {len(masters)} masters, {len(ports)} ports, {len(text_of(self.smallest))} bytes, "
                  f"after {self.runs} runs", file=sys.stderr, flush=True)


def places_of(system):
    """The places of all lines of operations: the master and the place in its list."""
    return [(master, at) for master, values in enumerate(system["master"]) for at in range(len(values["ops"]))]


def without(system, places):
    """The system without the lines at these places."""
    made, gone = copy.deepcopy(system), set(places)
    for master, values in enumerate(made["master"]):
        values["ops"] = [line for at, line in enumerate(values["ops"]) if (master, at) not in gone]
    return made


def drop_lines(search):
    """Leaves out parts of the lines, ever finer ones, until no line alone can be left out."""
    parts = 2
    while places := places_of(search.smallest):
        parts = min(parts, len(places))
        bounds = [len(places) * part // parts for part in range(parts + 1)]
        pieces = [places[low:high] for low, high in zip(bounds, bounds[1:])]
        if any(search.takes(without(search.smallest, piece)) for piece in pieces):
            parts = max(2, parts - 1)
        elif parts == len(places):
            return
        else:
            parts *= 2


def changed_system(system, key, place, **values):
    """The system with other values in one of its masters or ports."""
    made = copy.deepcopy(system)
    made[key][place].update(values)
    return made


def drop_tables(search, key, least):
    """Leaves out masters or ports, the last first."""
    for place in reversed(range(len(search.smallest.get(key, [])))):
        made = copy.deepcopy(search.smallest)
        if len(made[key]) > least:
            (drop_paths if key == "port" else drop_hosts)(made, place)
            del made[key][place]
            search.takes(made)


def without_item(said, place, tables):
    """A list of numbers and names without the one of a table that goes. The tables after it get the numbers before theirs."""
    gone = (place, tables[place].get("name"))
    return [item - 1 if isinstance(item, int) and item > place else item for item in said if item not in gone]


def drop_paths(system, place):
    """Takes a port out of each master's `reach`."""
    for master in system["master"]:
        if "reach" in master:
            master["reach"] = without_item(master["reach"], place, system["port"])


def drop_hosts(system, place):
    """Takes a master out of the list of each port. A port that has listed it alone lists none."""
    for port in system.get("port", []):
        if "hosts" in port:
            port["hosts"] = without_item(port["hosts"], place, system["master"])
        if "sources" in port:
            left = [(table, without_item([table["master"]], place, system["master"])) for table in port["sources"]]
            port["sources"] = [{**table, "master": said[0]} for table, said in left if said]
        for key in ("hosts", "sources"):
            if port.get(key) == []:
                del port[key]


def line_of(words):
    """A line of the words of an operation."""
    return " ".join(str(word) for word in words)


def simpler_lines(line, bases):
    """Simpler lines than one, the simplest first: of a smaller size, with zeros or its first bytes, at the base of a port, of source 0."""
    if line == "wait":
        return
    source, name, address, size, *data = line.split()
    size, pairs = int(size), [data[0][at:at + 2] for at in range(0, len(data[0]), 2)] if data else []
    for smaller in range(size):
        kept = ["".join(pairs[:1 << smaller])] if data else []
        yield line_of([source, name, address, smaller, *kept])
    if data:
        for other in ("00", "01"):
            plain = "".join(pair if pair == "--" else other for pair in pairs)
            if sum(pair not in ("--", "00", "01") for pair in pairs):
                yield line_of([source, name, address, size, plain])
        for at, pair in enumerate(pairs):
            if pair not in ("--", "00"):
                yield line_of([source, name, address, size, "".join([*pairs[:at], "00", *pairs[at + 1:]])])
    if name == "putpart" and carries_data("putfull"):
        yield line_of([source, "putfull", address, size, "".join("00" if pair == "--" else pair for pair in pairs)])
    for base in bases:
        if int(address, 0) > base:
            yield line_of([source, name, f"{base:#x}", size, *data])
    if source != "0":
        yield line_of(["0", name, address, size, *data])


def bases_of(system):
    """The first address of each port."""
    return sorted(port["ranges"][0][0] if "ranges" in port else port["base"] for port in system.get("port", []))


def simplify_line(search, master, at):
    """Whether a line could be made simpler."""
    lines = search.smallest["master"][master]["ops"]
    for line in simpler_lines(lines[at], bases_of(search.smallest)):
        if search.takes(changed_system(search.smallest, "master", master, ops=[*lines[:at], line, *lines[at + 1:]])):
            return True
    return False


def simplify_lines(search):
    """Makes each line as simple as it can be by itself."""
    for place in places_of(search.smallest):
        while simplify_line(search, *place):
            pass


def has_unaligned(system):
    """Whether the address of an operation is no multiple of its size."""
    asks = [line.split() for master in system["master"] for line in master["ops"] if line != "wait"]
    return any(int(ask[2], 0) % (1 << int(ask[3])) for ask in asks)


def without_key(system, tables, place, key):
    """The system without a key of one of its ports or masters."""
    made = copy.deepcopy(system)
    del made[tables][place][key]
    return made


def simplify_tables(search):
    """Fewer sources and slots, a system without its own keys, masters with all paths, and ports without what says more than their kind and their
    place."""
    for place, values in enumerate(search.smallest["master"]):
        used = [int(line.split()[0]) for line in values["ops"] if line != "wait"]
        if max(used, default=0) + 1 < values["sources"]:
            search.takes(changed_system(search.smallest, "master", place, sources=max(used, default=0) + 1))
    for tables, extras in (("master", MASTER_EXTRAS), ("port", PORT_EXTRAS)):
        for place, values in enumerate(search.smallest.get(tables, [])):
            for key in extras:
                if key in values:
                    search.takes(without_key(search.smallest, tables, place, key))
    for extra in TOP_KEYS:
        # without the key an unaligned request would be what fails, whatever failed before
        if extra in search.smallest and (extra != "unaligned" or not has_unaligned(search.smallest)):
            search.takes({key: value for key, value in search.smallest.items() if key != extra})
    if search.smallest.get("slots", 1) > 1:
        search.takes({**search.smallest, "slots": 1})


def shrink(search):
    """Goes through all of it until nothing gets smaller."""
    search.say()
    before = None
    while search.smallest != before:
        before = search.smallest
        drop_lines(search)
        drop_tables(search, "master", 1)
        drop_tables(search, "port", 0)
        simplify_tables(search)
        simplify_lines(search)
    return text_of(search.smallest)


def read_script(path):
    """The system of a script, with the operations of each master."""
    try:
        with open(path, "rb") as file:
            system = tomllib.load(file)
        if not all(isinstance(line, str) for master in system["master"] for line in master["ops"]):
            raise ValueError
        # what is written must be what was read
        again = tomllib.loads(text_of(system))
    except OSError as error:
        raise Mistake(f"{path}: {error.strerror}") from None
    except (KeyError, TypeError, ValueError, AttributeError):
        raise Mistake(f"{path} is no script: ./tlx --lint {path} says why") from None
    return again


def main():
    words = sys.argv[1:]
    at = words.index("--") if "--" in words else len(words)
    parser = argparse.ArgumentParser(prog="tools/shrink", usage="tools/shrink [--quiet] SCRIPT -- COMMAND [WORD..]", allow_abbrev=False)
    parser.add_argument("script", metavar="SCRIPT")
    parser.add_argument("--quiet", action="store_true", help="no progress on standard error")
    options = parser.parse_args(words[:at])
    if not words[at + 1:]:
        parser.error("COMMAND is missing")
    try:
        folder = os.path.dirname(options.script)
        sys.stdout.write(shrink(Search(read_script(options.script), folder, words[at + 1:], options.quiet)))
    except Mistake as mistake:
        print(f"tools/shrink: {mistake}", file=sys.stderr)
        return 1
    return 0
