"""The capture of a script's serial run, as tlcheck reads it: tools/capture.py SCRIPT >CAPTURE.

Each request crosses its master's link, then its port's with the wide source, and its reply comes back the same way; a request of the
error port has no link there. A script may say how wide the data bus of each link is, and which wide sources its masters have there, as a system
file does (docs/reference/formats.md); tlx ignores these keys, so each port has to list all masters that ask there. It needs the built program (./tlx builds
it; TLX=path takes another).
"""

import re
import subprocess
import sys
import tomllib

from tlxtools.bus import Bus, bus_of
from tlxtools.common import HEADER, TLX
from tlxtools.wide_sources import WideSources

LINE = re.compile(r"m(\d+) s(\d+) (\w+) 0x([0-9a-f]+) (\d)(?: ([0-9a-f-]+))? -> (\w+)( denied)?(?: ([0-9a-f]+))? p(\d+) #\d+")


def bytes_of(word):
    """The bytes that a trace spells, None for one that is not set."""
    return [None if word[k] == "-" else int(word[k:k + 2], 16) for k in range(0, len(word or ""), 2)]


class Links:
    """The links of a system: the bus of each master's and each port's, and the masters' wide sources."""

    def __init__(self, system):
        self.masters = [Bus(bus_of(system, master)) for master in system["master"]]
        self.ports = [Bus(bus_of(system, port)) for port in system.get("port", [])]
        self.sources = WideSources(system)

    def rows_of(self, line):
        """The rows of a line of a trace, without their times."""
        master, source, name, address, size, data, reply, denied, answer, port = LINE.fullmatch(line).groups()
        master, source, address, size, port = int(master), int(source), int(address, 16), int(size), int(port)
        links = [(f"m{master}", source, self.masters[master])]
        if port < len(self.ports):
            wide = self.sources.wide(port, master, source)
            if wide is None:
                sys.exit(f"tools/capture.py: port {port} does not list master {master}, which asks there")
            links.append((f"p{port}", wide, self.ports[port]))
        asks = [f"{link},A,{row}" for link, source, bus in links for row in bus.asks(name, size, source, address, bytes_of(data))]
        replies = [f"{link},D,{row}" for link, source, bus in reversed(links)
                   for row in bus.replies(reply, size, source, address, bytes_of(answer), bool(denied))]
        return asks + replies


def capture_of(script):
    """The rows of the capture of a script's serial run, with their times, and the lines of its trace."""
    run = subprocess.run([TLX, "--serial"], input=script, capture_output=True, text=True, check=True)
    lines, links = run.stdout.splitlines(), Links(tomllib.loads(script))
    rows = [row for line in lines for row in links.rows_of(line)]
    return [f"{time},{row}" for time, row in enumerate(rows)], lines


def main():
    with open(sys.argv[1], encoding="utf-8") as script:
        rows, _ = capture_of(script.read())
    print("\n".join([HEADER] + rows))
