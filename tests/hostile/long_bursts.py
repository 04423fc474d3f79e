"""Runs scripts of nearly a megabyte of bursts, and compares what they print with what a memory of bytes answers: tests/hostile/long_bursts.

Each of four masters has a RAM of its own and one source, and puts and gets 128 and 256 bytes there, some of them in part, some past
its end or not aligned. So each trace is one text, whatever the schedule. It is worked out here from the rules of docs/reference/formats.md, and
shares no code with the programs. The beats of such a run on buses of 4, 8 and 16 bytes, and of 16 with ports of 4, are captures, in which tlcheck
has to find the same trace. It needs the built programs (./tlx and ./tlcheck build them; TLX=path and TLCHECK=path take others).
"""

import os
import random
import subprocess
import tempfile
import tomllib

from harness import need, run_test, tell
from tlxtools.capture import Links
from tlxtools.common import HEADER, LONGEST_SCRIPT, SECONDS, TLCHECK, TLX

MASTERS = 4
LENGTH = 1024
# The buses of captures: of masters and of ports.
BUSES = ((4, 4), (8, 8), (16, 16), (16, 4))


class Memory:
    """The RAM of a master, and how many requests it has served; and the error port."""

    def __init__(self, base):
        self.base, self.held, self.served = base, bytearray(LENGTH), 0

    def holds(self, address, width):
        return self.base <= address and address + width <= self.base + LENGTH

    def put(self, address, data):
        for place in range(0, len(data) // 2):
            byte = data[2 * place:2 * place + 2]
            if byte != "--":
                self.held[address - self.base + place] = int(byte, 16)

    def get(self, address, width):
        return self.held[address - self.base:address - self.base + width].hex()


def operation_of(rng, base):
    """An operation: its name, address, size and data, mostly a put of 256 bytes that is legal."""
    name = rng.choice(["putfull"] * 6 + ["putpart", "get"])
    size = rng.choice([8, 8, 8, 7])
    address = base + (rng.randrange(LENGTH) & -(1 << size))
    if rng.random() < 0.05:
        address = base + rng.choice([0x40, LENGTH - 0x40])
    data = ""
    if name != "get":
        holes = 0.2 if name == "putpart" else 0
        data = "".join("--" if rng.random() < holes else f"{rng.randrange(256):02x}" for _ in range(1 << size))
    return name, address, size, data


def line_of(master, operation, memory, error):
    """The line of the trace that tells an operation, which is served by that."""
    name, address, size, data = operation
    width = 1 << size
    port, slave = (master, memory) if memory.holds(address, width) else (MASTERS, error)
    denied = port == MASTERS or address % width != 0
    reply = "AccessAckData" if name == "get" else "AccessAck"
    if denied:
        reply += " denied"
    if name == "get":
        reply += " " + ("00" * width if denied else memory.get(address, width))
    elif not denied:
        memory.put(address, data)
    place, slave.served = slave.served, slave.served + 1
    request = f"{name} 0x{address:x} {size}" + (f" {data}" if data else "")
    return f"m{master} s0 {request} -> {reply} p{port} #{place}\n"


def script_and_trace(seed):
    """A script with as many operations as fit, and its trace. The error port serves master 0's requests alone."""
    rng = random.Random(seed)
    bases = [0x10000 * (master + 1) for master in range(MASTERS)]
    error, front, texts, trace = Memory(0), "slots = 4\n", [], []
    for base in bases:
        front += f"[[port]]\nkind = \"ram\"\nbase = {base}\nlength = {LENGTH}\n"
    room = (LONGEST_SCRIPT - len(front)) // MASTERS
    for master, base in enumerate(bases):
        memory, text = Memory(base), "[[master]]\nsources = 1\nops = [\n"
        while True:
            name, address, size, data = operation = operation_of(rng, base)
            if master > 0 and not memory.holds(address, 1 << size):
                continue
            line = f'"0 {name} 0x{address:x} {size} {data}",\n'
            if len(text) + len(line) + 2 > room:
                break
            text += line
            trace.append(line_of(master, operation, memory, error))
        texts.append(text + "]\n")
    return front + "".join(texts), "".join(trace)


def printed(words, script):
    run = subprocess.run([TLX, *words], input=script, capture_output=True, text=True, timeout=SECONDS, check=False)
    return run.stdout + run.stderr


def system_of(master_bus, port_bus):
    """The system of the scripts, with these buses."""
    ports = [f"[[port]]\nkind = \"ram\"\nbase = {0x10000 * (master + 1)}\nlength = {LENGTH}\nbus = {port_bus}\n" for master in range(MASTERS)]
    return f"bus = {master_bus}\nunaligned = true\n" + "".join(ports) + "[[master]]\nsources = 1\n" * MASTERS


def judged(folder, buses, trace):
    """What tlcheck says of the capture of a run with this trace on these buses, and what it has to say."""
    system = system_of(*buses)
    links, lines = Links(tomllib.loads(system)), trace.splitlines()
    rows = [f"{time},{row}" for time, row in enumerate(row for line in lines for row in links.rows_of(line))]
    paths = [os.path.join(folder, name) for name in ("system.toml", "capture.csv")]
    for path, text in zip(paths, (system, "\n".join([HEADER, *rows]) + "\n")):
        with open(path, "w", encoding="ascii") as file:
            file.write(text)
    run = subprocess.run([TLCHECK, "--trace", *paths], capture_output=True, text=True, timeout=SECONDS, check=False)
    return run.stdout + run.stderr, f"{trace}lawful: {len(rows)} rows, {len(lines)} requests, {len(lines)} answered\n"


def main():
    need(TLX, TLCHECK)
    with tempfile.TemporaryDirectory() as folder:
        _, trace = script_and_trace(0)
        for buses in BUSES:
            said, wanted = judged(folder, buses, trace)
            tell(f"the trace on buses {buses}", said == wanted, f"at the end {said[-300:]!r}")
    for seed in range(3):
        script, trace = script_and_trace(seed)
        assert LONGEST_SCRIPT - 4096 < len(script) <= LONGEST_SCRIPT
        for words, wanted in ((["--serial"], trace), ([], trace + "free 4 held 0\n"), (["--workers", "4"], trace + "free 4 held 0\n")):
            tell(f"the trace of seed {seed}, {' '.join(words) or 'by threads'}", printed(words, script) == wanted)


if __name__ == "__main__":
    run_test(main)
