"""Asks models of random systems random requests, and compares each answer with memories of the tools' own.

Usage: tests/hostile/random_models [COUNT [FIRST_SEED]].

A seed has a random system (tests/hostile/random_systems.py): memories with unknown and volatile bytes, images, tables of sizes, devices, several
ranges, also of one memory, up to 2^62 bytes, masters that do not reach each port, decoders of addresses. Its masters send 500 requests at random, and
in between bytes are looked at and put, and the system is reset. `tlx.Model` of the package of Python answers each, and so does
tools/tlxtools/partial_memory.py, which shares no code with the library. They have to agree in the port, the place, each byte and whether it is
known, and in what is denied, refused, or a device's. Each kind of answer has to come. Without COUNT 200 systems are asked, the gate asks 40.
It needs libtlx.so, which the command builds.
"""

import collections
import concurrent.futures
import random
import sys

import tlx
from harness import run_test, tell
from random_systems import address_of, ask_of, system_of
from tlxtools.bus import reply_of
from tlxtools.common import OPERATIONS, REPLIES
from tlxtools.partial_memory import ERROR_PORT, Ask, Slave, port_of
from tlxtools.script_text import text_of

REQUESTS = 500
# What has to come among the answers.
KINDS = {"known bytes", "unknown bytes", "known and unknown bytes", "no bytes", "denied by a slave", "denied by the error port", "device", "a reset",
         "no resets", "a byte", "an unknown byte", "NO_BYTE", "DEVICE"}


def known_of(data):
    """The number that has a bit for each byte that is known."""
    return sum((byte is not None) << k for k, byte in enumerate(data))


def request_of(ask, source):
    """A request of the tools as one of the package."""
    opcode, param = OPERATIONS[ask.name]
    mask = known_of(ask.data) if ask.name == "putpart" else None
    return tlx.Request(opcode, ask.address, ask.size, source, bytes(byte or 0 for byte in ask.data), param, mask)


class Pair:
    """A model, and slaves of the tools that serve the same requests. `kinds` counts what was answered."""

    def __init__(self, system, images):
        self.system, self.ports, self.kinds = system, system["port"], collections.Counter()
        self.model = tlx.Model(tlx.System(text_of(system), images))
        self.slaves = [*(Slave(port, images.get(number, b"")) for number, port in enumerate(self.ports)), Slave(ERROR_PORT)]

    def wanted(self, master, source, ask):
        """What a request must be answered."""
        number = port_of(self.system, master, ask.address, ask.size)
        reply, place = self.slaves[number].served_next(ask)
        name = reply_of(ask.name)
        data = reply.data if reply else [None] * ((1 << ask.size) if name == "AccessAckData" else 0)
        self.kinds[self.kind_of(number, reply, data)] += 1
        return tlx.Answer(tlx.Reply(REPLIES[name]), ask.size, source, bool(reply and reply.denied), bytes(byte or 0 for byte in data), number, place,
                          known_of(data), reply is None)

    def kind_of(self, number, reply, data):
        if reply is None:
            return "device"
        if reply.denied:
            return "denied by the error port" if number == len(self.ports) else "denied by a slave"
        known = sum(byte is not None for byte in data)
        return "no bytes" if not data else "known bytes" if known == len(data) else "known and unknown bytes" if known else "unknown bytes"

    def serve(self, rng):
        """A random request: what is wrong with its answer, if anything is."""
        master = rng.randrange(len(self.system["master"]))
        source = rng.randrange(self.system["master"][master]["sources"])
        for _ in range(4):
            ask = ask_of(rng, self.ports, self.hot, self.is_unaligned)
            # most that the error port would get are drawn again
            if port_of(self.system, master, ask.address, ask.size) < len(self.ports):
                break
        found, wanted = self.model.serve(master, request_of(ask, source)), self.wanted(master, source, ask)
        return "" if found == wanted else f"m{master} {ask}: {found}, and not {wanted}"

    def place_of(self, address):
        """The slave of an address and where the byte stands in it; or the fault of a byte that can't be looked at."""
        number = port_of(self.system, None, address, 0)
        slave = self.slaves[number]
        if number == len(self.ports) or slave.kind == "device":
            return None, "NO_BYTE" if number == len(self.ports) else "DEVICE"
        return slave, slave.start_of(Ask("get", address, 0, []))

    def look(self, address):
        """A byte is looked at."""
        slave, place = self.place_of(address)
        wanted = slave.byte(place) if slave else place
        found = answered(self.model.peek, address)
        self.kinds[wanted if slave is None else "a byte" if wanted is not None else "an unknown byte"] += 1
        return "" if found == wanted else f"peek {address:#x}: {found}, and not {wanted}"

    def put(self, address, byte):
        """A byte is put, a known or an unknown one."""
        slave, place = self.place_of(address)
        found, wanted = answered(self.model.poke, address, byte), None if slave else place
        if slave:
            slave.cells[place] = byte
        return "" if found == wanted else f"poke {address:#x} {byte}: {found}, and not {wanted}"

    def reset(self):
        """The whole system is reset, if it may be."""
        may_be = self.system.get("resets", False)
        found, wanted = answered(self.model.reset), None if may_be else "NO_LINK"
        for slave in self.slaves if may_be else ():
            slave.reset()
        self.kinds["a reset" if may_be else "no resets"] += 1
        return "" if found == wanted else f"reset: {found}, and not {wanted}"

    def step(self, rng):
        """A random request, and what comes before it: what is wrong with the answers."""
        faults = []
        while rng.random() < 0.4:
            address = address_of(rng, self.ports, 0)
            faults.append(self.look(address))
            if rng.random() < 0.2:
                faults += [self.put(address, rng.choice([None, 0, 255, rng.randrange(256)])), self.look(address)]
        if rng.random() < 0.01:
            faults.append(self.reset())
        return [fault for fault in [*faults, self.serve(rng)] if fault]

    def run(self, rng):
        """What is wrong with the first step with a fault, if there is one."""
        # now and then most requests meet at two addresses
        self.hot = [address_of(rng, self.ports, 3) for _ in range(2)] if rng.random() < 0.5 else []
        self.is_unaligned = rng.random() < 0.5
        for number in range(REQUESTS):
            faults = self.step(rng)
            if faults:
                return f"request {number}: {'; '.join(faults)}"
        return ""


def answered(call, *words):
    """What a call answers, or the name of the fault with which it is refused."""
    try:
        return call(*words)
    except tlx.Refused as found:
        return found.fault.name


def try_seed(seed):
    """What went wrong with a seed, and how often each kind of answer came."""
    rng = random.Random(seed)
    pair = Pair(*system_of(rng))
    with pair.model:
        fault = pair.run(rng)
    return fault, pair.kinds


def main():
    count = int(sys.argv[1]) if sys.argv[1:] else 200
    first = int(sys.argv[2]) if sys.argv[2:] else 0
    seeds, kinds = range(first, first + count), collections.Counter()
    with concurrent.futures.ProcessPoolExecutor() as pool:
        for seed, (fault, came) in zip(seeds, pool.map(try_seed, seeds, chunksize=4)):
            tell(f"seed {seed}", not fault, fault)
            kinds += came
    print(", ".join(f"{number} {kind}" for kind, number in kinds.most_common()))
    missing = KINDS - set(kinds) if count >= 40 else set()
    if missing:
        tell("each kind of answer came", False, f"there was no {', '.join(sorted(missing))}")


if __name__ == "__main__":
    run_test(main)
