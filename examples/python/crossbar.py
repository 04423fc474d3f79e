#!/usr/bin/env python3
"""A TileLink crossbar in plain Python, judged at each clock edge: crossbar.py [--bug] runs 2,000 clock cycles.

Two masters read and write at random in two RAMs. A request crosses its master's link and its port's in one cycle, if no other master
has the port. The RAM answers in the next cycle. With --bug a RAM loses a write that comes right after another write.
"""

import random
import sys

import tlx

SYSTEM = """
port = [{kind = "ram", base = 0x1000, length = 64}, {kind = "ram", base = 0x2000, length = 64}]
master = [{sources = 2}, {sources = 2}]
"""
LINKS = ("m0", "m1", "p0", "p1")


class Ram:
    """A slave port with 64 bytes. `reply` is what it drives on channel D in the next cycle, for the master `owner`."""

    def __init__(self, has_bug):
        self.memory, self.has_bug, self.was_write, self.reply = bytearray(64), has_bug, False, None

    def take(self, owner, ask):
        place, is_write = ask["address"] % 64 & ~7, ask["opcode"] == tlx.Ask.PUT_FULL
        is_lost = self.has_bug and self.was_write
        for lane in range(8):
            if is_write and not is_lost and ask["mask"] >> lane & 1:
                self.memory[place + lane] = ask["data"] >> 8 * lane & 0xFF
        data = int.from_bytes(self.memory[place:place + 8], "little")
        opcode = tlx.Reply.ACCESS_ACK if is_write else tlx.Reply.ACCESS_ACK_DATA
        self.reply = {"opcode": opcode, "size": ask["size"], "source": ask["source"], "data": data}
        self.owner, self.was_write = owner, is_write


def random_ask(rng):
    """What a master drives on channel A: a read or a write of 1, 2, 4 or 8 bytes."""
    size = rng.randrange(4)
    address = rng.choice([0x1000, 0x2000]) + (rng.randrange(64) >> size << size)
    return {"opcode": rng.choice([tlx.Ask.GET, tlx.Ask.PUT_FULL]), "size": size, "source": rng.randrange(2), "address": address,
            "mask": (1 << (1 << size)) - 1 << address % 8, "data": rng.getrandbits(64)}


def cross(signals, link, channel, values):
    """Drives a beat that is taken at once."""
    signals.update({f"{link}_{channel}_{name}": value for name, value in {"valid": 1, "ready": 1, **values}.items()})


def cycles(rng, has_bug):
    """The signals of each cycle: a dictionary from the name of a signal to its value."""
    rams = [Ram(has_bug), Ram(has_bug)]
    for _ in range(2000):
        signals = {f"{link}_{channel}_valid": 0 for link in LINKS for channel in "ad"}
        are_waiting = {ram.owner for ram in rams if ram.reply}
        for port, ram in enumerate(rams):
            if ram.reply:
                cross(signals, f"p{port}", "d", ram.reply)
                cross(signals, f"m{ram.owner}", "d", ram.reply | {"source": ram.reply["source"] % 2})
                ram.reply = None
        for master in rng.sample(range(2), 2):
            ask = random_ask(rng)
            port = ask["address"] // 0x1000 - 1
            if master not in are_waiting and not rams[port].reply:
                wide = ask | {"source": 2 * master + ask["source"]}
                cross(signals, f"m{master}", "a", ask)
                cross(signals, f"p{port}", "a", wide)
                rams[port].take(master, wide)
        yield signals


def main():
    with tlx.Judge(tlx.System(SYSTEM)) as judge:
        monitor = tlx.Monitor(judge, {link: f"{link}_" for link in LINKS}, absent=("a_param", "a_corrupt", "d_param", "d_denied", "d_corrupt"))
        try:
            for signals in cycles(random.Random(1), "--bug" in sys.argv):
                monitor.sample(signals)
        except tlx.Unlawful as found:
            print(found)
            return 3
        print(f"lawful: {monitor.beats} beats, {judge.requests} requests, {judge.answered} answered")
        return 0


if __name__ == "__main__":
    sys.exit(main())
