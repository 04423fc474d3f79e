"""Random crossbars at which each request takes effect at a moment of its own: none is reported as unlawful, and what goes wrong at a request that
overlaps no other is found.

Usage: tests/hostile/random_orders [COUNT [FIRST_SEED]]. A seed has a random system (tests/hostile/random_systems.py), at which most requests are to a few words
of one memory. A crossbar is run there whose queues and slaves take requests in random orders, and which may renumber sources before some ports
or before all. What crossed is lawful with `--order any`, in each view that fits: with both sides compared too, if these ports are judged by
themselves. Then three requests come one at a time: a put, a change of its bytes, and a get. The capture is lawful again; and if the change is
lost, is torn in the middle, or the get answers the old bytes, the get's reply is the first row that is unlawful. The gate runs seeds 0 to 199.
It needs the built tlcheck (TLCHECK=path takes another).
"""

import concurrent.futures
import os
import random
import re
import subprocess
import sys
import tempfile

from harness import need, run_test, tell
from random_systems import Run, hosts_of, system_of
from tlxtools.common import GROUPS, HEADER, SECONDS, TLCHECK
from tlxtools.partial_memory import Ask, Slave
from tlxtools.script_text import text_of
from tlxtools.wide_sources import reached_by

# The memory at which requests meet, which serves atomics of each size, and a word of the bytes that are put, changed and got at the end.
BASE, LENGTH = 0x4000_0000, 64
SIZES = range(LENGTH.bit_length())
WORD = BASE + 8
FAULTS = ("lost write", "torn atomic", "stale read")
WRONG = re.compile(r"unlawful: line (\d+), time \d+, \S+ D: wrong reply: ")


class Faulty(Slave):
    """A slave that does one request wrong: the next one that writes, or the next one that reads."""

    fault, before = None, None

    def left_by(self, ask, old):
        left, self.before = super().left_by(ask, old), old
        half = len(old) // 2
        return old if self.fault == "lost write" else [*left[:half], *old[half:]] if self.fault == "torn atomic" else left

    def window(self, ask):
        return self.before if self.fault == "stale read" and ask.name == "get" else super().window(ask)


class Crossbar(Run):
    """A run with the order "any", in which most requests meet at the memory."""

    def __init__(self, rng, system, images, renumbered):
        super().__init__(rng, system, images, "any", renumbered=renumbered)
        self.slaves[-2] = self.memory = Faulty(system["port"][-1])
        self.asks = [[self.met(ask) for ask in asks] for asks in self.asks]

    def met(self, ask):
        """A request, mostly moved to the memory."""
        if self.rng.random() < 0.2:
            return ask
        return ask._replace(address=(BASE + self.rng.choice([0, 8, 8, 9, 12, 16])) >> ask.size << ask.size)

    def one_at_a_time(self, *asks):
        """The rows of requests of master 0, of which each begins after the one before has its reply, without resets."""
        self.asks[0], self.is_serial, self.resets = [*reversed(asks)], True, 0
        return self.rows()


def judged(folder, rows, view):
    """What tlcheck says of a capture: its last line."""
    with open(os.path.join(folder, "capture.csv"), "w", encoding="ascii") as file:
        file.write("\n".join([HEADER, *rows]) + "\n")
    paths = [os.path.join(folder, name) for name in ("system.toml", "capture.csv")]
    run = subprocess.run([TLCHECK, "--links", view, "--order", "any", *paths], capture_output=True, text=True, timeout=SECONDS, check=False)
    return (run.stdout + run.stderr).rstrip("\n").split("\n")[-1]


def is_found(verdict, rows, count):
    """The verdict names a row among the last ones, as many as the get and its reply have, and calls its reply wrong."""
    found = WRONG.match(verdict)
    return found is not None and int(found[1]) > 1 + len(rows) - count


def with_memory(rng):
    """A random system whose last port is the memory, and the images of the others."""
    system, images = system_of(rng)
    # corrupt data would hide what a reply shows
    system.pop("corrupt", None)
    # a system has at most 255 ports, and the memory is one of them, to which each master has a path
    memory = min(254, len(system["port"]))
    for number, master in enumerate(system["master"]):
        if "reach" in master:
            master["reach"] = [*(port for port in reached_by(system, number) if port < memory), memory]
    del system["port"][254:]
    images = {number: image for number, image in images.items() if number < 254}
    for port in system["port"]:
        port.pop("order", None)
    system["port"].append({"kind": "ram", "base": BASE, "length": LENGTH, "unknown": rng.random() < 0.3,
                           "sizes": {group: [SIZES[0], SIZES[-1]] for group in GROUPS}})
    if rng.random() < 0.3:
        system["port"][-1].update(hosts_of(rng, system["master"], len(system["master"])))
    if rng.random() < 0.3:
        system["port"][-1]["crossing"] = "none"
    if rng.random() < 0.3:
        # bytes that no window of the last word has alone
        system["port"][-1]["volatile"] = [[rng.choice([1, 13, 20, 40]), rng.choice([1, 2])]]
    return system, images


def try_seed(seed):
    """What went wrong with a seed."""
    rng = random.Random(seed)
    system, images = with_memory(rng)
    ports = range(len(system["port"]))
    apart = [number for number in ports if system["port"][number].get("crossing") == "none" and rng.random() < 0.7]
    renumbered = rng.choice([ports, apart, apart, ()])
    views = ("masters", "each", *["both"] * (set(renumbered) <= set(apart)), *["ports"] * (not renumbered))
    fault = FAULTS[seed % 3]
    with tempfile.TemporaryDirectory() as folder:
        for number, image in images.items():
            with open(os.path.join(folder, system["port"][number]["image"]), "wb") as file:
                file.write(image)
        with open(os.path.join(folder, "system.toml"), "w", encoding="utf-8") as file:
            file.write(text_of(system))
        run = Crossbar(rng, system, images, renumbered)
        size = rng.choice(SIZES)
        place = WORD >> size << size
        first, other = ([*rng.randbytes(1 << size)] for _ in range(2))
        # all bytes change, those of the upper half too
        other = [byte if byte != old else byte ^ 1 for byte, old in zip(other, first)]
        rows = run.rows() + run.one_at_a_time(Ask("putfull", place, size, first))
        run.memory.fault = fault
        rows += run.one_at_a_time(Ask("swap" if fault == "torn atomic" else "putfull", place, size, other))
        wrong = run.one_at_a_time(Ask("get", place, size, []))
        right = [judged(folder, rows, view) for view in views]
        found = [judged(folder, rows + wrong, view) for view in views]
    return ([f"seed {seed}, links {view}: {verdict}" for view, verdict in zip(views, right) if not verdict.startswith("lawful: ")]
            + [f"seed {seed}, links {view}, {fault}: {verdict}" for view, verdict in zip(views, found) if not is_found(verdict, rows + wrong, len(wrong))])


def main():
    count = int(sys.argv[1]) if sys.argv[1:] else 200
    first = int(sys.argv[2]) if sys.argv[2:] else 0
    need(TLCHECK)
    seeds = range(first, first + count)
    with concurrent.futures.ProcessPoolExecutor() as pool:
        for seed, faults in zip(seeds, pool.map(try_seed, seeds, chunksize=16)):
            tell(f"seed {seed}", not faults, "\n".join(faults))


if __name__ == "__main__":
    run_test(main)
