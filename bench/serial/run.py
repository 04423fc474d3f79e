"""Measures serial runs: tlx beside a plain Rust program that does the same job.

Makes scripts of 16 masters with 1,000 to 60,000 short operations, as far as the limit of 1,048,576 bytes allows, one of operations of
4 to 64 bytes and one of 128 and 256, runs both programs on each by turns, compares what they print, and shows operations a second,
peak memory, and how both grow. Build the program first (./tlx < examples/first.toml), or name one by TLX; rustc builds the
peer and what starts both. Everything that it makes goes into a folder of its own under the system's temporary folder.
"""

import filecmp
import os
import random
import subprocess
import sys
import tempfile

from tlxtools.common import LONGEST_SCRIPT, TLX

HERE = os.path.dirname(os.path.realpath(__file__))
MASTERS = 16
ROUNDS = 25


def operation(rng):
    """A short operation, so that many fit: half of them reads, a quarter writes, the rest atomics and hints."""
    address = f"{0x1000 + 4 * rng.randrange(16):#x}"
    word = f"{rng.getrandbits(32):08x}"
    source = rng.randrange(10)
    kind = rng.randrange(32)
    if kind < 20:
        return f"{source} get {address} 0"
    if kind < 28:
        return f"{source} get {address} 2"
    if kind < 30:
        return f"{source} putfull {address} 2 {word}"
    if kind < 31:
        return f"{source} add {address} 2 {word}"
    return f"{source} prefetchr {address} 2"


def script(count, kind, length):
    rng = random.Random(count)
    lines = ["slots = 4", "[[port]]", 'kind = "ram"', "base = 0x1000", f"length = {length}"]
    for master in range(MASTERS):
        mine = count // MASTERS + (1 if master < count % MASTERS else 0)
        lines += ["[[master]]", "sources = 16", "ops = ["]
        lines += [f'"{kind(rng)}",' for _ in range(mine)]
        lines += ["]"]
    return "\n".join(lines) + "\n"


def wide_operation(rng, sizes=range(2, 7)):
    """An operation of 4 to 64 bytes: reads and writes by halves."""
    size = rng.choice(sizes)
    address = f"{0x1000 + (rng.randrange(1024) >> size << size):#x}"
    source = rng.randrange(10)
    if rng.randrange(2):
        return f"{source} get {address} {size}"
    data = "".join(f"{rng.getrandbits(8):02x}" for _ in range(2**size))
    return f"{source} putfull {address} {size} {data}"


def long_operation(rng):
    """An operation of 128 or 256 bytes."""
    return wide_operation(rng, range(7, 9))


def measured(folder, launch, peer, text):
    """The least wall time of some rounds of both programs, their peak memory, and whether they printed the same."""
    source = os.path.join(folder, "script")
    with open(source, "wb") as script_file:
        script_file.write(text)
    command = [launch, source, str(ROUNDS), TLX, peer]
    mine, memory, theirs, other = subprocess.run(command, check=True, stdout=subprocess.PIPE).stdout.split()
    same = filecmp.cmp(f"{source}.0", f"{source}.1", shallow=False)
    return float(mine), float(theirs), int(memory), int(other), same


def built(folder, name):
    """A plain Rust program, built from its file beside this one."""
    source = os.path.join(os.path.dirname(os.path.abspath(__file__)), f"{name}.rs")
    program = os.path.join(folder, name)
    subprocess.run(["rustc", "--edition", "2024", "-O", "-o", program, source], check=True)
    return program


def main():
    if not os.access(TLX, os.X_OK):
        sys.exit("build the program first: ./tlx < examples/first.toml")
    with tempfile.TemporaryDirectory() as folder:
        launch, peer = built(folder, "launch"), built(folder, "peer")
        print(f"{'operations':>10} {'bytes':>8} {'tlx ops/s':>11} {'peer ops/s':>11} {'time ratio':>10} {'tlx KiB':>8} {'peer KiB':>8}")
        cases = [(count, operation, 64) for count in (1_000, 10_000, 30_000, 60_000)]
        cases += [(8_000, wide_operation, 1024), (4_500, long_operation, 1024)]
        for count, kind, length in cases:
            text = script(count, kind, length)
            while len(text) > LONGEST_SCRIPT:
                count -= 500
                text = script(count, kind, length)
            mine, theirs, memory, other, same = measured(folder, launch, peer, text.encode())
            if not same:
                sys.exit(f"the two traces differ at {count} operations")
            print(f"{count:>10} {len(text):>8} {count / mine:>11,.0f} {count / theirs:>11,.0f} {mine / theirs:>10.2f} {memory:>8} {other:>8}")


main()
