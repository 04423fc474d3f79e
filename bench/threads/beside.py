"""Prints how long whole runs by threads take beside a plain Rust program of the same design, and their processor
times.

The two take turns, so that a busy machine is as busy for each; a ratio is tlx's time by the plain program's, of
the least and of the middle of all rounds. Times are of whole processes: reading, running and printing. It needs
python3, rustc and the built program (./tlx builds it; TLX=path takes another). ROUNDS=number sets the number of
rounds, and words choose the cases whose names have one of them.
"""
import os
import re
import resource
import statistics
import subprocess
import sys
import tempfile
import time

from tlxtools.common import TLX

HERE = os.path.dirname(os.path.realpath(__file__))
ROUNDS = int(os.environ.get("ROUNDS", "21"))


def script(slots, ports, masters):
    """A script, each key in a line of its own; a port is a kind, a base and a length, a master its sources and lines."""
    lines = [f"slots = {slots}"]
    for kind, base, length in ports:
        lines += ["[[port]]", f'kind = "{kind}"', f"base = {base:#x}", f"length = {length}"]
    for sources, operations in masters:
        lines += ["[[master]]", f"sources = {sources}", "ops = ["]
        lines += [f'"{operation}",' for operation in operations]
        lines += ["]"]
    return ("\n".join(lines) + "\n").encode()


RAMS = [("ram", 0x1000 * (port + 1), 64) for port in range(4)]


def waits():
    """Two masters over one slot, each with one request out and a wait after it: 500 puts and gets of numbers."""
    masters = []
    for address in (0x1000, 0x1020):
        operations = []
        for k in range(1, 251):
            operations += [f"0 putfull {address:#x} 2 {k:02x}000000", "wait", f"0 get {address:#x} 2", "wait"]
        masters.append((1, operations))
    return script(1, RAMS[:1], masters)


def alone():
    """One master of one source."""
    operations = [f"0 add {0x1000 + 4 * (k % 16):#x} 2 01000000" for k in range(4096)]
    return script(4, RAMS[:1], [(1, operations)])


def many(sources, slots):
    """Four masters that each send to four ports in turn, from each of their sources in turn."""
    kinds = ("get {:#x} 2", "putfull {:#x} 2 11223344", "add {:#x} 2 01000000", "get {:#x} 3")
    masters = []
    for master in range(4):
        operations = []
        for k in range(4000):
            address = 0x1000 * ((k + master) % 4 + 1) + 8 * (k % 8)
            operations.append(f"{k % sources} {kinds[k // 4 % 4].format(address)}")
        masters.append((sources, operations))
    return script(slots, RAMS, masters)


def storm():
    """Four masters over two slots and ports of three kinds: 1,000 requests each."""
    ports = [("ram", 0x1000, 64), ("rom", 0x2000, 32), ("regs", 0x3000, 16)]
    kinds = ("putfull 0x1000 2 11223344", "get 0x2000 2", "get 0x3000 2", "add 0x1008 2 01000000", "get 0x9000 0")
    masters = [(4, [f"{k % 4} {kinds[(k + master) % 5]}" for k in range(1000)]) for master in range(4)]
    return script(2, ports, masters)


def sixteen():
    """Sixteen masters of 4,096 operations, as short as a script of a megabyte must have them."""
    ports = [("ram", 64 * port, 64) for port in range(4)]
    masters = [(16, [f"{k % 16} get {64 * (k % 4) + k % 8} 0" for k in range(4096)]) for _ in range(16)]
    return script(64, ports, masters)


# the name, the script, how many requests it has, and the aim: of the middle of all rounds
CASES = [
    ("one out and a wait, one slot", waits(), 1000, 1.0),
    ("one master of one source", alone(), 4096, 1.0),
    ("four masters of 4, 16 slots", many(4, 16), 16000, 1.2),
    ("four masters of 16, 64 slots", many(16, 64), 16000, 1.2),
    ("storm of four over two slots", storm(), 4000, 1.0),
    ("sixteen masters", sixteen(), 65536, 1.2),
]


def timed(program, text):
    """The wall time and the processor time of one run, in seconds, and its output."""
    before = resource.getrusage(resource.RUSAGE_CHILDREN)
    start = time.perf_counter()
    done = subprocess.run([program], input=text, stdout=subprocess.PIPE, check=True)
    wall = time.perf_counter() - start
    after = resource.getrusage(resource.RUSAGE_CHILDREN)
    return wall, after.ru_utime + after.ru_stime - before.ru_utime - before.ru_stime, done.stdout


def asked(output):
    """What of a run's output no schedule changes: who asked which port for what, and the account."""
    lines = output.decode().splitlines()
    return sorted(re.sub(r" -> .* (p[0-9]+) #[0-9]+$", r" \1", line) for line in lines)


def compare(peer, name, text, requests, aim):
    """Runs both by turns, and prints a line."""
    programs = (TLX, peer)
    walls, processors, outputs = ([], []), ([], []), [None, None]
    for _ in range(ROUNDS):
        for which, program in enumerate(programs):
            wall, used, outputs[which] = timed(program, text)
            walls[which].append(wall)
            processors[which].append(used)
    if asked(outputs[0]) != asked(outputs[1]):
        sys.exit(f"{name}: the two did not ask the same")
    least = min(walls[0]) / min(walls[1])
    middle = statistics.median(walls[0]) / statistics.median(walls[1])
    mine, theirs = (statistics.median(used) / requests * 1e6 for used in processors)
    print(f"{name:30} {statistics.median(walls[0]) * 1e3:8.1f} ms beside {statistics.median(walls[1]) * 1e3:8.1f} ms: "
          f"{least:5.2f} of the least, {middle:5.2f} of the middle (aim {aim}); processor time a request "
          f"{mine:6.2f} and {theirs:6.2f} microseconds", flush=True)


def main():
    if not os.access(TLX, os.X_OK):
        sys.exit(f"{TLX} is not built: run ./tlx < examples/first.toml")
    with tempfile.TemporaryDirectory() as folder:
        peer = os.path.join(folder, "peer")
        source = os.path.join(HERE, "peer.rs")
        subprocess.run(["rustc", "--edition", "2021", "-O", "-o", peer, source], check=True)
        for name, text, requests, aim in CASES:
            if len(sys.argv) == 1 or any(word in name for word in sys.argv[1:]):
                compare(peer, name, text, requests, aim)


main()
