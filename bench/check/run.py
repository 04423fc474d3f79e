"""Measures tlcheck beside plain Rust programs that do the same job: rows a second by turns, and peak memory as captures grow.

One (peer.rs, rows.rs) is written without effort; the other (peer.rs, expert.rs) reads its rows as an expert would. Makes captures of two
masters that write and read words at two ports, of 1,000,000 rows for the time, and of 1,000, 1,000,000 and 10,000,000 rows for the memory.
All programs must say the same. Build tlcheck first (./tlcheck on any capture), or name one by
TLCHECK; rustc builds the peer. If OLDER names an earlier tlcheck, it takes turns too. Everything that it makes goes into a folder
of its own under the system's temporary folder: the largest capture takes some 400 MB there. `run ROUNDS` sets how many rounds
there are.
"""

import os
import subprocess
import sys
import tempfile
import time

from maker import SYSTEM, make
from tlxtools.common import TLCHECK

HERE = os.path.dirname(os.path.realpath(__file__))


def run(program, system, path):
    """The seconds of a run, and what it wrote."""
    began = time.monotonic()
    done = subprocess.run([program, system, path], capture_output=True, text=True, check=True)
    return time.monotonic() - began, done.stdout


def peak(program, system, path):
    """The peak memory of a run in KiB."""
    child = subprocess.Popen([program, system, path], stdout=subprocess.DEVNULL)
    top = 0
    while child.poll() is None:
        # the peak is read while the program runs, since what the system tells of a child that ended begins with our own
        try:
            with open(f"/proc/{child.pid}/status", encoding="ascii") as status:
                top = max([top] + [int(line.split()[1]) for line in status if line.startswith("VmHWM")])
        except (FileNotFoundError, ProcessLookupError):
            pass
        time.sleep(0.0005)
    return top


def main():
    rounds = int(sys.argv[1]) if sys.argv[1:] else 9
    with tempfile.TemporaryDirectory() as folder:
        peer, expert = os.path.join(folder, "peer"), os.path.join(folder, "expert")
        for program, flags in ((peer, []), (expert, ["--cfg", "expert"])):
            subprocess.run(["rustc", "-O", *flags, "-o", program, os.path.join(HERE, "peer.rs")], check=True)
        system = os.path.join(folder, "system.toml")
        with open(system, "w", encoding="ascii") as file:
            file.write(SYSTEM)
        path = make(folder, 1_000_000)
        older = [os.environ["OLDER"]] if "OLDER" in os.environ else []
        pairs = []
        for _ in range(rounds):
            runs = [run(program, system, path) for program in (TLCHECK, peer, expert, *older)]
            said = runs[0][1]
            if any(other != said for _, other in runs):
                sys.exit(f"not all say {said!r}")
            pairs.append([seconds for seconds, _ in runs])
        least = [min(column) for column in zip(*pairs)]
        middle = [sorted(column)[rounds // 2] for column in zip(*pairs)]
        print(f"{said.strip()}; {os.path.getsize(path) / 1e6:.0f} MB, {rounds} rounds by turns")
        for name, (ours, *others) in (("least", least), ("middle", middle)):
            beside = "; ".join(f"{other} {1 / took:.2f}, so {took / ours:.2f} of its rows a second"
                               for other, took in zip(("plain", "expert", "the older tlcheck"), others))
            print(f"{name}: tlcheck {1 / ours:.2f} million rows a second; {beside}")
        for rows in (1_000, 1_000_000, 10_000_000):
            path = make(folder, rows)
            print(f"{rows:,} rows: {peak(TLCHECK, system, path):,} KiB at most, plain {peak(peer, system, path):,}")
    return 0


if __name__ == "__main__":
    sys.exit(main())
